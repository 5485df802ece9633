/* Random calls of the C library from a seed: wrong classes, wrong sizes, broken packets, reports and
 * settings among them, on an open handle and on a closed one. It writes the calls that the sender
 * served as a trace, and what it was told as lines that `run` compares with the printed history of that
 * trace.
 *
 *     random_calls SEED CALLS TRACE TOLD
 */
#include "lulqoter.h"

#include <inttypes.h>
#include <stdio.h>
#include <stdlib.h>
#include <string.h>

#define MOST_MOMENT (UINT64_C(1) << 50)
#define MOST_PACE 64
#define MOST_ACCEPTED 1000000
#define WINDOW 32768

static FILE *trace;
static FILE *told;
static lulq_sender sender = LULQ_SENDER_INIT;
static uint64_t state;
static uint64_t moment; /* the sender's */
static uint64_t now;    /* the caller's */
static uint64_t fetched;
static uint32_t id = 3; /* of the extension element */

/* the program's own count: what was accepted and is not fetched yet, and what was fetched */
static struct {
  uint64_t at[MOST_ACCEPTED];
  size_t size[MOST_ACCEPTED];
  uint8_t left[MOST_ACCEPTED];
  uint32_t accepted, oldest;
  uint64_t waiting, bytes;
  lulq_total kind[4];
} own;

/* what a pace told, written once all of its packets were fetched */
static struct {
  uint64_t at;
  lulq_info info[MOST_PACE];
  size_t size[MOST_PACE];
  unsigned count;
} pace;

static void fail(const char *what) {
  fprintf(stderr, "random_calls: %s\n", what);
  exit(1);
}

static uint64_t word(void) { /* splitmix64 */
  uint64_t z = state += UINT64_C(0x9e3779b97f4a7c15);
  z = (z ^ (z >> 30)) * UINT64_C(0xbf58476d1ce4e5b9);
  z = (z ^ (z >> 27)) * UINT64_C(0x94d049bb133111eb);
  return z ^ (z >> 31);
}

static uint64_t below(uint64_t n) { return word() % n; }

static void write_hex(const uint8_t *bytes, size_t n) {
  for (size_t k = 0; k < n; k++) fprintf(trace, "%02x", bytes[k]);
  fputc('\n', trace);
}

/* the moment of the next call: mostly a little later, now and then earlier or too large */
static uint64_t next_moment(void) {
  if (below(300) == 0) return MOST_MOMENT + 1 + below(9);
  if (below(20) == 0) return now - below(now < 5000 ? now + 1 : 5000);
  return now += below(3000);
}

static void pass(uint64_t at) {
  if (at <= MOST_MOMENT && at > moment) moment = at;
}

static void tell_rates(void) {
  lulq_rates r;
  lulq_share s;
  uint32_t k = 0;
  int32_t c;
  if (lulq_sender_rates(&sender, &r) != LULQ_OK) fail("rates");
  fprintf(told, " rates %" PRIu64 " %" PRIu64 " %" PRIu64 " %" PRIu64 " shares ", r.delay, r.loss, r.target, r.pacing);
  while ((c = lulq_sender_share(&sender, k, &s)) == LULQ_OK)
    fprintf(told, "%s%" PRIu32 ":%" PRIu64, k++ ? "," : "", s.id, s.rate);
  if (c != LULQ_NOTHING) fail("share");
  fprintf(told, "%s\n", k ? "" : "-");
}

static void tell_refused(int32_t c) {
  fprintf(told, "0 refused %" PRIu64, moment);
  if (c == LULQ_E_MOMENT) fprintf(told, " moment\n");
  else if (c == LULQ_E_QUEUE_FULL) fprintf(told, " full 8192\n");
  else if (c <= -101 && c >= -105) fprintf(told, " wire %d\n", -c - 100);
  else if (c <= -301 && c >= -308) fprintf(told, " config %d\n", -c - 300);
  else fail("a cause that this call hasn't");
}

static void put16(uint8_t *p, unsigned v) { p[0] = (uint8_t)(v >> 8), p[1] = (uint8_t)v; }

/* the place of the number in a packet, told without a sender as the sender judged it */
static void place_alone(uint8_t *packet, size_t size, int32_t judged) {
  static uint8_t copy[1600];
  uint32_t place = 4242;
  const uint32_t wrong = below(2) ? 0 : 15 + (uint32_t)below(500);
  const int32_t c = lulq_rtp_place(packet, size, id, &place);
  const uint64_t number = word();
  if (judged == LULQ_OK ? c != LULQ_OK : judged <= -101 && judged >= -105 && c != judged) fail("a place that the sender judges otherwise");
  if (c == LULQ_OK ? place + 2 > size : place != 4242) fail("a place");
  memcpy(copy, packet, size);
  if (lulq_rtp_stamp(copy, size, wrong, number) != LULQ_E_SETTINGS - 4 || memcmp(copy, packet, size)) fail("a wrong id");
  if (lulq_rtp_stamp(copy, size, id, number) != c) fail("a stamp");
  if (c == LULQ_OK) {
    if (copy[place] != (uint8_t)(number >> 8) || copy[place + 1] != (uint8_t)number) fail("the number of a stamp");
    copy[place] = packet[place];
    copy[place + 1] = packet[place + 1];
  }
  if (memcmp(copy, packet, size)) fail("a stamp wrote elsewhere");
}

static void enqueue(void) {
  static const char letters[] = "arvf";
  uint8_t packet[1600] = {0x90, 0x60, 0, 1, 0, 0, 0, 0, 0, 0, 0, 0xaa, 0xbe, 0xde, 0, 1, 0x31, 0, 0, 0};
  size_t size = 20 + below(below(10) ? 300 : 1500);
  uint32_t class = (uint32_t)below(4), index = 77;
  uint64_t at = next_moment();
  int32_t c;
  for (size_t k = 20; k < size; k++) packet[k] = (uint8_t)word();
  if (below(10) == 0) packet[below(20)] = (uint8_t)word();
  if (below(40) == 0) size = 1 + below(20);
  if (below(100) == 0) {
    static uint8_t huge[70000];
    if (lulq_sender_enqueue(&sender, at, class, huge, 65536 + below(4000), &index) != LULQ_E_BAD_SIZE || index != 77) fail("huge");
  }
  if (below(50) == 0 && (lulq_sender_enqueue(&sender, at, 4 + (uint32_t)below(99), packet, size, &index) != LULQ_E_BAD_CLASS || index != 77)) fail("class");
  fprintf(trace, "E 0 %" PRIu64 " %c ", at, letters[class]);
  write_hex(packet, size);
  c = lulq_sender_enqueue(&sender, at, class, packet, size, &index);
  pass(at);
  place_alone(packet, size, c);
  if (c == LULQ_OK) {
    if (index != own.accepted) fail("index");
    if (index == MOST_ACCEPTED) fail("too many calls");
    own.at[index] = moment;
    own.size[index] = size;
    own.accepted++;
    own.waiting++;
    own.bytes += size;
    fprintf(told, "0 accepted %" PRIu64 " %" PRIu32 "\n", moment, index);
  } else {
    if (index != 77) fail("an index was written");
    tell_refused(c);
  }
}

static lulq_stats stats_now(void) {
  lulq_stats s;
  if (lulq_sender_stats(&sender, &s) != LULQ_OK) fail("stats");
  return s;
}

static uint64_t sent(void) { return stats_now().sent; }

/* a packet was fetched: it waits no longer */
static void count(const lulq_info *info, size_t size) {
  own.kind[info->kind].packets++;
  own.kind[info->kind].bytes += size;
  if (info->index == LULQ_NONE) return;
  if (info->index >= own.accepted || own.left[info->index] || own.size[info->index] != size) fail("an index that left");
  own.left[info->index] = 1;
  own.waiting--;
  own.bytes -= size;
}

/* each packet that the last feedback told of, once: those received with their arrivals, and how many are missing */
static void tell_results(int any) {
  lulq_result r = {0};
  uint64_t missing = 0, count = 0;
  int32_t c;
  if (any) fputc('R', told);
  for (; (c = lulq_sender_next_result(&sender, &r)) == LULQ_OK; count++) {
    if (r.number >= sent()) fail("a result of a packet that was not sent");
    if (r.received && any) fprintf(told, " %" PRIu64 "@%" PRId64, r.number, r.arrival);
    if (r.received ? r.sent_at > moment || r.size == 0 : r.sent_at != LULQ_NO_TIME || r.size || r.cluster != LULQ_NONE) fail("a result");
    missing += !r.received;
  }
  if (c != LULQ_NOTHING || (!any && count)) fail("the results");
  if (any) fprintf(told, " lost %" PRIu64 "\n", missing);
}

static int differ(lulq_total a, lulq_total b) { return a.packets != b.packets || a.bytes != b.bytes; }

/* what the looks tell, against the program's own count; the kinds and the queue once all is fetched */
static void looks(void) {
  const lulq_stats s = stats_now();
  lulq_queue q;
  if (lulq_sender_queue(&sender, &q) != LULQ_OK) fail("queue");
  if (s.accepted != own.accepted || s.waiting != q.packets) fail("counts of packets");
  if (s.sent != s.audio.packets + s.media.packets + s.probes.packets + s.padding.packets) fail("counts by kind");
  if (s.sent != s.credited + s.outstanding + s.expired || s.outstanding > WINDOW) fail("the balance");
  if ((q.oldest == LULQ_NO_TIME) != (q.packets == 0)) fail("no oldest packet");
  if (s.sent != fetched) return;
  if (differ(s.audio, own.kind[0]) || differ(s.media, own.kind[1]) || differ(s.probes, own.kind[2]) || differ(s.padding, own.kind[3])) fail("sums by kind");
  while (own.oldest < own.accepted && own.left[own.oldest]) own.oldest++;
  if (q.packets != own.waiting || q.bytes != own.bytes) fail("what waits");
  if (q.packets && q.oldest != own.at[own.oldest]) fail("the oldest packet");
}

/* the sums of the whole, which `run` compares with those of the history */
static void tell_sums(void) {
  const lulq_stats s = stats_now();
  const lulq_total kinds[] = {s.audio, s.media, s.probes, s.padding};
  fprintf(told, "S %" PRIu64, s.sent);
  for (unsigned k = 0; k < 4; k++) fprintf(told, " %" PRIu64 " %" PRIu64, kinds[k].packets, kinds[k].bytes);
  fprintf(told, " %" PRIu64 " %" PRIu64 " %" PRIu64 " %" PRIu64 " %" PRIu32 " %" PRIu32 " %" PRIu32 " %" PRIu32 "\n", s.credited, s.missing, s.expired, s.refused, s.accepted, s.waiting, s.outstanding, s.judged);
}

/* a pace is told once all its packets were fetched */
static void tell_pace(void) {
  fprintf(told, "0 paced %" PRIu64 " %u", pace.at, pace.count);
  for (unsigned k = 0; k < pace.count; k++) {
    const lulq_info *i = &pace.info[k];
    fprintf(told, " %" PRIu64 ":", i->number);
    if (i->kind == LULQ_KIND_PROBE) fprintf(told, "x%" PRIu32 ":", i->cluster);
    else fprintf(told, "%c:", i->kind == LULQ_KIND_AUDIO ? 'a' : i->kind == LULQ_KIND_MEDIA ? 'm' : 'p');
    if (i->index == LULQ_NONE) fprintf(told, "-:");
    else fprintf(told, "%" PRIu32 ":", i->index);
    fprintf(told, "%zu", pace.size[k]);
  }
  fputc('\n', told);
}

/* One pop. Where all were fetched before, it served a pace. It is told apart from other calls by not
 * letting them come in between: a pace is fetched whole, in rooms of any size. */
static int32_t pop(uint64_t at) {
  static uint8_t room[1600];
  size_t size = 99, room_size = below(8) ? sizeof room : below(60);
  lulq_info info = {1, 2, 3, 4};
  const int serves = sent() == fetched;
  uint64_t next = 4242;
  const int32_t tells = lulq_sender_next_time(&sender, &next);
  if (tells == LULQ_OK ? next < moment || next > MOST_MOMENT : tells != LULQ_NOTHING || next != 4242) fail("a next moment");
  if (!serves && (tells != LULQ_OK || next != moment)) fail("kept packets are for now");
  lulq_probe probe = {7, 7};
  const int32_t waits = lulq_sender_next_probe(&sender, &probe);
  if (waits == LULQ_OK ? probe.rate < 1000 : waits != LULQ_NOTHING || probe.rate != 7) fail("a next probe");
  memset(room, 0xa5, sizeof room);
  const int32_t c = lulq_sender_pop(&sender, at, room, room_size, &size, &info);
  if (serves && at > MOST_MOMENT) {
    if (c != LULQ_E_MOMENT || size != 99) fail("a pop at a moment that is too large");
    return c;
  }
  if (serves) {
    fprintf(trace, "P 0 %" PRIu64 "\n", at);
    pass(at);
    pace.at = moment;
    pace.count = 0;
    if ((c == LULQ_NOTHING) != (tells == LULQ_NOTHING || moment < next)) fail("the next moment is another one");
  }
  if (c == LULQ_OK) {
    uint32_t place;
    if (size > room_size || info.number != fetched++) fail("a packet");
    if (lulq_rtp_place(room, size, id, &place) != LULQ_OK || (room[place] << 8 | room[place + 1]) != (int)(info.number & 0xffff)) fail("the number in a packet");
    if (serves && waits == LULQ_OK && info.kind == LULQ_KIND_PROBE && info.cluster != probe.cluster) fail("the next probe is of another cluster");
    count(&info, size);
    for (size_t k = size; k < sizeof room; k++) if (room[k] != 0xa5) fail("bytes behind the packet were written");
    if (pace.count == MOST_PACE) fail("a pace of too many");
    pace.info[pace.count] = info;
    pace.size[pace.count++] = size;
    if (sent() == fetched) tell_pace();
  } else {
    for (size_t k = 0; k < sizeof room; k++) if (room[k] != 0xa5) fail("the room was written");
    if (info.number != 1 || info.index != 2 || info.kind != 3 || info.cluster != 4) fail("what a packet is was written");
    if (c == LULQ_TOO_SMALL ? size <= room_size : c != LULQ_NOTHING || size != 99) fail("a pop");
    if (c == LULQ_NOTHING) {
      if (!serves || sent() != fetched) fail("nothing, though something was kept");
      tell_pace();
    }
  }
  return c;
}

/* the moment of a pop: now and then the next one at which a packet may leave, or the one before */
static uint64_t pop_moment(void) {
  uint64_t next;
  if (below(3) || lulq_sender_next_time(&sender, &next) != LULQ_OK || next < now || next > now + 1000000) return next_moment();
  return now = next - (next > now && below(2));
}

static void pops(void) {
  uint64_t at = pop_moment();
  do {
    if (pop(at) < 0) return;
  } while (sent() != fetched || below(3));
}

/* a report on numbers from `base` on; now and then a byte of it is broken */
static size_t make_report(uint8_t *p) {
  static uint8_t counter;
  static int32_t reference;
  const unsigned count = 1 + (unsigned)below(30);
  const uint64_t base = fetched > 40 && below(20) ? fetched - 1 - below(40) : word();
  const unsigned chunks = (count + 6) / 7;
  uint8_t symbols[42] = {0};
  size_t n = 20;
  memset(p, 0, 20);
  p[0] = 0x8f, p[1] = 205, p[7] = 1, p[11] = 2;
  put16(p + 12, (unsigned)(base & 0xffff));
  put16(p + 14, count);
  reference += (int32_t)below(3);
  p[16] = (uint8_t)(reference >> 16), p[17] = (uint8_t)(reference >> 8), p[18] = (uint8_t)reference, p[19] = counter++;
  for (unsigned k = 0; k < count; k++) symbols[k] = (uint8_t)(below(20) ? 1 : below(3));
  for (unsigned k = 0; k < chunks; k++, n += 2) {
    unsigned chunk = 0xc000;
    for (unsigned j = 0; j < 7; j++) chunk |= (unsigned)symbols[7 * k + j] << (12 - 2 * j);
    put16(p + n, chunk);
  }
  for (unsigned k = 0; k < count; k++) {
    if (symbols[k] == 1) p[n++] = (uint8_t)below(40);
    if (symbols[k] == 2) put16(p + n, (unsigned)word() & 0xffff), n += 2;
  }
  while (n % 4) p[n++] = 0;
  put16(p + 2, (unsigned)(n / 4 - 1));
  if (below(8) == 0) p[below(n)] = (uint8_t)word();
  return n;
}

/* where the first packet that is none stands, or the size; the reports are counted, and written to the trace */
static size_t cut(const uint8_t *p, size_t n, uint64_t at, unsigned *reports, int writes) {
  size_t k = 0;
  *reports = 0;
  while (k < n) {
    size_t len;
    if (n - k < 4 || p[k] >> 6 != 2) return k;
    len = 4u * (unsigned)(p[k + 2] << 8 | p[k + 3]) + 4u;
    if (len > n - k) return k;
    if ((p[k] & 31) == 15 && p[k + 1] == 205) {
      ++*reports;
      if (writes) {
        fprintf(trace, "R 0 %" PRIu64 " ", at);
        write_hex(p + k, len);
      }
    }
    k += len;
  }
  return k;
}

static void feedback(void) {
  uint8_t rtcp[2000];
  size_t n = 0;
  unsigned reports;
  uint32_t place = 4242;
  const uint64_t at = next_moment();
  const unsigned parts = (unsigned)below(4);
  for (unsigned k = 0; k < parts; k++) {
    if (below(3) == 0) { /* a receiver report of no blocks */
      static const uint8_t rr[8] = {0x80, 201, 0, 1, 0, 0, 0, 1};
      memcpy(rtcp + n, rr, 8);
      n += 8;
    } else {
      n += make_report(rtcp + n);
    }
  }
  if (n && below(15) == 0) n -= 1 + below(n < 9 ? n : 9);
  const size_t end = cut(rtcp, n, at, &reports, 0);
  const int32_t c = lulq_sender_feedback(&sender, at, rtcp, n, &place);
  if (end < n) {
    if (c != LULQ_E_COMPOUND || place != end) fail("a compound packet that is none");
    tell_results(0);
    return;
  }
  if (place != 4242) fail("a place was written");
  cut(rtcp, n, at, &reports, 1);
  if (reports) pass(at);
  if (reports == 0) {
    if (c != LULQ_OK) fail("no reports");
    tell_results(0);
    return;
  }
  tell_results(1);
  fprintf(told, "F %u %d %" PRIu64, reports, (int)c, moment);
  tell_rates();
}

static void configure(void) {
  static const char *const names[] = {"start", "min", "max", "pacing_percent", "window", "padding_rate", "", "extension_id", "probe"};
  lulq_settings s;
  lulq_stream streams[6];
  uint32_t removed[4];
  uint64_t *const values[] = {&s.start, &s.min, &s.max, &s.pacing_percent, &s.window, &s.padding_rate, NULL, &s.extension_id, &s.probe};
  const unsigned stream_count = below(3) ? 0 : (unsigned)below(6), removed_count = below(4) ? 0 : (unsigned)below(4);
  const uint64_t at = next_moment();
  const char *comma = "";
  int32_t c;
  memset(&s, 0, sizeof s);
  s.named = (uint32_t)(below(4) ? 1u << below(9) : below(512));
  if (below(3)) s.named &= ~(LULQ_SET_EXTENSION_ID | LULQ_SET_PROBE);
  s.start = 100000 + below(3000000);
  s.min = 1000 + below(200000);
  s.max = 150000 + below(9000000);
  s.pacing_percent = 100 + below(950);
  s.window = 1000 + below(60000);
  s.padding_rate = below(3) ? 0 : below(900000);
  s.extension_id = below(10) ? 3 : below(17);
  s.probe = 500 + below(4000000);
  s.paced_audio = (uint32_t)below(3);
  if (below(30) == 0) s.start = word();
  for (unsigned k = 0; k < stream_count; k++) {
    streams[k].id = (uint32_t)below(9);
    streams[k].weight = (uint32_t)(below(20) ? 1 + below(1000) : below(1100));
    streams[k].min = below(400000);
    streams[k].max = below(20) ? 400000 + below(4000000) : below(400000);
    streams[k].enforced = (uint32_t)below(3);
  }
  for (unsigned k = 0; k < removed_count; k++) removed[k] = (uint32_t)below(12);
  if (below(20) == 0) {
    lulq_settings wrong = s;
    wrong.named |= 512u << below(20);
    if (lulq_sender_configure(&sender, at, &wrong, streams, stream_count, removed, removed_count) != LULQ_E_BAD_MASK) fail("mask");
  }
  fprintf(trace, "C 0 %" PRIu64 " {", at);
  for (unsigned k = 0; k < 9; k++)
    if (s.named >> k & 1) {
      if (k == 6) fprintf(trace, "%s\"paced_audio\":%s", comma, s.paced_audio ? "true" : "false");
      else fprintf(trace, "%s\"%s\":%" PRIu64, comma, names[k], *values[k]);
      comma = ",";
    }
  fprintf(trace, "%s\"streams\":[", comma);
  for (unsigned k = 0; k < stream_count; k++)
    fprintf(trace, "%s{\"id\":%" PRIu32 ",\"min\":%" PRIu64 ",\"max\":%" PRIu64 ",\"weight\":%" PRIu32 ",\"enforced\":%s}", k ? "," : "", streams[k].id, streams[k].min, streams[k].max, streams[k].weight, streams[k].enforced ? "true" : "false");
  fprintf(trace, "],\"removed\":[");
  for (unsigned k = 0; k < removed_count; k++) fprintf(trace, "%s%" PRIu32, k ? "," : "", removed[k]);
  fprintf(trace, "]}\n");
  c = lulq_sender_configure(&sender, at, &s, streams, stream_count, removed, removed_count);
  pass(at);
  if (c == LULQ_OK && s.named & LULQ_SET_EXTENSION_ID) id = (uint32_t)s.extension_id;
  if (c == LULQ_OK) {
    fprintf(told, "0 configured %" PRIu64, moment);
    tell_rates();
  } else {
    tell_refused(c);
  }
}

/* calls on a handle without a sender, which write nothing */
static void closed(void) {
  static lulq_sender other = LULQ_SENDER_INIT;
  uint8_t bytes[64] = {0};
  uint32_t a = 5;
  size_t b = 6;
  lulq_info info = {1, 2, 3, 4};
  lulq_rates rates = {1, 2, 3, 4};
  lulq_stats stats;
  lulq_queue queue = {1, 2, 3, 4};
  uint64_t next = 7;
  lulq_share share = {1, 2};
  lulq_probe probe = {1, 2};
  lulq_result result = {1, 2, 3, 4, 5, 6};
  lulq_settings settings;
  lulq_stream stream;
  memset(&settings, 0, sizeof settings);
  memset(&stream, 0, sizeof stream);
  memset(&stats, 1, sizeof stats);
  const lulq_stats before = stats;
  if (below(4) == 0) {
    if (lulq_sender_new(&other, LULQ_CONTROL_GRADIENT + 1, 0) != LULQ_E_BAD_CONTROL || lulq_sender_new(&other, LULQ_CONTROL_LEVEL, 999) != LULQ_E_BAD_CONTROL ||
        lulq_sender_new(&other, LULQ_CONTROL_LEVEL, 10000000001) != LULQ_E_BAD_CONTROL)
      fail("no such control");
    const uint32_t control = (uint32_t)below(2);
    if (lulq_sender_new(&other, control, 0) != LULQ_OK || lulq_sender_new(&other, control, 0) != LULQ_E_ALREADY_OPEN) fail("new");
    if (below(2) && lulq_sender_enqueue(&other, 1, LULQ_VIDEO, bytes, 0, &a) != LULQ_E_PACKET - 1) fail("an empty packet");
  }
  lulq_sender_free(&other);
  if (lulq_sender_enqueue(&other, now, 0, bytes, sizeof bytes, &a) != LULQ_E_NOT_OPEN || lulq_sender_pop(&other, now, bytes, sizeof bytes, &b, &info) != LULQ_E_NOT_OPEN ||
      lulq_sender_feedback(&other, now, bytes, sizeof bytes, &a) != LULQ_E_NOT_OPEN || lulq_sender_rates(&other, &rates) != LULQ_E_NOT_OPEN ||
      lulq_sender_stats(&other, &stats) != LULQ_E_NOT_OPEN || lulq_sender_share(&other, 0, &share) != LULQ_E_NOT_OPEN ||
      lulq_sender_configure(&other, now, &settings, &stream, 0, &a, 0) != LULQ_E_NOT_OPEN ||
      lulq_sender_next_time(&other, &next) != LULQ_E_NOT_OPEN || lulq_sender_queue(&other, &queue) != LULQ_E_NOT_OPEN ||
      lulq_sender_next_probe(&other, &probe) != LULQ_E_NOT_OPEN || lulq_sender_next_result(&other, &result) != LULQ_E_NOT_OPEN)
    fail("a closed handle was followed");
  if (a != 5 || b != 6 || info.number != 1 || rates.delay != 1 || memcmp(&stats, &before, sizeof stats) || share.rate != 1 || next != 7 || queue.bytes != 1 || probe.rate != 1 || result.number != 1) fail("a closed handle wrote");
}

int main(int argc, char **argv) {
  if (argc != 5 && argc != 6) fail("usage: random_calls SEED CALLS TRACE TOLD [level]");
  state = strtoull(argv[1], NULL, 10);
  const uint64_t calls = strtoull(argv[2], NULL, 10);
  trace = fopen(argv[3], "w");
  told = fopen(argv[4], "w");
  if (!trace || !told) fail("a file can't be written");
  if (lulq_abi() != LULQ_ABI) fail("abi");
  /* what a replay of the trace tells is what the two estimates lead to */
  const uint32_t control = argc == 6 ? LULQ_CONTROL_LEVEL : LULQ_CONTROL_GRADIENT;
  if (lulq_sender_new(&sender, control, 0) != LULQ_OK) fail("new");
  fprintf(trace, "gcc-trace 1 1\n");
  for (uint64_t k = 0; k < calls; k++) {
    switch (below(20)) {
    case 0: configure(); break;
    case 1: closed(); break;
    case 2: case 3: case 4: feedback(); break;
    case 5: case 6: case 7: case 8: case 9: pops(); break;
    default: enqueue(); break;
    }
    looks();
  }
  tell_sums();
  fprintf(trace, "end\n");
  lulq_sender_free(&sender);
  lulq_sender_free(&sender);
  if (fclose(trace) || fclose(told)) fail("a file can't be written");
  return 0;
}
