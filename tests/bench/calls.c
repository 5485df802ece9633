/* Makes the calls of the C library on made packets, all of which come, and times them by the processor time of
 * this process: what other programs do meanwhile is not counted. Ends with 1 where a bound is not met.
 *
 *     calls one ROUNDS             nanoseconds for an enqueue, a pop and a report, by rounds of 20 packets
 *     calls long CALLS             memory and time of a call behind so many on one sender, by rounds of 50 packets
 *     calls many SENDERS ROUNDS    memory and calls a second of many senders, which make their rounds in turn
 *
 * A call is an enqueue, a pop or a report; a round takes 50 ms of the senders' time.
 */
#include "lulqoter.h"

#include <inttypes.h>
#include <stdio.h>
#include <stdlib.h>
#include <string.h>
#include <time.h>
#include <unistd.h>

#define ROUND_US 50000
#define PACKET_SIZE 1120
#define MOST_PACKETS 50
#define MILLION 1000000

/* the bounds, and how many of them were not met */
#define MOST_GROWTH 1048576.0
#define MOST_TIME_RATIO 1.1
#define MOST_SENDER_BYTES 2000000.0
#define MOST_PACKET_NS 1000.0
static int missed;

typedef struct call {
  lulq_sender sender;
  uint64_t round;  /* how many rounds were made */
  uint64_t last;   /* the number of the packet that was sent last */
  uint8_t reports; /* the count in the next report */
} call;

/* how many calls of each kind, and the time that they took where it is asked for */
static struct {
  uint64_t count, ns;
} enqueues, pops, reports;
static uint64_t clock_cost;

static void want(int well, const char *what) {
  if (!well) fprintf(stderr, "calls: %s\n", what), exit(1);
}

static void tell(const char *what, double value, double bound, const char *unit) {
  missed += value > bound;
  printf("%s: %.2f %s(at most %.2f)%s\n", what, value, unit, bound, value > bound ? "  above" : "");
  fflush(stdout);
}

static uint64_t busy_ns(void) {
  struct timespec t;
  clock_gettime(CLOCK_PROCESS_CPUTIME_ID, &t);
  return (uint64_t)t.tv_sec * 1000000000 + (uint64_t)t.tv_nsec;
}

/* what of a time goes to the clock itself */
static uint64_t cost_of_the_clock(void) {
  const uint64_t start = busy_ns();
  uint64_t last = start;
  for (int k = 0; k < 100000; k++) last = busy_ns();
  return (last - start) / 100000;
}

static uint64_t since(uint64_t start) {
  const uint64_t took = busy_ns() - start;
  return took > clock_cost ? took - clock_cost : 0;
}

/* bytes of this process that stand in memory */
static double resident(void) {
  unsigned long all = 0, here = 0;
  FILE *file = fopen("/proc/self/statm", "r");
  want(file && fscanf(file, "%lu %lu", &all, &here) == 2, "no /proc/self/statm");
  fclose(file);
  return (double)here * (double)sysconf(_SC_PAGESIZE);
}

static void begin(call *made) {
  const lulq_settings settings = {.named = LULQ_SET_START | LULQ_SET_MIN, .start = 10000000, .min = 9000000};
  const lulq_stream stream = {0, 1, 0, 0, 0};
  const uint32_t removed = 0;
  memset(made, 0, sizeof *made);
  want(lulq_sender_new(&made->sender, LULQ_CONTROL_GRADIENT, 0) == LULQ_OK, "no sender");
  want(lulq_sender_configure(&made->sender, 0, &settings, &stream, 0, &removed, 0) == LULQ_OK, "configure");
}

static void enqueue(call *made, uint64_t now, unsigned count) {
  static const uint8_t packet[PACKET_SIZE] = {0x90, 0x60, 0, 1, 0, 0, 0, 0, 0, 0, 0, 0xaa, 0xbe, 0xde, 0, 1, 0x31};
  uint32_t index;
  for (unsigned k = 0; k < count; k++) want(lulq_sender_enqueue(&made->sender, now, LULQ_VIDEO, packet, PACKET_SIZE, &index) == LULQ_OK, "enqueue");
  enqueues.count += count;
}

/* all that may leave now */
static void pop(call *made, uint64_t now) {
  uint8_t room[1500];
  size_t size;
  lulq_info info;
  int32_t c;
  for (pops.count++; (c = lulq_sender_pop(&made->sender, now, room, sizeof room, &size, &info)) == LULQ_OK; pops.count++) made->last = info.number;
  want(c == LULQ_NOTHING, "pop");
}

/* pops until this moment, and tells when the last one was */
static uint64_t pop_until(call *made, uint64_t now, uint64_t end) {
  uint64_t next = now;
  while (lulq_sender_next_time(&made->sender, &next) == LULQ_OK && next < end) pop(made, now = next);
  return now;
}

/* a report that the last packets came, each 1 ms behind the one before: its size */
static size_t make_report(call *made, uint8_t *p, uint64_t now, unsigned count) {
  const uint64_t base = made->last + 1 - count, reference = now / 64000;
  size_t n = 20;
  memset(p, 0, n);
  p[0] = 0x8f, p[1] = 205, p[7] = 1, p[11] = 0xaa;
  p[12] = (uint8_t)(base >> 8), p[13] = (uint8_t)base, p[15] = (uint8_t)count;
  p[16] = (uint8_t)(reference >> 16), p[17] = (uint8_t)(reference >> 8), p[18] = (uint8_t)reference, p[19] = made->reports++;
  for (unsigned k = 0; k < count; k += 7, n += 2) p[n] = 0xd5, p[n + 1] = 0x55; /* seven of symbol 1 */
  memset(p + n, 4, count);
  p[n] = (uint8_t)(now % 64000 / 250);
  for (n += count; n % 4; n++) p[n] = 0;
  p[3] = (uint8_t)(n / 4 - 1);
  return n;
}

static void report(call *made, uint64_t now, const uint8_t *p, size_t size) {
  uint32_t place;
  want(lulq_sender_feedback(&made->sender, now, p, size, &place) == LULQ_OK, "report");
  reports.count++;
}

/* a round without a look at the clock */
static void serve(call *made, unsigned count) {
  uint8_t p[20 + 3 * MOST_PACKETS];
  const uint64_t now = ROUND_US * ++made->round;
  enqueue(made, now, count);
  const uint64_t then = pop_until(made, now, now + ROUND_US);
  report(made, then, p, make_report(made, p, then, count));
}

/* a round whose parts are timed */
static void serve_timed(call *made, unsigned count) {
  uint8_t p[20 + 3 * MOST_PACKETS];
  const uint64_t now = ROUND_US * ++made->round;
  uint64_t start = busy_ns();
  enqueue(made, now, count);
  enqueues.ns += since(start);
  start = busy_ns();
  const uint64_t then = pop_until(made, now, now + ROUND_US);
  pops.ns += since(start);
  const size_t size = make_report(made, p, then, count);
  start = busy_ns();
  report(made, then, p, size);
  reports.ns += since(start);
}

static uint64_t calls_made(void) { return enqueues.count + pops.count + reports.count; }

/* every packet was sent and credited; the first probes sent padding too */
static void end(call *made, unsigned count) {
  lulq_stats stats;
  want(lulq_sender_stats(&made->sender, &stats) == LULQ_OK, "stats");
  want(stats.accepted == count * made->round && stats.judged == made->round, "counts");
  want(stats.sent >= stats.accepted && stats.waiting == 0, "packets that were not sent");
  want(stats.missing == 0 && stats.refused == 0 && stats.credited == stats.accepted, "packets that were not credited");
  lulq_sender_free(&made->sender);
}

static void one(uint64_t rounds) {
  call made;
  begin(&made);
  while (made.round < rounds) serve_timed(&made, 20);
  end(&made, 20);
  printf("%" PRIu64 " packets of %d bytes in reports of 20 statuses\n", enqueues.count, PACKET_SIZE);
  printf("enqueue %" PRIu64 " ns\n", enqueues.ns / enqueues.count);
  printf("pop %" PRIu64 " ns, where it finds none and what tells the next moment among them\n", pops.ns / pops.count);
  printf("report of 20 statuses %" PRIu64 " ns\n", reports.ns / reports.count);
  tell("a packet with its enqueue, its pops and its part of a report", (double)(enqueues.ns + pops.ns + reports.ns) / (double)enqueues.count, MOST_PACKET_NS, "ns ");
}

/* nanoseconds a call, of a million calls on a sender */
static double stretch(call *made) {
  const uint64_t before = calls_made(), start = busy_ns();
  while (calls_made() < before + MILLION) serve(made, MOST_PACKETS);
  return (double)since(start) / (double)(calls_made() - before);
}

static double lesser(double a, double b) { return a < b ? a : b; }

/* The time of a call on an old sender against that on one with a million calls: by ten stretches of each in turn,
 * and of each ten the least, since other programs slow a stretch and none quickens it. */
static void compare(call *old) {
  call young;
  double old_ns = 1e9, young_ns = 1e9;
  begin(&young);
  stretch(&young);
  for (int k = 0; k < 10; k++) {
    old_ns = lesser(old_ns, stretch(old));
    young_ns = lesser(young_ns, stretch(&young));
  }
  end(&young, MOST_PACKETS);
  printf("%.0f ns a call, %.0f ns after 1,000,000 calls\n", old_ns, young_ns);
  tell("time of a call then against after 1,000,000 calls", old_ns / young_ns, MOST_TIME_RATIO, "");
}

static void endless(uint64_t calls) {
  call made;
  begin(&made);
  stretch(&made);
  const double memory = resident();
  while (calls_made() < calls) stretch(&made);
  const double grown = resident() - memory;
  printf("%" PRIu64 " calls on one sender: %" PRIu64 " packets, %" PRIu64 " reports\n", calls_made(), enqueues.count, reports.count);
  tell("bytes then beyond those after 1,000,000 calls", grown, MOST_GROWTH, "");
  compare(&made);
  end(&made, MOST_PACKETS);
}

static void many(uint64_t senders, uint64_t rounds) {
  call *const made = calloc(senders, sizeof *made);
  want(made != NULL && senders > 0, "no memory");
  const double before = resident();
  for (uint64_t k = 0; k < senders; k++) begin(&made[k]);
  const uint64_t start = busy_ns();
  for (uint64_t r = 0; r < rounds; r++)
    for (uint64_t k = 0; k < senders; k++) serve(&made[k], 20);
  const double seconds = (double)since(start) / 1e9, memory = resident() - before;
  for (uint64_t k = 0; k < senders; k++) end(&made[k], 20);
  printf("%" PRIu64 " senders in turn, %" PRIu64 " packets each: %.0f calls a second on one processor, %.0f ns a packet\n", senders, 20 * rounds, (double)calls_made() / seconds, 1e9 * seconds / (double)enqueues.count);
  tell("bytes a sender", memory / (double)senders, MOST_SENDER_BYTES, "");
  free(made);
}

int main(int argc, char **argv) {
  uint64_t numbers[2] = {0, 0};
  for (int k = 2; k < argc && k < 4; k++) numbers[k - 2] = strtoull(argv[k], NULL, 10);
  want(lulq_abi() == LULQ_ABI, "another library");
  clock_cost = cost_of_the_clock();
  if (argc == 3 && !strcmp(argv[1], "one")) one(numbers[0]);
  else if (argc == 3 && !strcmp(argv[1], "long")) endless(numbers[0]);
  else if (argc == 4 && !strcmp(argv[1], "many")) many(numbers[0], numbers[1]);
  else return fprintf(stderr, "usage: calls one ROUNDS | long CALLS | many SENDERS ROUNDS\n"), 2;
  return missed > 0;
}
