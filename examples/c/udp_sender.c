/* Sends what a made encoder gives over UDP on the loopback, paced, to a receiver in the same program that
 * sends transport-wide feedback; prints the target each second, and ends by itself.
 *
 *     cc -std=c99 -D_POSIX_C_SOURCE=200809L udp_sender.c $(pkg-config --cflags --libs lulqoter) -o udp_sender
 *     ./udp_sender [SECONDS]
 */
#include "lulqoter.h"

#include <arpa/inet.h>
#include <inttypes.h>
#include <stdio.h>
#include <stdlib.h>
#include <string.h>
#include <sys/socket.h>
#include <time.h>
#include <unistd.h>

#define FRAME_US 33333
#define FEEDBACK_US 50000
#define PAYLOAD 1100
#define MOST_TOLD 1000

/* the receiver: which numbers came since its last report, and when */
static struct {
  uint16_t number[MOST_TOLD];
  uint64_t at[MOST_TOLD];
  unsigned count;
  uint8_t reports;
} receiver;

static void stop(const char *what) {
  perror(what);
  exit(1);
}

static uint64_t now_us(void) {
  struct timespec t;
  clock_gettime(CLOCK_MONOTONIC, &t);
  return (uint64_t)t.tv_sec * 1000000 + (uint64_t)t.tv_nsec / 1000;
}

static void put16(uint8_t *p, unsigned v) { p[0] = (uint8_t)(v >> 8), p[1] = (uint8_t)v; }

/* a socket that is bound to a free port of the loopback */
static int bound(struct sockaddr_in *address) {
  socklen_t size = sizeof *address;
  const int fd = socket(AF_INET, SOCK_DGRAM, 0);
  memset(address, 0, sizeof *address);
  address->sin_family = AF_INET;
  address->sin_addr.s_addr = htonl(INADDR_LOOPBACK);
  if (fd < 0 || bind(fd, (struct sockaddr *)address, sizeof *address) || getsockname(fd, (struct sockaddr *)address, &size)) stop("socket");
  return fd;
}

/* a video packet with room for the number under ID 3 */
static size_t make_packet(uint8_t *p, unsigned sequence, uint64_t at, size_t size) {
  memset(p, 0, 20 + size);
  p[0] = 0x90, p[1] = 96;
  put16(p + 2, sequence & 0xffff);
  put16(p + 4, (unsigned)(at * 9 / 100 >> 16 & 0xffff)), put16(p + 6, (unsigned)(at * 9 / 100 & 0xffff));
  p[11] = 0xaa;
  p[12] = 0xbe, p[13] = 0xde, p[15] = 1, p[16] = 0x31;
  return 20 + size;
}

/* one frame of the made encoder: as many bytes as the target gives in its time */
static void encode(lulq_sender *sender, uint64_t at, uint64_t target) {
  static unsigned sequence;
  uint8_t packet[1500];
  uint32_t index;
  size_t left = (size_t)(target / 8 * FRAME_US / 1000000);
  do {
    const size_t size = left < PAYLOAD ? left : PAYLOAD;
    const int32_t c = lulq_sender_enqueue(sender, at, LULQ_VIDEO, packet, make_packet(packet, sequence++, at, size), &index);
    if (c < 0) fprintf(stderr, "enqueue: %s\n", lulq_strerror(c));
    left -= size;
  } while (left > 0);
}

/* what may leave now */
static void send_paced(lulq_sender *sender, int fd, const struct sockaddr_in *to, uint64_t at) {
  uint8_t room[1500];
  size_t size;
  lulq_info info;
  int32_t c;
  while ((c = lulq_sender_pop(sender, at, room, sizeof room, &size, &info)) == LULQ_OK)
    if (sendto(fd, room, size, 0, (const struct sockaddr *)to, sizeof *to) < 0) stop("sendto");
  if (c < 0) fprintf(stderr, "pop: %s\n", lulq_strerror(c));
}

static void receive(int fd) {
  uint8_t p[1500];
  ssize_t n;
  while ((n = recv(fd, p, sizeof p, MSG_DONTWAIT)) >= 20)
    if (receiver.count < MOST_TOLD) {
      receiver.number[receiver.count] = (uint16_t)(p[17] << 8 | p[18]);
      receiver.at[receiver.count++] = now_us();
    }
}

/* a report on what came, in order: all received, with deltas of two bytes */
static size_t make_report(uint8_t *p) {
  const unsigned count = receiver.count, chunks = (count + 6) / 7;
  const uint64_t reference = receiver.at[0] / 64000;
  uint64_t last = reference * 256;
  size_t n = 20;
  memset(p, 0, 20);
  p[0] = 0x8f, p[1] = 205, p[7] = 1, p[11] = 0xaa;
  put16(p + 12, receiver.number[0]);
  put16(p + 14, count);
  p[16] = (uint8_t)(reference >> 16), p[17] = (uint8_t)(reference >> 8), p[18] = (uint8_t)reference, p[19] = receiver.reports++;
  for (unsigned k = 0; k < chunks; k++, n += 2) put16(p + n, 0xeaaa); /* seven of symbol 2 */
  for (unsigned k = 0; k < count; k++, n += 2) {
    put16(p + n, (unsigned)(receiver.at[k] / 250 - last) & 0xffff);
    last = receiver.at[k] / 250;
  }
  while (n % 4) p[n++] = 0;
  put16(p + 2, (unsigned)(n / 4 - 1));
  receiver.count = 0;
  return n;
}

static void feed_back(lulq_sender *sender, uint64_t at) {
  static uint8_t report[3 * MOST_TOLD + 64];
  uint32_t place;
  int32_t c;
  if (receiver.count == 0) return;
  c = lulq_sender_feedback(sender, at, report, make_report(report), &place);
  if (c < 0) fprintf(stderr, "feedback: %s\n", lulq_strerror(c));
}

static uint64_t sooner(uint64_t a, uint64_t b) { return a < b ? a : b; }

/* sleeps until a packet may leave, but no longer than the next frame or report lets it */
static void sleep_until_next(lulq_sender *sender, uint64_t start, uint64_t most) {
  uint64_t next = most;
  if (lulq_sender_next_time(sender, &next) < 0) exit(1);
  const uint64_t wake = sooner(next, most), at = now_us() - start;
  if (wake > at) nanosleep(&(struct timespec){0, (long)(wake - at) * 1000}, NULL);
}

int main(int argc, char **argv) {
  const uint64_t seconds = argc > 1 ? strtoull(argv[1], NULL, 10) : 5;
  lulq_sender sender = LULQ_SENDER_INIT;
  struct sockaddr_in to, from;
  const int in = bound(&to), out = bound(&from);
  const uint64_t start = now_us();
  uint64_t frame = 0, feedback = FEEDBACK_US, second = 1000000, at = 0;
  if (lulq_abi() != LULQ_ABI || lulq_sender_new(&sender, LULQ_CONTROL_LEVEL, 0) != LULQ_OK) return fprintf(stderr, "no sender\n"), 1;
  while ((at = now_us() - start) < seconds * 1000000) {
    lulq_rates rates;
    lulq_stats stats;
    if (lulq_sender_rates(&sender, &rates) < 0 || lulq_sender_stats(&sender, &stats) < 0) return 1;
    for (; frame <= at; frame += FRAME_US) encode(&sender, at, rates.target);
    send_paced(&sender, out, &to, at);
    receive(in);
    for (; feedback <= at; feedback += FEEDBACK_US) feed_back(&sender, at);
    for (; second <= at; second += 1000000)
      printf("%2" PRIu64 " s  target %8" PRIu64 " bit/s  sent %6" PRIu64 "  credited %6" PRIu64 "  missing %3" PRIu64 "  waiting %4" PRIu32 "\n", second / 1000000, rates.target, stats.sent, stats.credited, stats.missing, stats.waiting);
    sleep_until_next(&sender, start, sooner(frame, sooner(feedback, second)));
  }
  lulq_sender_free(&sender);
  close(in);
  close(out);
  return 0;
}
