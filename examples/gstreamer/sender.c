/* Sends what a made encoder gives over UDP, paced, to a receiver elsewhere, hears its transport-wide feedback,
 * prints the target each second, and ends by itself. Both ports are of the loopback.
 *
 *     cc -std=c99 -D_POSIX_C_SOURCE=200809L sender.c $(pkg-config --cflags --libs lulqoter) -o sender
 *     ./sender SECONDS MEDIA_PORT FEEDBACK_PORT
 */
#include "lulqoter.h"

#include <arpa/inet.h>
#include <inttypes.h>
#include <stdio.h>
#include <stdlib.h>
#include <string.h>
#include <sys/select.h>
#include <sys/socket.h>
#include <time.h>
#include <unistd.h>

#define START_RATE 300000
#define FRAME_US 33333
#define SECOND_US 1000000
#define PAYLOAD 1100

static void stop(const char *what) {
  perror(what);
  exit(1);
}

static void want(int32_t result, const char *what) {
  if (result < 0) {
    fprintf(stderr, "%s: %s\n", what, lulq_strerror(result));
    exit(1);
  }
}

static uint64_t now_us(void) {
  struct timespec t;
  clock_gettime(CLOCK_MONOTONIC, &t);
  return (uint64_t)t.tv_sec * SECOND_US + (uint64_t)t.tv_nsec / 1000;
}

static struct sockaddr_in loopback(const char *port) {
  struct sockaddr_in address;
  memset(&address, 0, sizeof address);
  address.sin_family = AF_INET;
  address.sin_addr.s_addr = htonl(INADDR_LOOPBACK);
  address.sin_port = htons((uint16_t)strtoul(port, NULL, 10));
  return address;
}

/* a sender that the level control steers from the start rate on, with two probes of more */
static void begin(lulq_sender *sender) { want(lulq_sender_new(sender, LULQ_CONTROL_LEVEL, START_RATE), "new"); }

static int bound(struct sockaddr_in here) {
  const int fd = socket(AF_INET, SOCK_DGRAM, 0);
  if (fd < 0 || bind(fd, (const struct sockaddr *)&here, sizeof here)) stop("socket");
  return fd;
}

static void put16(uint8_t *p, unsigned v) { p[0] = (uint8_t)(v >> 8), p[1] = (uint8_t)v; }

/* a video packet with room for the number under ID 3; the last one of a frame has the marker */
static size_t make_packet(uint8_t *p, uint64_t at, size_t size, int last) {
  static unsigned sequence;
  const uint32_t media_time = (uint32_t)(at * 9 / 100); /* of a clock of 90 kHz */
  memset(p, 0, 20 + size);
  p[0] = 0x90, p[1] = last ? 0x80 | 96 : 96;
  put16(p + 2, sequence++ & 0xffff);
  put16(p + 4, media_time >> 16), put16(p + 6, media_time & 0xffff);
  p[11] = 0xaa;
  p[12] = 0xbe, p[13] = 0xde, p[15] = 1, p[16] = 0x31;
  return 20 + size;
}

/* one frame of the made encoder: as many bytes as the target gives in its time */
static void encode(lulq_sender *sender, uint64_t at, uint64_t target) {
  uint8_t packet[1500];
  uint32_t index;
  size_t left = (size_t)(target / 8 * FRAME_US / SECOND_US);
  do {
    const size_t size = left < PAYLOAD ? left : PAYLOAD;
    left -= size;
    want(lulq_sender_enqueue(sender, at, LULQ_VIDEO, packet, make_packet(packet, at, size, left == 0), &index), "enqueue");
  } while (left > 0);
}

/* what may leave now; a packet that the system refuses is one that is lost */
static void send_paced(lulq_sender *sender, int fd, const struct sockaddr_in *to, uint64_t at) {
  uint8_t room[1500];
  size_t size;
  lulq_info info;
  int32_t c;
  while ((c = lulq_sender_pop(sender, at, room, sizeof room, &size, &info)) == LULQ_OK)
    if (sendto(fd, room, size, 0, (const struct sockaddr *)to, sizeof *to) < 0) perror("sendto");
  want(c, "pop");
}

/* the feedback that came; a report that is refused is told, and changes nothing */
static void hear(lulq_sender *sender, int fd, uint64_t at) {
  uint8_t rtcp[1500];
  uint32_t place;
  ssize_t n;
  while ((n = recv(fd, rtcp, sizeof rtcp, MSG_DONTWAIT)) >= 0) {
    const int32_t c = lulq_sender_feedback(sender, at, rtcp, (size_t)n, &place);
    if (c < 0) fprintf(stderr, "feedback: %s\n", lulq_strerror(c));
  }
}

static void tell(lulq_sender *sender, uint64_t second) {
  lulq_rates rates;
  lulq_stats stats;
  want(lulq_sender_rates(sender, &rates), "rates");
  want(lulq_sender_stats(sender, &stats), "stats");
  printf("second %" PRIu64 " target %" PRIu64 " sent %" PRIu64 " credited %" PRIu64 " missing %" PRIu64 " reports %" PRIu32 " refused %" PRIu64 "\n",
         second, rates.target, stats.sent, stats.credited, stats.missing, stats.judged, stats.refused);
  fflush(stdout);
}

static uint64_t sooner(uint64_t a, uint64_t b) { return a < b ? a : b; }

/* until a packet may leave or feedback comes, but no longer than to the next frame or second */
static void wait_for_next(lulq_sender *sender, int fd, uint64_t at, uint64_t most) {
  uint64_t next = most;
  fd_set heard;
  want(lulq_sender_next_time(sender, &next), "next_time");
  const uint64_t wake = sooner(next, most), left = wake > at ? wake - at : 0;
  struct timeval time = {(time_t)(left / SECOND_US), (suseconds_t)(left % SECOND_US)};
  FD_ZERO(&heard);
  FD_SET(fd, &heard);
  if (select(fd + 1, &heard, NULL, NULL, &time) < 0) stop("select");
}

int main(int argc, char **argv) {
  lulq_sender sender = LULQ_SENDER_INIT;
  if (argc != 4) return fprintf(stderr, "usage: sender SECONDS MEDIA_PORT FEEDBACK_PORT\n"), 2;
  const uint64_t seconds = strtoull(argv[1], NULL, 10);
  const struct sockaddr_in to = loopback(argv[2]);
  const int fd = bound(loopback(argv[3]));
  const uint64_t start = now_us();
  uint64_t frame = 0, second = 1, at = 0;
  if (lulq_abi() != LULQ_ABI) return fprintf(stderr, "another library\n"), 1;
  begin(&sender);
  while (second <= seconds) {
    lulq_rates rates;
    want(lulq_sender_rates(&sender, &rates), "rates");
    for (; frame <= at; frame += FRAME_US) encode(&sender, at, rates.target);
    send_paced(&sender, fd, &to, at);
    wait_for_next(&sender, fd, at, sooner(frame, second * SECOND_US));
    at = now_us() - start;
    hear(&sender, fd, at);
    for (; second * SECOND_US <= at; second++) tell(&sender, second);
  }
  lulq_sender_free(&sender);
  close(fd);
  return 0;
}
