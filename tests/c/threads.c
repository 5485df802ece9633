/* Four threads with a lock round one handle: every packet is accepted once, and leaves once. */
#include "lulqoter.h"

#include <pthread.h>
#include <stdio.h>
#include <string.h>

#define THREADS 4
#define ROUNDS 3000

static pthread_mutex_t lock = PTHREAD_MUTEX_INITIALIZER;
static lulq_sender sender = LULQ_SENDER_INIT;
static uint64_t moment;
static uint64_t left;
static int failed;

/* hands in a packet, and takes out what may leave */
static void serve(uint32_t packet_class) {
  static const uint8_t packet[20] = {0x90, 0x60, 0, 1, 0, 0, 0, 0, 0, 0, 0, 0xaa, 0xbe, 0xde, 0, 1, 0x31, 0, 0, 0};
  uint8_t room[1500];
  size_t size;
  uint32_t index;
  lulq_info info;
  int32_t c;
  moment += 1000;
  if (lulq_sender_enqueue(&sender, moment, packet_class, packet, sizeof packet, &index) != LULQ_OK) failed = 1;
  while ((c = lulq_sender_pop(&sender, moment, room, sizeof room, &size, &info)) == LULQ_OK)
    if (info.number != left++ || size != sizeof packet) failed = 1;
  if (c != LULQ_NOTHING) failed = 1;
}

static void *work(void *packet_class) {
  for (int k = 0; k < ROUNDS; k++) {
    if (pthread_mutex_lock(&lock)) failed = 1;
    serve(*(const uint32_t *)packet_class);
    if (pthread_mutex_unlock(&lock)) failed = 1;
  }
  return NULL;
}

int main(void) {
  static const uint32_t classes[THREADS] = {LULQ_AUDIO, LULQ_RETRANSMISSION, LULQ_VIDEO, LULQ_FEC};
  pthread_t threads[THREADS];
  lulq_stats stats;
  if (lulq_sender_new(&sender, LULQ_CONTROL_GRADIENT, 0) != LULQ_OK) return 1;
  for (int k = 0; k < THREADS; k++)
    if (pthread_create(&threads[k], NULL, work, (void *)&classes[k])) return 1;
  for (int k = 0; k < THREADS; k++)
    if (pthread_join(threads[k], NULL)) return 1;
  if (lulq_sender_stats(&sender, &stats) != LULQ_OK) return 1;
  lulq_sender_free(&sender);
  if (failed || stats.accepted != THREADS * ROUNDS || stats.sent != left || stats.sent + stats.waiting != stats.accepted) {
    printf("threads: accepted %u waiting %u sent %llu\n", (unsigned)stats.accepted, (unsigned)stats.waiting, (unsigned long long)stats.sent);
    return 1;
  }
  return 0;
}
