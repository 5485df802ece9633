/* One packet of video and one of audio are sent, and a report credits both; then a sender that the level control steers. */
#include "lulqoter.h"

#include <stdio.h>
#include <string.h>

#define WANT(what) \
  if (!(what)) return printf("line %d: %s\n", __LINE__, #what), 1

/* The level control sets its rate at once, as a start, whose probes leave behind the first packet; a first report, whose
 * delay is its base, leaves the rate; a second one, 78 ms above that base, cuts it to at most 85 percent. */
static int level(const uint8_t *packet, size_t packet_size) {
  static const uint8_t times[2] = {1, 3}; /* of 64 ms */
  uint8_t report[24] = {0x8f, 0xcd, 0, 5, 0, 0, 0, 1, 0, 0, 0, 2, 0, 0, 0, 1, 0, 0, 0, 0, 0x20, 1, 4, 0};
  lulq_sender sender = LULQ_SENDER_INIT;
  uint8_t room[1500];
  size_t size = 0;
  uint32_t index = 9, place = 0;
  uint64_t now = 1000;
  lulq_info info;
  lulq_rates rates;
  lulq_stats stats;
  WANT(lulq_sender_new(&sender, LULQ_CONTROL_LEVEL, 1000000) == LULQ_OK);
  WANT(lulq_sender_rates(&sender, &rates) == LULQ_OK && rates.delay == 1000000 && rates.loss == 1000000 && rates.target == 1000000);
  for (int k = 0; k < 2; k++, now += 50000) {
    WANT(lulq_sender_enqueue(&sender, now, LULQ_AUDIO, packet, packet_size, &index) == LULQ_OK && index == (uint32_t)k);
    WANT(lulq_sender_pop(&sender, now, room, sizeof room, &size, &info) == LULQ_OK && info.kind == LULQ_KIND_AUDIO && info.number < 256);
    report[13] = (uint8_t)info.number, report[18] = times[k], report[19] = (uint8_t)k;
    for (int32_t told = LULQ_OK; told != LULQ_NOTHING;) {
      told = lulq_sender_pop(&sender, now, room, sizeof room, &size, &info);
      WANT(told == LULQ_NOTHING || (told == LULQ_OK && info.kind == LULQ_KIND_PROBE));
    }
    WANT(lulq_sender_feedback(&sender, now + 20000, report, sizeof report, &place) == LULQ_OK);
    WANT(lulq_sender_rates(&sender, &rates) == LULQ_OK && rates.target == rates.delay && rates.target == rates.loss);
    WANT(k == 0 ? rates.target == 1000000 : rates.target <= 850000);
  }
  WANT(lulq_sender_stats(&sender, &stats) == LULQ_OK && stats.credited == 2 && stats.judged == 2);
  lulq_sender_free(&sender);
  return 0;
}

int main(void) {
  static const uint8_t video[20] = {0x90, 0x60, 0, 1, 0, 0, 0, 0, 0, 0, 0, 0xaa, 0xbe, 0xde, 0, 1, 0x31, 0, 0, 0};
  static const uint8_t report[24] = {0x8f, 0xcd, 0, 5, 0, 0, 0, 1, 0, 0, 0, 2, 0, 0, 0, 2, 0, 0, 1, 0, 0x20, 2, 4, 4};
  lulq_sender sender = LULQ_SENDER_INIT;
  uint8_t room[1500];
  size_t size = 0;
  uint32_t index = 9, place = 0;
  lulq_info info;
  lulq_rates rates;
  lulq_stats stats;
  lulq_queue queue;
  lulq_probe probe;
  lulq_result result;
  lulq_settings settings = {0};
  lulq_stream none = {0};
  uint64_t next = 0;
  WANT(lulq_abi() == LULQ_ABI);
  WANT(lulq_sender_new(&sender, LULQ_CONTROL_GRADIENT, 0) == LULQ_OK);
  WANT(lulq_sender_enqueue(&sender, 1000, LULQ_VIDEO, video, sizeof video, &index) == LULQ_OK && index == 0);
  WANT(lulq_sender_enqueue(&sender, 1000, LULQ_AUDIO, video, sizeof video, &index) == LULQ_OK && index == 1);
  WANT(lulq_sender_queue(&sender, &queue) == LULQ_OK && queue.packets == 2 && queue.bytes == 40 && queue.oldest == 1000);
  WANT(lulq_sender_next_time(&sender, &next) == LULQ_OK && next == 1000);
  WANT(lulq_sender_pop(&sender, 2000, room, 10, &size, &info) == LULQ_TOO_SMALL && size == 20);
  WANT(lulq_sender_pop(&sender, 2000, room, sizeof room, &size, &info) == LULQ_OK);
  WANT(size == 20 && info.number == 0 && info.index == 1 && info.kind == LULQ_KIND_AUDIO && room[18] == 0);
  WANT(lulq_sender_pop(&sender, 2000, room, sizeof room, &size, &info) == LULQ_OK);
  WANT(size == 20 && info.number == 1 && info.index == 0 && info.kind == LULQ_KIND_MEDIA && room[18] == 1);
  WANT(lulq_sender_pop(&sender, 2000, room, sizeof room, &size, &info) == LULQ_NOTHING);
  WANT(lulq_sender_next_time(&sender, &next) == LULQ_NOTHING);
  WANT(lulq_sender_queue(&sender, &queue) == LULQ_OK && queue.packets == 0 && queue.oldest == LULQ_NO_TIME && queue.drain_time == 0);
  WANT(lulq_sender_feedback(&sender, 3000, report, sizeof report, &place) == LULQ_OK);
  /* the reference is 1 of 64 ms, and each delta 1 ms */
  WANT(lulq_sender_next_result(&sender, &result) == LULQ_OK && result.number == 0 && result.received == 1 && result.arrival == 260);
  WANT(result.sent_at == 2000 && result.size == 20 && result.cluster == LULQ_NONE);
  WANT(lulq_sender_next_result(&sender, &result) == LULQ_OK && result.number == 1 && result.received == 1 && result.arrival == 264);
  WANT(lulq_sender_next_result(&sender, &result) == LULQ_NOTHING);
  WANT(lulq_sender_stats(&sender, &stats) == LULQ_OK);
  WANT(stats.sent == 2 && stats.accepted == 2 && stats.waiting == 0 && stats.outstanding == 0 && stats.judged == 1);
  WANT(stats.audio.packets == 1 && stats.audio.bytes == 20 && stats.media.packets == 1 && stats.media.bytes == 20 && stats.probes.packets == 0 && stats.padding.packets == 0);
  WANT(stats.credited == 2 && stats.missing == 0 && stats.expired == 0 && stats.refused == 0);
  WANT(lulq_sender_rates(&sender, &rates) == LULQ_OK && rates.target == 300000 && rates.pacing == 750000);
  WANT(strcmp(lulq_strerror(LULQ_E_NOT_OPEN), "the handle has no sender") == 0);
  WANT(lulq_rtp_place(video, sizeof video, 3, &place) == LULQ_OK && place == 17);
  WANT(lulq_rtp_stamp(room, 20, 3, 0x10203) == LULQ_OK && room[17] == 2 && room[18] == 3);
  WANT(lulq_rtp_place(video, sizeof video, 15, &place) == LULQ_E_SETTINGS - 4);
  WANT(lulq_sender_next_probe(&sender, &probe) == LULQ_NOTHING);
  settings.named = LULQ_SET_PROBE;
  settings.probe = 2000000;
  WANT(lulq_sender_configure(&sender, 4000, &settings, &none, 0, &index, 0) == LULQ_OK);
  WANT(lulq_sender_next_probe(&sender, &probe) == LULQ_OK && probe.rate == 2000000 && probe.cluster == 0);
  lulq_sender_free(&sender);
  WANT(lulq_sender_next_probe(&sender, &probe) == LULQ_E_NOT_OPEN);
  WANT(lulq_sender_rates(&sender, &rates) == LULQ_E_NOT_OPEN);
  return level(video, sizeof video);
}
