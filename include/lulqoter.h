/* Lulqoter: the sending half of WebRTC media transport, for C and C++.
 *
 * A sender takes plain RTP packets, paces them, numbers them (transport-wide), and adapts to the
 * transport-wide feedback that comes back. It opens no socket, starts no thread, has no clock and no
 * global state: each call is handed its moment, in microseconds.
 *
 * Results: 0, a positive one that is no error, or a negative cause (LULQ_E_..). A packet that fails a
 * check is -100 less its number (docs/FORMATS.md), a report -200 less it, settings -300 less it.
 *
 * Duties of the caller, which nothing checks:
 *  - no pointer is null, each points to as many bytes as its size says, and no two of a call overlap;
 *  - a handle begins as LULQ_SENDER_INIT, is copied nowhere while it is in use, and only these calls
 *    write to it;
 *  - one call at a time for a handle, looks (rates, queue, next_probe, stats, next_time, share) among them: a program
 *    with several threads has its own lock round it. Calls on different handles need none. No call is made from a signal handler;
 *  - malloc, realloc and free are those of one allocator.
 */
#ifndef LULQOTER_H
#define LULQOTER_H

#include <stddef.h>
#include <stdint.h>
#ifndef __cplusplus
#include <stdbool.h>
#endif

#ifdef __cplusplus
extern "C" {
#endif

/* What this header was written for; `lulq_abi()` tells what the linked library is. */
#define LULQ_ABI 4u

/* A handle. Its fields are the library's. */
typedef struct lulq_sender {
  bool live;
  void *at;
} lulq_sender;

#ifdef __cplusplus
#define LULQ_SENDER_INIT {false, nullptr}
#else
#define LULQ_SENDER_INIT {false, NULL}
#endif

/* Results that are no error. */
#define LULQ_OK 0
#define LULQ_NOTHING 1   /* nothing may leave now; there is no such moment or share */
#define LULQ_TOO_SMALL 2 /* the room is too small; the size that is needed is told, and nothing is lost */

/* Causes. */
#define LULQ_E_NOT_OPEN (-1)     /* the handle has no sender: it was not begun, or was freed */
#define LULQ_E_ALREADY_OPEN (-2) /* the handle has a sender already */
#define LULQ_E_NO_MEMORY (-3)    /* memory ran out; the call has changed nothing */
#define LULQ_E_EXHAUSTED (-4)    /* one more call could pass a limit of the sender; it has changed nothing */
#define LULQ_E_BAD_CLASS (-5)    /* there is no such class; nothing has changed */
#define LULQ_E_BAD_SIZE (-6)     /* more than 65,535 bytes, streams or ids; nothing has changed */
#define LULQ_E_MOMENT (-7)       /* the moment is above 2^50 */
#define LULQ_E_QUEUE_FULL (-8)   /* as many packets wait as may */
#define LULQ_E_COMPOUND (-9)     /* the bytes are no packets of RTCP; nothing has changed */
#define LULQ_E_BAD_MASK (-10)    /* a setting is named that there isn't; nothing has changed */
#define LULQ_E_BAD_CONTROL (-11) /* there is no such control, or it begins at no such rate; nothing has changed */
#define LULQ_E_PACKET (-100)     /* less the number of the check that failed: -101 to -105 */
#define LULQ_E_REPORT (-200)     /* less the number of the check that failed: -201 to -209 */
#define LULQ_E_SETTINGS (-300)   /* less the number of the check that failed: -301 to -308 */

/* What sets the rate. */
#define LULQ_CONTROL_LEVEL 0u    /* the level of the one-way delay: keeps queues short */
#define LULQ_CONTROL_GRADIENT 1u /* the two estimates of draft-ietf-rmcat-gcc-02 */

/* Classes of packets. */
#define LULQ_AUDIO 0u
#define LULQ_RETRANSMISSION 1u
#define LULQ_VIDEO 2u
#define LULQ_FEC 3u

/* What a packet was sent as. */
#define LULQ_KIND_AUDIO 0u
#define LULQ_KIND_MEDIA 1u
#define LULQ_KIND_PROBE 2u
#define LULQ_KIND_PADDING 3u

/* Stands for no index and no cluster. */
#define LULQ_NONE 0xffffffffu

/* Stands for no moment and no time. */
#define LULQ_NO_TIME UINT64_MAX

/* A packet that leaves. */
typedef struct lulq_info {
  uint64_t number;  /* its transport-wide number: how many were sent before it */
  uint32_t index;   /* which accepted packet it is; LULQ_NONE for padding */
  uint32_t kind;    /* LULQ_KIND_.. */
  uint32_t cluster; /* of a probe; else LULQ_NONE */
} lulq_info;

/* Which of `lulq_settings` count. */
#define LULQ_SET_START 1u
#define LULQ_SET_MIN 2u
#define LULQ_SET_MAX 4u
#define LULQ_SET_PACING_PERCENT 8u
#define LULQ_SET_WINDOW 16u
#define LULQ_SET_PADDING_RATE 32u
#define LULQ_SET_PACED_AUDIO 64u
#define LULQ_SET_EXTENSION_ID 128u
#define LULQ_SET_PROBE 256u

/* Settings, of which those count that `named` names; what it does not name stays. */
typedef struct lulq_settings {
  uint32_t named;          /* LULQ_SET_.. */
  uint32_t paced_audio;    /* whether audio is held back by the budget: 0 is no */
  uint64_t start;          /* bit/s: what both estimates are put to */
  uint64_t min;            /* bit/s: the least estimate */
  uint64_t max;            /* bit/s: the greatest estimate */
  uint64_t pacing_percent; /* the pacing rate in percent of the target rate */
  uint64_t window;         /* microseconds: what the budgets may gather */
  uint64_t padding_rate;   /* bit/s */
  uint64_t extension_id;   /* the ID of the element that holds the transport-wide number */
  uint64_t probe;          /* bit/s: the rate of one more probe cluster */
} lulq_settings;

/* A stream that gets a share of the target rate. */
typedef struct lulq_stream {
  uint32_t id;
  uint32_t weight;   /* 1 to 1,000 */
  uint64_t min;      /* bit/s: the least rate it can be served with */
  uint64_t max;      /* bit/s: the greatest rate it can use */
  uint32_t enforced; /* served even where its minimum does not fit the target: 0 is no */
} lulq_stream;

/* Rates, in bit/s. */
typedef struct lulq_rates {
  uint64_t delay;  /* the estimate of delay control */
  uint64_t loss;   /* the estimate of loss control */
  uint64_t target; /* the lesser of the two */
  uint64_t pacing; /* the pacing rate, without what drains the queue */
} lulq_rates;

/* The packets that wait. */
typedef struct lulq_queue {
  uint64_t bytes;      /* of all of them */
  uint64_t oldest;     /* microseconds: when the oldest was accepted; LULQ_NO_TIME where none waits */
  uint64_t drain_time; /* microseconds, rounded up: in which the rate in force sends them all;
                          LULQ_NO_TIME where that rate is 0 */
  uint32_t packets;    /* how many */
} lulq_queue;

/* The probe cluster that packets are sent for next. */
typedef struct lulq_probe {
  uint64_t rate;    /* bit/s: its planned rate */
  uint32_t cluster; /* its place among the clusters that were planned, as in lulq_info */
} lulq_probe;

/* What a feedback told of a packet for the first time. */
typedef struct lulq_result {
  uint64_t number;   /* its transport-wide number, as in lulq_info */
  uint64_t sent_at;  /* microseconds; LULQ_NO_TIME for one that is missing */
  int64_t arrival;   /* quarter-milliseconds of the receiver's clock; 0 for one that is missing */
  uint32_t size;     /* bytes; 0 for one that is missing */
  uint32_t cluster;  /* of a probe; else, and for one that is missing, LULQ_NONE */
  uint32_t received; /* 1 where it was received; 0 where it is missing: a later report may credit it all the same */
} lulq_result;

/* How many packets, and their bytes. */
typedef struct lulq_total {
  uint64_t packets;
  uint64_t bytes;
} lulq_total;

/* How many packets and reports there were, from the first call on. A packet counts as sent once a pace
 * sent it, also while it is kept for the next pops. */
typedef struct lulq_stats {
  uint64_t sent;        /* packets that were sent, padding among them: those of the four kinds together */
  lulq_total audio;     /* LULQ_KIND_AUDIO: audio that no budget held back */
  lulq_total media;     /* LULQ_KIND_MEDIA: within the budget */
  lulq_total probes;    /* LULQ_KIND_PROBE */
  lulq_total padding;   /* LULQ_KIND_PADDING */
  uint64_t credited;    /* sent packets that a report credited */
  uint64_t missing;     /* sent packets that a report said were missing, each once; a later report may
                           credit one all the same */
  uint64_t expired;     /* sent packets that no report credited, and none can any more */
  uint64_t refused;     /* packets, reports and changes that were refused, at most 2^64 - 1 */
  uint32_t accepted;    /* accepted packets */
  uint32_t waiting;     /* those of them that wait */
  uint32_t outstanding; /* those of the sent ones that a report may still credit */
  uint32_t judged;      /* reports that were judged */
} lulq_stats;

/* A stream's share of the target rate. */
typedef struct lulq_share {
  uint64_t rate; /* bit/s */
  uint32_t id;
} lulq_share;

/* The number of the linked library's interface: LULQ_ABI where this header is the right one. */
uint32_t lulq_abi(void);

/* The linked library's version: 100 times the major number, and the minor one. */
uint32_t lulq_version(void);

/* Puts a new sender into a handle that has none, with the settings of docs/FORMATS.md, at moment 0, which a
 * control steers (LULQ_CONTROL_..; docs/CONGESTION.md compares them). The level control begins at `start`, in
 * bit/s from 1,000 to 10^10; 0 stands for 300,000. After each report that is judged it sets the start of the
 * settings, as a change of its own; where memory runs out then, the next call does that first. The gradient
 * control takes no heed of `start`. LULQ_OK, ALREADY_OPEN, BAD_CONTROL or NO_MEMORY. The handle owns the sender
 * until it is freed. */
int32_t lulq_sender_new(lulq_sender *sender, uint32_t control, uint64_t start);

/* Frees the sender of a handle, if there is one. */
void lulq_sender_free(lulq_sender *sender);

/* Hands in a packet to be sent: plain RTP before SRTP, at most 1,500 bytes, with a one-byte header
 * extension that has room for the transport-wide number. It is copied. Where it is accepted, its index
 * is written: how many were accepted before it. */
int32_t lulq_sender_enqueue(lulq_sender *sender, uint64_t now, uint32_t packet_class,
                            const uint8_t *packet, size_t packet_size, uint32_t *index);

/* The next packet that may leave now, stamped with its number: LULQ_OK, its bytes at the front of the
 * room, how many in `size`, and what it is in `info`. LULQ_NOTHING where none may leave now.
 * LULQ_TOO_SMALL where the room is too small: `size` tells what is needed, and the packet stays the
 * next one. One pace is served and its packets, at most 64, are kept until they are fetched; the next
 * pace is served only when none is left. So call it until LULQ_NOTHING. */
int32_t lulq_sender_pop(lulq_sender *sender, uint64_t now, uint8_t *room, size_t room_size,
                        size_t *size, lulq_info *info);

/* When to call `lulq_sender_pop` next: LULQ_OK and the moment in `at`, in microseconds, at which it has a
 * packet if no other call comes before; from the moment of the last call to it, it has none. Where
 * packets of the last pace are left, or a change that the control asked for was not made since memory ran out,
 * it is the moment of the last call: pop at once. LULQ_NOTHING where
 * no moment up to 2^50 has one: a packet, a report or a change must come first. Each other call may
 * change it, so ask again after each. */
int32_t lulq_sender_next_time(lulq_sender *sender, uint64_t *at);

/* Hands in RTCP after SRTP, compound (RFC 3550) or of reduced size (RFC 5506): each transport-wide
 * report in it is served, in order, and other packets are passed over. LULQ_OK where all were
 * accepted (there may be none); else NO_MEMORY or EXHAUSTED where a report and those behind it were
 * not served; else the cause of the first report that was refused. LULQ_E_COMPOUND where no packet of
 * RTCP stands at some place: nothing is served, and `place` tells it, counted from 0. */
int32_t lulq_sender_feedback(lulq_sender *sender, uint64_t now, const uint8_t *rtcp,
                             size_t rtcp_size, uint32_t *place);

/* What the last feedback told of the next packet: LULQ_OK, or LULQ_NOTHING where all was told. Each packet that it
 * credited or, for the first time, told missing is handed out once, in the order of its reports and their statuses.
 * What is left when the next feedback is served goes. */
int32_t lulq_sender_next_result(lulq_sender *sender, lulq_result *result);

/* Changes the settings that `settings->named` names, takes out the streams of the ids in `removed`,
 * and sets the given streams, each in place of one with the same id. Where a check fails, nothing of
 * it is changed. Pointers are not null, also where there are none. */
int32_t lulq_sender_configure(lulq_sender *sender, uint64_t now, const lulq_settings *settings,
                              const lulq_stream *streams, size_t stream_count,
                              const uint32_t *removed, size_t removed_count);

/* The rates after the last call. */
int32_t lulq_sender_rates(lulq_sender *sender, lulq_rates *rates);

/* What waits to be sent. Packets that a pace sent and no pop fetched yet are not among it. */
int32_t lulq_sender_queue(lulq_sender *sender, lulq_queue *queue);

/* The probe cluster that packets are sent for next, whether one may leave now or not. LULQ_NOTHING where none
 * waits. */
int32_t lulq_sender_next_probe(lulq_sender *sender, lulq_probe *probe);

/* How many packets and reports there were. */
int32_t lulq_sender_stats(lulq_sender *sender, lulq_stats *stats);

/* The share of this place, counted from 0 in rising order of the streams' ids. LULQ_NOTHING where
 * there is none. It takes memory for the call. */
int32_t lulq_sender_share(lulq_sender *sender, uint32_t place, lulq_share *share);

/* Two calls that stand alone, for those with a pacer of their own. They have no handle, and any thread may
 * make them at any time. `id` is that of the extension element, 1 to 14; another one is answered by
 * LULQ_E_SETTINGS - 4. A packet that fails a check is answered by LULQ_E_PACKET less the check. */

/* Where the two bytes of the transport-wide number stand in a plain RTP packet: LULQ_OK, and their place
 * in `place`, counted from 0. */
int32_t lulq_rtp_place(const uint8_t *packet, size_t packet_size, uint32_t id, uint32_t *place);

/* Writes the lowest 16 bits of a number there, high byte first, and changes nothing else of the packet.
 * Where it is not LULQ_OK, nothing is written. */
int32_t lulq_rtp_stamp(uint8_t *packet, size_t packet_size, uint32_t id, uint64_t number);

/* A text for each result. */
static inline const char *lulq_strerror(int32_t result) {
  switch (result) {
  case LULQ_OK: return "done";
  case LULQ_NOTHING: return "nothing";
  case LULQ_TOO_SMALL: return "the room is too small";
  case LULQ_E_NOT_OPEN: return "the handle has no sender";
  case LULQ_E_ALREADY_OPEN: return "the handle has a sender already";
  case LULQ_E_NO_MEMORY: return "no memory";
  case LULQ_E_EXHAUSTED: return "a limit of the sender is near";
  case LULQ_E_BAD_CLASS: return "no such class";
  case LULQ_E_BAD_SIZE: return "more than a call takes";
  case LULQ_E_BAD_CONTROL: return "no such control";
  case LULQ_E_MOMENT: return "the moment is too large";
  case LULQ_E_QUEUE_FULL: return "the queue is full";
  case LULQ_E_COMPOUND: return "no packet of RTCP";
  case LULQ_E_BAD_MASK: return "no such setting";
  case LULQ_E_PACKET - 1: return "packet: short";
  case LULQ_E_PACKET - 2: return "packet: long";
  case LULQ_E_PACKET - 3: return "packet: version";
  case LULQ_E_PACKET - 4: return "packet: bad extension";
  case LULQ_E_PACKET - 5: return "packet: no extension";
  case LULQ_E_REPORT - 1: return "report: short";
  case LULQ_E_REPORT - 2: return "report: length";
  case LULQ_E_REPORT - 3: return "report: version";
  case LULQ_E_REPORT - 4: return "report: no feedback";
  case LULQ_E_REPORT - 5: return "report: no status";
  case LULQ_E_REPORT - 6: return "report: chunks";
  case LULQ_E_REPORT - 7: return "report: reserved symbol";
  case LULQ_E_REPORT - 8: return "report: deltas";
  case LULQ_E_REPORT - 9: return "report: padding";
  case LULQ_E_SETTINGS - 1: return "settings: a rate is out of its range";
  case LULQ_E_SETTINGS - 2: return "settings: min above max";
  case LULQ_E_SETTINGS - 3: return "settings: pacing percent or window";
  case LULQ_E_SETTINGS - 4: return "settings: extension id";
  case LULQ_E_SETTINGS - 5: return "settings: a stream";
  case LULQ_E_SETTINGS - 6: return "settings: an id stands twice";
  case LULQ_E_SETTINGS - 7: return "settings: too many streams";
  case LULQ_E_SETTINGS - 8: return "settings: too many probe clusters";
  default: return "unknown result";
  }
}

#ifdef __cplusplus
}
#endif

#endif
