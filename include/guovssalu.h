/*
 * The calls of Guovssalu for C, on x86-64. `make install PREFIX=/usr/local` puts this header, the
 * archive of the proved calls, libguovssalu.a, and guovssalu.pc there; `pkg-config --cflags --libs
 * guovssalu` gives the flags to compile and link. The archive asks for nothing but memcpy.
 *
 * Every call takes any numbers and any bytes, keeps nothing between calls and allocates nothing.
 * A lent range of bytes is a pointer and a length; with the length 0 the pointer is not used. A
 * range that is written must not overlap another one of the call. A word is a uint64_t in 8 bytes,
 * the lowest byte first, at any alignment. A lent range of numbers, the lists of
 * guovssalu_run_lists, is a pointer to uint64_t, aligned as such, and how many there are.
 *
 * An f32 or an f64 crosses as its bits. Every pattern of a NaN counts as a NaN.
 *
 * Where a call replies with a number: 0 is done, and any other number is a refusal, which leaves
 * every lent byte as it was. Its row is GUOVSSALU_ROW(reply); where several apply, the lowest is given.
 * The calls inside a run have answers of their own: guovssalu_run, guovssalu_run_lists and
 * guovssalu_rtt_run, below.
 *
 * Callers that compare a reply with 2 must change. Since version 0.6.0 a bad argument's reply also says
 * which argument it was and what is wrong with it, so it is never 2 alone ("Replies", below). Instead of
 * reply == GUOVSSALU_BAD_ARGUMENT write GUOVSSALU_ROW(reply) == GUOVSSALU_BAD_ARGUMENT, and likewise
 * where a switch has it as a case. Done is 0 as before, and the other rows are the numbers that they were.
 */
#ifndef GUOVSSALU_H
#define GUOVSSALU_H

#include <stddef.h>
#include <stdint.h>

#ifdef __cplusplus
extern "C" {
#endif

/* ---- The version. The file VERSION has it. */

#define GUOVSSALU_VERSION_MAJOR 0
#define GUOVSSALU_VERSION_MINOR 7
#define GUOVSSALU_VERSION_PATCH 0

/* The layout's number. It is raised when a call of guovssalu_run or of guovssalu_rtt_run takes other
 * arguments, or a word of a state, of a call or of a call's answer gets another place or stands for
 * something else.
 *
 * Version 0.7.0 did not raise it: it added guovssalu_rtt_run, with words of its own, and moved none.
 * Version 0.6.0 raised it to 3: the reply, the first word of an answer, has for a bad argument a kind and
 * a place besides the row. States and calls are those of layout 2: a state that version 0.5.0 kept, 408
 * bytes, is taken as it is. Version 0.5.0 raised it to 2: a state has one more word,
 * GUOVSSALU_STATE_ANYTHING_SENT, and those of the cycle stand one place further on. The 400 bytes of
 * layout 1 are refused, with 2.8 at 1; docs/LAYOUT.md, "Carrying a kept state over", has the four lines
 * that make 408 of them. Version 0.4.0 did not raise it; but since then the greatest of an event's acked
 * numbers counts, and before it the last did. What guovssalu_filter_run writes is not part of it: it is
 * four words a pair since version 0.3.0, and was three. */
#define GUOVSSALU_LAYOUT 3

/* ---- Replies: what an exported call replies, and the first word of an answer.
 *
 * A reply has three parts, a byte each: the row of the table of replies, and for a bad argument, row 2, its
 * kind and the place of the argument. For the other rows these are 0. 2.4 at 1 is written for row 2, kind
 * 4, place 1: the number 2 + 256 * 4 + 65536 * 1 = 66562, or 0x10402. In a start that is initial_rtt, which
 * is longer than 2^36 ns.
 *
 * Places are counted from 1, without the model, the cycle and the parameters, in the order of the original's
 * methods: beside the calls and their arguments, below, and in docs/LAYOUT.md. Where several arguments are
 * bad the first is named, and of a record its first field. docs/REFUSALS.md has every reply of row 2, by
 * its number too, and says what to ask next; `python3 tests/refusal.py 66562 0` says one in words.
 *
 * Only an event is refused with GUOVSSALU_NEVER_SENT: "Packet numbers", below. */

/* -- replies of docs/calls.txt -- */
/* The rows of replies. */
enum {
    GUOVSSALU_DONE = 0,
    GUOVSSALU_OUT_OF_BOUNDS = 1,
    GUOVSSALU_BAD_ARGUMENT = 2,
    GUOVSSALU_EARLIER_MOMENT = 3,
    GUOVSSALU_LOWER_TOTAL = 4,
    GUOVSSALU_FULL_COUNTER = 5,
    GUOVSSALU_BAD_TEXT = 6,
    GUOVSSALU_SHORT_OUTPUT = 7,
    GUOVSSALU_NEVER_SENT = 10
};

/* The row of a reply: 0 is done, 1 to 7 and 10 are refusals. */
#define GUOVSSALU_ROW(reply) ((uint64_t)(reply) & 0xff)
/* The kind of a reply: in row 2 what is wrong, 1 to 9; otherwise 0. */
#define GUOVSSALU_KIND(reply) (((uint64_t)(reply) >> 8) & 0xff)
/* The place of a reply: in row 2 which argument, from 1 on, or 0 where a number is no call's; otherwise 0. */
#define GUOVSSALU_PLACE(reply) (((uint64_t)(reply) >> 16) & 0xff)

/* The kinds of row 2, a bad argument: what it is, and the limit that it is beyond. */
enum {
    GUOVSSALU_FAULT_WINDOW = 1,       /* a congestion window, at most 2^40 bytes (1.1 TB) */
    GUOVSSALU_FAULT_BYTE_COUNT = 2,   /* another count of bytes, at most 2^40 bytes (1.1 TB) */
    GUOVSSALU_FAULT_BANDWIDTH = 3,    /* a bandwidth, at most 2^40 bits per second (1.1 Tbit/s) */
    GUOVSSALU_FAULT_LENGTH = 4,       /* a length of time, at most 2^36 ns (68.7 s) */
    GUOVSSALU_FAULT_TOTAL = 5,        /* a total, or an event's bytes acked or lost, at most 2^62 bytes (4.6 million TB) */
    GUOVSSALU_FAULT_PROBE_ROUNDS = 6, /* the rounds of probing up, at most 30 */
    GUOVSSALU_FAULT_GAIN = 7,         /* a gain, 1/1024 to 8 */
    GUOVSSALU_FAULT_LIST_LENGTH = 8,  /* a list or bytes of a wrong length, a malformed word, a number of no call */
    GUOVSSALU_FAULT_MOMENT = 9        /* a moment, or a postponed one, at most 2^62 ns (146 years) */
};
/* -- end -- */

/* ---- Conversions. They refuse nothing. */

/* The bits of the f32 nearest to n, a tie to the one whose last digit is even. */
uint32_t guovssalu_u64_to_f32(uint64_t n);

/* The bits of the f64 nearest to n, a tie to the one whose last digit is even. */
uint64_t guovssalu_u64_to_f64(uint64_t n);

/* The f32 without its fraction; 0 for a NaN or a negative, 2^64 - 1 for what is too large. */
uint64_t guovssalu_f32_to_u64(uint32_t bits);

/* The f64 to the nearest whole number, a half away from zero; 0 for a NaN or a negative, 2^64 - 1
 * for what is too large. */
uint64_t guovssalu_f64_round_to_u64(uint64_t bits);

/* ---- Scaling. They refuse nothing; the gain is an f32's bits. */

/* n as an f32, times the gain, without its fraction. */
uint64_t guovssalu_scale(uint64_t n, uint32_t gain);

/* A bandwidth in bits per second times the gain, by way of an f64, to the nearest whole number. */
uint64_t guovssalu_bandwidth_mul_f32(uint64_t bandwidth, uint32_t gain);

/* The whole bytes that a bandwidth in bits per second carries in so many nanoseconds, at most
 * 2^64 - 1. The bandwidth 2^64 - 1 stands for an infinite one. */
uint64_t guovssalu_to_bytes_per_period(uint64_t bandwidth, uint64_t nanos);

/* ---- The slope of the probing cycle. */

/* Writes two words, GUOVSSALU_SLOPE_BYTES: the next probe_up_rounds, which is rounds + 1 or at most
 * 30, and probe_up_bytes, which is window / 2^rounds or at least 1300. Bytes past them keep what
 * they held. Replies 1 for rounds over 30, 2.1 at 2 for a window above 2^40, 7 for a shorter output. */
uint64_t guovssalu_raise_inflight_high_slope(uint64_t rounds, uint64_t window, uint8_t *out,
                                             size_t out_len);

/* ---- The windowed filter.
 *
 * The words that a run wrote for its pair i, of pairs 0, 1, ..:
 *
 *     uint64_t after[GUOVSSALU_SAMPLES_WORDS];
 *     memcpy(after, out + i * GUOVSSALU_SAMPLES_BYTES, sizeof after);
 *
 * after[GUOVSSALU_SAMPLES_BEST] is then the best sample, and after[GUOVSSALU_SAMPLES_REASON] says why
 * it moved or stayed: GUOVSSALU_REASON_PROMOTED_ONCE, say, where the one before it was too old. */

/* Runs an empty filter of the given window over pairs of words, a time and a sample,
 * GUOVSSALU_PAIR_BYTES to a pair. For each pair it writes four words, GUOVSSALU_SAMPLES_BYTES: the
 * best, the second best and the third best sample after that pair, and in the word
 * GUOVSSALU_SAMPLES_REASON why they moved. That is the step of the update that acted last, by its
 * number: GUOVSSALU_REASON_ALL_REPLACED to GUOVSSALU_REASON_UNCHANGED. The best is at most the largest
 * sample of the window, and may be below it: docs/ESTIMATE.md has what is promised of the three. Bytes
 * past the answer keep what they held. Replies 2.8 at 2 for a part of a pair, 3 if a pair's time is
 * earlier than one of the three times that the filter holds then, 7 for an output of under
 * GUOVSSALU_SAMPLES_BYTES a pair. */
uint64_t guovssalu_filter_run(uint64_t window, const uint8_t *src, size_t src_len, uint8_t *out,
                              size_t out_len);

/* ---- The model: sizes, numbers of calls, places of words. */

/* -- sizes of docs/calls.txt -- */
/* An unset number of bytes, or an unset length, 2^64 - 1. */
#define GUOVSSALU_UNSET UINT64_C(18446744073709551615)
/* The longest length of time that is taken, in nanoseconds: 2^36, 68.7 s. */
#define GUOVSSALU_LONGEST UINT64_C(68719476736)

/* Sizes, in words and in bytes; a word has 8 bytes. */
enum {
    GUOVSSALU_STATE_WORDS = 51,
    GUOVSSALU_STATE_BYTES = 408,
    GUOVSSALU_MODEL_WORDS = 35,
    GUOVSSALU_MODEL_BYTES = 280,
    GUOVSSALU_CYCLE_WORDS = 16,
    GUOVSSALU_CYCLE_BYTES = 128,
    GUOVSSALU_CALL_WORDS = 49,
    GUOVSSALU_CALL_BYTES = 392,
    GUOVSSALU_ARGUMENTS_WORDS = 21,
    GUOVSSALU_ARGUMENTS_BYTES = 168,
    GUOVSSALU_EVENT_WORDS = 16,
    GUOVSSALU_EVENT_BYTES = 128,
    GUOVSSALU_PARAMS_WORDS = 11,
    GUOVSSALU_PARAMS_BYTES = 88,
    GUOVSSALU_ANSWER_WORDS = 18,
    GUOVSSALU_ANSWER_BYTES = 144,
    GUOVSSALU_PAIR_WORDS = 2,
    GUOVSSALU_PAIR_BYTES = 16,
    GUOVSSALU_SAMPLES_WORDS = 4,
    GUOVSSALU_SAMPLES_BYTES = 32,
    GUOVSSALU_SLOPE_WORDS = 2,
    GUOVSSALU_SLOPE_BYTES = 16,
    GUOVSSALU_RTT_STATE_WORDS = 6,
    GUOVSSALU_RTT_STATE_BYTES = 48,
    GUOVSSALU_RTT_CALL_WORDS = 4,
    GUOVSSALU_RTT_CALL_BYTES = 32,
    GUOVSSALU_RTT_ANSWER_WORDS = 5,
    GUOVSSALU_RTT_ANSWER_BYTES = 40,
    GUOVSSALU_MOST_ACKED = 3 /* the most acked numbers in a call itself; more stand in the lists */
};

/* The word with which a part of a call, an answer or a state begins. */
enum {
    GUOVSSALU_NUMBER_IN_CALL = 0,
    GUOVSSALU_ARGUMENTS_IN_CALL = 1,
    GUOVSSALU_EVENT_IN_CALL = 22,
    GUOVSSALU_PARAMS_IN_CALL = 38,
    GUOVSSALU_REPLY_IN_ANSWER = 0,
    GUOVSSALU_VALUE_IN_ANSWER = 1,
    GUOVSSALU_EVENT_IN_ANSWER = 2,
    GUOVSSALU_CYCLE_IN_STATE = 35,
    GUOVSSALU_RTT_NUMBER_IN_CALL = 0,
    GUOVSSALU_RTT_ARGUMENTS_IN_CALL = 1
};
/* -- end -- */

/* -- calls and words of docs/calls.txt -- */
/* The numbers of the calls: the word GUOVSSALU_NUMBER_IN_CALL of a call. Beside each its arguments in the
 * order of their words, whether it reads the event's record and takes the parameters, and what its answer
 * is. */
enum {
    GUOVSSALU_CALL_START = 0,                           /* now, initial_rtt; params */
    GUOVSSALU_CALL_ON_PACKET_SENT = 1,                  /* sent_time, bytes_in_flight, packet_number, bytes */
    GUOVSSALU_CALL_ON_CONGESTION_EVENT_START = 3,       /* the words GUOVSSALU_SAMPLE_..; event, params */
    GUOVSSALU_CALL_ON_CONGESTION_EVENT_FINISH = 4,      /* event */
    GUOVSSALU_CALL_MAYBE_EXPIRE_MIN_RTT = 5,            /* event, params; answers flag */
    GUOVSSALU_CALL_IS_INFLIGHT_TOO_HIGH = 6,            /* max_loss_events; event, params; answers flag */
    GUOVSSALU_CALL_HAS_BANDWIDTH_GROWTH = 7,            /* event, params; answers flag */
    GUOVSSALU_CALL_RESTART_ROUND_EARLY = 8,
    GUOVSSALU_CALL_CHECK_PERSISTENT_QUEUE = 9,          /* target_gain; params */
    GUOVSSALU_CALL_BDP = 10,                            /* bandwidth, gain; answers bytes */
    GUOVSSALU_CALL_BDP1 = 11,                           /* bandwidth; answers bytes */
    GUOVSSALU_CALL_BDP0 = 12,                           /* answers bytes */
    GUOVSSALU_CALL_INFLIGHT_HI_WITH_HEADROOM = 13,      /* params; answers bytes */
    GUOVSSALU_CALL_SET_FULL_BANDWIDTH_REACHED = 14,
    GUOVSSALU_CALL_SET_PACING_GAIN = 15,                /* pacing_gain */
    GUOVSSALU_CALL_SET_CWND_GAIN = 16,                  /* cwnd_gain */
    GUOVSSALU_CALL_SET_INFLIGHT_HI = 17,                /* new_inflight_hi */
    GUOVSSALU_CALL_CAP_INFLIGHT_LO = 18,                /* cap */
    GUOVSSALU_CALL_CLEAR_INFLIGHT_LO = 19,
    GUOVSSALU_CALL_CLEAR_BANDWIDTH_LO = 20,
    GUOVSSALU_CALL_ADVANCE_MAX_BANDWIDTH_FILTER = 21,
    GUOVSSALU_CALL_POSTPONE_MIN_RTT_TIMESTAMP = 22,     /* duration */
    GUOVSSALU_CALL_BANDWIDTH_ESTIMATE = 23,             /* answers bandwidth */
    GUOVSSALU_CALL_MIN_RTT = 24,                        /* answers length */
    GUOVSSALU_CALL_MIN_RTT_TIMESTAMP = 25,              /* answers moment */
    GUOVSSALU_CALL_MAX_BANDWIDTH = 26,                  /* answers bandwidth */
    GUOVSSALU_CALL_MAX_BYTES_DELIVERED_IN_ROUND = 27,   /* answers bytes */
    GUOVSSALU_CALL_TOTAL_BYTES_ACKED = 28,              /* answers bytes */
    GUOVSSALU_CALL_TOTAL_BYTES_LOST = 29,               /* answers bytes */
    GUOVSSALU_CALL_FULL_BANDWIDTH_REACHED = 30,         /* answers flag */
    GUOVSSALU_CALL_PACING_GAIN = 31,                    /* answers f32 */
    GUOVSSALU_CALL_CWND_GAIN = 32,                      /* answers f32 */
    GUOVSSALU_CALL_INFLIGHT_HI = 33,                    /* answers bytes or unset */
    GUOVSSALU_CALL_INFLIGHT_HI_DEFAULT = 34,            /* answers bytes or unset */
    GUOVSSALU_CALL_INFLIGHT_LO = 35,                    /* answers bytes or unset */
    GUOVSSALU_CALL_LOSS_EVENTS_IN_ROUND = 36,           /* answers number */
    GUOVSSALU_CALL_ROUNDS_WITH_QUEUEING = 37,           /* answers number */
    GUOVSSALU_CALL_QUEUEING_THRESHOLD_EXTRA_BYTES = 38, /* answers bytes */
    GUOVSSALU_CALL_ENTER_PROBE_DOWN = 40,               /* probed_too_high, stopped_risky_probe, now; params */
    GUOVSSALU_CALL_ENTER_PROBE_CRUISE = 41,             /* now */
    GUOVSSALU_CALL_ENTER_PROBE_REFILL = 42,             /* probe_up_rounds, now */
    GUOVSSALU_CALL_ENTER_PROBE_UP = 43,                 /* now, cwnd */
    GUOVSSALU_CALL_EXIT_PROBE_DOWN = 44,
    GUOVSSALU_CALL_RAISE_INFLIGHT_HIGH_SLOPE = 45       /* cwnd */
};

/* The calls' arguments: words of a call. Beside each its kind, what a bad one is refused with, and its
 * place. */
enum {
    GUOVSSALU_ARG_START_NOW = 1,                            /* moment; 2.9 at 2 */
    GUOVSSALU_ARG_START_INITIAL_RTT = 2,                    /* length; 2.4 at 1 */
    GUOVSSALU_ARG_ON_PACKET_SENT_SENT_TIME = 1,             /* moment; 2.9 at 1 */
    GUOVSSALU_ARG_ON_PACKET_SENT_BYTES_IN_FLIGHT = 2,       /* bytes; 2.2 at 2 */
    GUOVSSALU_ARG_ON_PACKET_SENT_PACKET_NUMBER = 3,         /* number; never refused, at 3 */
    GUOVSSALU_ARG_ON_PACKET_SENT_BYTES = 4,                 /* bytes; 2.2 at 4 */
    GUOVSSALU_ARG_IS_INFLIGHT_TOO_HIGH_MAX_LOSS_EVENTS = 1, /* number; never refused, at 2 */
    GUOVSSALU_ARG_CHECK_PERSISTENT_QUEUE_TARGET_GAIN = 1,   /* f32; 2.8 or 2.7 at 1 */
    GUOVSSALU_ARG_BDP_BANDWIDTH = 1,                        /* bandwidth; 2.3 at 1 */
    GUOVSSALU_ARG_BDP_GAIN = 2,                             /* f32; 2.8 or 2.7 at 2 */
    GUOVSSALU_ARG_BDP1_BANDWIDTH = 1,                       /* bandwidth; 2.3 at 1 */
    GUOVSSALU_ARG_SET_PACING_GAIN_PACING_GAIN = 1,          /* f32; 2.8 or 2.7 at 1 */
    GUOVSSALU_ARG_SET_CWND_GAIN_CWND_GAIN = 1,              /* f32; 2.8 or 2.7 at 1 */
    GUOVSSALU_ARG_SET_INFLIGHT_HI_NEW_INFLIGHT_HI = 1,      /* bytes or unset; 2.2 at 1 */
    GUOVSSALU_ARG_CAP_INFLIGHT_LO_CAP = 1,                  /* bytes or unset; 2.2 at 1 */
    GUOVSSALU_ARG_POSTPONE_MIN_RTT_TIMESTAMP_DURATION = 1,  /* length; 2.4 or 2.9 at 1 */
    GUOVSSALU_ARG_ENTER_PROBE_DOWN_PROBED_TOO_HIGH = 1,     /* flag; 2.8 at 1 */
    GUOVSSALU_ARG_ENTER_PROBE_DOWN_STOPPED_RISKY_PROBE = 2, /* flag; 2.8 at 2 */
    GUOVSSALU_ARG_ENTER_PROBE_DOWN_NOW = 3,                 /* moment; 2.9 at 3 */
    GUOVSSALU_ARG_ENTER_PROBE_CRUISE_NOW = 1,               /* moment; 2.9 at 1 */
    GUOVSSALU_ARG_ENTER_PROBE_REFILL_PROBE_UP_ROUNDS = 1,   /* number; 2.6 at 1 */
    GUOVSSALU_ARG_ENTER_PROBE_REFILL_NOW = 2,               /* moment; 2.9 at 2 */
    GUOVSSALU_ARG_ENTER_PROBE_UP_NOW = 1,                   /* moment; 2.9 at 1 */
    GUOVSSALU_ARG_ENTER_PROBE_UP_CWND = 2,                  /* bytes; 2.1 at 2 */
    GUOVSSALU_ARG_RAISE_INFLIGHT_HIGH_SLOPE_CWND = 1        /* bytes; 2.1 at 1 */
};

/* An event's arguments, of GUOVSSALU_CALL_ON_CONGESTION_EVENT_START: words of a call. The last two are the
 * argument acked, at place 1, and those before them the argument sample, at place 3. */
enum {
    GUOVSSALU_SAMPLE_MAX_BANDWIDTH_SET = 1,                         /* flag; 2.8 */
    GUOVSSALU_SAMPLE_MAX_BANDWIDTH = 2,                             /* bandwidth; 2.8 or 2.3 */
    GUOVSSALU_SAMPLE_MAX_SEND_RATE_SET = 3,                         /* flag; 2.8 */
    GUOVSSALU_SAMPLE_MAX_SEND_RATE = 4,                             /* bandwidth; 2.8 or 2.3 */
    GUOVSSALU_SAMPLE_MAX_ACK_RATE_SET = 5,                          /* flag; 2.8 */
    GUOVSSALU_SAMPLE_MAX_ACK_RATE = 6,                              /* bandwidth; 2.8 or 2.3 */
    GUOVSSALU_SAMPLE_IS_APP_LIMITED = 7,                            /* flag; 2.8 */
    GUOVSSALU_SAMPLE_RTT_SET = 8,                                   /* flag; 2.8 */
    GUOVSSALU_SAMPLE_RTT = 9,                                       /* length; 2.8 or 2.4 */
    GUOVSSALU_SAMPLE_MAX_INFLIGHT = 10,                             /* bytes; 2.2 */
    GUOVSSALU_SAMPLE_EXTRA_ACKED = 11,                              /* bytes; 2.2 */
    GUOVSSALU_SAMPLE_LAST_PACKET_SEND_STATE_IS_VALID = 12,          /* flag; 2.8 */
    GUOVSSALU_SAMPLE_LAST_PACKET_SEND_STATE_IS_APP_LIMITED = 13,    /* flag; 2.8 */
    GUOVSSALU_SAMPLE_LAST_PACKET_SEND_STATE_TOTAL_BYTES_ACKED = 14, /* bytes; 2.5 */
    GUOVSSALU_SAMPLE_LAST_PACKET_SEND_STATE_BYTES_IN_FLIGHT = 15,   /* bytes; 2.2 */
    GUOVSSALU_SAMPLE_TOTAL_BYTES_ACKED = 16,                        /* bytes; 2.5 */
    GUOVSSALU_SAMPLE_TOTAL_BYTES_LOST = 17,                         /* bytes; 2.5 */
    GUOVSSALU_SAMPLE_ACKED_COUNT = 18,                              /* count; 2.8 */
    GUOVSSALU_SAMPLE_ACKED_PACKETS = 19                             /* three numbers */
};

/* An event's record: words from GUOVSSALU_EVENT_IN_CALL of a call on, from GUOVSSALU_EVENT_IN_ANSWER of an
 * answer on. It is the argument event: at place 2 of GUOVSSALU_CALL_ON_CONGESTION_EVENT_START, at
 * place 1 of the other calls that read it. */
enum {
    GUOVSSALU_EVENT_TIME = 0,                                      /* moment; 2.9 */
    GUOVSSALU_EVENT_PRIOR_CWND = 1,                                /* bytes; 2.1 */
    GUOVSSALU_EVENT_PRIOR_BYTES_IN_FLIGHT = 2,                     /* bytes; 2.2 */
    GUOVSSALU_EVENT_BYTES_IN_FLIGHT = 3,                           /* bytes; 2.2 */
    GUOVSSALU_EVENT_BYTES_ACKED = 4,                               /* bytes; 2.5 */
    GUOVSSALU_EVENT_BYTES_LOST = 5,                                /* bytes; 2.5 */
    GUOVSSALU_EVENT_END_OF_ROUND_TRIP = 6,                         /* flag; 2.8 */
    GUOVSSALU_EVENT_IS_PROBING_FOR_BANDWIDTH = 7,                  /* flag; 2.8 */
    GUOVSSALU_EVENT_SAMPLE_MAX_BANDWIDTH_SET = 8,                  /* flag; 2.8 */
    GUOVSSALU_EVENT_SAMPLE_MAX_BANDWIDTH = 9,                      /* bandwidth; 2.8 or 2.3 */
    GUOVSSALU_EVENT_SAMPLE_MIN_RTT_SET = 10,                       /* flag; 2.8 */
    GUOVSSALU_EVENT_SAMPLE_MIN_RTT = 11,                           /* length; 2.8 or 2.4 */
    GUOVSSALU_EVENT_LAST_PACKET_SEND_STATE_IS_VALID = 12,          /* flag; 2.8 */
    GUOVSSALU_EVENT_LAST_PACKET_SEND_STATE_IS_APP_LIMITED = 13,    /* flag; 2.8 */
    GUOVSSALU_EVENT_LAST_PACKET_SEND_STATE_TOTAL_BYTES_ACKED = 14, /* bytes; 2.5 */
    GUOVSSALU_EVENT_LAST_PACKET_SEND_STATE_BYTES_IN_FLIGHT = 15    /* bytes; 2.2 */
};

/* The parameters: words from GUOVSSALU_PARAMS_IN_CALL of a call on. */
enum {
    GUOVSSALU_PARAMS_BETA = 0,                                       /* f32 */
    GUOVSSALU_PARAMS_LOSS_THRESHOLD = 1,                             /* f32 */
    GUOVSSALU_PARAMS_INFLIGHT_HI_HEADROOM = 2,                       /* f32 */
    GUOVSSALU_PARAMS_FULL_BW_THRESHOLD = 3,                          /* f32 */
    GUOVSSALU_PARAMS_STARTUP_CWND_GAIN = 4,                          /* f32 */
    GUOVSSALU_PARAMS_STARTUP_PACING_GAIN = 5,                        /* f32 */
    GUOVSSALU_PARAMS_STARTUP_FULL_BW_ROUNDS = 6,                     /* number */
    GUOVSSALU_PARAMS_MAX_STARTUP_QUEUE_ROUNDS = 7,                   /* number */
    GUOVSSALU_PARAMS_PROBE_RTT_PERIOD = 8,                           /* length */
    GUOVSSALU_PARAMS_PROBE_BW_PROBE_BASE_DURATION = 9,               /* length */
    GUOVSSALU_PARAMS_IGNORE_APP_LIMITED_FOR_NO_BANDWIDTH_GROWTH = 10 /* flag */
};

/* Words of the state. Of what may be unset there are two, .._SET and the number. */
enum {
    GUOVSSALU_STATE_ROUND_TRIP_COUNT = 0,                                /* number */
    GUOVSSALU_STATE_LAST_SENT_PACKET = 1,                                /* number */
    GUOVSSALU_STATE_END_OF_ROUND_TRIP_SET = 2,                           /* flag */
    GUOVSSALU_STATE_END_OF_ROUND_TRIP = 3,                               /* number */
    GUOVSSALU_STATE_MAX_BANDWIDTH_0 = 4,                                 /* bandwidth */
    GUOVSSALU_STATE_MAX_BANDWIDTH_1 = 5,                                 /* bandwidth */
    GUOVSSALU_STATE_MIN_RTT = 6,                                         /* length */
    GUOVSSALU_STATE_MIN_RTT_TIMESTAMP = 7,                               /* moment */
    GUOVSSALU_STATE_BYTES_LOST_IN_ROUND = 8,                             /* bytes */
    GUOVSSALU_STATE_LOSS_EVENTS_IN_ROUND = 9,                            /* number */
    GUOVSSALU_STATE_MAX_BYTES_DELIVERED_IN_ROUND = 10,                   /* bytes */
    GUOVSSALU_STATE_MIN_BYTES_IN_FLIGHT_IN_ROUND = 11,                   /* bytes or unset */
    GUOVSSALU_STATE_INFLIGHT_HI_LIMITED_IN_ROUND = 12,                   /* flag */
    GUOVSSALU_STATE_BANDWIDTH_LATEST = 13,                               /* bandwidth */
    GUOVSSALU_STATE_INFLIGHT_LATEST = 14,                                /* bytes */
    GUOVSSALU_STATE_BANDWIDTH_LO_SET = 15,                               /* flag */
    GUOVSSALU_STATE_BANDWIDTH_LO = 16,                                   /* bandwidth */
    GUOVSSALU_STATE_INFLIGHT_LO = 17,                                    /* bytes or unset */
    GUOVSSALU_STATE_INFLIGHT_HI = 18,                                    /* bytes or unset */
    GUOVSSALU_STATE_CWND_GAIN = 19,                                      /* f32 */
    GUOVSSALU_STATE_PACING_GAIN = 20,                                    /* f32 */
    GUOVSSALU_STATE_CWND_LIMITED_BEFORE_AGGREGATION_EPOCH = 21,          /* flag */
    GUOVSSALU_STATE_FULL_BANDWIDTH_REACHED = 22,                         /* flag */
    GUOVSSALU_STATE_FULL_BANDWIDTH_BASELINE = 23,                        /* bandwidth */
    GUOVSSALU_STATE_ROUNDS_WITHOUT_BANDWIDTH_GROWTH = 24,                /* number */
    GUOVSSALU_STATE_ROUNDS_WITH_QUEUEING = 25,                           /* number */
    GUOVSSALU_STATE_IGNORE_APP_LIMITED_FOR_NO_BANDWIDTH_GROWTH = 26,     /* flag */
    GUOVSSALU_STATE_LATEST_SEND_RATE_SET = 27,                           /* flag */
    GUOVSSALU_STATE_LATEST_SEND_RATE = 28,                               /* bandwidth */
    GUOVSSALU_STATE_LATEST_ACK_RATE_SET = 29,                            /* flag */
    GUOVSSALU_STATE_LATEST_ACK_RATE = 30,                                /* bandwidth */
    GUOVSSALU_STATE_TOTAL_BYTES_ACKED = 31,                              /* bytes */
    GUOVSSALU_STATE_TOTAL_BYTES_LOST = 32,                               /* bytes */
    GUOVSSALU_STATE_LAST_ACCEPTED_MOMENT = 33,                           /* moment */
    GUOVSSALU_STATE_ANYTHING_SENT = 34,                                  /* flag */
    GUOVSSALU_STATE_PHASE = 35,                                          /* phase */
    GUOVSSALU_STATE_START_TIME = 36,                                     /* moment */
    GUOVSSALU_STATE_PHASE_START_TIME = 37,                               /* moment */
    GUOVSSALU_STATE_ROUNDS_IN_PHASE = 38,                                /* number */
    GUOVSSALU_STATE_ROUNDS_SINCE_PROBE = 39,                             /* number */
    GUOVSSALU_STATE_PROBE_WAIT_TIME_SET = 40,                            /* flag */
    GUOVSSALU_STATE_PROBE_WAIT_TIME = 41,                                /* length */
    GUOVSSALU_STATE_PROBE_UP_ROUNDS = 42,                                /* number */
    GUOVSSALU_STATE_PROBE_UP_BYTES_SET = 43,                             /* flag */
    GUOVSSALU_STATE_PROBE_UP_BYTES = 44,                                 /* bytes */
    GUOVSSALU_STATE_PROBE_UP_ACKED = 45,                                 /* bytes */
    GUOVSSALU_STATE_PROBE_UP_APP_LIMITED_SINCE_INFLIGHT_HI_LIMITED = 46, /* flag */
    GUOVSSALU_STATE_HAS_ADVANCED_MAX_BW = 47,                            /* flag */
    GUOVSSALU_STATE_IS_SAMPLE_FROM_PROBING = 48,                         /* flag */
    GUOVSSALU_STATE_LAST_CYCLE_PROBED_TOO_HIGH = 49,                     /* flag */
    GUOVSSALU_STATE_LAST_CYCLE_STOPPED_RISKY_PROBE = 50                  /* flag */
};

/* What the state's word GUOVSSALU_STATE_PHASE is. */
enum {
    GUOVSSALU_PHASE_NOT_STARTED = 0,
    GUOVSSALU_PHASE_UP = 1,
    GUOVSSALU_PHASE_DOWN = 2,
    GUOVSSALU_PHASE_CRUISE = 3,
    GUOVSSALU_PHASE_REFILL = 4
};

/* Words of a pair of the filter run, of its answer to a pair, and of the slope's output. */
enum {
    GUOVSSALU_PAIR_TIME = 0,             /* number */
    GUOVSSALU_PAIR_SAMPLE = 1,           /* number */
    GUOVSSALU_SAMPLES_BEST = 0,          /* number */
    GUOVSSALU_SAMPLES_SECOND = 1,        /* number */
    GUOVSSALU_SAMPLES_THIRD = 2,         /* number */
    GUOVSSALU_SAMPLES_REASON = 3,        /* reason */
    GUOVSSALU_SLOPE_PROBE_UP_ROUNDS = 0, /* number */
    GUOVSSALU_SLOPE_PROBE_UP_BYTES = 1   /* bytes */
};

/* Why the filter's estimates moved, its word GUOVSSALU_SAMPLES_REASON: the step that acted last. Too old is
 * older than the window.
 *   0  step 1: empty, a sample above the best, or the third too old: all three are the sample
 *   1  step 2: above the second: second and third are the sample
 *   2  step 2: above the third: the third is the sample
 *   3  step 3: the best too old: second and third move up, the third is the sample
 *   4  step 3: best and second too old: the third is the best, the others the sample
 *   5  step 4: the second, equal to the best, older than a quarter window: it and the third are the sample
 *   6  step 5: the third, equal to the second, older than half a window: it is the sample
 *   7  no step acted: the filter is as it was */
enum {
    GUOVSSALU_REASON_ALL_REPLACED = 0,
    GUOVSSALU_REASON_SECOND_RAISED = 1,
    GUOVSSALU_REASON_THIRD_RAISED = 2,
    GUOVSSALU_REASON_PROMOTED_ONCE = 3,
    GUOVSSALU_REASON_PROMOTED_TWICE = 4,
    GUOVSSALU_REASON_QUARTER_REFRESH = 5,
    GUOVSSALU_REASON_HALF_REFRESH = 6,
    GUOVSSALU_REASON_UNCHANGED = 7
};
/* -- end -- */

/* ---- Packet numbers.
 *
 * An event, GUOVSSALU_CALL_ON_CONGESTION_EVENT_START, that acks a packet which was never sent is refused
 * with GUOVSSALU_NEVER_SENT, and nothing of it counts: where one of its numbers is above the last sent
 * one, and where it has a number and nothing was sent since the start. The last sent one is the number
 * of the last send, and not the greatest that was sent; a number up to it is taken, whether it was
 * sent or not.
 *
 * So a model's packets are numbered in one rising row, in the order in which they are sent. QUIC has
 * three packet number spaces, each from 0: whoever feeds several of them into one model numbers the
 * packets of all of them in that one row. Otherwise honest acks are refused: packet 3 (Initial) is sent,
 * then packet 0 (Handshake), and the ack of 3 gets GUOVSSALU_NEVER_SENT. */

/* Carries out calls in order on the state in lent bytes, and leaves the new state there: the model
 * and its cycle, GUOVSSALU_STATE_BYTES. A call has GUOVSSALU_CALL_BYTES, its answer
 * GUOVSSALU_ANSWER_BYTES; docs/LAYOUT.md says how each word is written. Begin with a start,
 * GUOVSSALU_CALL_START, on a state of zeros. Bytes of answers past the last keep what they held.
 *
 * The first word of a call's answer, GUOVSSALU_REPLY_IN_ANSWER, is 0 where the call was done, and the
 * refusal, whose row is 1 to 5 or 10, where it was refused; the run goes on. Where several rows apply,
 * the first of 1, 2, 3, 4, 10 and 5 is given. The run's own reply of 0 says nothing of its calls: look at
 * each answer. A refused call changes nothing, but for a start, which then replaces the state by a fresh
 * one at moment 0: look at its answer before going on.
 *
 * A call's words are tested. A flag that is neither 0 nor 1, an f32 with bits above the 32nd, two
 * words of a number that may be unset that are neither 1 and the number nor 0 and 0, and a count of
 * acked numbers above 3 refuse the call that uses them: with 2.8 at the argument's place, or with 1 in
 * the parameters. So a flag is written as (flag ? 1 : 0). A number that is no call's is refused with 2.8
 * at 0, or with 1 where the stored model is out of bounds.
 *
 * An event's acked numbers may stand in any order: the greatest counts. An event with a number above
 * the last sent one, or with any before the first send, is refused with 10. More than 3 of them go by
 * guovssalu_run_lists.
 *
 * The run itself replies 1 for bytes that encode no state, 2.8 at 1 for a state of another length, 2.8 at
 * 2 for a part of a call, 7 for answers too short for the calls. */
uint64_t guovssalu_run(uint8_t *state, size_t state_len, const uint8_t *calls, size_t calls_len,
                       uint8_t *answers, size_t answers_len);

/* The same as guovssalu_run, with lists beside the calls, from which an event can take as many acked
 * numbers as there are. The lists are lists_len numbers, only read; with the length 0 the pointer is
 * not used, and the run is guovssalu_run.
 *
 * An event, GUOVSSALU_CALL_ON_CONGESTION_EVENT_START, has n acked numbers, its word
 * GUOVSSALU_SAMPLE_ACKED_COUNT. Up to GUOVSSALU_MOST_ACKED stand in the event itself, from the word
 * GUOVSSALU_SAMPLE_ACKED_PACKETS on, and the lists are not looked at. More stand in the lists: they are
 * the n numbers from place s on, counted from 0, where s is the event's word
 * GUOVSSALU_SAMPLE_ACKED_PACKETS; the two words after that are not looked at. Where the lists don't hold
 * them all, s + n being above lists_len, that event is refused with 2.8 at 1, or with 1 where that applies
 * too, and the run goes on. Events may take the same numbers.
 *
 * The run's own replies are those of guovssalu_run, whatever the lists are. */
uint64_t guovssalu_run_lists(uint8_t *state, size_t state_len, const uint8_t *calls, size_t calls_len,
                             const uint64_t *lists, size_t lists_len, uint8_t *answers,
                             size_t answers_len);

/* ---- The round-trip estimator: the latest sample, the least, the smoothed round trip and its variation,
 * as RFC 9002 section 5 has them, in whole nanoseconds.
 *
 * It is no part of the model. It has a state of its own, and calls of its own, which are numbered from 0
 * too. */

/* -- the round-trip estimator of docs/calls.txt -- */
/* The numbers of the estimator's calls: the word GUOVSSALU_RTT_NUMBER_IN_CALL of a call. Beside each its
 * arguments in the order of their words. */
enum {
    GUOVSSALU_RTT_CALL_NEW = 0,                 /* initial_rtt, max_ack_delay */
    GUOVSSALU_RTT_CALL_UPDATE_RTT = 1,          /* latest_rtt, ack_delay, handshake_confirmed */
    GUOVSSALU_RTT_CALL_UPDATE_MAX_ACK_DELAY = 2 /* max_ack_delay */
};

/* Their arguments: words of a call. Beside each its kind, what a bad one is refused with, and its place. */
enum {
    GUOVSSALU_RTT_ARG_NEW_INITIAL_RTT = 1,                   /* length; 2.4 at 1 */
    GUOVSSALU_RTT_ARG_NEW_MAX_ACK_DELAY = 2,                 /* length; 2.4 at 2 */
    GUOVSSALU_RTT_ARG_UPDATE_RTT_LATEST_RTT = 1,             /* length; 2.4 at 1 */
    GUOVSSALU_RTT_ARG_UPDATE_RTT_ACK_DELAY = 2,              /* length; 2.4 at 2 */
    GUOVSSALU_RTT_ARG_UPDATE_RTT_HANDSHAKE_CONFIRMED = 3,    /* flag; 2.8 at 3 */
    GUOVSSALU_RTT_ARG_UPDATE_MAX_ACK_DELAY_MAX_ACK_DELAY = 1 /* length; 2.4 at 1 */
};

/* Words of the estimator. */
enum {
    GUOVSSALU_RTT_STATE_LATEST_RTT = 0,          /* length */
    GUOVSSALU_RTT_STATE_MIN_RTT = 1,             /* length */
    GUOVSSALU_RTT_STATE_SMOOTHED_RTT = 2,        /* length */
    GUOVSSALU_RTT_STATE_RTTVAR = 3,              /* length */
    GUOVSSALU_RTT_STATE_MAX_ACK_DELAY = 4,       /* length */
    GUOVSSALU_RTT_STATE_HAS_FIRST_RTT_SAMPLE = 5 /* flag */
};

/* Words of an answer: the reply, and the estimator's numbers after the call. */
enum {
    GUOVSSALU_RTT_ANSWER_REPLY = 0,        /* reply */
    GUOVSSALU_RTT_ANSWER_LATEST_RTT = 1,   /* length */
    GUOVSSALU_RTT_ANSWER_MIN_RTT = 2,      /* length or unset */
    GUOVSSALU_RTT_ANSWER_SMOOTHED_RTT = 3, /* length */
    GUOVSSALU_RTT_ANSWER_RTTVAR = 4        /* length */
};
/* -- end -- */

/* Carries out calls in order on the round-trip estimator in lent bytes, and leaves it there as it then is:
 * GUOVSSALU_RTT_STATE_BYTES. A call has GUOVSSALU_RTT_CALL_BYTES, its answer GUOVSSALU_RTT_ANSWER_BYTES;
 * docs/LAYOUT.md says how each word is written. Begin with GUOVSSALU_RTT_CALL_NEW, on a state of zeros.
 * Bytes of answers past the last keep what they held.
 *
 * Zeros are taken for what they say. A call of zeros is a new of 0 and 0, and it is done: a record of a
 * run that was left unfilled begins anew, with reply 0. An update on a state of zeros, where the new was
 * forgotten, is done too, with a max_ack_delay of 0.
 *
 * An answer has the call's reply, GUOVSSALU_RTT_ANSWER_REPLY, and after it four numbers of the estimator
 * as the call left it. A refused call has its refusal there, whose row is 1 or 2, and four times 0; the
 * run goes on. The run's own reply of 0 says nothing of its calls: look at each answer. A refused call
 * changes nothing, but for a new, which then leaves an estimator of zeros.
 *
 * Until the first sample the least one, GUOVSSALU_RTT_ANSWER_MIN_RTT, is GUOVSSALU_UNSET in an answer,
 * while the state's word, GUOVSSALU_RTT_STATE_MIN_RTT, is initial_rtt. To ask without a sample, read the
 * state's words, or call GUOVSSALU_RTT_CALL_UPDATE_MAX_ACK_DELAY with what max_ack_delay already is.
 *
 * An update, GUOVSSALU_RTT_CALL_UPDATE_RTT, takes a sample, the delay with which the peer says that it
 * acked, and whether the handshake is confirmed: if it is, the delay counts as max_ack_delay at most. The
 * delay is taken off where that leaves no less than the least sample. The first sample since the new is
 * taken as it is. GUOVSSALU_RTT_CALL_UPDATE_MAX_ACK_DELAY sets max_ack_delay alone.
 *
 * The delay is what the peer wrote, and can be any number: above 2^36 ns the call is refused and the
 * sample not taken, the first one neither. Cut it first, to GUOVSSALU_LONGEST.
 *
 * Proved of all updates since a new, those that were refused left out: the smoothed round trip is never
 * above the average that exact fractions have of the same samples, less the same delays, and less than 14
 * ns below it. The variation is less than 20 ns below the exact one, and less than 14 ns above it.
 *
 * A call is refused with 1 where a stored length is above 2^36 ns, but for a new, which reads none; with
 * 2.4 at the argument's place for a length above 2^36 ns, with 2.8 at 3 for a flag that is neither 0 nor 1,
 * with 2.8 at 0 for a number that is no call's.
 *
 * The run itself replies 1 where the last word of the state, GUOVSSALU_RTT_STATE_HAS_FIRST_RTT_SAMPLE, is
 * neither 0 nor 1, also where the first call is a new; 2.8 at 1 for a state of another length, 2.8 at 2 for
 * a part of a call, 7 for answers too short for the calls. */
uint64_t guovssalu_rtt_run(uint8_t *state, size_t state_len, const uint8_t *calls, size_t calls_len,
                           uint8_t *answers, size_t answers_len);

#ifdef __cplusplus
}
#endif

#endif
