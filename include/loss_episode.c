/*
 * A loss episode at beta 0.3, from C: each round loses a packet, and inflight_lo falls from a window
 * of 1300 bytes to 910, 637 and 445. The header has the names, docs/LAYOUT.md how words are written.
 */
#include "guovssalu.h"

#include <stdio.h>
#include <string.h>

enum { WINDOW = 1300, WORD = sizeof(uint64_t) };

static uint8_t state[GUOVSSALU_STATE_BYTES];
static uint8_t call[GUOVSSALU_CALL_BYTES];
static uint8_t answer[GUOVSSALU_ANSWER_BYTES];

/* Puts a number into a word of the call, the lowest byte first. */
static void put(size_t word, uint64_t n) {
    for (size_t i = 0; i < WORD; i++)
        call[WORD * word + i] = (uint8_t)(n >> (8 * i));
}

/* A word of the answer. */
static uint64_t get(size_t word) {
    uint64_t n = 0;
    for (size_t i = WORD; i > 0; i--)
        n = n << 8 | answer[WORD * word + i - 1];
    return n;
}

/* The original's own parameters, with beta 0.3. */
static const uint64_t params[GUOVSSALU_PARAMS_WORDS] = {
    [GUOVSSALU_PARAMS_BETA] = 0x3e99999a,
    [GUOVSSALU_PARAMS_LOSS_THRESHOLD] = 0x3c75c28f,
    [GUOVSSALU_PARAMS_INFLIGHT_HI_HEADROOM] = 0x3e19999a,
    [GUOVSSALU_PARAMS_FULL_BW_THRESHOLD] = 0x3fa00000,
    [GUOVSSALU_PARAMS_STARTUP_CWND_GAIN] = 0x40000000,
    [GUOVSSALU_PARAMS_STARTUP_PACING_GAIN] = 0x403178d5,
    [GUOVSSALU_PARAMS_STARTUP_FULL_BW_ROUNDS] = 3,
    [GUOVSSALU_PARAMS_MAX_STARTUP_QUEUE_ROUNDS] = 0,
    [GUOVSSALU_PARAMS_PROBE_RTT_PERIOD] = 10000000000,
    [GUOVSSALU_PARAMS_PROBE_BW_PROBE_BASE_DURATION] = 2000000000,
    [GUOVSSALU_PARAMS_IGNORE_APP_LIMITED_FOR_NO_BANDWIDTH_GROWTH] = 1,
};

/* A call without arguments, with the parameters. */
static void begin(uint64_t number) {
    memset(call, 0, sizeof call);
    put(GUOVSSALU_NUMBER_IN_CALL, number);
    for (size_t i = 0; i < GUOVSSALU_PARAMS_WORDS; i++)
        put(GUOVSSALU_PARAMS_IN_CALL + i, params[i]);
}

/* Makes the call: its refusal, or 0. */
static uint64_t make(void) {
    uint64_t reply = guovssalu_run(state, sizeof state, call, sizeof call, answer, sizeof answer);
    return reply != GUOVSSALU_DONE ? reply : get(GUOVSSALU_REPLY_IN_ANSWER);
}

/* One round: a packet is sent, another is lost, and the ack of the first ends the round. */
static uint64_t lossy_round(uint64_t round) {
    uint64_t now = round * 100000000;
    begin(GUOVSSALU_CALL_ON_PACKET_SENT);
    put(GUOVSSALU_ARG_ON_PACKET_SENT_SENT_TIME, now);
    put(GUOVSSALU_ARG_ON_PACKET_SENT_PACKET_NUMBER, round);
    put(GUOVSSALU_ARG_ON_PACKET_SENT_BYTES, WINDOW);
    uint64_t refused = make();

    begin(GUOVSSALU_CALL_ON_CONGESTION_EVENT_START);
    put(GUOVSSALU_SAMPLE_TOTAL_BYTES_LOST, round * WINDOW);
    put(GUOVSSALU_SAMPLE_ACKED_COUNT, 1);
    put(GUOVSSALU_SAMPLE_ACKED_PACKETS, round);
    put(GUOVSSALU_EVENT_IN_CALL + GUOVSSALU_EVENT_TIME, now);
    put(GUOVSSALU_EVENT_IN_CALL + GUOVSSALU_EVENT_PRIOR_CWND, WINDOW);
    put(GUOVSSALU_EVENT_IN_CALL + GUOVSSALU_EVENT_PRIOR_BYTES_IN_FLIGHT, WINDOW);
    refused |= make();

    begin(GUOVSSALU_CALL_ON_CONGESTION_EVENT_FINISH);
    memcpy(call + WORD * GUOVSSALU_EVENT_IN_CALL, answer + WORD * GUOVSSALU_EVENT_IN_ANSWER,
           GUOVSSALU_EVENT_BYTES);
    return refused | make();
}

int main(void) {
    static const uint64_t expected[3] = {910, 637, 445};
    begin(GUOVSSALU_CALL_START);
    put(GUOVSSALU_ARG_START_INITIAL_RTT, 100000000);
    uint64_t refused = make();
    puts("round  inflight_lo");
    for (uint64_t round = 1; round <= 3; round++) {
        refused |= lossy_round(round);
        begin(GUOVSSALU_CALL_INFLIGHT_LO);
        refused |= make();
        printf("%5d  %11llu\n", (int)round, (unsigned long long)get(GUOVSSALU_VALUE_IN_ANSWER));
        refused |= get(GUOVSSALU_VALUE_IN_ANSWER) != expected[round - 1];
    }
    return refused != 0;
}
