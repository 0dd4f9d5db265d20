/*
 * The round-trip estimator, from C: one run with a fresh estimator, two samples, and an update that is
 * refused, since its ack delay is too long. docs/LAYOUT.md, "The round-trip estimator", has the same run
 * worked out.
 */
#include "guovssalu.h"

#include <stdio.h>

enum { CALLS = 4, NUMBERS = 4, WORD = sizeof(uint64_t) };

/* The state has to be 48 bytes of zeros or of an estimator, also for a new: where the last word of them, a
 * flag, is neither 0 nor 1, the run is refused with 1. Here they are static, and so zeros. */
static uint8_t state[GUOVSSALU_RTT_STATE_BYTES];
static uint8_t calls[CALLS * GUOVSSALU_RTT_CALL_BYTES];
static uint8_t answers[CALLS * GUOVSSALU_RTT_ANSWER_BYTES];
static size_t count;

/* What each call is answered: latest_rtt, min_rtt, smoothed_rtt and rttvar, zeros where it is refused. */
static const uint64_t expected[CALLS][NUMBERS] = {
    {0, GUOVSSALU_UNSET, 333000000, 166500000},
    {80000001, 80000001, 80000001, 40000000},
    {90000000, 80000001, 80625000, 31249999},
    {0, 0, 0, 0},
};

/* Puts a number into a word of the last call, the lowest byte first. */
static void put(size_t word, uint64_t n) {
    uint8_t *call = calls + (count - 1) * GUOVSSALU_RTT_CALL_BYTES;
    for (size_t i = 0; i < WORD; i++)
        call[WORD * word + i] = (uint8_t)(n >> (8 * i));
}

/* A word of an answer or of the state. */
static uint64_t get(const uint8_t *bytes, size_t word) {
    uint64_t n = 0;
    for (size_t i = WORD; i > 0; i--)
        n = n << 8 | bytes[WORD * word + i - 1];
    return n;
}

/* One more call. */
static void add(uint64_t number) {
    count++;
    put(GUOVSSALU_RTT_NUMBER_IN_CALL, number);
}

static void add_update(uint64_t latest_rtt, uint64_t ack_delay, int handshake_confirmed) {
    add(GUOVSSALU_RTT_CALL_UPDATE_RTT);
    put(GUOVSSALU_RTT_ARG_UPDATE_RTT_LATEST_RTT, latest_rtt);
    put(GUOVSSALU_RTT_ARG_UPDATE_RTT_ACK_DELAY, ack_delay);
    put(GUOVSSALU_RTT_ARG_UPDATE_RTT_HANDSHAKE_CONFIRMED, handshake_confirmed ? 1 : 0);
}

/* Says why an update was refused. */
static void say(uint64_t reply) {
    static const char *const arguments[] = {"latest_rtt", "ack_delay", "handshake_confirmed"};
    uint64_t kind = GUOVSSALU_KIND(reply), place = GUOVSSALU_PLACE(reply);
    if (GUOVSSALU_ROW(reply) == GUOVSSALU_BAD_ARGUMENT && 1 <= place && place <= 3)
        printf("refused, 2.%d at %d: %s %s\n", (int)kind, (int)place, arguments[place - 1],
               kind == GUOVSSALU_FAULT_LENGTH ? "is longer than 2^36 ns" : "is neither 0 nor 1");
    else
        printf("refused, %d\n", (int)reply);
}

/* Prints an answer; whether it has what is expected. */
static int show(size_t call) {
    const uint8_t *answer = answers + call * GUOVSSALU_RTT_ANSWER_BYTES;
    uint64_t reply = get(answer, GUOVSSALU_RTT_ANSWER_REPLY), n[NUMBERS];
    int as_expected = 1;
    for (size_t i = 0; i < NUMBERS; i++) {
        n[i] = get(answer, GUOVSSALU_RTT_ANSWER_LATEST_RTT + i);
        as_expected &= n[i] == expected[call][i];
    }
    if (reply != GUOVSSALU_DONE) {
        say(reply);
        return as_expected;
    }
    printf("%10llu", (unsigned long long)n[0]);
    if (n[1] == GUOVSSALU_UNSET)
        printf("  %9s", "none");
    else
        printf("  %9llu", (unsigned long long)n[1]);
    printf("  %12llu  %9llu\n", (unsigned long long)n[2], (unsigned long long)n[3]);
    return as_expected;
}

int main(void) {
    add(GUOVSSALU_RTT_CALL_NEW);
    put(GUOVSSALU_RTT_ARG_NEW_INITIAL_RTT, 333000000);
    put(GUOVSSALU_RTT_ARG_NEW_MAX_ACK_DELAY, 25000000);
    add_update(80000001, 0, 0);
    add_update(90000000, 5000000, 1);
    /* What a peer wrote is cut to GUOVSSALU_LONGEST first. This one is not. */
    add_update(90000000, GUOVSSALU_LONGEST + 1, 1);
    uint64_t reply =
        guovssalu_rtt_run(state, sizeof state, calls, sizeof calls, answers, sizeof answers);
    int as_expected = reply == GUOVSSALU_DONE;

    puts("latest_rtt    min_rtt  smoothed_rtt     rttvar");
    for (size_t call = 0; call < CALLS; call++)
        as_expected &= show(call);

    /* The refused update left the estimator as the one before it did. */
    uint64_t kept = get(state, GUOVSSALU_RTT_STATE_SMOOTHED_RTT);
    printf("smoothed_rtt stays %llu\n", (unsigned long long)kept);
    uint64_t refused = get(answers + (CALLS - 1) * GUOVSSALU_RTT_ANSWER_BYTES, GUOVSSALU_RTT_ANSWER_REPLY);
    as_expected &= GUOVSSALU_ROW(refused) == GUOVSSALU_BAD_ARGUMENT &&
                   GUOVSSALU_KIND(refused) == GUOVSSALU_FAULT_LENGTH && GUOVSSALU_PLACE(refused) == 2;
    return as_expected && kept == 80625000 ? 0 : 1;
}
