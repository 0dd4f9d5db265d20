/*
 * A list of acked numbers, from C: an event acks 1000 packets, from the last down to the first, and ends
 * the round at once, since the greatest number counts. The numbers stand in lists that the run is lent.
 * And two events that are refused: one without its lists, one that acks a packet which was never sent.
 */
#include "guovssalu.h"

#include <stdio.h>
#include <string.h>

enum { PACKETS = 1000, END = 500, WORD = sizeof(uint64_t) };

/* A start, the sends, a restart of the round between them, and the event. */
enum { CALLS = PACKETS + 3 };

static uint8_t state[GUOVSSALU_STATE_BYTES];
static uint8_t calls[CALLS * GUOVSSALU_CALL_BYTES];
static uint8_t answers[CALLS * GUOVSSALU_ANSWER_BYTES];
static uint64_t lists[PACKETS];
static size_t count;

/* Puts a number into a word of the last call, the lowest byte first. */
static void put(size_t word, uint64_t n) {
    uint8_t *call = calls + (count - 1) * GUOVSSALU_CALL_BYTES;
    for (size_t i = 0; i < WORD; i++)
        call[WORD * word + i] = (uint8_t)(n >> (8 * i));
}

/* A word of the answer to a call, of calls 0, 1, .. */
static uint64_t get(size_t call, size_t word) {
    const uint8_t *answer = answers + call * GUOVSSALU_ANSWER_BYTES;
    uint64_t n = 0;
    for (size_t i = WORD; i > 0; i--)
        n = n << 8 | answer[WORD * word + i - 1];
    return n;
}

/* The original's own parameters. */
static const uint64_t params[GUOVSSALU_PARAMS_WORDS] = {
    [GUOVSSALU_PARAMS_BETA] = 0x3e99999a,
    [GUOVSSALU_PARAMS_LOSS_THRESHOLD] = 0x3c75c28f,
    [GUOVSSALU_PARAMS_INFLIGHT_HI_HEADROOM] = 0x3e19999a,
    [GUOVSSALU_PARAMS_FULL_BW_THRESHOLD] = 0x3fa00000,
    [GUOVSSALU_PARAMS_STARTUP_CWND_GAIN] = 0x40000000,
    [GUOVSSALU_PARAMS_STARTUP_PACING_GAIN] = 0x403178d5,
    [GUOVSSALU_PARAMS_STARTUP_FULL_BW_ROUNDS] = 3,
    [GUOVSSALU_PARAMS_PROBE_RTT_PERIOD] = 10000000000,
    [GUOVSSALU_PARAMS_PROBE_BW_PROBE_BASE_DURATION] = 2000000000,
    [GUOVSSALU_PARAMS_IGNORE_APP_LIMITED_FOR_NO_BANDWIDTH_GROWTH] = 1,
};

/* One more call, with the parameters. */
static void add(uint64_t number) {
    count++;
    put(GUOVSSALU_NUMBER_IN_CALL, number);
    for (size_t i = 0; i < GUOVSSALU_PARAMS_WORDS; i++)
        put(GUOVSSALU_PARAMS_IN_CALL + i, params[i]);
}

/* The calls: an ack past packet END ends the round. */
static void write_calls(void) {
    add(GUOVSSALU_CALL_START);
    put(GUOVSSALU_ARG_START_INITIAL_RTT, 100000000);
    for (uint64_t packet = 1; packet <= PACKETS; packet++) {
        add(GUOVSSALU_CALL_ON_PACKET_SENT);
        put(GUOVSSALU_ARG_ON_PACKET_SENT_PACKET_NUMBER, packet);
        put(GUOVSSALU_ARG_ON_PACKET_SENT_BYTES, 1300);
        if (packet == END)
            add(GUOVSSALU_CALL_RESTART_ROUND_EARLY);
        lists[PACKETS - packet] = packet;
    }
    add(GUOVSSALU_CALL_ON_CONGESTION_EVENT_START);
    put(GUOVSSALU_SAMPLE_ACKED_COUNT, PACKETS);
    put(GUOVSSALU_SAMPLE_ACKED_PACKETS, 0);
}

int main(void) {
    write_calls();
    uint64_t refused = guovssalu_run_lists(state, sizeof state, calls, sizeof calls, lists, PACKETS,
                                           answers, sizeof answers);
    for (size_t i = 0; i < CALLS; i++)
        refused |= get(i, GUOVSSALU_REPLY_IN_ANSWER);
    uint64_t ended = get(CALLS - 1, GUOVSSALU_EVENT_IN_ANSWER + GUOVSSALU_EVENT_END_OF_ROUND_TRIP);
    printf("acked %d down to %d, the round's end at %d\n", (int)lists[0], (int)lists[PACKETS - 1], END);
    printf("with the lists: reply %d, round ended %d\n", (int)refused, (int)ended);

    /* A run without lists refuses the event: it has room for GUOVSSALU_MOST_ACKED numbers. A reply to a bad
     * argument has three parts: here 2.8 at 1, for a list of a wrong length that is the first argument. */
    memset(state, 0, sizeof state);
    refused |= guovssalu_run(state, sizeof state, calls, sizeof calls, answers, sizeof answers);
    uint64_t without = get(CALLS - 1, GUOVSSALU_REPLY_IN_ANSWER);
    printf("without: reply %d.%d at %d\n", (int)GUOVSSALU_ROW(without), (int)GUOVSSALU_KIND(without),
           (int)GUOVSSALU_PLACE(without));

    /* A number above the last sent one, wherever it stands, refuses the event as a whole. */
    lists[PACKETS / 2] = PACKETS + 1;
    memset(state, 0, sizeof state);
    refused |= guovssalu_run_lists(state, sizeof state, calls, sizeof calls, lists, PACKETS, answers,
                                   sizeof answers);
    uint64_t unsent = get(CALLS - 1, GUOVSSALU_REPLY_IN_ANSWER);
    printf("with %d among the numbers, which was never sent: reply %d\n", PACKETS + 1, (int)unsent);
    return refused != 0 || ended != 1 || GUOVSSALU_ROW(without) != GUOVSSALU_BAD_ARGUMENT ||
           GUOVSSALU_KIND(without) != GUOVSSALU_FAULT_LIST_LENGTH || GUOVSSALU_PLACE(without) != 1 ||
           unsent != GUOVSSALU_NEVER_SENT;
}
