/* memory TWO: drives a memory of two channels, of examples/cases/two_channels, through each call, and compares with
 * what was worked out by hand. Line 0 lies in channel 0, line 1 in channel 1. */
#include "common.h"

static void expect_command(struct dramsim_memory *memory, uint32_t channel, uint64_t cycle, uint8_t kind, uint64_t entry) {
    struct dramsim_command command;
    uint32_t number = 9;
    EXPECT(dramsim_memory_next_command(memory, &number, &command), true);
    EXPECT(number, channel);
    EXPECT(command.cycle, cycle);
    EXPECT(command.kind, kind);
    EXPECT(command.entry, entry);
}

static void expect_reply(struct dramsim_memory *memory, uint32_t channel, uint64_t arrival, uint8_t kind, uint64_t entry) {
    struct dramsim_reply reply;
    uint32_t number = 9;
    EXPECT(dramsim_memory_next_reply(memory, &number, &reply), true);
    EXPECT(number, channel);
    EXPECT(reply.arrival, arrival);
    EXPECT(reply.kind, kind);
    EXPECT(reply.core, 0);
    EXPECT(reply.entry, entry);
}

/* A read of each channel in cycle 2, and one more of channel 1 in cycle 4, of the row that is open then: nRCD = 3,
 * nCCD_L = 5. */
static const struct dramsim_request sent[] = {{0, 2, 0, 0, false}, {64, 2, 1, 0, false}, {192, 4, 2, 0, false}};

/* The arrival in 4, and the commands in the other cycles. */
static void events(struct dramsim_memory *memory) {
    const uint64_t cycles[] = {2, 4, 5, 10};
    uint64_t cycle = 99;
    EXPECT(dramsim_memory_next_act(memory, &cycle), false);
    EXPECT(cycle, 99);
    for (size_t at = 0; at < sizeof sent / sizeof *sent; at++) EXPECT(dramsim_memory_send(memory, &sent[at]), DRAMSIM_OK);
    for (size_t at = 0; at < sizeof cycles / sizeof *cycles; at++) {
        EXPECT(dramsim_memory_next_act(memory, &cycle), true);
        EXPECT(cycle, cycles[at]);
        EXPECT(dramsim_memory_run(memory, cycle + 1), DRAMSIM_OK);
        EXPECT(dramsim_memory_now(memory), cycle + 1);
    }
    EXPECT(dramsim_memory_next_act(memory, &cycle), false);
    EXPECT(dramsim_memory_run(memory, 60), DRAMSIM_OK);
}

/* Commands by cycle and then by channel. Of the next reply of each channel, the one that arrives first: a credit comes
 * 2 after its RD, data nCL + 4 + 2 after it, and a channel sends the data first. */
static void rows(struct dramsim_memory *memory) {
    struct dramsim_command command = {.cycle = 7};
    struct dramsim_reply reply = {.arrival = 7};
    uint32_t number = 9;
    expect_command(memory, 0, 2, DRAMSIM_ACT, 0);
    expect_command(memory, 1, 2, DRAMSIM_ACT, 1);
    expect_command(memory, 0, 5, DRAMSIM_RD, 0);
    expect_command(memory, 1, 5, DRAMSIM_RD, 1);
    expect_command(memory, 1, 10, DRAMSIM_RD, 2);
    EXPECT(dramsim_memory_next_command(memory, &number, &command), false);
    expect_reply(memory, 0, 15, DRAMSIM_DATA, 0);
    expect_reply(memory, 0, 7, DRAMSIM_READ_CREDIT, 0);
    expect_reply(memory, 1, 15, DRAMSIM_DATA, 1);
    expect_reply(memory, 1, 7, DRAMSIM_READ_CREDIT, 1);
    expect_reply(memory, 1, 20, DRAMSIM_DATA, 2);
    expect_reply(memory, 1, 12, DRAMSIM_READ_CREDIT, 2);
    EXPECT(dramsim_memory_next_reply(memory, &number, &reply), false);
    EXPECT(number, 9);
    EXPECT(command.cycle, 7);
    EXPECT(reply.arrival, 7);
}

static void statistics(struct dramsim_memory *memory) {
    struct dramsim_statistics stats;
    EXPECT(dramsim_memory_stats(memory, 0, &stats), DRAMSIM_OK);
    EXPECT(stats.rd, 1);
    EXPECT(stats.hits, 0);
    EXPECT(dramsim_memory_stats(memory, 1, &stats), DRAMSIM_OK);
    EXPECT(stats.act, 1);
    EXPECT(stats.rd, 2);
    EXPECT(stats.hits, 1);
    stats.rd = 7;
    EXPECT(dramsim_memory_stats(memory, 2, &stats), DRAMSIM_NO_SUCH_CHANNEL);
    EXPECT(dramsim_memory_stats(memory, UINT32_MAX, &stats), DRAMSIM_NO_SUCH_CHANNEL);
    EXPECT(stats.rd, 7);
}

/* The channel is the lowest digit of a line, and then come 128 columns, 2 groups, 4 banks and the rows: row 1 begins at
 * 2 * 65,536 bytes. */
static void places(struct dramsim_memory *memory) {
    struct dramsim_line_place row, none = {2, 0, 0, 0, 0, 0};
    uint64_t found = 7;
    EXPECT(dramsim_memory_place(memory, 2 * 65536 + 64 + 2 * 3 * 64, &row), true);
    EXPECT(row.channel, 1);
    EXPECT(row.row, 1);
    EXPECT(row.column, 3);
    EXPECT(dramsim_memory_address(memory, &none, &found), DRAMSIM_NO_SUCH_PLACE);
    EXPECT(found, 7);
    EXPECT(dramsim_memory_address(memory, &row, &found), DRAMSIM_OK);
    EXPECT(found, 2 * 65536 + 64 + 2 * 3 * 64);
}

/* At cycle 60: a channel takes no notice of what was sent to the other one. */
static void refusals(struct dramsim_memory *memory, const uint8_t *text, size_t length) {
    struct dramsim_request past = {0, 59, 3, 0, false}, core = {0, 60, 3, 1, false}, entry = {192, 60, 2, 0, false}, last = {0, 60, UINT64_MAX, 0, false};
    struct dramsim_request late = {64, 90, 9, 0, true}, order = {192, 89, 10, 0, false}, early = {0, 60, 3, 0, false};
    EXPECT(dramsim_memory_open(text, length, memory), DRAMSIM_ALREADY_OPEN);
    EXPECT(dramsim_memory_send(memory, &past), DRAMSIM_IN_THE_PAST);
    EXPECT(dramsim_memory_send(memory, &core), DRAMSIM_NO_SUCH_CORE);
    EXPECT(dramsim_memory_send(memory, &entry), DRAMSIM_ENTRY_PASSED);
    EXPECT(dramsim_memory_send(memory, &last), DRAMSIM_ENTRY_PASSED);
    EXPECT(dramsim_memory_send(memory, &late), DRAMSIM_OK);
    EXPECT(dramsim_memory_send(memory, &order), DRAMSIM_OUT_OF_ORDER);
    EXPECT(dramsim_memory_send(memory, &early), DRAMSIM_OK);
    /* One core has 4 credits for reads and 4 for writes at each channel. */
    for (uint64_t more = 1; more < 8; more++) {
        struct dramsim_request next = {64 + 128 * more, 90 + more, 9 + more, 0, false};
        EXPECT(dramsim_memory_send(memory, &next), DRAMSIM_OK);
    }
    struct dramsim_request credit = {64, 98, 17, 0, false};
    EXPECT(dramsim_memory_send(memory, &credit), DRAMSIM_NO_CREDIT);
    EXPECT(dramsim_memory_run(memory, 59), DRAMSIM_END_PASSED);
    EXPECT(dramsim_memory_run(memory, (UINT64_C(1) << 62) + 1), DRAMSIM_END_TOO_LATE);
    EXPECT(dramsim_memory_now(memory), 60);
}

static void closed(struct dramsim_memory *memory, const uint8_t *text, size_t length) {
    struct dramsim_command command;
    struct dramsim_reply reply;
    struct dramsim_statistics stats;
    struct dramsim_line_place place = {0, 0, 0, 0, 0, 0};
    uint64_t number = 7;
    uint32_t channel = 7;
    EXPECT(dramsim_memory_send(memory, &sent[0]), DRAMSIM_CLOSED);
    EXPECT(dramsim_memory_run(memory, 61), DRAMSIM_CLOSED);
    EXPECT(dramsim_memory_next_command(memory, &channel, &command), false);
    EXPECT(dramsim_memory_next_reply(memory, &channel, &reply), false);
    EXPECT(dramsim_memory_next_act(memory, &number), false);
    EXPECT(dramsim_memory_stats(memory, 0, &stats), DRAMSIM_CLOSED);
    EXPECT(dramsim_memory_place(memory, 0, &place), false);
    EXPECT(dramsim_memory_address(memory, &place, &number), DRAMSIM_CLOSED);
    EXPECT(dramsim_memory_now(memory), 0);
    EXPECT(number, 7);
    EXPECT(channel, 7);
    EXPECT(dramsim_memory_open(text, length - 3, memory), DRAMSIM_CONFIGURATION);
    EXPECT(dramsim_memory_now(memory), 0);
}

int main(int count, char **words) {
    static uint8_t text[1 << 16];
    if (count != 2) { fprintf(stderr, "memory TWO\n"); return 2; }
    size_t length = read_text(words[1], text, sizeof text);
    struct dramsim_memory memory = DRAMSIM_CLOSED_MEMORY;
    closed(&memory, text, length);
    EXPECT(dramsim_memory_open(text, length, &memory), DRAMSIM_OK);
    events(&memory);
    rows(&memory);
    statistics(&memory);
    places(&memory);
    refusals(&memory, text, length);
    dramsim_memory_close(&memory);
    dramsim_memory_close(&memory);
    closed(&memory, text, length);
    return 0;
}
