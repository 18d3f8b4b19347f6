/* channel CONFIG TWO: drives a channel of examples/profile_s.toml through each call, and a channel of the same machine
 * with two channels, and compares with what was worked out by hand. */
#include "common.h"

#include <string.h>

static void expect_command(struct dramsim_channel *channel, uint64_t cycle, uint8_t kind, uint32_t row, uint64_t entry) {
    struct dramsim_command command;
    EXPECT(dramsim_next_command(channel, &command), true);
    EXPECT(command.cycle, cycle);
    EXPECT(command.kind, kind);
    EXPECT(command.row, row);
    EXPECT(command.entry, entry);
}

static void expect_reply(struct dramsim_channel *channel, uint64_t arrival, uint8_t kind, uint64_t entry) {
    struct dramsim_reply reply;
    EXPECT(dramsim_next_reply(channel, &reply), true);
    EXPECT(reply.arrival, arrival);
    EXPECT(reply.kind, kind);
    EXPECT(reply.core, 0);
    EXPECT(reply.entry, entry);
}

/* Two reads of one bank and two rows, the first in cycle 2: nRCD = 3, nRAS = 8, nRP = 3, nCL = 4, links of 2 cycles. */
static void row_conflict(struct dramsim_channel *channel) {
    struct dramsim_request first = {0, 2, 0, 0, false}, second = {65536, 4, 1, 0, false};
    EXPECT(dramsim_send(channel, &first), DRAMSIM_OK);
    EXPECT(dramsim_send(channel, &second), DRAMSIM_OK);
    for (uint64_t until = 5; until <= 60; until += 5) EXPECT(dramsim_run(channel, until), DRAMSIM_OK);
    EXPECT(dramsim_now(channel), 60);
    expect_command(channel, 2, DRAMSIM_ACT, 0, 0);
    expect_command(channel, 5, DRAMSIM_RD, 0, 0);
    expect_command(channel, 10, DRAMSIM_PRE, 0, 1);
    expect_command(channel, 13, DRAMSIM_ACT, 1, 1);
    expect_command(channel, 16, DRAMSIM_RD, 1, 1);
    expect_reply(channel, 5 + 4 + 4 + 2, DRAMSIM_DATA, 0);
    expect_reply(channel, 5 + 2, DRAMSIM_READ_CREDIT, 0);
    expect_reply(channel, 16 + 4 + 4 + 2, DRAMSIM_DATA, 1);
    expect_reply(channel, 16 + 2, DRAMSIM_READ_CREDIT, 1);
}

/* columns of 128 lines, then 2 groups and 4 banks: row 1 begins at 65,536 bytes. */
static void place(struct dramsim_channel *channel) {
    struct dramsim_line_place row;
    EXPECT(dramsim_place(channel, 65536 + 8192 + 3 * 64, &row), true);
    EXPECT(row.channel, 0);
    EXPECT(row.group, 1);
    EXPECT(row.bank, 0);
    EXPECT(row.row, 1);
    EXPECT(row.column, 3);
}

static void address(struct dramsim_channel *channel) {
    struct dramsim_line_place row = {0, 0, 1, 0, 1, 3}, none = {0, 0, 2, 0, 0, 0};
    uint64_t found = 7;
    EXPECT(dramsim_address(channel, &none, &found), DRAMSIM_NO_SUCH_PLACE);
    EXPECT(found, 7);
    EXPECT(dramsim_address(channel, &row, &found), DRAMSIM_OK);
    EXPECT(found, 65536 + 8192 + 3 * 64);
}

/* From event to event: two reads arrive in 2 and 4; commands in 2, 5, 10, 13 and 16. */
static void events(struct dramsim_channel *channel, const uint8_t *text, size_t length) {
    const uint64_t cycles[] = {2, 4, 5, 10, 13, 16};
    struct dramsim_request first = {0, 2, 0, 0, false}, second = {65536, 4, 1, 0, false};
    uint64_t cycle = 99;
    EXPECT(dramsim_open(text, length, 0, channel), DRAMSIM_OK);
    EXPECT(dramsim_next_act(channel, &cycle), false);
    EXPECT(cycle, 99);
    EXPECT(dramsim_send(channel, &first), DRAMSIM_OK);
    EXPECT(dramsim_send(channel, &second), DRAMSIM_OK);
    for (size_t at = 0; at < sizeof cycles / sizeof *cycles; at++) {
        EXPECT(dramsim_next_act(channel, &cycle), true);
        EXPECT(cycle, cycles[at]);
        EXPECT(dramsim_run(channel, cycle + 1), DRAMSIM_OK);
    }
    EXPECT(dramsim_next_act(channel, &cycle), false);
    dramsim_close(channel);
}

static void statistics(struct dramsim_channel *channel) {
    struct dramsim_statistics stats;
    EXPECT(dramsim_stats(channel, &stats), true);
    EXPECT(stats.act, 2);
    EXPECT(stats.rd, 2);
    EXPECT(stats.wr, 0);
    EXPECT(stats.pre, 1);
    EXPECT(stats.hits, 0);
    EXPECT(stats.queued_max, 2);
    /* in the queue: the first from 2 to 5, the second from 4 to 16 */
    EXPECT(stats.queued_low, 4 + 13);
    EXPECT(stats.queued_high, 0);
    EXPECT(stats.idle, 60 - 15);
}

static void refusals(struct dramsim_channel *channel, const uint8_t *text, size_t length) {
    struct dramsim_request past = {0, 59, 2, 0, false}, core = {0, 60, 2, 1, false}, entry = {0, 60, 1, 0, false};
    EXPECT(dramsim_open(text, length, 0, channel), DRAMSIM_ALREADY_OPEN);
    EXPECT(dramsim_send(channel, &past), DRAMSIM_IN_THE_PAST);
    EXPECT(dramsim_send(channel, &core), DRAMSIM_NO_SUCH_CORE);
    EXPECT(dramsim_send(channel, &entry), DRAMSIM_ENTRY_PASSED);
    struct dramsim_request last = {0, 60, UINT64_MAX, 0, false};
    EXPECT(dramsim_send(channel, &last), DRAMSIM_ENTRY_PASSED);
    for (uint64_t sent = 0; sent < 8; sent++) {
        struct dramsim_request next = {64 * sent, 60 + sent, 2 + sent, 0, sent % 2 == 1};
        EXPECT(dramsim_send(channel, &next), DRAMSIM_OK);
    }
    /* One core has 4 credits for reads and 4 for writes. */
    struct dramsim_request order = {0, 67, 10, 0, false}, credit = {0, 68, 10, 0, false};
    EXPECT(dramsim_send(channel, &order), DRAMSIM_OUT_OF_ORDER);
    EXPECT(dramsim_send(channel, &credit), DRAMSIM_NO_CREDIT);
    EXPECT(dramsim_run(channel, 59), DRAMSIM_END_PASSED);
    EXPECT(dramsim_run(channel, (UINT64_C(1) << 62) + 1), DRAMSIM_END_TOO_LATE);
    EXPECT(dramsim_now(channel), 60);
}

static void closed(struct dramsim_channel *channel, const uint8_t *text, size_t length) {
    struct dramsim_command command;
    struct dramsim_reply reply;
    struct dramsim_statistics stats;
    struct dramsim_request request = {0, 60, 2, 0, false};
    dramsim_close(channel);
    dramsim_close(channel);
    EXPECT(dramsim_send(channel, &request), DRAMSIM_CLOSED);
    EXPECT(dramsim_run(channel, 61), DRAMSIM_CLOSED);
    EXPECT(dramsim_next_command(channel, &command), false);
    EXPECT(dramsim_next_reply(channel, &reply), false);
    EXPECT(dramsim_stats(channel, &stats), false);
    EXPECT(dramsim_now(channel), 0);
    EXPECT(dramsim_open(text, length, 1, channel), DRAMSIM_NO_SUCH_CHANNEL);
    EXPECT(dramsim_open(text, length - 3, 0, channel), DRAMSIM_CONFIGURATION);
}

static void fault_text(const uint8_t *text, size_t length) {
    static const char wanted[] = "fault 1: configuration is not TOML";
    static uint8_t broken[] = "cores = ";
    uint8_t line[DRAMSIM_FAULT_ROOM];
    size_t found = 7;
    memset(line, 'x', sizeof line);
    EXPECT(dramsim_fault_text(broken, sizeof broken - 1, line, 33, &found), DRAMSIM_TOO_SHORT);
    EXPECT(found, 34);
    EXPECT(line[0], 'x');
    EXPECT(dramsim_fault_text(broken, sizeof broken - 1, line, 34, &found), DRAMSIM_OK);
    EXPECT(found, 34);
    EXPECT(memcmp(line, wanted, 34), 0);
    EXPECT(line[34], 'x');
    EXPECT(dramsim_fault_text(text, length, line, sizeof line, &found), DRAMSIM_OK);
    EXPECT(found, 0);
}

static void check(const uint8_t *text, size_t length) {
    static const char header[] = "cycle,channel,command,group,bank,row,column,core,entry\n";
    /* RD comes nRCD = 3 after ACT. */
    static const char rows[] = "cycle,channel,command,group,bank,row,column,core,entry\n2,0,ACT,0,0,0,,0,0\n4,0,RD,0,0,0,0,0,0\n";
    struct dramsim_verdict verdict = {7, 7};
    EXPECT(dramsim_check(text, length - 3, (const uint8_t *)rows, sizeof rows - 1, &verdict), DRAMSIM_CONFIGURATION);
    EXPECT(verdict.row, 7);
    EXPECT(dramsim_check(text, length, (const uint8_t *)rows, sizeof rows - 1, &verdict), DRAMSIM_BREAKS_RULE);
    EXPECT(verdict.row, 2);
    EXPECT(verdict.rule, 3);
    EXPECT(dramsim_check(text, length, (const uint8_t *)rows, sizeof rows - 5, &verdict), DRAMSIM_MALFORMED);
    EXPECT(verdict.row, 2);
    EXPECT(verdict.rule, 0);
    EXPECT(dramsim_check(text, length, (const uint8_t *)header, sizeof header - 1, &verdict), DRAMSIM_OK);
    EXPECT(verdict.row, 0);
    EXPECT(dramsim_check(text, length, (const uint8_t *)header, 0, &verdict), DRAMSIM_MALFORMED);
}

/* Line 0 lies in channel 0, line 1 in channel 1. */
static void two_channels(const uint8_t *text, size_t length) {
    struct dramsim_channel channel = DRAMSIM_CLOSED_CHANNEL;
    struct dramsim_request first = {0, 2, 0, 0, false}, second = {64, 2, 0, 0, false};
    struct dramsim_line_place place;
    EXPECT(dramsim_open(text, length, 1, &channel), DRAMSIM_OK);
    EXPECT(dramsim_place(&channel, 64, &place), true);
    EXPECT(place.channel, 1);
    EXPECT(dramsim_send(&channel, &first), DRAMSIM_OTHER_CHANNEL);
    EXPECT(dramsim_send(&channel, &second), DRAMSIM_OK);
    EXPECT(dramsim_run(&channel, 9), DRAMSIM_OK);
    expect_command(&channel, 2, DRAMSIM_ACT, 0, 0);
    expect_command(&channel, 5, DRAMSIM_RD, 0, 0);
    dramsim_close(&channel);
}

int main(int count, char **words) {
    static uint8_t text[1 << 16], two[1 << 16];
    if (count != 3) { fprintf(stderr, "channel CONFIG TWO\n"); return 2; }
    size_t length = read_text(words[1], text, sizeof text), two_length = read_text(words[2], two, sizeof two);
    struct dramsim_channel channel = DRAMSIM_CLOSED_CHANNEL;
    EXPECT(dramsim_open(text, length, 0, &channel), DRAMSIM_OK);
    row_conflict(&channel);
    place(&channel);
    address(&channel);
    statistics(&channel);
    refusals(&channel, text, length);
    closed(&channel, text, length);
    events(&channel, text, length);
    fault_text(text, length);
    check(text, length);
    two_channels(two, two_length);
    return 0;
}
