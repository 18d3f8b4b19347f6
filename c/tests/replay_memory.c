/* replay_memory CONFIG STEP CYCLES < requests > table: drives all channels of a machine by one handle over CYCLES
 * cycles in steps of STEP cycles, shorter where a credit is waited for, and prints their commands as dramsim writes
 * commands.csv. */
#include "requests.h"

static struct dramsim_memory memory = DRAMSIM_CLOSED_MEMORY;

/* Whether the memory has several ranks: a place of rank 1. */
static bool has_ranks(void) {
    struct dramsim_line_place place = {.rank = 1};
    uint64_t address;
    return has_rank(dramsim_memory_address(&memory, &place, &address));
}

/* Prints the commands, and takes the replies. */
static void take(bool ranks) {
    struct dramsim_command command;
    struct dramsim_reply reply;
    uint32_t channel;
    while (dramsim_memory_next_command(&memory, &channel, &command)) print_command(channel, &command, ranks);
    while (dramsim_memory_next_reply(&memory, &channel, &reply)) {}
}

/* Sends what arrives before a cycle, and returns the cycle up to which the memory may run: earlier where a credit is
 * waited for. */
static uint64_t send_before(uint64_t until, struct dramsim_request *next, bool *there) {
    while (*there && next->arrival < until) {
        uint32_t status = dramsim_memory_send(&memory, next);
        if (status == DRAMSIM_NO_CREDIT) return next->arrival;
        if (status != DRAMSIM_OK) fail("send", status);
        *there = read_request(next);
    }
    return until;
}

int main(int count, char **words) {
    static uint8_t text[1 << 16];
    if (count != 4) { fprintf(stderr, "replay_memory CONFIG STEP CYCLES\n"); return 2; }
    size_t length = read_text(words[1], text, sizeof text);
    uint64_t step = strtoull(words[2], NULL, 10), cycles = strtoull(words[3], NULL, 10);
    uint32_t status = dramsim_memory_open(text, length, &memory);
    if (status != DRAMSIM_OK) fail("open", status);
    bool ranks = has_ranks();
    struct dramsim_request next;
    bool there = read_request(&next);
    print_header(ranks);
    for (uint64_t now = 0; now < cycles; now = dramsim_memory_now(&memory)) {
        status = dramsim_memory_run(&memory, send_before(now + step < cycles ? now + step : cycles, &next, &there));
        if (status != DRAMSIM_OK) fail("run", status);
        take(ranks);
    }
    dramsim_memory_close(&memory);
    return 0;
}
