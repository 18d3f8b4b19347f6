/* replay CONFIG STEP CYCLES < requests > table: drives the channels of a machine, each by a handle of its own, over
 * CYCLES cycles in steps of STEP cycles, shorter where a credit is waited for, and prints their commands as dramsim
 * writes commands.csv. */
#include "requests.h"

/* The channels, and of each the next command, if there is one. */
static struct { struct dramsim_channel channel; struct dramsim_command command; bool has_command; } all[1 << 10];
static uint32_t channels;

static void open_all(const uint8_t *text, size_t length) {
    uint32_t status;
    while ((status = dramsim_open(text, length, channels, &all[channels].channel)) == DRAMSIM_OK) channels++;
    if (status != DRAMSIM_NO_SUCH_CHANNEL) fail("open", status);
}

/* Whether the memory has several ranks: a place of rank 1. */
static bool has_ranks(void) {
    struct dramsim_line_place place = {.rank = 1};
    uint64_t address;
    return has_rank(dramsim_address(&all[0].channel, &place, &address));
}

/* Prints the commands by cycle and then by channel, and takes the replies. */
static void take(bool ranks) {
    struct dramsim_reply reply;
    for (;;) {
        uint32_t first = channels;
        for (uint32_t number = 0; number < channels; number++) {
            if (!all[number].has_command) all[number].has_command = dramsim_next_command(&all[number].channel, &all[number].command);
            if (all[number].has_command && (first == channels || all[number].command.cycle < all[first].command.cycle)) first = number;
        }
        if (first == channels) break;
        print_command(first, &all[first].command, ranks);
        all[first].has_command = false;
    }
    for (uint32_t number = 0; number < channels; number++)
        while (dramsim_next_reply(&all[number].channel, &reply)) {}
}

/* Sends what arrives before a cycle, and returns the cycle up to which the channels may run: earlier where a credit is
 * waited for. */
static uint64_t send_before(uint64_t until, struct dramsim_request *next, bool *there) {
    while (*there && next->arrival < until) {
        struct dramsim_line_place place;
        dramsim_place(&all[0].channel, next->address, &place);
        uint32_t status = dramsim_send(&all[place.channel].channel, next);
        if (status == DRAMSIM_NO_CREDIT) return next->arrival;
        if (status != DRAMSIM_OK) fail("send", status);
        *there = read_request(next);
    }
    return until;
}

int main(int count, char **words) {
    static uint8_t text[1 << 16];
    if (count != 4) { fprintf(stderr, "replay CONFIG STEP CYCLES\n"); return 2; }
    size_t length = read_text(words[1], text, sizeof text);
    uint64_t step = strtoull(words[2], NULL, 10), cycles = strtoull(words[3], NULL, 10);
    open_all(text, length);
    bool ranks = has_ranks();
    struct dramsim_request next;
    bool there = read_request(&next);
    print_header(ranks);
    for (uint64_t now = 0; now < cycles; now = dramsim_now(&all[0].channel)) {
        uint64_t until = send_before(now + step < cycles ? now + step : cycles, &next, &there);
        for (uint32_t number = 0; number < channels; number++) {
            uint32_t status = dramsim_run(&all[number].channel, until);
            if (status != DRAMSIM_OK) fail("run", status);
        }
        take(ranks);
    }
    for (uint32_t number = 0; number < channels; number++) dramsim_close(&all[number].channel);
    return 0;
}
