/* What the programs that send a file of requests share: how it is read, and how a command is printed as dramsim writes
 * commands.csv. */
#ifndef DRAMSIM_REQUESTS_H
#define DRAMSIM_REQUESTS_H

#include "common.h"

#include <inttypes.h>

static const char *const kinds[] = {"ACT", "RD", "WR", "PRE", "PREA", "REF"};

static inline void fail(const char *what, uint32_t status) {
    fprintf(stderr, "replay: %s: status %u\n", what, status);
    exit(1);
}

/* A request is a line: its arrival, core, entry, 1 for a write, and address. */
static inline bool read_request(struct dramsim_request *request) {
    unsigned core, is_write;
    if (scanf("%" SCNu64 " %u %" SCNu64 " %u %" SCNu64, &request->arrival, &core, &request->entry, &is_write, &request->address) != 5) return false;
    request->core = (uint16_t)core;
    request->is_write = is_write == 1;
    return true;
}

/* What a call answered that looked for a place of rank 1: whether the memory has several ranks. */
static inline bool has_rank(uint32_t status) {
    if (status != DRAMSIM_OK && status != DRAMSIM_NO_SUCH_PLACE) fail("address", status);
    return status == DRAMSIM_OK;
}

static inline void print_header(bool ranks) { printf("cycle,channel,command,%sgroup,bank,row,column,core,entry\n", ranks ? "rank," : ""); }

static inline void print_command(uint32_t channel, const struct dramsim_command *command, bool ranks) {
    bool named = command->kind != DRAMSIM_PREA && command->kind != DRAMSIM_REF, moves = command->kind == DRAMSIM_RD || command->kind == DRAMSIM_WR;
    printf("%" PRIu64 ",%u,%s,", command->cycle, channel, kinds[command->kind]);
    if (ranks) printf("%u,", command->rank);
    if (!named) { printf(",,,,,\n"); return; }
    printf("%u,%u,", command->group, command->bank);
    if (command->kind != DRAMSIM_PRE) printf("%u", command->row);
    printf(",");
    if (moves) printf("%u", command->column);
    printf(",%u,%" PRIu64 "\n", command->core, command->entry);
}

#endif
