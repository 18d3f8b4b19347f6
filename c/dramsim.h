/* DDR4 memory as dramsim simulates it, driven by a program in C: a channel, or a memory of all channels of a machine.
 *
 * A channel is sent requests, run up to a cycle, and then gives its commands and replies one after the other: those of
 * the channel that the configuration describes, for the requests that it was sent, whatever the steps in which it is
 * run. A memory sends each request to the channel of its address, and runs all channels. What either holds does not
 * grow with what was taken.
 *
 * What C owes, since nothing checks it:
 * - A channel begins as DRAMSIM_CLOSED_CHANNEL and a memory as DRAMSIM_CLOSED_MEMORY, and nothing but these calls reads
 *   or writes it; it is not copied while it is open.
 * - No pointer is null, and each leads to one value of its type (a text: `length` bytes, room for one: `room` bytes),
 *   which nothing else uses during the call.
 * - One call at a time for each channel or memory; any number of them, each in the thread that opened it.
 * - malloc, realloc and free are those of the C library. No call comes from a signal handler.
 */
#ifndef DRAMSIM_H
#define DRAMSIM_H

#include <stdbool.h>
#include <stddef.h>
#include <stdint.h>

#ifdef __cplusplus
extern "C" {
#endif

/* What a call answers. */
enum dramsim_status {
    DRAMSIM_OK = 0,
    DRAMSIM_MEMORY = 1,          /* memory was refused */
    DRAMSIM_CLOSED = 2,          /* the channel or memory is closed */
    DRAMSIM_ALREADY_OPEN = 3,    /* the channel or memory is open already */
    DRAMSIM_CONFIGURATION = 4,   /* the configuration is refused: dramsim_fault_text says why */
    DRAMSIM_NO_SUCH_CHANNEL = 5, /* the machine has no channel with this number */
    DRAMSIM_NO_SUCH_CORE = 6,    /* the machine has no core with this number */
    DRAMSIM_OTHER_CHANNEL = 7,   /* the address lies in another channel */
    DRAMSIM_IN_THE_PAST = 8,     /* the request arrives in a cycle that is over */
    DRAMSIM_OUT_OF_ORDER = 9,    /* a request sent earlier arrives later, or in the same cycle from the same core or a higher one */
    DRAMSIM_ENTRY_PASSED = 10,   /* this entry of the core, or a later one, was asked for already; or it is 2^64 - 1 */
    DRAMSIM_NO_CREDIT = 11,      /* as many requests wait or are on their way as there are credits of all cores */
    DRAMSIM_END_PASSED = 12,     /* the run would end in a cycle that is over */
    DRAMSIM_END_TOO_LATE = 13,   /* the run would end after cycle 2^62 */
    DRAMSIM_NO_SUCH_PLACE = 14,  /* the memory has no such place */
    DRAMSIM_TOO_SHORT = 15,      /* the room for a text is too short */
    DRAMSIM_BREAKS_RULE = 16,    /* a table of commands breaks a rule of DDR4 */
    DRAMSIM_MALFORMED = 17       /* a table of commands has a row that is none, or no header */
};

/* The greatest length of the line of a fault, in bytes. */
#define DRAMSIM_FAULT_ROOM 100

/* A channel. */
struct dramsim_channel {
    bool is_open;
    void *at;
};
#define DRAMSIM_CLOSED_CHANNEL {false, NULL}

/* A memory: all channels of a machine. */
struct dramsim_memory {
    bool is_open;
    void *at;
};
#define DRAMSIM_CLOSED_MEMORY {false, NULL}

/* A read or write of the line of 64 bytes at an address, for an entry of a core, and the cycle in which it arrives at
 * the channel. */
struct dramsim_request {
    uint64_t address, arrival, entry;
    uint16_t core;
    bool is_write;
};

/* A command, with its cycle. What its kind does not name is 0. */
enum dramsim_kind { DRAMSIM_ACT, DRAMSIM_RD, DRAMSIM_WR, DRAMSIM_PRE, DRAMSIM_PREA, DRAMSIM_REF };
struct dramsim_command {
    uint64_t cycle, entry;
    uint32_t row, column, rank, group, bank;
    uint16_t core;
    uint8_t kind;
};

/* The data of a read, or a credit that comes back, with the cycle in which it arrives at the core: for the data of a
 * read nCL + 4 cycles and the latency of the link after its RD, for a credit the latency of the link after the RD or
 * WR. */
enum dramsim_reply_kind { DRAMSIM_DATA, DRAMSIM_READ_CREDIT, DRAMSIM_WRITE_CREDIT };
struct dramsim_reply {
    uint64_t arrival, entry, core;
    uint8_t kind;
};

/* Where a line lies. */
struct dramsim_line_place {
    uint32_t channel, rank, group, bank, row, column;
};

/* The statistics of the cycles that are over: the columns of stats.csv. `queued_low` and `queued_high` are one number
 * of 128 bits. */
struct dramsim_statistics {
    uint64_t act, rd, wr, pre, prea, refs, hits, queued_low, queued_high, queued_max, idle, refreshing, draining;
};

/* What is at fault in a table of commands: the first row at fault, counted from 1, and 0 for the header; and the lowest
 * rule that it breaks (docs/RULES.md), from 1 to 21, and 0 where the row is none. Both are 0 where nothing is. */
struct dramsim_verdict {
    uint64_t row;
    uint8_t rule;
};

/* Opens a closed channel: the one with a number, of the machine whose configuration a text states (docs/CONFIG.md),
 * before its first cycle. OK, MEMORY, ALREADY_OPEN, CONFIGURATION or NO_SUCH_CHANNEL; where it is not OK the channel is
 * as it was. */
uint32_t dramsim_open(const uint8_t *text, size_t length, uint32_t number, struct dramsim_channel *channel);

/* Sends a request. OK, MEMORY, CLOSED, or 6 to 11; where it is not OK the channel is as if there had been no call. */
uint32_t dramsim_send(struct dramsim_channel *channel, const struct dramsim_request *request);

/* Runs the channel over the cycles before `until`. OK, CLOSED, END_PASSED or END_TOO_LATE, which change nothing; MEMORY
 * closes it. */
uint32_t dramsim_run(struct dramsim_channel *channel, uint64_t until);

/* The first command, or reply, of the cycles that are over which was not taken; it is taken then. False where there is
 * none, or the channel is closed; the row is left as it was then. */
bool dramsim_next_command(struct dramsim_channel *channel, struct dramsim_command *row);
bool dramsim_next_reply(struct dramsim_channel *channel, struct dramsim_reply *row);

/* The cycle where an open channel stands: this many are over. 0 where it is closed. */
uint64_t dramsim_now(struct dramsim_channel *channel);

/* Where the line of 64 bytes at an address lies in the memory of an open channel's machine: a request goes to the
 * channel with the number `channel`. False where it is closed. */
bool dramsim_place(struct dramsim_channel *channel, uint64_t address, struct dramsim_line_place *row);

/* The next cycle, from the one where an open channel stands on, in which it acts, if nothing more is sent to it: it
 * issues nothing before that cycle, and in it, it issues a command or a request that was sent arrives. So a host that
 * has nothing to send before may run the channel up to that cycle, and then beyond it. False where there is none, or
 * the channel is closed; the cycle is left as it was then. */
bool dramsim_next_act(struct dramsim_channel *channel, uint64_t *cycle);

/* The least address of the line at a place in the memory of an open channel's machine. OK, CLOSED or NO_SUCH_PLACE;
 * where it is not OK the address is left as it was. */
uint32_t dramsim_address(struct dramsim_channel *channel, const struct dramsim_line_place *place, uint64_t *address);

/* The statistics of an open channel. False where it is closed. */
bool dramsim_stats(struct dramsim_channel *channel, struct dramsim_statistics *row);

/* Closes a channel, whether it is open or not, and frees all of its memory. */
void dramsim_close(struct dramsim_channel *channel);

/* The same calls for a memory. It is opened with all channels of the machine whose configuration a text states, before
 * their first cycle. OK, MEMORY, ALREADY_OPEN or CONFIGURATION; where it is not OK the memory is as it was. */
uint32_t dramsim_memory_open(const uint8_t *text, size_t length, struct dramsim_memory *memory);

/* Sends a request to the channel of its address; what was sent to another channel does not matter to it. OK, MEMORY,
 * CLOSED, NO_SUCH_CORE or 8 to 11, each of that channel; where it is not OK the memory is as if there had been no
 * call. */
uint32_t dramsim_memory_send(struct dramsim_memory *memory, const struct dramsim_request *request);

/* Runs all channels over the cycles before `until`. OK, CLOSED, END_PASSED or END_TOO_LATE, which change nothing;
 * MEMORY closes it. */
uint32_t dramsim_memory_run(struct dramsim_memory *memory, uint64_t until);

/* The first command of the cycles that are over which was not taken, by cycle and then by channel, and the number of
 * its channel; it is taken then. A reply: of the first of each channel which was not taken, the one that arrives first,
 * and of these that of the lowest channel. False where there is none, or the memory is closed; the number and the row
 * are left as they were then. */
bool dramsim_memory_next_command(struct dramsim_memory *memory, uint32_t *channel, struct dramsim_command *row);
bool dramsim_memory_next_reply(struct dramsim_memory *memory, uint32_t *channel, struct dramsim_reply *row);

/* The next cycle, from the one where an open memory stands on, in which a channel acts, if nothing more is sent: none
 * issues anything before that cycle, and in it, one issues a command or a request that was sent arrives. False where
 * there is none, or the memory is closed; the cycle is left as it was then. */
bool dramsim_memory_next_act(struct dramsim_memory *memory, uint64_t *cycle);

/* The cycle where an open memory stands: this many are over. 0 where it is closed. */
uint64_t dramsim_memory_now(struct dramsim_memory *memory);

/* Where the line of 64 bytes at an address lies in an open memory. False where it is closed. */
bool dramsim_memory_place(struct dramsim_memory *memory, uint64_t address, struct dramsim_line_place *row);

/* The least address of the line at a place in an open memory. OK, CLOSED or NO_SUCH_PLACE; where it is not OK the
 * address is left as it was. */
uint32_t dramsim_memory_address(struct dramsim_memory *memory, const struct dramsim_line_place *place, uint64_t *address);

/* The statistics of a channel of an open memory. OK, CLOSED or NO_SUCH_CHANNEL; where it is not OK the row is left as
 * it was. */
uint32_t dramsim_memory_stats(struct dramsim_memory *memory, uint32_t channel, struct dramsim_statistics *row);

/* Closes a memory, whether it is open or not, and frees all that it holds. */
void dramsim_memory_close(struct dramsim_memory *memory);

/* The line for which `dramsim run` refuses a configuration, as `fault 3: configuration range nCL`, without its end and
 * without a 0, and its length; the length is 0 where the configuration is not refused. OK; TOO_SHORT, where the line is
 * longer than `room`, which writes the length alone; or MEMORY, which writes nothing. DRAMSIM_FAULT_ROOM bytes are
 * enough for each. */
uint32_t dramsim_fault_text(const uint8_t *text, size_t length, uint8_t *into, size_t room, size_t *wanted);

/* Judges a table of commands (docs/FORMATS.md) under a configuration, as `dramsim check` does. OK: each row is well
 * formed and keeps every rule; BREAKS_RULE or MALFORMED, with what is at fault; or CONFIGURATION or MEMORY, which leave
 * the verdict as it was. */
uint32_t dramsim_check(const uint8_t *text, size_t length, const uint8_t *table, size_t table_length, struct dramsim_verdict *verdict);

#ifdef __cplusplus
}
#endif
#endif
