/* refused TWO: a memory and a channel of examples/cases/two_channels, with each piece of memory that the library asks
 * for refused in turn. A call that opens or sends leaves all as it was, so it is made again; a run closes what it was
 * called on. To be linked with --wrap=malloc and --wrap=realloc. */
#include "common.h"

void *__real_malloc(size_t size);
void *__real_realloc(void *old, size_t size);

static unsigned long asked, refused_at;

void *__wrap_malloc(size_t size) { return ++asked == refused_at ? NULL : __real_malloc(size); }
void *__wrap_realloc(void *old, size_t size) { return ++asked == refused_at ? NULL : __real_realloc(old, size); }

/* A read of each channel, and one more of channel 1. */
static const struct dramsim_request sent[] = {{0, 2, 0, 0, false}, {64, 2, 1, 0, false}, {192, 4, 2, 0, false}};

/* The status of a call, or of the same call again where it was refused memory. */
#define AGAIN(call) ((call) == DRAMSIM_MEMORY ? (call) : DRAMSIM_OK)

/* Whether a memory came to the end; where it did, with its five commands. */
static bool plays_memory(const uint8_t *text, size_t length) {
    const uint64_t cycles[] = {2, 2, 5, 5, 10};
    struct dramsim_memory memory = DRAMSIM_CLOSED_MEMORY;
    struct dramsim_command command;
    uint32_t channel;
    EXPECT(AGAIN(dramsim_memory_open(text, length, &memory)), DRAMSIM_OK);
    for (size_t at = 0; at < sizeof sent / sizeof *sent; at++) EXPECT(AGAIN(dramsim_memory_send(&memory, &sent[at])), DRAMSIM_OK);
    for (uint64_t until = 3; until <= 60; until += 3) {
        if (dramsim_memory_run(&memory, until) == DRAMSIM_OK) continue;
        EXPECT(memory.is_open, false);
        EXPECT(dramsim_memory_send(&memory, &sent[0]), DRAMSIM_CLOSED);
        return false;
    }
    for (size_t at = 0; at < sizeof cycles / sizeof *cycles; at++) {
        EXPECT(dramsim_memory_next_command(&memory, &channel, &command), true);
        EXPECT(command.cycle, cycles[at]);
    }
    EXPECT(dramsim_memory_next_command(&memory, &channel, &command), false);
    dramsim_memory_close(&memory);
    return true;
}

/* Plays the channel 1, with its three commands, while memory is refused. */
static bool plays_channel(const uint8_t *text, size_t length) {
    const uint64_t cycles[] = {2, 5, 10};
    struct dramsim_channel channel = DRAMSIM_CLOSED_CHANNEL;
    struct dramsim_command command;
    EXPECT(AGAIN(dramsim_open(text, length, 1, &channel)), DRAMSIM_OK);
    for (size_t at = 1; at < sizeof sent / sizeof *sent; at++) EXPECT(AGAIN(dramsim_send(&channel, &sent[at])), DRAMSIM_OK);
    for (uint64_t until = 3; until <= 60; until += 3) {
        if (dramsim_run(&channel, until) == DRAMSIM_OK) continue;
        EXPECT(channel.is_open, false);
        EXPECT(dramsim_send(&channel, &sent[1]), DRAMSIM_CLOSED);
        return false;
    }
    for (size_t at = 0; at < sizeof cycles / sizeof *cycles; at++) {
        EXPECT(dramsim_next_command(&channel, &command), true);
        EXPECT(command.cycle, cycles[at]);
    }
    EXPECT(dramsim_next_command(&channel, &command), false);
    dramsim_close(&channel);
    return true;
}

/* Refuses each piece of memory in turn, till none is asked for so late. Some of these are asked for in a run, and
 * others before. */
static void try_each(bool (*plays)(const uint8_t *, size_t), const uint8_t *text, size_t length) {
    unsigned long ended = 0, closed = 0;
    for (refused_at = 1;; refused_at++) {
        asked = 0;
        bool to_the_end = plays(text, length);
        if (asked < refused_at) break;
        if (to_the_end) ended++; else closed++;
    }
    EXPECT(ended > 3, true);
    EXPECT(closed > 0, true);
}

int main(int count, char **words) {
    static uint8_t text[1 << 16];
    if (count != 2) { fprintf(stderr, "refused TWO\n"); return 2; }
    size_t length = read_text(words[1], text, sizeof text);
    try_each(plays_memory, text, length);
    try_each(plays_channel, text, length);
    return 0;
}
