// classes CONFIG: the same reads as channel.c, through the classes.
#include "dramsim.hpp"

#include <fstream>
#include <iostream>
#include <iterator>
#include <string>

// A configuration that is refused tells the line of its fault.
static bool tells_fault(const std::string &text) {
    try {
        dramsim::Memory memory(text + "new = 1\n");
        return false;
    } catch (const dramsim::Refused &refused) {
        return refused.status == DRAMSIM_CONFIGURATION && std::string(refused.what()) == "fault 2: configuration key unknown";
    }
}

// Whether a call is refused with this status.
template <typename Call> static bool refuses(std::uint32_t status, Call call) {
    try {
        call();
        return false;
    } catch (const dramsim::Refused &refused) {
        return refused.status == status;
    }
}

// The same reads by a memory, from event to event: an arrival in 4 and commands in the other cycles.
static bool runs_memory(const std::string &text) {
    dramsim::Memory opened(text);
    dramsim::Memory memory = std::move(opened);
    memory.send({0, 2, 0, 0, false});
    memory.send({65536, 4, 1, 0, false});
    for (std::uint64_t cycle : {2, 4, 5, 10, 13, 16}) {
        if (memory.next_act() != cycle) return false;
        memory.run(cycle + 1);
    }
    auto command = memory.next_command();
    auto reply = memory.next_reply();
    return !memory.next_act() && command && command->channel == 0 && command->row.cycle == 2 && reply && reply->row.arrival == 15
        && memory.statistics(0).rd == 2 && memory.now() == 17 && memory.address_of(memory.place_of(65536 + 64)) == 65536 + 64
        && refuses(DRAMSIM_CLOSED, [&] { opened.run(1); }) && refuses(DRAMSIM_NO_SUCH_CHANNEL, [&] { memory.statistics(1); })
        && refuses(DRAMSIM_IN_THE_PAST, [&] { memory.send({0, 16, 2, 0, false}); });
}

static bool checks(const std::string &text) {
    std::string header = "cycle,channel,command,group,bank,row,column,core,entry\n";
    auto verdict = dramsim::check(text, header + "2,0,ACT,0,0,0,,0,0\n4,0,RD,0,0,0,0,0,0\n");
    return !dramsim::check(text, header) && verdict && verdict->row == 2 && verdict->rule == 3;
}

int main(int count, char **words) {
    if (count != 2) return 2;
    std::ifstream file(words[1]);
    std::string text((std::istreambuf_iterator<char>(file)), {});
    dramsim::Channel opened(text);
    dramsim::Channel channel = std::move(opened);
    channel.send({0, 2, 0, 0, false});
    channel.send({65536, 4, 1, 0, false});
    channel.run(60);
    const std::uint64_t cycles[] = {2, 5, 10, 13, 16};
    for (std::uint64_t cycle : cycles) {
        auto command = channel.next_command();
        if (!command || command->cycle != cycle) { std::cerr << "classes: no command in cycle " << cycle << "\n"; return 1; }
    }
    if (channel.address_of(channel.place_of(65536 + 64)) != 65536 + 64) { std::cerr << "classes: another address\n"; return 1; }
    if (!tells_fault(text) || !runs_memory(text) || !checks(text)) { std::cerr << "classes: a memory, a fault or a verdict\n"; return 1; }
    if (channel.next_command() || channel.statistics().rd != 2 || channel.now() != 60) { std::cerr << "classes: other numbers\n"; return 1; }
    if (!refuses(DRAMSIM_IN_THE_PAST, [&] { channel.send({0, 3, 2, 0, false}); })) { std::cerr << "classes: an arrival in the past was taken\n"; return 1; }
    if (!refuses(DRAMSIM_CLOSED, [&] { opened.run(1); })) { std::cerr << "classes: one that was moved from ran\n"; return 1; }
    return 0;
}
