// controller CONFIG: the memory controller of a simulator that goes from event to event, as docs/EMBEDDING.md shows it,
// with cycles worked out by hand for examples/profile_s.toml.
#include "dramsim.hpp"

#include <fstream>
#include <functional>
#include <iostream>
#include <iterator>
#include <map>

// The events of a host, by cycle.
class Events {
  public:
    std::uint64_t now() const { return now_; }
    void at(std::uint64_t cycle, std::function<void()> event) { events_.emplace(cycle, std::move(event)); }
    void run() {
        while (!events_.empty()) {
            auto next = events_.extract(events_.begin());
            now_ = next.key();
            next.mapped()();
        }
    }

  private:
    std::uint64_t now_ = 0;
    std::multimap<std::uint64_t, std::function<void()>> events_;
};

struct Packet {
    std::uint64_t address;
    std::uint16_t port;
    bool is_write;
};

class Controller {
  public:
    using Answer = std::function<void(std::uint64_t)>;
    using Retry = std::function<void()>;

    // `answer` is called when the data of a read comes to its port, with the number of its packet, and `retry` when a
    // credit comes.
    Controller(std::string_view configuration, Events &events, Answer answer, Retry retry)
        : memory_(configuration), events_(events), answer_(std::move(answer)), retry_(std::move(retry)) {}

    // A packet of a port, which arrives in the next cycle; its number, or nothing where the port is to try again.
    std::optional<std::uint64_t> receive(const Packet &packet) {
        memory_.run(events_.now());
        try {
            memory_.send({packet.address, events_.now() + 1, number_, packet.port, packet.is_write});
        } catch (const dramsim::Refused &refused) {
            if (refused.status != DRAMSIM_NO_CREDIT && refused.status != DRAMSIM_OUT_OF_ORDER) throw;
            return std::nullopt;
        }
        schedule();
        return number_++;
    }

  private:
    // Nothing is there to take before the memory has acted. An event that came too late for a new packet does nothing.
    void schedule() {
        auto act = memory_.next_act();
        if (!act || (wake_ && *wake_ <= *act + 1)) return;
        wake_ = *act + 1;
        events_.at(*wake_, [this] { if (wake_ == events_.now()) wake(); });
    }

    void wake() {
        wake_.reset();
        memory_.run(events_.now());
        while (memory_.next_command()) {}
        while (auto next = memory_.next_reply()) {
            std::uint64_t number = next->row.entry;
            if (next->row.kind == DRAMSIM_DATA) events_.at(next->row.arrival, [this, number] { answer_(number); });
            else events_.at(next->row.arrival, retry_);
        }
        schedule();
    }

    dramsim::Memory memory_;
    Events &events_;
    Answer answer_;
    Retry retry_;
    std::optional<std::uint64_t> wake_;
    std::uint64_t number_ = 0;
};

// Two reads of one bank and two rows arrive in 2 and 4: their RDs are in 5 and 16, and the data comes nCL + 4 + 2
// later. A port that sends two packets in a cycle tries again with the second.
static bool answers(const std::string &text) {
    Events events;
    std::map<std::uint64_t, std::uint64_t> answered;
    Controller controller(text, events, [&](std::uint64_t number) { answered[number] = events.now(); }, [] {});
    bool taken = true;
    events.at(1, [&] { taken = controller.receive({0, 0, false}) == 0 && !controller.receive({64, 0, false}); });
    events.at(3, [&] { taken = taken && controller.receive({65536, 0, false}) == 1; });
    events.run();
    return taken && answered == std::map<std::uint64_t, std::uint64_t>{{0, 15}, {1, 26}};
}

// A port sends a read of one row in each cycle from 0 on. ACT is in 1 and the RDs nCCD_L = 5 apart from 4 on, so before
// cycle 9 one was served: with 8 places the tenth packet finds none in 9, and is sent when the credit of the second RD
// comes, in 11.
static bool retries(const std::string &text) {
    Events events;
    std::uint64_t sent = 0, refused_at = 0, sent_at = 0;
    Controller *port = nullptr;
    auto send = [&] {
        if (port->receive({64 * sent, 0, false})) sent++;
        else refused_at = events.now();
    };
    Controller controller(text, events, [](std::uint64_t) {}, [&] {
        if (refused_at == 0 || sent_at != 0) return;
        send();
        sent_at = events.now();
    });
    port = &controller;
    for (std::uint64_t cycle = 0; cycle < 10; cycle++) events.at(cycle, send);
    events.run();
    return sent == 10 && refused_at == 9 && sent_at == 11;
}

int main(int count, char **words) {
    if (count != 2) return 2;
    std::ifstream file(words[1]);
    std::string text((std::istreambuf_iterator<char>(file)), {});
    if (!answers(text)) { std::cerr << "controller: other answers\n"; return 1; }
    if (!retries(text)) { std::cerr << "controller: another packet was refused\n"; return 1; }
    return 0;
}
