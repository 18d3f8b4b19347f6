// DDR4 memory as dramsim simulates it, for C++ (C++17): dramsim.h with owners, and refusals as exceptions.
#ifndef DRAMSIM_HPP
#define DRAMSIM_HPP

#include "dramsim.h"

#include <cstdint>
#include <optional>
#include <stdexcept>
#include <string>
#include <string_view>
#include <utility>

namespace dramsim {

using Request = dramsim_request;
using Command = dramsim_command;
using Reply = dramsim_reply;
using Place = dramsim_line_place;
using Statistics = dramsim_statistics;
using Verdict = dramsim_verdict;

// What a status means, in words.
inline const char *text_of(std::uint32_t status) {
    switch (status) {
    case DRAMSIM_OK: return "done";
    case DRAMSIM_MEMORY: return "memory was refused";
    case DRAMSIM_CLOSED: return "the channel or memory is closed";
    case DRAMSIM_ALREADY_OPEN: return "the channel or memory is open already";
    case DRAMSIM_CONFIGURATION: return "the configuration is refused";
    case DRAMSIM_NO_SUCH_CHANNEL: return "no such channel";
    case DRAMSIM_NO_SUCH_CORE: return "no such core";
    case DRAMSIM_OTHER_CHANNEL: return "an address of another channel";
    case DRAMSIM_IN_THE_PAST: return "an arrival in the past";
    case DRAMSIM_OUT_OF_ORDER: return "an arrival out of order";
    case DRAMSIM_ENTRY_PASSED: return "an entry that cannot be asked for any more";
    case DRAMSIM_NO_CREDIT: return "no credit";
    case DRAMSIM_END_PASSED: return "an end in the past";
    case DRAMSIM_END_TOO_LATE: return "an end after cycle 2^62";
    case DRAMSIM_NO_SUCH_PLACE: return "no such place";
    case DRAMSIM_TOO_SHORT: return "the room for a text is too short";
    case DRAMSIM_BREAKS_RULE: return "a table of commands breaks a rule";
    case DRAMSIM_MALFORMED: return "a table of commands has a row that is none, or no header";
    default: return "an unknown status";
    }
}

// A call that was refused; what it was called on is as it was, but that refused memory in a run closes it. Where a
// configuration is refused, the text is the line that `dramsim run` tells.
class Refused : public std::runtime_error {
  public:
    explicit Refused(std::uint32_t status) : std::runtime_error(text_of(status)), status(status) {}
    Refused(std::uint32_t status, const std::string &text) : std::runtime_error(text), status(status) {}
    const std::uint32_t status;
};

namespace detail {

inline const std::uint8_t *bytes_of(std::string_view text) { return reinterpret_cast<const std::uint8_t *>(text.data()); }

inline void check(std::uint32_t status) {
    if (status != DRAMSIM_OK) throw Refused(status);
}

// Throws where a call that read a configuration was refused, with the line of its fault.
inline void check_configured(std::uint32_t status, std::string_view configuration) {
    if (status != DRAMSIM_CONFIGURATION) return check(status);
    std::uint8_t line[DRAMSIM_FAULT_ROOM];
    std::size_t length = 0;
    check(dramsim_fault_text(bytes_of(configuration), configuration.size(), line, sizeof line, &length));
    throw Refused(status, std::string(line, line + length));
}

} // namespace detail

// A channel, open from its construction on. It can be moved and not be copied; one that was moved from is closed.
class Channel {
  public:
    explicit Channel(std::string_view configuration, std::uint32_t number = 0) {
        detail::check_configured(dramsim_open(detail::bytes_of(configuration), configuration.size(), number, &channel_), configuration);
    }
    Channel(Channel &&other) noexcept : channel_(std::exchange(other.channel_, {})) {}
    Channel &operator=(Channel &&other) noexcept {
        std::swap(channel_, other.channel_);
        return *this;
    }
    Channel(const Channel &) = delete;
    Channel &operator=(const Channel &) = delete;
    ~Channel() { dramsim_close(&channel_); }

    void send(const Request &request) { detail::check(dramsim_send(&channel_, &request)); }
    void run(std::uint64_t until) { detail::check(dramsim_run(&channel_, until)); }
    std::uint64_t now() { return dramsim_now(&channel_); }

    std::optional<Command> next_command() {
        Command row;
        return dramsim_next_command(&channel_, &row) ? std::optional<Command>(row) : std::nullopt;
    }
    std::optional<Reply> next_reply() {
        Reply row;
        return dramsim_next_reply(&channel_, &row) ? std::optional<Reply>(row) : std::nullopt;
    }
    // The next cycle in which it issues a command, or in which a request that was sent arrives, if nothing more is
    // sent.
    std::optional<std::uint64_t> next_act() {
        std::uint64_t cycle = 0;
        return dramsim_next_act(&channel_, &cycle) ? std::optional<std::uint64_t>(cycle) : std::nullopt;
    }
    Place place_of(std::uint64_t address) {
        Place row;
        if (!dramsim_place(&channel_, address, &row)) throw Refused(DRAMSIM_CLOSED);
        return row;
    }
    // The least address of the line at a place.
    std::uint64_t address_of(const Place &place) {
        std::uint64_t address = 0;
        detail::check(dramsim_address(&channel_, &place, &address));
        return address;
    }
    Statistics statistics() {
        Statistics row;
        if (!dramsim_stats(&channel_, &row)) throw Refused(DRAMSIM_CLOSED);
        return row;
    }

  private:
    dramsim_channel channel_ = {};
};

// A command or a reply of a memory, with the number of its channel.
template <typename Row> struct Of {
    std::uint32_t channel;
    Row row;
};

// A memory: all channels of a machine, open from its construction on. A request goes to the channel of its address. It
// can be moved and not be copied; one that was moved from is closed.
class Memory {
  public:
    explicit Memory(std::string_view configuration) {
        detail::check_configured(dramsim_memory_open(detail::bytes_of(configuration), configuration.size(), &memory_), configuration);
    }
    Memory(Memory &&other) noexcept : memory_(std::exchange(other.memory_, {})) {}
    Memory &operator=(Memory &&other) noexcept {
        std::swap(memory_, other.memory_);
        return *this;
    }
    Memory(const Memory &) = delete;
    Memory &operator=(const Memory &) = delete;
    ~Memory() { dramsim_memory_close(&memory_); }

    void send(const Request &request) { detail::check(dramsim_memory_send(&memory_, &request)); }
    // Runs all channels over the cycles before `until`.
    void run(std::uint64_t until) { detail::check(dramsim_memory_run(&memory_, until)); }
    std::uint64_t now() { return dramsim_memory_now(&memory_); }

    // The next command, by cycle and then by channel.
    std::optional<Of<Command>> next_command() {
        Of<Command> next;
        return dramsim_memory_next_command(&memory_, &next.channel, &next.row) ? std::optional<Of<Command>>(next) : std::nullopt;
    }
    // Of the next reply of each channel, the one that arrives first, and of these that of the lowest channel.
    std::optional<Of<Reply>> next_reply() {
        Of<Reply> next;
        return dramsim_memory_next_reply(&memory_, &next.channel, &next.row) ? std::optional<Of<Reply>>(next) : std::nullopt;
    }
    // The next cycle in which a channel issues a command, or in which a request that was sent arrives, if nothing more
    // is sent.
    std::optional<std::uint64_t> next_act() {
        std::uint64_t cycle = 0;
        return dramsim_memory_next_act(&memory_, &cycle) ? std::optional<std::uint64_t>(cycle) : std::nullopt;
    }
    Place place_of(std::uint64_t address) {
        Place row;
        if (!dramsim_memory_place(&memory_, address, &row)) throw Refused(DRAMSIM_CLOSED);
        return row;
    }
    // The least address of the line at a place.
    std::uint64_t address_of(const Place &place) {
        std::uint64_t address = 0;
        detail::check(dramsim_memory_address(&memory_, &place, &address));
        return address;
    }
    Statistics statistics(std::uint32_t channel) {
        Statistics row;
        detail::check(dramsim_memory_stats(&memory_, channel, &row));
        return row;
    }

  private:
    dramsim_memory memory_ = {};
};

// What is at fault in a table of commands (docs/FORMATS.md), as `dramsim check` says; nothing where it is legal.
inline std::optional<Verdict> check(std::string_view configuration, std::string_view table) {
    Verdict verdict = {};
    std::uint32_t status =
        dramsim_check(detail::bytes_of(configuration), configuration.size(), detail::bytes_of(table), table.size(), &verdict);
    if (status == DRAMSIM_BREAKS_RULE || status == DRAMSIM_MALFORMED) return verdict;
    detail::check_configured(status, configuration);
    return std::nullopt;
}

} // namespace dramsim
#endif
