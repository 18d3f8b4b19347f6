"""A machine of cores and links over a memory of the library: what `dramsim run` simulates, with its cores in Python.

It goes cycle by cycle: replies and credits that have come, entries that retire, entries that issue, and then the memory.
`machine.py CONFIG CYCLES TRACE...` prints the requests that the channels are sent, as c/tests/replay.c and replay_memory.c read them.
"""
from __future__ import annotations

import heapq
import sys
import tomllib
from collections import Counter
from pathlib import Path

sys.path.insert(0, str(Path(__file__).resolve().parents[1]))

import dramsim


class Link:
    """How long a message travels on a link, by the number of its link."""

    def __init__(self, keys: dict) -> None:
        self.usual = (keys["request_latency"], keys["reply_latency"], keys["credit_latency"])
        self.own = {link["id"]: link["latency"] for link in keys.get("link", [])}

    def latency(self, number: int) -> int:
        return self.own.get(number, self.usual[number % 3])


class Core:
    """A core: its trace is a list of None, ("read", address) and ("write", address)."""

    def __init__(self, number: int, trace: list, keys: dict) -> None:
        self.number, self.trace, self.keys = number, trace, keys
        self.issued = self.retired = 0
        self.replied: set[int] = set()
        cap = {dramsim.ReplyKind.READ_CREDIT: keys["read_credits"], dramsim.ReplyKind.WRITE_CREDIT: keys["write_credits"]}
        self.credits = Counter({(channel, kind): cap[kind] for channel in range(keys["channels"]) for kind in cap})

    def receive(self, channel: int, reply: dramsim.Reply) -> None:
        if reply.kind == dramsim.ReplyKind.DATA:
            self.replied.add(reply.entry)
        else:
            self.credits[channel, reply.kind] += 1

    def is_done(self, entry: int) -> bool:
        kind = self.trace[entry]
        return kind is None or kind[0] == "write" or entry in self.replied

    def step(self, place_of) -> list[tuple[int, int, str, int]]:
        """A cycle: the requests that are issued, as channel, entry, kind and address."""
        most = self.retired + min(self.keys["width"], self.issued - self.retired)
        while self.retired < most and self.is_done(self.retired):
            self.retired += 1
        sent: list[tuple[int, int, str, int]] = []
        for _ in range(self.keys["width"]):
            if self.issued == len(self.trace) or self.issued - self.retired == self.keys["window"]:
                break
            entry = self.trace[self.issued]
            if entry is not None:
                kind = dramsim.ReplyKind.READ_CREDIT if entry[0] == "read" else dramsim.ReplyKind.WRITE_CREDIT
                channel = place_of(entry[1]).channel
                if sent or self.credits[channel, kind] == 0:
                    break
                self.credits[channel, kind] -= 1
                sent.append((channel, self.issued, *entry))
            self.issued += 1
        return sent


def read_trace(path: Path) -> list:
    """The entries of a trace: N plain ones and a read, and a write where there is one, for each line."""
    entries: list = []
    for line in path.read_text().splitlines():
        words = [int(word, 0) for word in line.split()]
        if words:
            entries += [None] * words[0] + [("read", words[1])] + [("write", address) for address in words[2:]]
    return entries


def simulate(configuration: Path, traces: list[Path], cycles: int):
    """The commands by channel, and the requests that each channel was sent, in the order of their arrival."""
    keys = tomllib.loads(configuration.read_text())
    links = Link(keys)
    cores = [Core(number, read_trace(trace), keys) for number, trace in enumerate(traces)]
    channels = range(keys["channels"])
    on_the_way: list = []
    coming: list[list] = [[] for _ in channels]
    commands: list[list] = [[] for _ in channels]
    requests: list[list] = [[] for _ in channels]
    with dramsim.Memory(configuration) as memory:
        for now in range(cycles):
            while on_the_way and on_the_way[0][0] <= now:
                _, _, channel, reply = heapq.heappop(on_the_way)
                cores[reply.core].receive(channel, reply)
            for core in cores:
                for channel, entry, kind, address in core.step(memory.place_of):
                    link = 3 * (core.number * len(channels) + channel)
                    heapq.heappush(coming[channel], (now + links.latency(link), link, core.number, entry, kind, address))
            for channel in channels:
                while coming[channel] and coming[channel][0][0] <= now:
                    arrival, _, core, entry, kind, address = heapq.heappop(coming[channel])
                    request = dict(address=address, arrival=arrival, entry=entry, core=core, write=kind == "write")
                    memory.send(**request)
                    requests[channel].append(request)
            memory.run(now + 1)
            for channel, command in memory.commands():
                commands[channel].append(command)
            for count, (channel, reply) in enumerate(memory.replies()):
                heapq.heappush(on_the_way, (reply.arrival, (now, count), channel, reply))
        statistics = [memory.statistics(channel) for channel in channels]
    return commands, requests, statistics


def replay(configuration: Path, number: int, requests: list[dict], cycles: int, step: int) -> list[dramsim.Command]:
    """The commands of a channel that is sent these requests and run in steps of so many cycles, shorter where a credit is waited for."""
    with dramsim.Channel(configuration, number) as channel:
        left, commands = list(requests), []
        while channel.now < cycles:
            until = min(channel.now + step, cycles)
            while left and left[0]["arrival"] < until:
                try:
                    channel.send(**left[0])
                    del left[0]
                except dramsim.Refused as refused:
                    if refused.status != dramsim.Status.NO_CREDIT:
                        raise
                    until = left[0]["arrival"]
            channel.run(until)
            commands += channel.commands()
        return commands


def lines_of(requests: list[list[dict]]) -> str:
    """The requests of all channels by arrival, as the programs in c/tests read them."""
    all = sorted((request for sent in requests for request in sent), key=lambda request: request["arrival"])
    return "".join("{arrival} {core} {entry} {write:d} {address}\n".format(**request) for request in all)


def table(commands: list[list[dramsim.Command]], keys: dict) -> list[dict[str, str]]:
    """The rows of commands.csv, by cycle and then by channel."""
    rows = sorted(((command.cycle, number, command) for number, all in enumerate(commands) for command in all), key=lambda row: row[:2])
    return [row_of(number, command, keys.get("ranks", 1)) for _, number, command in rows]


def row_of(number: int, command: dramsim.Command, ranks: int) -> dict[str, str]:
    """A row of commands.csv."""
    kind = command.kind
    named = kind not in (dramsim.Kind.PREA, dramsim.Kind.REF)
    column = kind in (dramsim.Kind.RD, dramsim.Kind.WR)
    row = {"cycle": str(command.cycle), "channel": str(number), "command": kind.name}
    if ranks > 1:
        row["rank"] = str(command.rank)
    row["group"] = str(command.group) if named else ""
    row["bank"] = str(command.bank) if named else ""
    row["row"] = str(command.row) if named and kind != dramsim.Kind.PRE else ""
    row["column"] = str(command.column) if column else ""
    row["core"] = str(command.core) if named else ""
    row["entry"] = str(command.entry) if named else ""
    return row


if __name__ == "__main__":
    _, sent, _ = simulate(Path(sys.argv[1]), [Path(trace) for trace in sys.argv[3:]], int(sys.argv[2]))
    sys.stdout.write(lines_of(sent))
