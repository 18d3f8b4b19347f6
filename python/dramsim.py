"""dramsim for Python: DDR4 memory that a program drives, channel by channel or whole, and whole runs.

A `Channel` and a `Memory` stand on the shared library that `./dramsim --library DIR` makes (`libdramsim.so`), which is found in `DRAMSIM_LIBRARY`, or
beside this file. A run calls the program `dramsim`, which is found in `DRAMSIM`, or on the path. `configure` calls `machines/configure` of
the repository, which is found in `DRAMSIM_HOME`, or around this file.
"""

from __future__ import annotations

import csv
import ctypes
import enum
import os
import subprocess
import sys
import tempfile
from pathlib import Path
from typing import Iterable, Iterator, NamedTuple, Self, Sequence

__all__ = [
    "Channel", "Command", "Kind", "Memory", "Place", "Reply", "ReplyKind", "Refused", "Statistics", "Status", "Tables", "Verdict",
    "check", "configure", "run",
]


class Status(enum.IntEnum):
    """What a call of the library answers."""

    OK = 0
    MEMORY = 1
    CLOSED = 2
    ALREADY_OPEN = 3
    CONFIGURATION = 4
    NO_SUCH_CHANNEL = 5
    NO_SUCH_CORE = 6
    OTHER_CHANNEL = 7
    IN_THE_PAST = 8
    OUT_OF_ORDER = 9
    ENTRY_PASSED = 10
    NO_CREDIT = 11
    END_PASSED = 12
    END_TOO_LATE = 13
    NO_SUCH_PLACE = 14
    TOO_SHORT = 15
    BREAKS_RULE = 16
    MALFORMED = 17


class Refused(Exception):
    """A call or a run was refused.

    `status` is the library's, or that of the program. `lines` is what the program told, or, where a configuration is refused, the line that it
    tells, as `fault 3: configuration range nCL`.
    """

    def __init__(self, status: int, lines: str = "") -> None:
        known = status in Status._value2member_map_
        super().__init__(lines or (Status(status).name.lower().replace("_", " ") if known else f"status {status}"))
        self.status = status
        self.lines = lines


class Kind(enum.IntEnum):
    """The kinds of commands."""

    ACT = 0
    RD = 1
    WR = 2
    PRE = 3
    PREA = 4
    REF = 5


class ReplyKind(enum.IntEnum):
    """What comes back to a core."""

    DATA = 0
    READ_CREDIT = 1
    WRITE_CREDIT = 2


class Command(NamedTuple):
    """A command of a channel, and its cycle. A number that its kind does not name is 0."""

    cycle: int
    kind: Kind
    rank: int
    group: int
    bank: int
    row: int
    column: int
    core: int
    entry: int


class Reply(NamedTuple):
    """The data of a read, or a credit, with the cycle in which it comes to its core."""

    arrival: int
    kind: ReplyKind
    core: int
    entry: int


class Place(NamedTuple):
    """Where a line of 64 bytes lies."""

    channel: int
    rank: int
    group: int
    bank: int
    row: int
    column: int


class Statistics(NamedTuple):
    """The statistics of a channel: the columns of stats.csv."""

    act: int
    rd: int
    wr: int
    pre: int
    prea: int
    ref: int
    hits: int
    queued: int
    queued_max: int
    idle: int
    refreshing: int
    draining: int


class Verdict(NamedTuple):
    """What is at fault in a table of commands: the first row at fault, and the lowest rule that it breaks; 0 where the row is none.

    Rows are counted from 1, and 0 is the header.
    """

    row: int
    rule: int


class _Handle(ctypes.Structure):
    """A channel or a memory."""

    _fields_ = [("is_open", ctypes.c_bool), ("at", ctypes.c_void_p)]


class _Request(ctypes.Structure):
    _fields_ = [
        ("address", ctypes.c_uint64),
        ("arrival", ctypes.c_uint64),
        ("entry", ctypes.c_uint64),
        ("core", ctypes.c_uint16),
        ("is_write", ctypes.c_bool),
    ]


class _Command(ctypes.Structure):
    _fields_ = [
        ("cycle", ctypes.c_uint64),
        ("entry", ctypes.c_uint64),
        ("row", ctypes.c_uint32),
        ("column", ctypes.c_uint32),
        ("rank", ctypes.c_uint32),
        ("group", ctypes.c_uint32),
        ("bank", ctypes.c_uint32),
        ("core", ctypes.c_uint16),
        ("kind", ctypes.c_uint8),
    ]


class _Reply(ctypes.Structure):
    _fields_ = [
        ("arrival", ctypes.c_uint64),
        ("entry", ctypes.c_uint64),
        ("core", ctypes.c_uint64),
        ("kind", ctypes.c_uint8),
    ]


class _Place(ctypes.Structure):
    _fields_ = [(name, ctypes.c_uint32) for name in Place._fields]


class _Verdict(ctypes.Structure):
    _fields_ = [("row", ctypes.c_uint64), ("rule", ctypes.c_uint8)]


class _Stats(ctypes.Structure):
    _fields_ = [
        (name, ctypes.c_uint64)
        for name in (
            "act", "rd", "wr", "pre", "prea", "refs", "hits", "queued_low", "queued_high",
            "queued_max", "idle", "refreshing", "draining",
        )
    ]


_loaded = None

# The room for the line of a fault, in bytes.
_FAULT_ROOM = 100


def _calls() -> dict[str, tuple]:
    """The calls of the library: what each answers, and what it takes."""
    status, flag, cycle, number = ctypes.c_uint32, ctypes.c_bool, ctypes.c_uint64, ctypes.c_uint32
    text, length, handle = ctypes.c_char_p, ctypes.c_size_t, ctypes.POINTER(_Handle)
    to = ctypes.POINTER
    return {
        "open": (status, text, length, number, handle),
        "send": (status, handle, to(_Request)),
        "run": (status, handle, cycle),
        "next_command": (flag, handle, to(_Command)),
        "next_reply": (flag, handle, to(_Reply)),
        "next_act": (flag, handle, to(cycle)),
        "now": (cycle, handle),
        "place": (flag, handle, ctypes.c_uint64, to(_Place)),
        "address": (status, handle, to(_Place), to(ctypes.c_uint64)),
        "stats": (flag, handle, to(_Stats)),
        "close": (None, handle),
        "memory_open": (status, text, length, handle),
        "memory_send": (status, handle, to(_Request)),
        "memory_run": (status, handle, cycle),
        "memory_next_command": (flag, handle, to(number), to(_Command)),
        "memory_next_reply": (flag, handle, to(number), to(_Reply)),
        "memory_next_act": (flag, handle, to(cycle)),
        "memory_now": (cycle, handle),
        "memory_place": (flag, handle, ctypes.c_uint64, to(_Place)),
        "memory_address": (status, handle, to(_Place), to(ctypes.c_uint64)),
        "memory_stats": (status, handle, number, to(_Stats)),
        "memory_close": (None, handle),
        "fault_text": (status, text, length, ctypes.c_char_p, length, to(length)),
        "check": (status, text, length, text, length, to(_Verdict)),
    }


def _library() -> ctypes.CDLL:
    """The shared library, with the types of its calls."""
    global _loaded
    if _loaded is None:
        path = os.environ.get("DRAMSIM_LIBRARY") or str(Path(__file__).with_name("libdramsim.so"))
        library = ctypes.CDLL(path)
        for name, (answer, *words) in _calls().items():
            call = getattr(library, f"dramsim_{name}")
            call.restype, call.argtypes = answer, words
        _loaded = library
    return _loaded


def _text_of(file: str | os.PathLike[str] | bytes) -> bytes:
    return file if isinstance(file, bytes) else Path(file).read_bytes()


def _check(status: int, configuration: bytes | None = None) -> None:
    """Raises `Refused` where a call was refused, with the line of the fault where its configuration was."""
    if status == Status.CONFIGURATION and configuration is not None:
        line, length = ctypes.create_string_buffer(_FAULT_ROOM), ctypes.c_size_t()
        _check(_library().dramsim_fault_text(configuration, len(configuration), line, _FAULT_ROOM, ctypes.byref(length)))
        raise Refused(status, line.raw[: length.value].decode())
    if status != Status.OK:
        raise Refused(status)


def _fitting(bits: int, number: int) -> int:
    """The number, where so many bits hold it."""
    if not 0 <= number < 1 << bits:
        raise OverflowError(f"{number} is no number of {bits} bits")
    return number


def _command_of(row: _Command) -> Command:
    return Command(row.cycle, Kind(row.kind), row.rank, row.group, row.bank, row.row, row.column, row.core, row.entry)


def _reply_of(row: _Reply) -> Reply:
    return Reply(row.arrival, ReplyKind(row.kind), row.core, row.entry)


def _statistics_of(row: _Stats) -> Statistics:
    queued = row.queued_high << 64 | row.queued_low
    return Statistics(
        row.act, row.rd, row.wr, row.pre, row.prea, row.refs, row.hits, queued, row.queued_max,
        row.idle, row.refreshing, row.draining,
    )


class _Kept:
    """What a program keeps by a handle: a channel or a memory, whose calls of the library begin with `_calls`. Use it in a `with`, or close it."""

    _calls: str

    def __init__(self, configuration: str | os.PathLike[str] | bytes, *words: object) -> None:
        text = _text_of(configuration)
        self._library = _library()
        self._handle = _Handle()
        open_call = getattr(self._library, f"{self._calls}open")
        _check(open_call(text, len(text), *words, ctypes.byref(self._handle)), text)

    def _call(self, name: str, *words: object) -> int:
        return getattr(self._library, self._calls + name)(ctypes.byref(self._handle), *words)

    def __enter__(self) -> Self:
        return self

    def __exit__(self, *_: object) -> None:
        self.close()

    def __del__(self) -> None:
        if hasattr(self, "_handle"):
            self.close()

    def close(self) -> None:
        """Frees what it holds. Closed, it refuses every call."""
        self._call("close")

    def send(self, address: int, *, arrival: int, entry: int, core: int = 0, write: bool = False) -> None:
        """Sends a request that arrives in a cycle at or after `now`, and after those that were sent to its channel before."""
        request = _Request(_fitting(64, address), _fitting(64, arrival), _fitting(64, entry), _fitting(16, core), write)
        _check(self._call("send", ctypes.byref(request)))

    def run(self, until: int) -> None:
        """Runs it over the cycles before `until`. Where memory is refused, it is closed."""
        _check(self._call("run", _fitting(64, until)))

    @property
    def now(self) -> int:
        """How many cycles are over."""
        return self._call("now")

    def next_act(self) -> int | None:
        """The next cycle in which a command is issued, or a request that was sent arrives, if nothing more is sent; None where there is none."""
        cycle = ctypes.c_uint64()
        return cycle.value if self._call("next_act", ctypes.byref(cycle)) else None

    def place_of(self, address: int) -> Place:
        """Where the line of an address lies: a request goes to the channel with the number `channel`."""
        row = _Place()
        if not self._call("place", _fitting(64, address), ctypes.byref(row)):
            raise Refused(Status.CLOSED)
        return Place(*(getattr(row, name) for name in Place._fields))

    def address_of(self, place: Place) -> int:
        """The least address of the line at a place."""
        address = ctypes.c_uint64()
        row = _Place(*(_fitting(32, number) for number in place))
        _check(self._call("address", ctypes.byref(row), ctypes.byref(address)))
        return address.value


class Channel(_Kept):
    """One channel of the machine that a configuration describes, before its first cycle. Use it in a `with`, or close it.

    It is driven in steps of any length: what it answers depends on the requests that it was sent, and not on the steps.
    """

    _calls = "dramsim_"

    def __init__(self, configuration: str | os.PathLike[str] | bytes, number: int = 0) -> None:
        """Opens the channel with a number. `configuration` is a path, or the text of a file as bytes."""
        super().__init__(configuration, _fitting(32, number))

    def commands(self) -> Iterator[Command]:
        """Takes the commands of the cycles that are over, which were not taken."""
        row = _Command()
        while self._call("next_command", ctypes.byref(row)):
            yield _command_of(row)

    def replies(self) -> Iterator[Reply]:
        """Takes the replies and credits that were sent in the cycles that are over, which were not taken."""
        row = _Reply()
        while self._call("next_reply", ctypes.byref(row)):
            yield _reply_of(row)

    @property
    def statistics(self) -> Statistics:
        """The statistics of the cycles that are over."""
        row = _Stats()
        if not self._call("stats", ctypes.byref(row)):
            raise Refused(Status.CLOSED)
        return _statistics_of(row)


class Memory(_Kept):
    """All channels of the machine that a configuration describes, before its first cycle. Use it in a `with`, or close it.

    A request goes to the channel of its address, and `run` runs all. As with a `Channel`, what it answers does not depend on the steps.
    """

    _calls = "dramsim_memory_"

    def __init__(self, configuration: str | os.PathLike[str] | bytes) -> None:
        """Opens the memory. `configuration` is a path, or the text of a file as bytes."""
        super().__init__(configuration)

    def commands(self) -> Iterator[tuple[int, Command]]:
        """Takes the commands of the cycles that are over, which were not taken, each with the number of its channel: by cycle and then by channel."""
        number, row = ctypes.c_uint32(), _Command()
        while self._call("next_command", ctypes.byref(number), ctypes.byref(row)):
            yield number.value, _command_of(row)

    def replies(self) -> Iterator[tuple[int, Reply]]:
        """Takes the replies and credits that were sent in the cycles that are over, which were not taken, each with the number of its channel.

        Of the next one of each channel, the one that arrives first comes first, and of these that of the lowest channel.
        """
        number, row = ctypes.c_uint32(), _Reply()
        while self._call("next_reply", ctypes.byref(number), ctypes.byref(row)):
            yield number.value, _reply_of(row)

    def statistics(self, channel: int) -> Statistics:
        """The statistics of the cycles of a channel that are over."""
        row = _Stats()
        _check(self._call("stats", _fitting(32, channel), ctypes.byref(row)))
        return _statistics_of(row)


def check(configuration: str | os.PathLike[str] | bytes, table: str | os.PathLike[str] | bytes) -> Verdict | None:
    """What is at fault in a table of commands, as `dramsim check` says; None where it is legal. Both are paths, or the texts of files as bytes."""
    text, commands, verdict = _text_of(configuration), _text_of(table), _Verdict()
    status = _library().dramsim_check(text, len(text), commands, len(commands), ctypes.byref(verdict))
    if status in (Status.BREAKS_RULE, Status.MALFORMED):
        return Verdict(verdict.row, verdict.rule)
    _check(status, text)
    return None


class Tables(NamedTuple):
    """The tables of a run that were asked for, row by row, each a dict by the names of the columns; None for the others."""

    commands: list[dict[str, str]] | None = None
    stats: list[dict[str, str]] | None = None
    final: list[dict[str, str]] | None = None
    requests: list[dict[str, str]] | None = None

    def frames(self) -> tuple:
        """The tables as frames of pandas, where it is installed, in the same order; None for those that were not asked for."""
        import pandas

        return tuple(None if rows is None else pandas.DataFrame(rows) for rows in self)


def configure(preset: str, machine: str, **keys: int | str) -> bytes:
    """The text of a configuration: a machine whose links are in nanoseconds and cores in GHz, with the clock of a preset.

    Both are names, as `ddr4_2400_8gb_x8` and `four_cores`, or paths with a `/`; each of `keys` is set by hand (docs/CONFIG.md).
    """
    home = Path(os.environ.get("DRAMSIM_HOME") or Path(__file__).resolve().parents[1])
    words = [sys.executable, str(home / "machines" / "configure"), preset, machine, *(f"{key}={value}" for key, value in keys.items())]
    done = subprocess.run(words, capture_output=True)
    if done.returncode != 0:
        raise Refused(done.returncode, done.stderr.decode().strip())
    return done.stdout


def run(
    configuration: str | os.PathLike[str] | bytes,
    traces: Iterable[str | os.PathLike[str]],
    cycles: int,
    workers: int = 1,
    *,
    tables: Sequence[str] = ("commands", "stats", "final"),
    options: Sequence[str] = (),
) -> Tables:
    """Runs the program on a configuration and a trace for each core, up to a cycle, and gives its tables.

    `configuration` is a path, or the text of a file as bytes; `tables` are those that are wanted, of `commands`, `stats`, `final` and
    `requests`; `options` are further words of `dramsim run`.
    """
    program = os.environ.get("DRAMSIM", "dramsim")
    with tempfile.TemporaryDirectory() as folder:
        if isinstance(configuration, bytes):
            text, configuration = configuration, Path(folder) / "config.toml"
            configuration.write_bytes(text)
        words = [program, "run", os.fspath(configuration), "--cycles", str(cycles), "--workers", str(workers), "--out", folder]
        words += ["--tables", ",".join(tables)]
        done = subprocess.run([*words, *options, *map(os.fspath, traces)], capture_output=True, text=True)
        if done.returncode != 0:
            raise Refused(done.returncode, done.stderr.strip())
        return Tables(**{name: _rows(Path(folder) / f"{name}.csv") for name in tables})


def _rows(path: Path) -> list[dict[str, str]]:
    with path.open(newline="", encoding="utf-8") as table:
        return list(csv.DictReader(table))
