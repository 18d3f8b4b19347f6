"""Runs, and channels and memories that Python and C drive, beside the program: python -m unittest discover python/tests, with DRAMSIM,
DRAMSIM_LIBRARY and DRAMSIM_REPLAY set, the last one to the programs that c/tests/replay.c and replay_memory.c make, with colons between.

`Runs` needs the program alone.
"""

import csv
import os
import random
import subprocess
import sys
import tempfile
import tomllib
import types
import unittest
import unittest.mock
from pathlib import Path

sys.path.insert(0, str(Path(__file__).resolve().parents[1]))
sys.path.insert(0, str(Path(__file__).resolve().parent))

import dramsim
import machine
from out_of_order import Core, Instruction

EXAMPLES = Path(__file__).resolve().parents[2] / "examples"
SMALL = EXAMPLES / "profile_s.toml"
TWO = EXAMPLES / "cases" / "two_channels" / "config.toml"
LONGEST = 3000


def traces_of(case: Path, cores: int) -> list[Path]:
    """The traces of a worked case: the last one is that of each further core too."""
    there = [path for path in (case / f"c{core}.trace" for core in range(cores)) if path.exists()]
    return [case / f"c{core}.trace" if (case / f"c{core}.trace").exists() else there[-1] for core in range(cores)]


def made_up(seed: int, folder: Path) -> tuple[Path, list[Path]]:
    """A machine of several channels, and traces, that a seed makes."""
    chance = random.Random(seed)
    cores, channels, ranks = chance.randint(1, 3), chance.choice((2, 4)), chance.choice((1, 2))
    fields = ["channel", "column", "rank", "group", "bank", "row"]
    chance.shuffle(fields)
    text = SMALL.read_text().splitlines()
    values = dict(
        cores=cores, channels=channels, columns=chance.choice((4, 16)), rows=8, window=chance.randint(1, 8), width=chance.randint(1, 3),
        read_credits=chance.randint(1, 4), write_credits=chance.randint(1, 4), request_latency=chance.randint(1, 9),
        reply_latency=chance.randint(1, 9), credit_latency=chance.randint(1, 9), nREFI=chance.choice((0, 200)),
    )
    lines = [f"{line.split(' = ')[0]} = {values.pop(line.split(' = ')[0])}" if line.split(" = ")[0] in values else line for line in text]
    lines = [f"fields = {fields}".replace("'", '"') if line.startswith("fields") else line for line in lines]
    lines += [f"ranks = {ranks}", "nRTRS = 2"]
    if chance.random() < 0.5:
        lines += ["write_high = 1", "write_low = 0"]
    configuration = folder / "config.toml"
    configuration.write_text("\n".join(lines) + "\n")
    traces = []
    for core in range(cores):
        rows = [
            f"{chance.choice((0, 0, 0, 3))} {64 * chance.randrange(2048)}" + (f" {64 * chance.randrange(2048)}" if chance.random() < 0.4 else "")
            for _ in range(chance.randint(0, 40))
        ]
        traces.append(folder / f"c{core}.trace")
        traces[-1].write_text("".join(row + "\n" for row in rows))
    return configuration, traces


def run_files(configuration: Path, traces: list[Path], cycles: int) -> dict[str, bytes]:
    """The files that the program writes."""
    with tempfile.TemporaryDirectory() as folder:
        words = [os.environ["DRAMSIM"], "run", configuration, "--cycles", str(cycles), "--workers", "1", "--out", folder, *traces]
        subprocess.run(words, check=True, capture_output=True)
        return {name: (Path(folder) / f"{name}.csv").read_bytes() for name in ("commands", "stats")}


def replay_in_c(program: str, configuration: Path, requests: list[list[dict]], cycles: int, step: int) -> bytes:
    """The table of a memory that a program in C sends these requests and runs in steps of so many cycles."""
    words = [program, configuration, str(step), str(cycles)]
    done = subprocess.run(words, input=machine.lines_of(requests).encode(), capture_output=True)
    if done.returncode != 0:
        raise AssertionError(done.stderr.decode())
    return done.stdout


class Machines(unittest.TestCase):
    """Cores in Python over a memory of the library issue the very commands of `dramsim run`, in steps of any length; its channels do too."""

    def compare(self, configuration: Path, traces: list[Path], cycles: int) -> None:
        keys = tomllib.loads(configuration.read_text())
        files = run_files(configuration, traces, cycles)
        tables = {name: list(csv.DictReader(text.decode().splitlines())) for name, text in files.items()}
        commands, requests, statistics = machine.simulate(configuration, traces, cycles)
        over = next(int(row["value"]) for row in tables["stats"] if row["name"] == "cycles")
        rows = [row for row in machine.table(commands, keys) if int(row["cycle"]) < over]
        self.assertEqual(rows, tables["commands"])
        if over == cycles:
            for row in tables["stats"]:
                if row["scope"] == "channel" and row["name"] in dramsim.Statistics._fields:
                    self.assertEqual(getattr(statistics[int(row["id"])], row["name"]), int(row["value"]), row)
        for number, sent in enumerate(requests):
            self.assertEqual(machine.replay(configuration, number, sent, cycles, 7), commands[number])
        for program in os.environ["DRAMSIM_REPLAY"].split(":"):
            for step in (1, 7, 1000):
                self.assertEqual(replay_in_c(program, configuration, requests, over, step), files["commands"], (program, step))
        self.assertIsNone(dramsim.check(configuration, files["commands"]))

    def test_worked_cases(self) -> None:
        tried = 0
        for case in sorted((EXAMPLES / "cases").iterdir()):
            cycles = int((case / "limit").read_text())
            configuration = case / "config.toml"
            keys = tomllib.loads(configuration.read_text())
            if cycles <= LONGEST and keys["cores"] <= 16:
                with self.subTest(case=case.name):
                    self.compare(configuration, traces_of(case, keys["cores"]), cycles)
                    tried += 1
        self.assertGreater(tried, 25)

    def test_made_up_machines(self) -> None:
        for seed in range(50):
            with self.subTest(seed=seed), tempfile.TemporaryDirectory() as folder:
                self.compare(*made_up(seed, Path(folder)), 700)


class Runs(unittest.TestCase):
    """Whole runs, on a configuration of a file or of a preset."""

    def test_tables(self) -> None:
        # A read that is issued in cycle 0: ACT in 2, RD nRCD = 3 later.
        tables = dramsim.run(SMALL, [EXAMPLES / "rows" / "read.trace"], 64)
        self.assertEqual([(row["cycle"], row["command"]) for row in tables.commands], [("2", "ACT"), ("5", "RD")])
        self.assertEqual(tables.stats[0], {"scope": "run", "id": "0", "name": "cycles", "value": "64"})

    def test_requests(self) -> None:
        # The one ACT is the first read's. The write of its neighbour has no reply, and the read behind it waits for it.
        case = EXAMPLES / "cases" / "same_line"
        tables = dramsim.run(case / "config.toml", [case / "c0.trace"], 64, tables=["stats", "requests"])
        self.assertIsNone(tables.commands)
        self.assertEqual([(row["served"], row["replied"], row["hit"]) for row in tables.requests], [("5", "15", "0"), ("12", "", "1"), ("21", "31", "1")])

    def test_unknown_table(self) -> None:
        with self.assertRaises(dramsim.Refused) as raised:
            dramsim.run(SMALL, [EXAMPLES / "rows" / "read.trace"], 64, tables=["stats", "stats"])
        self.assertTrue(raised.exception.lines.startswith("fault 14"))

    def test_frames(self) -> None:
        # pandas need not be installed here; what it is handed is what `run` gives.
        pandas = types.ModuleType("pandas")
        pandas.DataFrame = list
        tables = dramsim.run(SMALL, [EXAMPLES / "rows" / "read.trace"], 64)
        with unittest.mock.patch.dict(sys.modules, pandas=pandas):
            self.assertEqual(tables.frames(), (tables.commands, tables.stats, tables.final, None))

    def test_workers(self) -> None:
        traces = sorted((EXAMPLES / "ddr4_2400").glob("*.trace"))
        runs = [dramsim.run(EXAMPLES / "ddr4_2400.toml", traces, 3000, workers, options=["--share", "always"]) for workers in (1, 3)]
        self.assertEqual(runs[0], runs[1])

    def test_faults(self) -> None:
        trace = EXAMPLES / "rows" / "read.trace"
        with self.assertRaises(dramsim.Refused) as raised:
            dramsim.run(SMALL, [trace, trace], 10)
        self.assertEqual(raised.exception.status, 2)
        self.assertEqual(raised.exception.lines.splitlines()[0], "fault 7: trace count")

    def test_configure(self) -> None:
        text = dramsim.configure("ddr4_2400_8gb_x8", "four_cores", window=64)
        keys = tomllib.loads(text.decode())
        # A link of 10 ns at 1,200 MHz.
        self.assertEqual((keys["request_latency"], keys["window"], keys["cores"]), (12, 64, 4))
        tables = dramsim.run(text, [EXAMPLES / "rows" / "read.trace"] * 4, 100)
        self.assertEqual(sum(row["command"] == "RD" for row in tables.commands), 4)

    def test_no_preset(self) -> None:
        with self.assertRaises(dramsim.Refused) as raised:
            dramsim.configure("ddr5_9000", "four_cores")
        self.assertEqual(raised.exception.status, 2)
        self.assertIn("ddr5_9000", raised.exception.lines)


class Refusals(unittest.TestCase):
    """Each refusal has its name, and leaves the channel as it was."""

    def refused(self, status: dramsim.Status, call, *words, **named) -> None:
        with self.assertRaises(dramsim.Refused) as raised:
            call(*words, **named)
        self.assertEqual(raised.exception.status, status)

    def test_open(self) -> None:
        self.refused(dramsim.Status.CONFIGURATION, dramsim.Channel, b"cores = 1")
        self.refused(dramsim.Status.CONFIGURATION, dramsim.Memory, b"cores = 1")
        self.refused(dramsim.Status.NO_SUCH_CHANNEL, dramsim.Channel, SMALL, 1)

    def test_fault_text(self) -> None:
        # The line is that of the program.
        small = SMALL.read_bytes()
        for text in (b"cores = ", b"cores = 1", small.replace(b"nCL = 4", b"nCL = 0"), small.replace(b"nCCD_L = 5", b"nCCD_L = 3"), small + b"new = 1\n"):
            with self.subTest(text=text[-20:]):
                with self.assertRaises(dramsim.Refused) as of_run:
                    dramsim.run(text, [EXAMPLES / "rows" / "read.trace"], 10)
                for opened in (dramsim.Channel, dramsim.Memory):
                    with self.assertRaises(dramsim.Refused) as raised:
                        opened(text)
                    self.assertEqual(raised.exception.lines, of_run.exception.lines.splitlines()[0])
                    self.assertEqual(str(raised.exception), raised.exception.lines)

    def test_memory(self) -> None:
        with dramsim.Memory(TWO) as memory:
            memory.run(10)
            # Line 0 lies in channel 0, line 1 in channel 1: neither takes notice of what the other is sent.
            memory.send(64, arrival=20, entry=9)
            memory.send(0, arrival=12, entry=3)
            self.refused(dramsim.Status.NO_SUCH_CORE, memory.send, 0, arrival=13, entry=4, core=1)
            self.refused(dramsim.Status.IN_THE_PAST, memory.send, 0, arrival=9, entry=4)
            self.refused(dramsim.Status.OUT_OF_ORDER, memory.send, 64, arrival=20, entry=10)
            self.refused(dramsim.Status.ENTRY_PASSED, memory.send, 0, arrival=13, entry=3)
            self.refused(dramsim.Status.END_PASSED, memory.run, 9)
            self.refused(dramsim.Status.END_TOO_LATE, memory.run, 2**62 + 1)
            self.refused(dramsim.Status.NO_SUCH_CHANNEL, memory.statistics, 2)
            memory.run(40)
            self.assertEqual([(number, command.cycle) for number, command in memory.commands()], [(0, 12), (0, 15), (1, 20), (1, 23)])
            self.assertEqual([(number, reply.arrival) for number, reply in memory.replies()], [(0, 25), (0, 17), (1, 33), (1, 25)])
            self.assertEqual((memory.statistics(0).rd, memory.now, memory.next_act()), (1, 40, None))
        self.refused(dramsim.Status.CLOSED, memory.run, 41)
        self.refused(dramsim.Status.CLOSED, memory.send, 0, arrival=41, entry=11)
        self.refused(dramsim.Status.CLOSED, memory.statistics, 0)
        self.refused(dramsim.Status.CLOSED, memory.place_of, 0)
        self.assertEqual((list(memory.commands()), list(memory.replies()), memory.now, memory.next_act()), ([], [], 0, None))

    def test_numbers(self) -> None:
        # What no number of C holds is refused before the library is asked.
        with dramsim.Memory(SMALL) as memory:
            for words in (dict(address=-1), dict(address=2**64), dict(arrival=-1), dict(arrival=2**64), dict(entry=2**64), dict(core=2**16)):
                with self.subTest(words=words), self.assertRaises(OverflowError):
                    memory.send(**(dict(address=0, arrival=0, entry=0) | words))
            for call, number in ((memory.run, 2**64), (memory.statistics, 2**32), (memory.statistics, -1), (memory.place_of, -1)):
                with self.subTest(call=call), self.assertRaises(OverflowError):
                    call(number)
            with self.assertRaises(OverflowError):
                memory.address_of(dramsim.Place(0, 0, 0, 0, 2**32, 0))
            with self.assertRaises(OverflowError):
                dramsim.Channel(SMALL, 2**32)
            self.assertEqual((memory.now, list(memory.commands())), (0, []))

    def test_places(self) -> None:
        with dramsim.Channel(SMALL) as channel, dramsim.Memory(SMALL) as memory:
            # 128 lines a row, 2 groups and 4 banks: row 1 begins at 65,536 bytes.
            self.assertEqual(channel.address_of(dramsim.Place(0, 0, 1, 0, 1, 3)), 65536 + 8192 + 3 * 64)
            self.assertEqual(memory.place_of(65536 + 8192 + 3 * 64), dramsim.Place(0, 0, 1, 0, 1, 3))
            for place in ((1, 0, 0, 0, 0, 0), (0, 1, 0, 0, 0, 0), (0, 0, 2, 0, 0, 0), (0, 0, 0, 4, 0, 0), (0, 0, 0, 0, 65536, 0), (0, 0, 0, 0, 0, 128)):
                self.refused(dramsim.Status.NO_SUCH_PLACE, channel.address_of, dramsim.Place(*place))
                self.refused(dramsim.Status.NO_SUCH_PLACE, memory.address_of, dramsim.Place(*place))

    def test_check(self) -> None:
        # The PRE of row 4 comes 10 cycles after the WR, where nCWL + 4 + nWR = 11. A row with a word that is no command
        # is none.
        self.assertEqual(dramsim.check(SMALL, EXAMPLES / "tables" / "broken.csv"), dramsim.Verdict(4, 8))
        header = b"cycle,channel,command,group,bank,row,column,core,entry\n"
        self.assertIsNone(dramsim.check(SMALL, header))
        self.assertEqual(dramsim.check(SMALL, header + b"2,0,ACT,0,0,0,,0,0\n5,0,READ,0,0,0,0,0,0\n"), dramsim.Verdict(2, 0))
        self.assertEqual(dramsim.check(SMALL, b""), dramsim.Verdict(0, 0))
        self.refused(dramsim.Status.CONFIGURATION, dramsim.check, b"cores = 1", header)

    def test_requests(self) -> None:
        with dramsim.Channel(SMALL) as channel:
            channel.run(10)
            channel.send(0, arrival=12, entry=3)
            self.refused(dramsim.Status.NO_SUCH_CORE, channel.send, 0, arrival=13, entry=4, core=1)
            self.refused(dramsim.Status.IN_THE_PAST, channel.send, 0, arrival=9, entry=4)
            self.refused(dramsim.Status.OUT_OF_ORDER, channel.send, 0, arrival=12, entry=4)
            self.refused(dramsim.Status.ENTRY_PASSED, channel.send, 0, arrival=13, entry=3)
            self.refused(dramsim.Status.END_PASSED, channel.run, 9)
            self.refused(dramsim.Status.END_TOO_LATE, channel.run, 2**62 + 1)
            channel.run(40)
            # ACT in 12, RD nRCD = 3 later; the data nCL + 4 and the link of 2 after that, the credit the link of 2.
            self.assertEqual([(command.cycle, command.kind.name) for command in channel.commands()], [(12, "ACT"), (15, "RD")])
            self.assertEqual([(reply.arrival, reply.kind.name) for reply in channel.replies()], [(25, "DATA"), (17, "READ_CREDIT")])

    def test_credits(self) -> None:
        with dramsim.Channel(SMALL) as channel:
            # One core has 4 credits for reads and 4 for writes.
            for entry in range(8):
                channel.send(64 * entry, arrival=entry, entry=entry)
            self.refused(dramsim.Status.NO_CREDIT, channel.send, 0, arrival=8, entry=8)

    def test_closed(self) -> None:
        channel = dramsim.Channel(SMALL)
        channel.close()
        channel.close()
        self.refused(dramsim.Status.CLOSED, channel.run, 1)
        self.refused(dramsim.Status.CLOSED, channel.send, 0, arrival=0, entry=0)
        self.assertEqual(list(channel.commands()), [])
        self.assertEqual(channel.now, 0)


class Install(unittest.TestCase):
    """`pip install` of the folder, with no index at hand."""

    def test_pip(self) -> None:
        if subprocess.run([sys.executable, "-m", "pip", "--version"], capture_output=True).returncode != 0:
            self.skipTest("there is no pip")
        with tempfile.TemporaryDirectory() as folder:
            words = ["--quiet", "--no-index", "--no-cache-dir", "--disable-pip-version-check", "--target", folder, Path(dramsim.__file__).parent]
            subprocess.run([sys.executable, "-m", "pip", "install", *words], check=True, capture_output=True)
            program = f"import dramsim; print(dramsim.__file__); print(dramsim.Memory({str(SMALL)!r}).place_of(65536).row)"
            done = subprocess.run([sys.executable, "-c", program], cwd=folder, check=True, capture_output=True, text=True)
            self.assertEqual(done.stdout.split(), [str(Path(folder) / "dramsim.py"), "1"])


class Cores(unittest.TestCase):
    """A core that issues its loads out of order."""

    def cycles(self, program: list[Instruction], window: int = 8) -> int:
        with dramsim.Memory(SMALL) as memory:
            return Core(program, window=window, link=2, credits=4).run(memory)

    def test_one_load(self) -> None:
        # It arrives in 2; ACT 2, RD nRCD = 3 later, data nCL + 4 after it, and the link of 2.
        self.assertEqual(self.cycles([Instruction(0)]), 2 + 3 + 4 + 4 + 2)

    def test_chain(self) -> None:
        # Each further load goes when the one before has come, and finds its row open: the link, nCL + 4, the link.
        program = [Instruction(64 * line, line - 1 if line else None) for line in range(5)]
        self.assertEqual(self.cycles(program), 15 + 4 * (2 + 4 + 4 + 2))

    def test_independent(self) -> None:
        # The second is sent a cycle later, and its RD comes nCCD_L = 5 after the first.
        self.assertEqual(self.cycles([Instruction(0), Instruction(64)]), 15 + 5)

    def test_out_of_order(self) -> None:
        # The third waits for nothing: it is sent before the second, which waits for the first.
        program = [Instruction(0), Instruction(64, 0), Instruction(128)]
        self.assertEqual(self.cycles(program), 15 + 2 + 4 + 4 + 2)
        # Where only two are in flight, it is sent when the first has retired, a cycle after the second: its RD is
        # nCCD_L = 5 later.
        self.assertEqual(self.cycles(program, window=2), 15 + 12 + 5)

    def test_idle(self) -> None:
        # An instruction that loads nothing is done a cycle later.
        self.assertEqual(self.cycles([Instruction(), Instruction(None, 0), Instruction(0, 1)]), 2 + 15)


if __name__ == "__main__":
    unittest.main()
