#!/usr/bin/env python3
"""Measures the built program beside plain C on this machine, and prints a table for docs/BENCHMARKS.md.

    benchmarks/measure.py PROGRAM [--turns N] [--disk FOLDER] [--memory FOLDER] [--only PART]

Parts: trips, lists, sets, openings, session, counts, spilled. Each number of the program stands beside one of C from
the same run: `echo.c` sends back what comes, `floor.c` is the least server that does the same work, and `gen_floor.c`
makes the writes of a generated session. Program and C take turns on a processor of their own, the client has another; a
number is the median of the turns. The parts counts and spilled have instructions, which no load changes. It needs a C
compiler (cc), and for instructions valgrind. It compares nothing but the lines and the digest of the session.
"""
import argparse
import os
import platform
import re
import shutil
import socket
import statistics
import subprocess
import sys
import tempfile
import time

HERE = os.path.dirname(os.path.abspath(__file__))
sys.path.insert(0, os.path.join(HERE, "..", "tools"))
import mavlink  # noqa: E402
import states  # noqa: E402
from decimals import as_float  # noqa: E402
from server import END, free_port  # noqa: E402
from vehicle import Vehicle  # noqa: E402

PARTS = ("trips", "lists", "sets", "openings", "session", "counts", "spilled")
TRIPS = 20_000  # round trips of a turn
SETS = 1_000
OPENINGS = 20  # starts of a turn
SESSIONS = (1, 1_000)  # rounds of the generated sessions
COUNTED = (200, 1_200)  # requests of two runs whose instructions are counted
LISTED = (2, 12)  # lists of two such runs
RESULT = re.compile("lines ([0-9]+) sha256 ([0-9a-f]{64})")  # of a generated session
COLLECTED = re.compile(b"Collected : ([0-9]+)")  # of callgrind
FLASH = re.compile("programs ([0-9]+) bytes ([0-9]+)")
PAUSE = 20e-6  # seconds between two tries
PATIENCE = 20  # seconds until an answer is given up
LIST_PATIENCE = 60  # seconds until a list is given up


def processors():
    """The words that pin a server and a client to processors of their own, where there are enough."""
    allowed = sorted(os.sched_getaffinity(0))
    if len(allowed) < 3:
        return [], [], []
    server, client = str(allowed[1]), str(allowed[2])
    return ["taskset", "-c", server], ["taskset", "-c", client], ["taskset", "-c", f"{server},{client}"]


def wait(port):
    """Waits until a server at this port answers, and returns its first answer."""
    with socket.socket(socket.AF_INET, socket.SOCK_DGRAM) as station:
        station.settimeout(0.2)
        station.connect(("127.0.0.1", port))
        start = time.perf_counter()
        while time.perf_counter() - start < PATIENCE:
            try:
                station.send(mavlink.request_read(0))
                return station.recv(2048)
            except (socket.timeout, ConnectionRefusedError):
                time.sleep(PAUSE)
    raise SystemExit("measure: no answer")


class Server:
    """A server in the background, which has answered once."""

    def __init__(self, pin, words, port, stderr=None):
        self.port = port
        self.process = subprocess.Popen([*pin, *words], stdout=subprocess.DEVNULL, stderr=stderr)
        wait(port)

    def __enter__(self):
        return self

    def __exit__(self, *_):
        self.process.kill()
        self.process.wait()


class Bench:
    def __init__(self, words, folder):
        self.program, self.turns = os.path.abspath(words.program), words.turns
        self.folder = folder
        self.pin_server, self.pin_client, self.pin_both = processors()
        for name in ("echo", "client", "floor", "gen_floor", "opener"):
            source = os.path.join(HERE, name + ".c")
            subprocess.run(["cc", "-O2", "-o", self.path(name), source], check=True)

    def path(self, name):
        return os.path.join(self.folder, name)

    def write(self, name, content):
        with open(self.path(name), "wb") as file:
            file.write(content)
        return self.path(name)

    def serve(self, image):
        port = free_port()
        return Server(self.pin_server, [self.program, "serve", image, "--port", str(port)], port)

    def floor(self, *words):
        port = free_port()
        return Server(self.pin_server, [self.path("floor"), str(port), self.path("names"), *words], port)

    def echo(self):
        port = free_port()
        return Server(self.pin_server, [self.path("echo"), str(port)], port)

    def seconds(self, server, own_port, in_flight, count, requests):
        """How long so many requests took, of the requests in a file in turn."""
        words = [self.path("client"), str(server.port), str(own_port), str(in_flight), str(count), requests]
        return float(subprocess.run([*self.pin_client, *words], capture_output=True, check=True).stdout)

    def requests(self, name, frames):
        return self.write(name, "".join(frame.hex() + "\n" for frame in frames).encode())

    def prepare(self):
        """Makes an empty image, and one with a value for each parameter that takes another than its default."""
        self.empty, self.stored = self.path("empty.img"), self.path("stored.img")
        for image in (self.empty, self.stored):
            subprocess.run([self.program, "format", image], check=True, stdout=subprocess.DEVNULL)
        with self.serve(self.stored) as server:
            vehicle = Vehicle(server.port)
            shown = vehicle.list()
            self.names = [one["name"] for one in shown]
            self.taken = 0
            for one in shown:
                value = 1.0 if one["value"] != 1.0 else 2.0
                self.taken += vehicle.set(one["name"], value)["value"] == as_float(value)
            vehicle.read("0")
            vehicle.socket.send(END)
            server.process.wait(timeout=PATIENCE)
        self.write("names", "".join(name + "\n" for name in self.names).encode())

    def copy(self, image, folder):
        """A fresh copy of an image."""
        with open(image, "rb") as source:
            content = source.read()
        copy = os.path.join(folder, "vehicle.img")
        with open(copy, "wb") as file:
            file.write(content)
        return copy

    def trips(self):
        by_name = [mavlink.request_read(-1, name=name) for name in self.names]
        cases = [
            ("index 0, nothing stored", self.empty, [mavlink.request_read(0)]),
            (f"each name in turn, {self.taken} values stored", self.stored, by_name),
            (f"the last name, {self.taken} values stored", self.stored, by_name[-1:]),
        ]
        table(
            "PARAM_REQUEST_READ, trips a second",
            ["in flight", "serve", "C server", "C echo", "of server", "of echo"],
        )
        for title, image, frames in cases:
            requests = self.requests("requests", frames)
            with self.serve(self.copy(image, self.folder)) as ours, self.floor() as floor, self.echo() as echo:
                servers = [(server, free_port()) for server in (ours, floor, echo)]
                for in_flight in (1, 16):
                    took = [[self.seconds(server, own, in_flight, TRIPS, requests) for server, own in servers] for _ in range(self.turns)]
                    rates = [TRIPS / statistics.median(column) for column in zip(*took)]
                    row(title, [in_flight, *(f"{rate:.0f}" for rate in rates), f"{rates[0] / rates[1]:.2f}", f"{rates[0] / rates[2]:.2f}"])

    def list_seconds(self, server, beats):
        """How long a list takes that is asked for once, with a heartbeat a second or none."""
        with socket.socket(socket.AF_INET, socket.SOCK_DGRAM) as station:
            station.connect(("127.0.0.1", server.port))
            station.settimeout(0.05)
            seen, start = set(), time.perf_counter()
            beat = start
            station.send(mavlink.request_list(version=2))
            while len(seen) < len(self.names):
                now = time.perf_counter()
                if now - start > LIST_PATIENCE:
                    raise SystemExit(f"measure: {len(seen)} values after {LIST_PATIENCE} seconds")
                if beats and now - beat >= 1:
                    station.send(mavlink.heartbeat(version=2))
                    beat = now
                try:
                    shown = mavlink.read_value(station.recv(2048))
                except socket.timeout:
                    continue
                if shown is not None:
                    seen.add(shown["index"])
            return time.perf_counter() - start

    def lists(self):
        table("Seconds of a list of all parameters, asked for once", ["serve", "C server"])
        for title, beats in (("a station that is silent then", False), ("a station with a heartbeat a second", True)):
            ours, bare = [], []
            for _ in range(3):  # a new server each time: it knows eight stations
                with self.serve(self.copy(self.stored, self.folder)) as server:
                    ours.append(self.list_seconds(server, beats))
                with self.floor() as server:
                    bare.append(self.list_seconds(server, beats))
            row(title, [f"{statistics.median(ours):.3f}", f"{statistics.median(bare):.4f}"])

    def sets(self, folders):
        frames = [mavlink.set_value(self.names[n % len(self.names)], 1.0 + n // len(self.names)) for n in range(SETS)]
        requests = self.requests("requests", frames)
        table(f"{SETS} sets one after another, ms", ["serve", "C: write, fdatasync, answer", "of C"])
        for title, folder in folders:
            ours, bare = [], []
            for _ in range(self.turns):
                with self.serve(self.copy(self.stored, folder)) as server:
                    ours.append(self.seconds(server, free_port(), 1, SETS, requests))
                with self.floor(self.copy(self.stored, folder), "sync") as server:
                    bare.append(self.seconds(server, free_port(), 1, SETS, requests))
            mine, other = 1000 * statistics.median(ours), 1000 * statistics.median(bare)
            row(title, [f"{mine:.1f}", f"{other:.1f}", f"{other / mine:.2f}"])

    def opening(self, source, folder, *program):
        """The milliseconds from the start of a program to its first answer."""
        image, port = os.path.join(folder, "opened.img"), free_port()
        words = [word.format(port=port, image=image) for word in program]
        opener = [self.path("opener"), mavlink.request_read(0).hex(), str(OPENINGS), str(port), source, image, *words]
        printed = subprocess.run([*self.pin_both, *opener], capture_output=True, check=True, text=True).stdout
        return [float(line) for line in printed.split()]

    def openings(self, folders):
        with open(self.stored, "rb") as file:
            stored = states.states(file.read())
        with open(self.empty, "rb") as file:
            empty = file.read()
        titles = [f"serve, {title.replace('image ', '')}" for title, _ in folders]
        table("To the first answer, ms", [*titles, "C: reads the file, answers"])
        for state, image in {"alone, nothing stored": empty, **stored}.items():
            source = self.write("source.img", image)
            took = [self.opening(source, folder, self.program, "serve", "{image}", "--port", "{port}") for _, folder in folders]
            bare = self.opening(source, folders[0][1], self.path("floor"), "{port}", self.path("names"), "{image}")
            row(state, [f"{statistics.median(times):.2f}" for times in (*took, bare)])

    def session_run(self, *words):
        """The milliseconds of processor time that a session takes, from the start of its program, and what it prints."""
        with subprocess.Popen(words, stdout=subprocess.PIPE, text=True) as process:
            printed = process.stdout.read()
            _, status, usage = os.wait4(process.pid, 0)
            process.returncode = os.WEXITSTATUS(status) if os.WIFEXITED(status) else -os.WTERMSIG(status)
        if process.returncode != 0:
            raise SystemExit(f"measure: {words} ends with {process.returncode}")
        return 1000 * (usage.ru_utime + usage.ru_stime), printed

    def session(self):
        table("A generated session, ms of processor time", ["gen", "C: its writes", "of C"])
        for rounds in SESSIONS:
            ours, bare = [], []
            for _ in range(self.turns):
                took, printed = self.session_run(self.program, "gen", str(rounds))
                ours.append(took)
                took, written = self.session_run(self.path("gen_floor"), str(rounds))
                bare.append(took)
                if RESULT.search(printed).groups() != RESULT.search(written).groups():
                    raise SystemExit(f"measure: {printed!r} and {written!r}")
            mine, other = statistics.median(ours), statistics.median(bare)
            row(f"{rounds} rounds" if rounds > 1 else "1 round", [f"{mine:.2f}", f"{other:.2f}", f"{other / mine:.3f}"])
        programs, size = (int(number) / rounds for number in FLASH.search(written).groups())
        print(f"\nIn each of {rounds} rounds {programs:.1f} programs and {size:.1f} bytes of entries.")

    def answered(self, requests):
        """What has a server answer so many of the requests in a file."""
        return lambda server, count: self.seconds(server, free_port(), 1, count, requests)

    def listed(self, server, count):
        """Has a server send so many lists, each asked for when the one before is whole."""
        with socket.socket(socket.AF_INET, socket.SOCK_DGRAM) as station:
            station.connect(("127.0.0.1", server.port))
            station.settimeout(PATIENCE)
            for _ in range(count):
                station.send(mavlink.request_list(version=2))
                seen = set()
                while len(seen) < len(self.names):
                    shown = mavlink.read_value(station.recv(2048))
                    if shown is not None:
                        seen.add(shown["index"])

    def armed(self, requests):
        """What arms a vehicle, and then has it answer so many of the requests in a file."""
        def ask(server, count):
            own_port = free_port()
            with socket.socket(socket.AF_INET, socket.SOCK_DGRAM) as station:
                station.bind(("127.0.0.1", own_port))
                station.connect(("127.0.0.1", server.port))
                station.settimeout(PATIENCE)
                station.send(mavlink.command(mavlink.COMPONENT_ARM_DISARM, 1.0))
                while mavlink.read_frame(station.recv(2048))["message"] != mavlink.COMMAND_ACK:
                    pass
            self.seconds(server, own_port, 1, count, requests)
        return ask

    def instructions(self, source, ask, count, *program):
        """The user instructions of a server over a copy of an image that is asked for so much."""
        image, port = self.copy(source, self.folder), free_port()
        counter = ["valgrind", "--tool=callgrind", f"--callgrind-out-file={os.devnull}"]
        words = [word.format(port=port, image=image) for word in program]
        with Server([], [*counter, *words], port, stderr=subprocess.PIPE) as server:
            ask(server, count)
            with socket.socket(socket.AF_INET, socket.SOCK_DGRAM) as station:
                station.sendto(END, ("127.0.0.1", port))
            _, told = server.process.communicate(timeout=PATIENCE)
        return int(COLLECTED.search(told).group(1))

    def each(self, source, ask, counted, *program):
        """The user instructions of one more answer, by two runs."""
        if shutil.which("valgrind") is None:
            raise SystemExit("measure: valgrind is needed")
        few, many = counted
        return (self.instructions(source, ask, many, *program) - self.instructions(source, ask, few, *program)) / (many - few)

    def counts(self):
        last = self.names[-1]
        cases = {
            "a read of index 0": [mavlink.request_read(0)],
            "a read of the last index": [mavlink.request_read(len(self.names) - 1)],
            "a read of the last name": [mavlink.request_read(-1, name=last)],
            "a set of the last name": [mavlink.set_value(last, value) for value in (1.0, 2.0)],
        }
        ours = [self.program, "serve", "{image}", "--port", "{port}"]
        bare = [self.path("floor"), "{port}", self.path("names"), "{image}", "sync"]
        servers = [(self.empty, ours), (self.stored, ours), (self.stored, bare)]
        table("User instructions", ["nothing stored", f"{self.taken} values stored", "of nothing", "C server"])
        asks = [(title, self.answered(self.requests("requests-" + title.replace(" ", "-"), frames)), COUNTED)
                for title, frames in cases.items()]
        for title, ask, counted in [*asks, ("a list of all", self.listed, LISTED)]:
            events = [self.each(source, ask, counted, *words) for source, words in servers]
            row(title, [f"{events[0]:.0f}", f"{events[1]:.0f}", f"{events[1] / events[0]:.2f}", f"{events[2]:.0f}"])

    def spilled(self):
        """A set of an armed vehicle whose home is full: its line is put into the other sector, before the copy."""
        booted = self.copy(self.empty, self.folder)
        with self.serve(booted):
            pass  # the opening has put the lines of boot
        with open(booted, "rb") as file:
            empty = file.read()
        requests = self.requests("requests", [mavlink.set_value(self.names[-1], value) for value in (1.0, 2.0)])
        found = []
        for name, with_every_chunk in (("few.img", False), ("every.img", True)):
            source = self.write(name, states.full_image(empty, with_every_chunk))
            each = self.each(source, self.armed(requests), COUNTED, self.program, "serve", "{image}", "--port", "{port}")
            with open(self.path("vehicle.img"), "rb") as file:
                found.append((states.uncovered(file.read()), each))
        (fewest, least), (most, all_of_them) = found
        table("User instructions, while spilled", [f"{fewest} to copy", f"{most} to copy", f"of {fewest}"])
        row("a set of the last name", [f"{least:.0f}", f"{all_of_them:.0f}", f"{all_of_them / least:.2f}"])


def table(title, columns):
    print(f"\n| {title} | " + " | ".join(columns) + " |")
    print("|---" * (1 + len(columns)) + "|", flush=True)


def row(title, cells):
    print(f"| {title} | " + " | ".join(str(cell) for cell in cells) + " |", flush=True)


def machine():
    """This machine in a line."""
    with open("/proc/cpuinfo", encoding="ascii", errors="replace") as file:
        models = [line.split(":", 1)[1].strip() for line in file if line.startswith("model name")]
    return f"{models[0] if models else platform.machine()}, {os.cpu_count()} processors, {platform.system()} {platform.release()}"


def main():
    parser = argparse.ArgumentParser(description=__doc__, formatter_class=argparse.RawDescriptionHelpFormatter)
    parser.add_argument("program", metavar="PROGRAM")
    parser.add_argument("--turns", type=int, default=7, help="turns of each measurement (7)")
    parser.add_argument("--disk", default=".", help="a folder on a disk (the current one)")
    parser.add_argument("--memory", default="/dev/shm", help="a folder in memory (/dev/shm)")
    parser.add_argument("--only", choices=PARTS, help="one part alone")
    words = parser.parse_args()
    with tempfile.TemporaryDirectory(dir=words.memory) as folder, tempfile.TemporaryDirectory(dir=words.disk) as disk:
        bench = Bench(words, folder)
        bench.prepare()
        folders = [("image in memory", folder), ("image on a disk", disk)]
        load = os.getloadavg()[0]
        print(f"{machine()}; load {load:.1f} at the start; medians of {bench.turns} turns")
        parts = {
            "trips": bench.trips,
            "lists": bench.lists,
            "sets": lambda: bench.sets(folders),
            "openings": lambda: bench.openings(folders),
            "session": bench.session,
            "counts": bench.counts,
            "spilled": bench.spilled,
        }
        for name, part in parts.items():
            if words.only in (None, name):
                part()


if __name__ == "__main__":
    main()
