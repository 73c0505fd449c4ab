#!/usr/bin/env python3
"""Holds the built program against stations that speak all the time, over real sockets and with a clock.

    tests/alive.py PROGRAM

Ground stations say a HEARTBEAT each second or oftener, and call a vehicle lost that they don't hear for a few seconds.
Each station here notes when a frame reached its socket by the kernel's clock, so that a test that runs late counts for
nothing against the program. The tests run at the same time, each with a server and stations of its own. The last line
counts what passed and what failed.
"""
import concurrent.futures
import contextlib
import functools
import itertools
import os
import re
import select
import signal
import socket
import struct
import subprocess
import sys
import tempfile
import threading
import time
import unittest

TOP = os.path.realpath(os.path.join(os.path.dirname(os.path.abspath(__file__)), ".."))
sys.path.insert(0, os.path.join(TOP, "tools"))
sys.dont_write_bytecode = True
import counted  # noqa: E402
import mavlink  # noqa: E402
import server  # noqa: E402
from mavlink import FENCE, MISSION  # noqa: E402
from mission_items import Item  # noqa: E402

PROGRAM = ""
SERVE, BRIDGE = os.path.join(TOP, "serve"), os.path.join(TOP, "tools", "bridge.py")
# ./serve as it is, over the program that is tested here
SERVE_IT = f"""import runpy, sys
sys.path.insert(0, {os.path.join(TOP, "tools")!r})
import program
program.PROGRAM = sys.argv.pop(1)
program.is_built = lambda: True
runpy.run_path({SERVE!r}, run_name="__main__")
"""
ROWS = 240
LONGEST, SHORTEST = 2.0, 0.8  # seconds between two HEARTBEATs of the vehicle
PHASE = 4  # seconds of each part of a session
SO_TIMESTAMPNS = 35  # of Linux; Python 3.8 has no name for it
ARMED, NOT_ARMED = 129, 1  # base_mode
DENIED, CANCELLED = 14, 15  # MAV_MISSION_RESULT
IDLE_TURNS = 8  # the last of them closes an upload
RATE = 6000  # datagrams of a stranger in a second


class Station:
    """A ground station. With `each` it says a HEARTBEAT so often, all the time, whatever else it does.

    It speaks to the server at a port, or it listens at a port of its own and speaks to whoever has spoken to it.
    """

    def __init__(self, port=None, each=None, own=0):
        self.socket = socket.socket(socket.AF_INET, socket.SOCK_DGRAM)
        self.socket.setsockopt(socket.SOL_SOCKET, socket.SO_RCVBUF, 2**20)
        self.socket.setsockopt(socket.SOL_SOCKET, SO_TIMESTAMPNS, 1)
        self.socket.bind(("127.0.0.1", own))
        self.socket.setblocking(False)
        self.vehicle = ("127.0.0.1", port) if port else None
        self.each, self.spoke, self.sent = each, None, 0
        self.frames = []  # each with the second in which the kernel had it
        self.others = 0  # datagrams from elsewhere than the first that spoke
        self.news, self.is_over = threading.Condition(), threading.Event()
        self.thread = threading.Thread(target=self.live)
        self.thread.start()

    def close(self):
        """Ends the station."""
        self.is_over.set()
        self.thread.join()
        self.socket.close()

    def live(self):
        """Speaks when it is time to, and notes what comes."""
        while not self.is_over.is_set():
            self.speak()
            if select.select([self.socket], [], [], 0.02)[0]:
                self.note()

    def speak(self):
        """Says the HEARTBEAT where it is due."""
        now = time.monotonic()
        if self.each and self.vehicle and (self.spoke is None or now - self.spoke >= self.each):
            self.spoke = now if self.spoke is None or now - self.spoke > 2 * self.each else self.spoke + self.each
            self.send(mavlink.heartbeat)

    def note(self):
        """Notes the frames that have come."""
        with contextlib.suppress(BlockingIOError, ConnectionRefusedError):
            while True:
                datagram, told, _, sender = self.socket.recvmsg(2048, socket.CMSG_SPACE(16))
                seconds, nanoseconds = struct.unpack("@ll", told[0][2])
                self.vehicle = self.vehicle or sender
                with self.news:
                    self.others += sender != self.vehicle
                    self.frames.append((seconds + nanoseconds / 1e9, mavlink.read_frame(datagram)))
                    self.news.notify_all()

    def send(self, request):
        """Sends the frame that a function of mavlink makes, or these bytes."""
        datagram = request if isinstance(request, bytes) else request(version=2)
        with contextlib.suppress(ConnectionRefusedError):
            self.socket.sendto(datagram, self.vehicle)
        self.sent += 1

    def hear(self, read, place=0, seconds=5.0):
        """What `read` makes of the first frame, from a place on, of which it makes anything, or None."""
        end = time.monotonic() + seconds
        with self.news:
            while True:
                for _, found in self.frames[place:]:
                    heard = read(found)
                    if heard is not None:
                        return heard
                place = len(self.frames)
                left = end - time.monotonic()
                if left <= 0:
                    return None
                self.news.wait(left)

    def ask(self, read, request):
        """What `read` makes of the answer to a request, which is sent again where none comes."""
        place = len(self.frames)
        for _ in range(10):
            self.send(request)
            heard = self.hear(read, place, 1)
            if heard is not None:
                return heard
        raise TimeoutError("no answer")

    def beats(self, begin):
        """When the vehicle's HEARTBEATs came since then."""
        return [when for when, found in list(self.frames)
                if found and found["message"] == mavlink.HEARTBEAT and when > begin]


class Flood:
    """Sends so many datagrams a second from one socket, these in turn, and reads nothing."""

    def __init__(self, port, rate, *datagrams):
        self.socket = socket.socket(socket.AF_INET, socket.SOCK_DGRAM)
        self.socket.connect(("127.0.0.1", port))
        self.rate, self.datagrams = rate, itertools.cycle(datagrams)
        self.sent, self.began, self.seconds = 0, 0.0, 0.0
        self.is_over = threading.Event()
        self.thread = threading.Thread(target=self.pour)

    def pour(self):
        """Sends what is due by the clock, each millisecond."""
        self.began = time.monotonic()
        while not self.is_over.wait(0.001):
            for _ in range(int((time.monotonic() - self.began) * self.rate) - self.sent):
                with contextlib.suppress(OSError):
                    self.socket.send(next(self.datagrams))
                self.sent += 1

    def __enter__(self):
        self.thread.start()
        return self

    def __exit__(self, *_):
        self.is_over.set()
        self.thread.join()
        self.seconds = time.monotonic() - self.began

    def has_heard(self):
        """It was sent anything."""
        return bool(select.select([self.socket], [], [], 0)[0])


def value(found):
    """The row and the number that a PARAM_VALUE shows, or None."""
    shown = mavlink.value_of(found)
    return shown and (shown["name"], shown["value"])


def fields(found, message):
    """The fields of such a message, or None."""
    return mavlink.fields_of(found) if found["message"] == message else None


def result_of(found, message, name):
    """A field of such a message, or None."""
    shown = fields(found, message)
    return shown and shown[name]


def next_step(found):
    """What is said to an upload: the number of the item that is asked for, or the result."""
    for message, name in ((mavlink.MISSION_REQUEST_INT, "seq"), (mavlink.MISSION_ACK, "type")):
        shown = fields(found, message)
        if shown is not None:
            return message, shown[name]
    return None


def asked_for(number):
    """Reads the request for the item with this number."""
    return lambda found: True if next_step(found) == (mavlink.MISSION_REQUEST_INT, number) else None


def closed_by(result):
    """Reads the MISSION_ACK with this result."""
    return lambda found: True if next_step(found) == (mavlink.MISSION_ACK, result) else None


def a_route(count):
    """So many waypoints."""
    return [Item(16, 3, x=473977420 + number, y=85455970, z=10.0 + number) for number in range(count)]


def children_of(process):
    """The processes that a process has started, by their numbers."""
    found = []
    for name in filter(str.isdigit, os.listdir("/proc")):
        with contextlib.suppress(OSError):
            with open(f"/proc/{name}/stat", encoding="utf-8", errors="replace") as stat:
                if int(stat.read().rpartition(")")[2].split()[1]) == process:
                    found.append(int(name))
    return found


def lost_at(port):
    """How many datagrams the socket at a port had no room for."""
    with open("/proc/net/udp", encoding="ascii") as table:
        return sum(int(line.split()[-1]) for line in list(table)[1:] if line.split()[1] == f"0100007F:{port:04X}")


def becomes(is_so, seconds=10.0):
    """It becomes so within that time."""
    end = time.monotonic() + seconds
    while not is_so():
        if time.monotonic() > end:
            return False
        time.sleep(0.02)
    return True


class Alive(unittest.TestCase):
    def setUp(self):
        folder = tempfile.TemporaryDirectory()
        self.addCleanup(folder.cleanup)
        self.folder = folder.name
        self.image = os.path.join(self.folder, "vehicle.img")
        self.notes = []

    def served(self):
        """A server of this test's image, as `with self.served() as vehicle`."""
        return server.served(PROGRAM, self.image, sector=131_072)

    def station(self, *words, **options):
        """A station that ends with the test."""
        station = Station(*words, **options)
        self.addCleanup(station.close)
        return station

    def heard(self, vehicle, each=None):
        """A station that the server has answered."""
        station = self.station(vehicle.port, each)
        station.ask(value, functools.partial(mavlink.request_read, 1))
        return station

    def ended(self, vehicle):
        """Ends the server well, and gives the number of its events."""
        status, printed, said = vehicle.end()
        self.assertEqual((status, said), (0, b""))
        return int(re.fullmatch(rb"served (\d+) events \d+ frames\n", printed)[1])

    def is_alive(self, station, begin, title):
        """The station heard the vehicle from then until now, all the time and not too often."""
        end = time.time()
        # what came before that is noted once a later one is
        self.assertTrue(becomes(lambda: station.beats(end)), title)
        beats = station.beats(begin)
        apart = [after - before for before, after in zip(beats, beats[1:])]
        self.assertGreater(len(apart), 1, title)
        self.notes.append(f"{title}: {len(beats)} HEARTBEATs, {min(apart):.3f} to {max(apart):.3f} seconds apart")
        self.assertGreaterEqual(min(apart), SHORTEST, title)
        self.assertLessEqual(max(apart), LONGEST, title)
        self.assertLessEqual(beats[0] - begin, LONGEST, title)

    # what a station does in a session

    def lists(self, station):
        """Lists go on, one after another."""
        end, count = time.monotonic() + PHASE, 0
        while time.monotonic() < end:
            shown = set()

            def all_rows(found, shown=shown):
                row = mavlink.value_of(found)
                shown |= {row["index"]} if row else set()
                return True if len(shown) == ROWS else None

            station.ask(all_rows, mavlink.request_list)
            count += 1
        self.assertGreater(count, 1)

    def upload(self, station):
        """An upload goes on, item by item."""
        items = a_route(4 * PHASE)
        station.ask(asked_for(0), functools.partial(mavlink.mission_count, len(items), MISSION))
        for number, item in enumerate(items):
            time.sleep(0.25)
            read = asked_for(number + 1) if number + 1 < len(items) else closed_by(0)
            station.ask(read, functools.partial(mavlink.mission_item, number, item, MISSION))
        count = station.ask(lambda found: result_of(found, mavlink.MISSION_COUNT, "count"),
                            functools.partial(mavlink.mission_request_list, MISSION))
        self.assertEqual(count, len(items))

    def order(self, station, param1, mode):
        """Arms the vehicle or not, and waits for the HEARTBEAT that says so."""
        place = len(station.frames)
        station.ask(lambda found: True if result_of(found, mavlink.COMMAND_ACK, "result") == 0 else None,
                    functools.partial(mavlink.command, mavlink.COMPONENT_ARM_DISARM, param1))
        told = station.hear(lambda found: True if result_of(found, mavlink.HEARTBEAT, "base_mode") == mode else None,
                            place)
        self.assertTrue(told)

    def fly(self, station):
        """The vehicle is armed, takes values meanwhile, and is disarmed."""
        self.order(station, 1.0, ARMED)
        end, altitude = time.monotonic() + PHASE, 1600.0
        while time.monotonic() < end:
            altitude += 1
            wanted = ("RTL_ALT", altitude)
            station.ask(lambda found, wanted=wanted: True if value(found) == wanted else None,
                        functools.partial(mavlink.set_value, *wanted))
            time.sleep(0.05)
        self.assertGreater(altitude, 1610)
        self.order(station, 0.0, NOT_ARMED)

    def flood(self, vehicle):
        """A thousand datagrams a second of one more station that is heard."""
        return Flood(vehicle.port, 1000, mavlink.heartbeat(version=2), mavlink.request_read(1, version=2),
                     b"\0" * 40, mavlink.set_value("RTL_ALT", 1500.0, version=2)[:-1], mavlink.request_read(2))

    def poured(self, flood):
        """That many were sent."""
        self.assertGreater(flood.sent, 900 * flood.seconds)

    def session(self, *each, is_flooded=False):
        """Stations that speak so often hear the vehicle all through a session, and the first one does the work."""
        with self.served() as vehicle:
            vehicle.wait()
            flood = self.flood(vehicle)
            with flood if is_flooded else contextlib.nullcontext():
                stations = [self.heard(vehicle, seconds) for seconds in each]
                begin = time.time()
                time.sleep(PHASE)
                for work in (self.lists, self.upload, self.fly):
                    work(stations[0])
                if not is_flooded:
                    with flood:
                        time.sleep(PHASE)
            self.poured(flood)
            for station in stations:
                self.is_alive(station, begin, f"a station that speaks each {station.each} s, {len(each)} at once"
                              + (", flooded all the time" if is_flooded else ""))
                self.assertNotIn(None, [found for _, found in station.frames])
            self.assertGreater(self.ended(vehicle), flood.sent // 2)

    # stations that speak

    def test_a_station_that_speaks_each_half_second_hears_the_vehicle(self):
        self.session(0.5)

    def test_a_station_that_speaks_each_nine_tenths_of_a_second_hears_the_vehicle(self):
        self.session(0.9)

    def test_a_station_that_speaks_each_second_hears_the_vehicle(self):
        self.session(1.0)

    def test_three_stations_that_speak_at_once_hear_the_vehicle(self):
        self.session(0.9, 0.5, 1.0)

    def test_a_flood_that_goes_on_all_the_time_holds_nothing_back(self):
        self.session(1.0, 0.9, is_flooded=True)

    # an upload that doesn't go on

    def begin_upload(self, station, kind):
        """Begins an upload, of which one item is taken."""
        item = Item(16, 3, x=473977420, y=85455970, z=10.0) if kind == MISSION else Item(5003, 0, (10.0, 0.0, 0.0, 0.0))
        station.ask(asked_for(0), functools.partial(mavlink.mission_count, 3, kind))
        station.ask(asked_for(1), functools.partial(mavlink.mission_item, 0, item, kind))

    def closes(self, station):
        """The upload that was begun is asked for again at each idle turn, and the eighth one closes it."""
        self.assertTrue(station.hear(closed_by(CANCELLED), seconds=20))
        self.assertTrue(becomes(lambda end=time.time(): len(station.beats(end)) > 2))
        frames = list(station.frames)
        said = [next_step(found) for _, found in frames]
        # the item was taken when the next one was asked for first
        taken = said.index((mavlink.MISSION_REQUEST_INT, 1))
        # what comes right behind a HEARTBEAT is said at the same turn
        turns = [place + 1 for place in range(taken, len(frames) - 1)
                 if frames[place][1]["message"] == mavlink.HEARTBEAT]
        self.assertEqual([said[place] for place in turns[:IDLE_TURNS]],
                         [(mavlink.MISSION_REQUEST_INT, 1)] * (IDLE_TURNS - 1) + [(mavlink.MISSION_ACK, CANCELLED)])
        for place in turns[:IDLE_TURNS]:
            self.assertLess(frames[place][0] - frames[place - 1][0], SHORTEST)
        self.assertEqual(set(said[turns[IDLE_TURNS - 1] + 1:]), {None})
        lived = frames[turns[IDLE_TURNS - 1]][0] - frames[taken][0]
        self.notes.append(f"an upload whose station fell silent was closed after {lived:.2f} seconds")
        # from the first idle turn, which may come at once, to the eighth
        self.assertGreater(lived, (IDLE_TURNS - 1) * 0.98)
        self.assertLess(lived, IDLE_TURNS + LONGEST)

    def test_an_upload_that_falls_silent_is_asked_again_and_closed_while_others_speak(self):
        for_two = functools.partial(mavlink.mission_count, 2, MISSION)
        with self.served() as vehicle:
            vehicle.wait()
            other, silent = self.heard(vehicle, 1.0), self.heard(vehicle)
            self.heard(vehicle, 0.9)
            begin = time.time()
            self.begin_upload(silent, MISSION)
            time.sleep(3.3)
            self.assertTrue(other.ask(closed_by(DENIED), for_two))
            self.closes(silent)
            self.assertTrue(other.ask(asked_for(0), for_two))
            self.is_alive(other, begin, "a station that speaks each 1.0 s beside an upload")
            self.ended(vehicle)

    # strangers

    def test_strangers_make_no_idle_turn_early_or_late(self):
        with self.served() as vehicle:
            vehicle.wait()
            speaking, silent = [self.heard(vehicle, 1.0) for _ in range(7)], self.heard(vehicle)
            noise = (mavlink.request_read(0), mavlink.heartbeat(version=2), b"\xfe")
            with Flood(vehicle.port, RATE, *noise) as ninth, Flood(vehicle.port, RATE, *noise) as tenth:
                time.sleep(0.5)
                begin, lost = time.time(), lost_at(vehicle.port)
                self.begin_upload(silent, FENCE)
                self.closes(silent)
                lost = (lost_at(vehicle.port) - lost) / (time.time() - begin)
                for station in (*speaking[::3], silent):
                    self.is_alive(station, begin, "a station of eight, while a ninth and a tenth address flood")
            for flood in (ninth, tenth):
                # either alone has more in a second than one call drops
                self.assertGreater(flood.sent, 4096 * flood.seconds)
                self.assertFalse(flood.has_heard())
            sent = (ninth.sent + tenth.sent) / ninth.seconds
            self.notes.append(f"strangers sent {sent:.0f} datagrams a second; the socket had no room for {lost:.0f}")
            # the end would be lost too where the socket is still full
            time.sleep(1)
            self.ended(vehicle)

    # stations that listen

    def run_beside(self, *command):
        """A process that ends with the test, and the file of what it says."""
        said = os.path.join(self.folder, f"said{len(os.listdir(self.folder))}")
        with open(said, "w", encoding="utf-8") as file:
            process = subprocess.Popen(command, stdout=subprocess.PIPE, stderr=file, stdin=subprocess.DEVNULL)
        self.addCleanup(process.communicate)
        self.addCleanup(process.kill)
        return process, said

    def serve(self, *words):
        """./serve of this test's image with these words, the file of what it says, and the port that it says."""
        wrapper, said = self.run_beside(sys.executable, "-c", SERVE_IT, PROGRAM, self.image, *words)
        self.assertTrue(becomes(lambda: "serves on" in self.content(said), 30), self.content(said))
        return wrapper, said, int(re.search(r"serves on 127\.0\.0\.1:(\d+);", self.content(said))[1])

    def content(self, name):
        with open(name, encoding="utf-8") as file:
            return file.read()

    def finds(self, station, title, seconds=6.0):
        """A station that only listens finds the vehicle, then answers it and reads a value through the bridge."""
        self.assertTrue(station.hear(lambda found: fields(found, mavlink.HEARTBEAT)), title)
        begin = time.time()
        time.sleep(seconds)
        self.is_alive(station, begin, title)
        self.assertEqual({found["version"] for _, found in station.frames}, {2}, title)
        station.each = 1.0
        self.assertEqual(station.ask(value, functools.partial(mavlink.request_read, 1)), ("RTL_ALT", 1500.0), title)
        self.assertEqual(station.others, 0, title)

    def test_a_station_that_listens_finds_the_vehicle_by_serve(self):
        station = self.station()
        wrapper, said, port = self.serve("--station", f"127.0.0.1:{station.socket.getsockname()[1]}")
        self.finds(station, "a station that listens, by ./serve")
        own = station.vehicle[1]
        self.assertNotEqual(own, port)
        self.assertTrue(server.is_bound(own))
        station.send(server.END)
        printed, _ = wrapper.communicate(timeout=30)
        self.assertRegex(printed, rb"^served \d+ events \d+ frames\n$")
        self.assertEqual(wrapper.returncode, 0)
        self.assertFalse(server.is_bound(own) or server.is_bound(port))
        for told in ("is carried to the station at", "answers"):
            self.assertEqual(self.content(said).count(told), 1)

    def test_a_bridge_ends_with_its_server_and_its_wrapper(self):
        for is_server, status in ((True, 128 + signal.SIGKILL), (False, -signal.SIGKILL)):
            station, port = self.station(), server.free_port()
            wrapper, _, told = self.serve(f"--station=localhost:{station.socket.getsockname()[1]}", "--port", str(port))
            self.assertEqual(told, port)
            self.assertTrue(station.hear(lambda found: fields(found, mavlink.HEARTBEAT)))
            os.kill(children_of(wrapper.pid)[0] if is_server else wrapper.pid, signal.SIGKILL)
            wrapper.communicate(timeout=30)
            self.assertEqual(wrapper.returncode, status)
            bound = (port, station.vehicle[1])
            self.assertTrue(becomes(lambda bound=bound: not any(map(server.is_bound, bound))))

    def test_two_stations_find_a_vehicle_that_is_served_already_and_find_it_again(self):
        first, late = self.station(), server.free_port()
        with self.served() as vehicle:
            vehicle.wait()
            stations = [word for port in (first.socket.getsockname()[1], late)
                        for word in ("--station", f"127.0.0.1:{port}")]
            bridge, said = self.run_beside(sys.executable, BRIDGE, *stations, "--port", str(vehicle.port))
            self.assertTrue(first.hear(lambda found: fields(found, mavlink.HEARTBEAT)))
            second = self.station(own=late)
            with concurrent.futures.ThreadPoolExecutor() as pool:
                found = [pool.submit(self.finds, station, f"station {place} of two over one bridge", 4)
                         for place, station in enumerate((first, second))]
                for one in found:
                    one.result()
            self.assertNotEqual(first.vehicle, second.vehicle)
            # one of them says nothing more, and the server is started anew
            second.each = None
            vehicle.process.kill()
            vehicle.process.communicate()
            time.sleep(3)
            places, begin = [len(station.frames) for station in (first, second)], time.time()
            again = subprocess.Popen(vehicle.process.args, stdout=subprocess.PIPE)
            self.addCleanup(again.communicate)
            self.addCleanup(again.kill)
            for station, place in zip((first, second), places):
                self.assertTrue(station.hear(lambda found: fields(found, mavlink.HEARTBEAT), place, 8))
            time.sleep(3)
            for station in (first, second):
                self.is_alive(station, station.beats(begin)[0] - 1, "a station over a bridge, the server started anew")
            bridge.send_signal(signal.SIGINT)
            bridge.communicate(timeout=30)
            self.assertEqual(bridge.returncode, 130)
            self.assertIn("no vehicle is heard at", self.content(said))
            self.assertTrue(self.content(said).endswith("zuddrin: interrupted\n"))

    def test_wrong_words_of_a_station_are_refused_in_words(self):
        nine = [f"127.0.0.1:{port}" for port in range(20001, 20010)]
        for stations, told in ((["14550"], "14550 is no HOST:PORT, as 127.0.0.1:14550 is one"),
                               ([":14550"], ":14550 is no HOST:PORT"), ([""], "an empty word is no HOST:PORT"),
                               (["localhost:"], "an empty word is no port from 1 to 65535"),
                               (["localhost:0"], "0 is no port from 1 to 65535"),
                               (["127.0.0.1:65536"], "65536 is no port from 1 to 65535"),
                               (["localhost:x"], "x is no port from 1 to 65535"),
                               (["192.0.2.1:14550"], "192.0.2.1 isn't known as this machine"),
                               (["::1:14550"], "::1 isn't known as this machine"),
                               (["localhost:20001", "127.0.0.1:20001"], "the station 127.0.0.1:20001 is named twice"),
                               (["127.0.0.1:20010"], "127.0.0.1:20010 is the server's own port"),
                               (nine, "9 stations are named; the vehicle has places for 8")):
            words = [f"--station={station}" for station in stations]
            for command, status in (([SERVE, self.image], 64), ([BRIDGE], 2)):
                done = subprocess.run([sys.executable, *command, *words, "--port", "20010"], capture_output=True,
                                      text=True, timeout=30, check=False)
                with self.subTest(f"{command[0]} {words}"):
                    self.assertEqual((done.returncode, done.stdout), (status, ""))
                    self.assertIn(told, done.stderr)
                    self.assertNotIn("Traceback", done.stderr)
        self.assertFalse(os.path.exists(self.image))
        for command in (SERVE, BRIDGE):
            done = subprocess.run([sys.executable, command, "--help"], capture_output=True, text=True, timeout=30,
                                  check=False)
            self.assertEqual((done.returncode, done.stderr), (0, ""))
            self.assertIn("--station HOST:PORT", done.stdout)

    def test_the_other_words_of_serve_are_the_programs(self):
        port = str(server.free_port())
        taken = self.station().socket.getsockname()[1]
        for words, status, printed, told in (
                (["--port", "0"], 1, b"error 1 words\n", "these words are no command"),
                (["--turns", "x"], 1, b"error 1 words\n", "these words are no command"),
                ([f"--port={taken}"], 13, b"error 13 attach\n", f"--station 127.0.0.1:{taken} serves that station"),
                (["--port", port, "--turns=1"], 8, b"error 8 turns 1\n", "")):
            listening = self.station().socket.getsockname()[1]
            wrapper, said = self.run_beside(sys.executable, "-c", SERVE_IT, PROGRAM, *words, "--station",
                                            f"127.0.0.1:{listening}", "--", self.image)
            out, _ = wrapper.communicate(timeout=30)
            self.assertEqual((wrapper.returncode, out), (status, printed), self.content(said))
            self.assertIn(told, self.content(said))


def run_one(test):
    """Runs one test by itself, and gives what became of it and its seconds."""
    result, started = unittest.TestResult(), time.monotonic()
    test.run(result)
    return result, time.monotonic() - started


def run_at_once(suite):
    """Runs all tests at the same time, and tells of each. Gives how many passed and how many failed."""
    tests = list(suite)
    with concurrent.futures.ThreadPoolExecutor(max_workers=len(tests)) as pool:
        done = list(pool.map(run_one, tests))
    for test, (result, seconds) in zip(tests, done):
        wrong = result.failures + result.errors
        print(f"{test.id().rpartition('.')[2]} ... {'FAILED' if wrong else 'ok'}, {seconds:.1f} seconds")
        for text in (*test.notes, *(text for _, text in wrong)):
            print(f"  {text}")
    failed = sum(not result.wasSuccessful() for result, _ in done)
    return len(tests) - failed, failed


if __name__ == "__main__":
    # a shell has what it runs in the background ignore SIGINT, and a server would inherit that
    signal.signal(signal.SIGINT, signal.default_int_handler)
    PROGRAM = counted.program_named(__doc__)
    well, badly = run_at_once(unittest.defaultTestLoader.loadTestsFromTestCase(Alive))
    print(counted.line_of(well, badly, 0))
    sys.exit(1 if badly or not well else 0)
