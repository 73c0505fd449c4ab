#!/usr/bin/env python3
"""Uses the built program as a user would: over a real image file and a real UDP socket.

    tests/as_a_user.py PROGRAM

Its last line counts what passed and what failed. Each wait is bounded, and nothing but 127.0.0.1 is spoken to.
"""
import contextlib
import fcntl
import os
import re
import shlex
import shutil
import signal
import socket
import subprocess
import sys
import tempfile
import threading
import time
import unittest

TOP = os.path.join(os.path.dirname(os.path.abspath(__file__)), "..")
sys.path.insert(0, os.path.join(TOP, "tools"))
sys.path.insert(0, os.path.join(TOP, "tests"))
sys.dont_write_bytecode = True
import counted  # noqa: E402
import disk_states  # noqa: E402
import image  # noqa: E402
import mavlink  # noqa: E402
import missions  # noqa: E402
import plan_files  # noqa: E402
import server  # noqa: E402
import statuses  # noqa: E402
from mavlink import FENCE, MISSION  # noqa: E402
from mission_items import Item  # noqa: E402
from server import ask, hear  # noqa: E402
from vehicle import Vehicle  # noqa: E402

PROGRAM = ""
FLASH_FAILED = 5  # the status
# PARAM_REQUEST_READ of index 0, and the answer of a fresh image, byte for byte
REQUEST = bytes.fromhex("FE1400FFBE1400000101" + "00" * 16 + "E7F2")
ANSWER = bytes.fromhex("FE19000101160000F042F0000000464F524D41545F56455253494F4E0000045599")
ROWS = 240
ROUTE = os.path.join(TOP, "examples", "route.waypoints")
PLAN = os.path.join(TOP, "examples", "route.plan")
HOME_LINE = "0\t1\t0\t16\t0\t0\t0\t0\t47.3977420\t8.5455970\t488\t1"


def content_of(name):
    """What a file holds, as text."""
    with open(name, encoding="utf-8") as file:
        return file.read()


def shown_items(items):
    """Items as a vehicle shows them: it doesn't keep which is the current one."""
    return [item._replace(current=0) for item in items]


@contextlib.contextmanager
def speaking(vehicle):
    """A station says a HEARTBEAT each second, all the time, as real ones do. It has the first of the eight places."""
    is_over = threading.Event()

    def speak():
        with contextlib.suppress(OSError):
            while not is_over.wait(1):
                station.send(mavlink.heartbeat(version=2))

    station = vehicle.station()
    with contextlib.suppress(OSError):
        station.send(mavlink.heartbeat(version=2))
    thread = threading.Thread(target=speak)
    thread.start()
    try:
        yield
    finally:
        is_over.set()
        thread.join()


class AsAUser(unittest.TestCase):
    def setUp(self):
        folder = tempfile.TemporaryDirectory()
        self.addCleanup(folder.cleanup)
        self.folder = folder.name
        self.image = os.path.join(self.folder, "vehicle.img")

    def run_program(self, *words):
        done = subprocess.run([PROGRAM, *words], capture_output=True, timeout=30, check=False)
        self.assertEqual(done.stderr, b"")
        return done.returncode, done.stdout

    @contextlib.contextmanager
    def served(self, *words, **options):
        """A server of this test's image, as `with self.served() as vehicle`. A station speaks to it all the time."""
        with server.served(PROGRAM, self.image, *words, **options) as vehicle, speaking(vehicle):
            yield vehicle

    def ended(self, vehicle):
        """Ends the server well, and gives what it printed."""
        status, printed, said = vehicle.end()
        self.assertEqual((status, said), (0, b""))
        return printed

    def tool(self, vehicle, *words, seconds=60):
        """What tools/station.py prints of this server."""
        station = os.path.join(TOP, "tools", "station.py")
        return subprocess.run([sys.executable, station, *words, "--port", str(vehicle.port)],
                              capture_output=True, text=True, timeout=seconds, check=False)

    def values_of(self, station, request):
        """The value that answers a request."""
        return mavlink.read_value(ask(station, request))

    # images and words

    def test_format_makes_an_image_that_is_served(self):
        self.assertEqual(self.run_program("format", self.image), (0, b""))
        self.assertEqual(os.path.getsize(self.image), 278_528)
        with self.served() as vehicle:
            self.assertEqual(ask(vehicle.station(), REQUEST), ANSWER)
            self.assertRegex(self.ended(vehicle), rb"^served \d+ events [1-9]\d* frames\n$")

    def test_each_sector_size_has_its_blank_image(self):
        for sector, length in ((16_384, 49_152), (32_768, 81_920), (65_536, 147_456), (131_072, 278_528)):
            self.assertEqual(self.run_program("format", self.image, "--sector", str(sector)), (0, b""))
            with open(self.image, "rb") as file:
                content = file.read()
            self.assertEqual(content, image.blank(sector))
            self.assertEqual((content[:4], len(content)), (b"\xfe\x5b\x68\x51", length))

    def test_an_image_is_shown_and_left_as_it_was(self):
        self.run_program("format", self.image, "--sector", "16384")
        reported = (b"image 16384\nguard 0\ns0 inuse entries 0 torn 0 free 16380\n"
                    b"s1 available entries 0 torn 0 free 16380\nstate alone\n")
        self.assertEqual(self.run_program("report", self.image), (0, reported))
        with self.served() as vehicle:
            ask(vehicle.station(), mavlink.set_value("RTL_ALT", 1700.0))
            self.ended(vehicle)
        with open(self.image, "rb") as file:
            before = file.read()
        status, dumped = self.run_program("dump", self.image)
        lines = dumped.decode("ascii").split("\n")
        self.assertEqual(status, 0)
        self.assertEqual(lines[:3], ["image 16384 guard 0 alone", "param FORMAT_VERSION i16 120",
                                     "param RTL_ALT i32 1700"])
        self.assertEqual(lines[241:243], ["mission 0", "fence 0"])
        self.assertEqual(len(lines), 1 + ROWS + 2 + 1 + 1)
        # an independent reader of the format finds the same storage bytes
        self.assertEqual(lines[243], f"sha256 {image.digest(image.storage_of(before))}")
        with open(self.image, "rb") as file:
            self.assertEqual(file.read(), before)

    def test_a_foreign_word_is_named(self):
        self.run_program("format", self.image, "--sector", "16384")
        with open(self.image, "r+b") as file:
            file.seek(4)
            file.write(b"\x0e\0")
        self.assertEqual(self.run_program("dump", self.image), (3, b"error 3 foreign s0 2 000E\n"))
        status, printed = self.run_program("report", self.image)
        self.assertEqual(status, 0)
        self.assertIn(b"s0 foreign 2 000E\n", printed)
        self.assertIn(b"state foreign\n", printed)

    def test_a_generated_session_prints_the_same_line_twice(self):
        # the numbers and the digest are those of a model of the formats that shares nothing with the program
        line = (b"gen 1000 events 2662 frames 2662 lines 2554 sha256 "
                b"48131991de823d0691ed987b895771506ef560538b4dd98818d2de224b5912a5\n")
        self.assertEqual(self.run_program("gen", "1000"), (0, line))
        self.assertEqual(self.run_program("gen", "1000"), (0, line))
        self.assertEqual(self.run_program("gen", "0"), (1, b"error 1 words\n"))

    def test_turns_are_counted(self):
        with self.served("--turns", "1") as vehicle:
            printed, _ = vehicle.process.communicate(timeout=30)
            self.assertEqual((vehicle.process.returncode, printed), (8, b"error 8 turns 1\n"))

    def test_refusals_tell_their_cause(self):
        self.assertEqual(self.run_program(), (1, b"error 1 words\n"))
        self.assertEqual(self.run_program("serve", self.image, "--turns", "0"), (1, b"error 1 words\n"))
        self.assertEqual(self.run_program("serve", self.image), (13, b"error 13 attach\n"))
        self.assertIn("isn't there", statuses.meaning(["serve", self.image], 13))
        with open(self.image, "wb") as file:
            file.write(b"\xff" * 49_151)
        self.assertEqual(self.run_program("serve", self.image), (13, b"error 13 attach\n"))
        self.assertIn("49,151 bytes", statuses.meaning(["serve", self.image], 13))
        with open(self.image, "wb") as file:
            file.write(b"\xff" * 49_152)
        self.assertEqual(self.run_program("serve", self.image, "--port", str(server.free_port())),
                         (3, b"error 3 foreign s0 0 FFFF\n"))

    def test_a_port_that_is_taken_fails_the_attach(self):
        self.run_program("format", self.image, "--sector", "16384")
        with socket.socket(socket.AF_INET, socket.SOCK_DGRAM) as other:
            other.bind(("127.0.0.1", 0))
            words = ["serve", self.image, "--port", str(other.getsockname()[1])]
            self.assertEqual(self.run_program(*words), (13, b"error 13 attach\n"))
            self.assertIn("is taken", statuses.meaning(words, 13))

    def test_an_image_that_is_served_is_kept_from_others(self):
        with self.served() as vehicle:
            station = vehicle.ready()
            words = ["serve", self.image, "--port", str(server.free_port())]
            self.assertEqual(self.run_program(*words), (13, b"error 13 attach\n"))
            self.assertIn("another server", statuses.meaning(words, 13))
            self.assertEqual(self.run_program("format", self.image), (13, b"error 13 attach\n"))
            self.assertEqual(self.run_program("report", self.image)[0], 0)
            self.assertEqual(self.values_of(station, mavlink.request_read(1))["value"], 1500.0)
            self.ended(vehicle)
        with open(self.image, "rb") as file:
            fcntl.flock(file, fcntl.LOCK_EX | fcntl.LOCK_NB)

    # stations

    def test_two_stations_have_sequences_of_their_own(self):
        with self.served() as vehicle:
            first, second = vehicle.ready(), vehicle.station()
            first.send(mavlink.request_read(239) + mavlink.request_read(0) + mavlink.request_read(1))
            sequences = [mavlink.read_frame(hear(first))["sequence"] for _ in range(3)]
            self.assertEqual(sequences, [sequences[0] + n for n in range(3)])
            other = self.values_of(second, mavlink.request_read(1))
            self.assertEqual((other["name"], other["value"], other["type"], other["sequence"]),
                             ("RTL_ALT", 1500.0, "int32", 0))
            self.ended(vehicle)

    def test_noise_has_no_answer(self):
        with self.served() as vehicle:
            station = vehicle.ready()
            wrong = bytearray(REQUEST)
            wrong[-1] ^= 1
            for noise in (b"", b"\xfe", bytes(wrong), REQUEST[:-1], b"\0" * 2048):
                station.send(noise)
            # the next answer is that of the next request
            self.assertEqual(self.values_of(station, mavlink.request_read(3))["name"], "FS_THR_ENABLE")
            self.ended(vehicle)

    def test_frames_are_cut_from_datagrams_of_one_byte(self):
        with self.served() as vehicle:
            station = vehicle.ready()
            for byte in b"\0" + mavlink.request_read(239, version=2):
                station.send(bytes([byte]))
            self.assertEqual(mavlink.read_value(hear(station))["name"], "RC16_OPTION")
            self.ended(vehicle)

    def test_an_idle_station_is_told_that_the_vehicle_is_there(self):
        with self.served() as vehicle:
            station = vehicle.ready()
            station.settimeout(10)
            told = mavlink.read_frame(station.recv(2048))
            self.assertEqual(told["message"], mavlink.HEARTBEAT)
            self.assertEqual(told["payload"], bytes([0, 0, 0, 0, 2, 3, 1, 3, 3]))
            self.ended(vehicle)

    def test_what_is_set_is_shown_to_every_station_in_its_version(self):
        with self.served() as vehicle:
            first, second = vehicle.station(), vehicle.station()
            ask(first, mavlink.request_read(0, version=1))
            ask(second, mavlink.request_read(0, version=2))
            shown = self.values_of(first, mavlink.set_value("RTL_ALT", 1600.0))
            self.assertEqual((shown["value"], shown["version"]), (1600.0, 1))
            shown = mavlink.read_value(hear(second))
            self.assertEqual((shown["name"], shown["value"], shown["version"]), ("RTL_ALT", 1600.0, 2))
            self.ended(vehicle)

    def test_a_ninth_station_is_not_heard_and_makes_no_idle_turns(self):
        with self.served() as vehicle:
            # beside the one that speaks all the time
            stations = [vehicle.ready() for _ in range(7)]
            ninth = vehicle.station()
            # the HEARTBEATs of the time before may wait in the socket
            ask(stations[0], mavlink.request_read(1))
            stations[0].settimeout(0.01)
            heard, end = 0, time.monotonic() + 2
            while time.monotonic() < end:
                ninth.send(mavlink.request_read(0))
                try:
                    heard += bool(stations[0].recv(2048))
                except socket.timeout:
                    pass
            # some hundred datagrams came from the ninth, and two seconds have one idle turn to three
            self.assertIn(heard, (1, 2, 3))
            ninth.settimeout(0.2)
            with self.assertRaises(socket.timeout):
                ninth.recv(2048)
            self.assertEqual(self.values_of(stations[6], mavlink.request_read(1))["name"], "RTL_ALT")
            # the end comes from any address
            self.ended(vehicle)

    def list_of(self, station, ticks):
        """All values that a list shows, and the seconds that it took. With ticks a heartbeat goes out each second."""
        started = time.monotonic()
        values, spoke = [mavlink.read_value(ask(station, mavlink.request_list(version=2)))], started
        while len(values) < ROWS:
            if ticks and time.monotonic() - spoke >= 1:
                spoke = time.monotonic()
                station.send(mavlink.heartbeat(version=2))
            values.append(mavlink.read_value(hear(station)))
        return values, time.monotonic() - started

    def test_all_values_are_listed_once_and_in_order(self):
        with self.served() as vehicle:
            for ticks in (False, True):
                values, seconds = self.list_of(vehicle.station(), ticks)
                self.assertEqual([value["index"] for value in values], list(range(ROWS)))
                self.assertEqual({value["version"] for value in values}, {2})
                self.assertEqual(values[143]["name"], "SERVO16_FUNCTION")
                print(f"a list to a station {'with a heartbeat a second' if ticks else 'that stays silent'}: "
                      f"{seconds:.2f} seconds")
                # one stretch of eight at each idle turn would take 29
                self.assertLess(seconds, 10)
            self.ended(vehicle)

    # what is kept

    def test_a_value_is_set_read_and_kept(self):
        with self.served() as vehicle:
            station = vehicle.ready()
            shown = self.values_of(station, mavlink.set_value("INS_GYRO_FILTER", 42.0))
            self.assertEqual((shown["name"], shown["value"], shown["type"]), ("INS_GYRO_FILTER", 42.0, "int16"))
            # a value that the kind doesn't hold leaves the old one
            shown = self.values_of(station, mavlink.set_value("FS_THR_ENABLE", 128.0))
            self.assertEqual((shown["name"], shown["value"]), ("FS_THR_ENABLE", 1.0))
            self.ended(vehicle)
        with self.served() as vehicle:
            shown = self.values_of(vehicle.station(), mavlink.request_read(-1, name="INS_GYRO_FILTER"))
            self.assertEqual(shown["value"], 42.0)
            self.ended(vehicle)

    def test_a_value_survives_the_end_of_the_server_from_outside(self):
        for number, radius in ((signal.SIGKILL, 123.5), (signal.SIGTERM, 99.5), (signal.SIGINT, 88.25)):
            with self.served() as vehicle:
                station = vehicle.ready()
                ask(station, mavlink.set_value("FENCE_RADIUS", radius))
                # what was set is in the image once a later frame came
                ask(station, mavlink.request_read(0))
                vehicle.process.send_signal(number)
                vehicle.process.wait(timeout=30)
            with self.served() as vehicle:
                shown = self.values_of(vehicle.station(), mavlink.request_read(-1, name="FENCE_RADIUS"))
                self.assertEqual((shown["value"], shown["type"]), (radius, "float"))
                self.ended(vehicle)

    def ended_without_disk(self):
        """What a server ends with and prints that takes one turn, which sets a value, over a disk that takes nothing.

        None where the turn was an idle one.
        """
        refusing = ("strace", "-f", "-o", os.devnull, "-e", "trace=fdatasync", "-e", "inject=fdatasync:error=EIO")
        with server.served(PROGRAM, self.image, "--turns", "1", before=refusing) as vehicle:
            station = vehicle.station()
            station.settimeout(5)
            station.send(mavlink.set_value("RTL_ALT", 1600.0))
            try:
                if mavlink.read_frame(station.recv(2048))["message"] == mavlink.HEARTBEAT:
                    return None
            except OSError:
                return None
            printed = vehicle.process.communicate(timeout=30)[0]
            return vehicle.process.returncode, printed

    def test_a_disk_that_refuses_the_last_of_what_was_done_is_told(self):
        if (why := disk_states.why_not(self.folder)) is not None:
            self.skipTest(why)
        with self.served() as vehicle:  # the formatting is stored
            vehicle.ready()
            self.ended(vehicle)
        for _ in range(5):
            if (ended := self.ended_without_disk()) is not None:
                break
        self.assertEqual(ended, (FLASH_FAILED, b"error 8 turns 1\n"))

    def test_each_state_of_the_disk_stands_for_bytes_between_two_frames(self):
        why = disk_states.why_not(self.folder)
        if why:
            self.skipTest(why)
        for text in disk_states.check(PROGRAM, self.folder):
            print(text)

    # missions, fences and commands

    def told(self, vehicle, *words):
        """What tools/station.py prints of work that it did."""
        done = self.tool(vehicle, *words)
        self.assertEqual((done.returncode, done.stderr), (0, ""), words)
        return done.stdout

    def refused(self, vehicle, *words):
        """The line in which tools/station.py says that it couldn't do its work."""
        done = self.tool(vehicle, *words)
        self.assertEqual((done.returncode, done.stdout, done.stderr.count("\n")), (1, "", 1), (words, done.stderr))
        return done.stderr.rstrip("\n")

    def file(self, name, *lines):
        """A file of this test with these lines of `QGC WPL 110` text, if any."""
        name = os.path.join(self.folder, name)
        if lines:
            with open(name, "w", encoding="utf-8") as file:
                file.write("\n".join(("QGC WPL 110", *lines, "")))
        return name

    def items_of(self, vehicle, kind):
        """The items that the vehicle has."""
        station = Vehicle(vehicle.port)
        with station.socket:
            return missions.download(station, kind)

    def settled(self, vehicle):
        """Lets the vehicle store what it was sent: each event puts eight lines at least, and no change has more than 64."""
        station = vehicle.station()
        for _ in range(9):
            ask(station, mavlink.request_read(1, version=2))

    def step(self, station, request, next_item):
        """Sends a part of an upload. Gives its result, or None once the vehicle asks for the item with this number."""
        station.send(request)
        end = time.monotonic() + 30
        while time.monotonic() < end:
            found = mavlink.read_frame(hear(station, 30))
            fields = mavlink.fields_of(found)
            if found["message"] == mavlink.MISSION_ACK:
                return fields["type"]
            if found["message"] == mavlink.MISSION_REQUEST_INT and fields["seq"] == next_item:
                return None
        raise TimeoutError("the upload doesn't go on")

    def begin(self, station, kind, items, taken):
        """Begins an upload, of which so many items are taken. Gives its result, or None where more are asked for."""
        result = self.step(station, mavlink.mission_count(len(items), kind, version=2), 0)
        for number in range(taken):
            self.assertIsNone(result)
            result = self.step(station, mavlink.mission_item(number, items[number], kind, version=2), number + 1)
        return result

    def test_the_sample_route_is_uploaded_kept_and_downloaded(self):
        with self.served() as vehicle:
            self.assertEqual(self.told(vehicle, "mission", "list"), "the vehicle has no mission\n")
            self.assertEqual(self.told(vehicle, "mission", "upload", ROUTE), "8 items uploaded\n")
            self.settled(vehicle)
            vehicle.process.kill()
            vehicle.process.wait(timeout=30)
        with self.served() as vehicle:
            vehicle.ready()
            text, plan = self.file("kept.waypoints"), self.file("kept.plan")
            self.assertEqual(self.told(vehicle, "mission", "download", text), "8 items downloaded\n")
            self.assertEqual(content_of(text), content_of(ROUTE))
            listed = self.told(vehicle, "mission", "list").splitlines()
            self.assertEqual(len(listed), 8)
            self.assertEqual(listed[4], "4 NAV_WAYPOINT at 47.3991500 8.5468200, 30.48 m above home")
            self.assertIn("MIS_TOTAL = 8 ", self.told(vehicle, "parameters", "read", "MIS_TOTAL"))
            # the plan is the same mission
            self.assertEqual(self.told(vehicle, "mission", "clear"), "the vehicle has no mission now\n")
            self.assertEqual(self.items_of(vehicle, MISSION), [])
            self.assertEqual(self.told(vehicle, "mission", "upload", PLAN), "8 items uploaded\n")
            self.told(vehicle, "mission", "download", text)
            self.assertEqual(content_of(text), content_of(ROUTE))
            self.told(vehicle, "mission", "download", plan)
            self.assertEqual(plan_files.read_mission(content_of(plan)), plan_files.read_mission(content_of(PLAN)))
            self.ended(vehicle)

    def test_a_killed_upload_leaves_the_mission_or_its_beginning(self):
        old = shown_items(plan_files.read_mission(content_of(ROUTE)))
        new = [Item(16, 3, x=473977420 + number, y=85455970, z=10.0 + number) for number in range(12)]
        for taken in (0, 1, 5, len(new)):
            with self.subTest(taken=taken):
                with self.served() as vehicle:
                    self.told(vehicle, "mission", "upload", ROUTE)
                    self.settled(vehicle)
                    result = self.begin(vehicle.station(), MISSION, new, taken)
                    self.assertEqual(result, 0 if taken == len(new) else None)
                    vehicle.process.kill()
                    vehicle.process.wait(timeout=30)
                with self.served() as vehicle:
                    vehicle.ready()
                    # what the event of the last answer wrote may be lost, and nothing before it
                    may_be = [old, []] if taken == 0 else [new[:taken - 1], new[:taken]]
                    self.assertIn(self.items_of(vehicle, MISSION), may_be)
                    self.ended(vehicle)

    def test_a_mission_that_was_uploaded_is_whole_once_a_later_frame_was_answered(self):
        for ended_by in (signal.SIGKILL, signal.SIGTERM, signal.SIGINT):
            new = [Item(16, 3, x=473977420, y=85455970 + number, z=10.0 + ended_by) for number in range(3)]
            with self.served() as vehicle:
                station = vehicle.station()
                self.assertEqual(self.begin(station, MISSION, new, len(new)), 0)
                ask(station, mavlink.request_read(1, version=2))
                vehicle.process.send_signal(ended_by)
                vehicle.process.wait(timeout=30)
            with self.served() as vehicle:
                vehicle.ready()
                self.assertEqual(self.items_of(vehicle, MISSION), new)
                self.ended(vehicle)

    def test_a_second_station_is_denied_while_one_uploads(self):
        denied = "denied: another station uploads"
        for kind, name, number in ((MISSION, "mission", 16), (FENCE, "fence", 5003)):
            items = [Item(number, 0, (10.0, 0.0, 0.0, 0.0), 473977420, 85455970 + place) for place in range(3)]
            with self.served() as vehicle, self.subTest(name):
                first, second = vehicle.ready(), vehicle.ready()
                self.assertIsNone(self.begin(first, kind, items, 1))
                self.assertEqual(self.refused(vehicle, name, "upload", PLAN), f"the {name} is not taken: {denied}")
                self.assertEqual(self.refused(vehicle, name, "clear"), f"the {name} is not cleared: {denied}")
                self.assertEqual(self.step(second, mavlink.mission_item(1, items[1], kind, version=2), None), 14)
                self.assertIsNone(self.step(first, mavlink.mission_item(1, items[1], kind, version=2), 2))
                self.assertEqual(self.step(first, mavlink.mission_item(2, items[2], kind, version=2), None), 0)
                self.assertEqual(self.items_of(vehicle, kind), items)
                self.assertIn("items uploaded", self.told(vehicle, name, "upload", PLAN))
                self.ended(vehicle)

    def test_a_refused_item_of_a_mission_is_named(self):
        with self.served() as vehicle:
            vehicle.ready()
            for line, words in (
                    ("1 0 1 16 0 0 0 0 47 8 30 1", "(NAV_WAYPOINT) is refused: its frame is not supported"),
                    ("1 0 2 530 0 0 0 0 0 0 0 1", "(SET_CAMERA_MODE) is refused: its command is not supported"),
                    ("1 0 3 16 70000 0 0 0 47 8 30 1", "(NAV_WAYPOINT) is refused: its parameter 1 is invalid"),
                    ("1 0 2 183 1 0.5 0 0 0 0 0 1", "(DO_SET_SERVO) is refused: its parameter 2 is invalid"),
                    ("1 0 3 18 1 0 300 0 47 8 30 1", "(NAV_LOITER_TURNS) is refused: its parameter 3 is invalid"),
                    ("1 0 2 115 9 9 1 2 0 0 0 1", "(CONDITION_YAW) is refused: its parameter 4 is invalid"),
                    ("1 0 3 16 0 0 0 0 90.0000001 8 30 1",
                     "(NAV_WAYPOINT) is refused: its latitude (x) is out of range"),
                    ("1 0 3 16 0 0 0 0 47 -180.0000001 30 1",
                     "(NAV_WAYPOINT) is refused: its longitude (y) is out of range"),
                    ("1 0 3 16 0 0 0 0 47 8 83886.08 1",
                     "(NAV_WAYPOINT) is refused: its altitude (z) is no whole number of centimetres in range")):
                name = self.file("refused.waypoints", HOME_LINE, line, "2 0 2 20 0 0 0 0 0 0 0 1")
                self.assertEqual(self.refused(vehicle, "mission", "upload", name), f"item 1 {words}")
                # the items before it were taken
                self.assertEqual([item.z for item in self.items_of(vehicle, MISSION)], [488.0])
            many = [f"{number} 0 2 20 0 0 0 0 0 0 0 1" for number in range(1000)]
            self.assertIn("the mission is not taken: there is no space for so many items",
                          self.refused(vehicle, "mission", "upload", self.file("many.waypoints", *many)))
            self.ended(vehicle)

    def test_a_refused_item_of_a_fence_is_named_and_the_old_fence_stays(self):
        vertex, circle = "5001 4 0 0 0 47 8 0 1", "5003 10 0 0 0 47 8 0 1"
        with self.served() as vehicle:
            self.told(vehicle, "fence", "upload", PLAN)
            before = self.items_of(vehicle, FENCE)
            self.assertEqual(len(before), 5)
            for items, words in (
                    ([circle, circle.replace("10", "-10")], "item 1 (NAV_FENCE_CIRCLE_INCLUSION) is refused: its "
                                                            "parameter 1 is invalid"),
                    ([vertex] * 3, "item 2 (NAV_FENCE_POLYGON_VERTEX_INCLUSION) is refused: with it the items make no "
                                   "fence: "),
                    (["5000 0 0 0 0 47 8 0 1"] * 2, "item 1 (NAV_FENCE_RETURN_POINT) is refused: with it the items "
                                                    "make no fence: "),
                    ([circle] * 51, "item 50 (NAV_FENCE_CIRCLE_INCLUSION) is refused: there is no space for it"),
                    ([circle] * 1000, "the fence is not taken: there is no space for so many items")):
                lines = [f"{number} 0 0 {item}" for number, item in enumerate(items)]
                said = self.refused(vehicle, "fence", "upload", self.file("refused.waypoints", *lines))
                self.assertTrue(said.startswith(words), said)
                self.assertEqual(self.items_of(vehicle, FENCE), before)
            self.ended(vehicle)

    def test_polygons_have_three_to_fifty_one_vertices(self):
        def polygon(count):
            return [Item(5001, 0, (float(count), 0.0, 0.0, 0.0), 473977420 + place, 85455970) for place in range(count)]

        with self.served() as vehicle:
            station = vehicle.ready()
            for count in (3, 51):
                self.assertEqual(self.begin(station, FENCE, polygon(count), count), 0)
                self.assertEqual(self.items_of(vehicle, FENCE), polygon(count))
            # the first vertex says a count that no polygon has
            self.assertEqual(self.begin(station, FENCE, polygon(2), 1), 6)
            self.assertEqual(self.begin(station, FENCE, polygon(52), 0), 4)
            # the counts of a polygon's vertices differ
            self.assertEqual(self.begin(station, FENCE, [*polygon(3)[:2], *polygon(4)[2:3]], 3), 5)
            self.assertEqual(self.items_of(vehicle, FENCE), polygon(51))
            self.ended(vehicle)

    def test_a_fence_is_uploaded_kept_downloaded_and_cleared(self):
        lines = [HOME_LINE, *(f"{number} 0 3 5002 3 0 0 0 {place} 0 1" for number, place in
                              enumerate(("47.1 8.1", "47.2 8.1", "47.1 8.2"), 1)),
                 "4 0 0 5004 25.5 0 0 0 47.3 8.3 0 1", "5 0 3 5000 0 0 0 0 47.4 8.4 20 1"]
        kept = [Item(5002, 0, (3.0, 0.0, 0.0, 0.0), x, y)
                for x, y in ((471000000, 81000000), (472000000, 81000000), (471000000, 82000000))]
        kept += [Item(5004, 0, (25.5, 0.0, 0.0, 0.0), 473000000, 83000000), Item(5000, 0, x=474000000, y=84000000)]
        with self.served() as vehicle:
            self.assertEqual(self.told(vehicle, "fence", "list"), "the vehicle has no fence\n")
            # Mission Planner writes the home position in front of a fence
            name = self.file("fence.waypoints", *lines)
            self.assertEqual(self.told(vehicle, "fence", "upload", name), "5 items uploaded\n")
            self.settled(vehicle)
            vehicle.process.kill()
            vehicle.process.wait(timeout=30)
        with self.served() as vehicle:
            vehicle.ready()
            self.assertEqual(self.items_of(vehicle, FENCE), kept)
            text, plan = self.file("kept.waypoints"), self.file("kept.plan")
            self.assertEqual(self.told(vehicle, "fence", "download", text), "5 items downloaded\n")
            self.assertEqual(shown_items(plan_files.read_fence(content_of(text))), kept)
            # a plan keeps its mission when a fence is put into it
            shutil.copy(PLAN, plan)
            self.told(vehicle, "fence", "download", plan)
            self.assertEqual(plan_files.read_fence(content_of(plan))[:4], kept[:4])
            self.assertEqual(plan_files.read_mission(content_of(plan)), plan_files.read_mission(content_of(PLAN)))
            self.assertEqual(self.told(vehicle, "fence", "upload", PLAN), "5 items uploaded\n")
            self.assertEqual(self.items_of(vehicle, FENCE), plan_files.read_fence(content_of(PLAN)))
            self.assertEqual(self.told(vehicle, "fence", "clear"), "the vehicle has no fence now\n")
            self.assertEqual(self.items_of(vehicle, FENCE), [])
            self.ended(vehicle)

    def test_a_killed_upload_of_a_fence_leaves_the_old_one_or_none_or_the_new_one(self):
        new = [Item(5003, 0, (10.0 + number, 0.0, 0.0, 0.0), 473977420, 85455970) for number in range(6)]
        old = plan_files.read_fence(content_of(PLAN))
        for taken in (0, 3, len(new)):
            with self.subTest(taken=taken):
                with self.served() as vehicle:
                    self.told(vehicle, "fence", "upload", PLAN)
                    self.settled(vehicle)
                    result = self.begin(vehicle.station(), FENCE, new, taken)
                    self.assertEqual(result, 0 if taken == len(new) else None)
                    vehicle.process.kill()
                    vehicle.process.wait(timeout=30)
                with self.served() as vehicle:
                    vehicle.ready()
                    self.assertIn(self.items_of(vehicle, FENCE), [old, [], new] if taken == len(new) else [old])
                    self.ended(vehicle)

    def test_a_vehicle_is_armed_and_disarmed(self):
        with self.served() as vehicle:
            station = vehicle.ready()
            station.settimeout(10)
            for word, mode, state in (("arm", 129, 4), ("disarm", 1, 3)):
                self.assertEqual(self.told(vehicle, word), f"{word} is accepted\n")
                beats = (mavlink.fields_of(mavlink.read_frame(station.recv(2048))) for _ in range(10))
                # heartbeats of the time before may wait in the socket
                beat = next(beat for beat in beats if beat["base_mode"] == mode)
                self.assertEqual((beat["autopilot"], beat["system_status"]), (3, state))
            self.ended(vehicle)

    def test_what_was_sent_before_an_accepted_order_is_stored(self):
        orders = ((signal.SIGKILL, "flush", 1600), (signal.SIGTERM, "arm", 1700), (signal.SIGINT, "disarm", 1800),
                  (signal.SIGTERM, "flush", 1900), (signal.SIGINT, "flush", 2000))
        for number, order, altitude in orders:
            with self.subTest(f"{order}, then signal {number}"):
                with self.served() as vehicle:
                    self.told(vehicle, "mission", "clear")
                    self.told(vehicle, "parameters", "set", "RTL_ALT", str(altitude))
                    self.assertEqual(self.told(vehicle, "mission", "upload", ROUTE), "8 items uploaded\n")
                    self.assertEqual(self.told(vehicle, order), f"{order} is accepted\n")
                    vehicle.process.send_signal(number)
                    printed, said = vehicle.process.communicate(timeout=30)
                    self.assertEqual((vehicle.process.returncode, printed, said), (-number, b"", b""))
                with self.served() as vehicle:
                    vehicle.ready()
                    self.assertEqual(self.told(vehicle, "parameters", "read", "RTL_ALT"),
                                     f"RTL_ALT = {altitude} (int32), index 1 of 240\n")
                    self.assertEqual(len(self.items_of(vehicle, MISSION)), 8)
                    self.ended(vehicle)

    def order_of(self, station, number, param1):
        """The result that answers a COMMAND_LONG."""
        answer = mavlink.read_frame(ask(station, mavlink.command(number, param1, version=2)))
        self.assertEqual(answer["message"], mavlink.COMMAND_ACK)
        fields = mavlink.fields_of(answer)
        self.assertEqual(fields["command"], number)
        return fields["result"]

    def test_an_armed_vehicle_takes_as_many_lines_as_its_sectors_allow(self):
        def altitude(value):
            return self.values_of(station, mavlink.set_value("RTL_ALT", float(value)))["value"]

        with self.served() as vehicle:
            station = vehicle.ready()
            self.assertEqual(altitude(1600), 1600)
            self.assertEqual(self.order_of(station, mavlink.COMPONENT_ARM_DISARM, 1.0), 0)
            # with sectors of 16,384 bytes 47 lines, and each of these values is written in one
            for change in range(47):
                self.assertEqual(altitude(1601 + change), 1601 + change)
            self.assertEqual(altitude(1700), 1647)
            # to arm again, an order that isn't known and one with another parameter change nothing
            for number, param1, result in ((mavlink.COMPONENT_ARM_DISARM, 1.0, 0), (246, 1.0, 3),
                                           (mavlink.COMPONENT_ARM_DISARM, 2.0, 2), (mavlink.PREFLIGHT_STORAGE, 0.0, 2)):
                self.assertEqual(self.order_of(station, number, param1), result)
                self.assertEqual(altitude(1700), 1647)
            self.assertEqual(self.order_of(station, mavlink.COMPONENT_ARM_DISARM, -0.0), 0)
            self.assertEqual(altitude(1700), 1700)
            self.ended(vehicle)

    def test_the_number_of_items_is_left_to_the_vehicle(self):
        with self.served() as vehicle:
            name = self.file("kept.parm")
            self.told(vehicle, "mission", "upload", ROUTE)
            self.told(vehicle, "parameters", "set", "RTL_ALT", "1700")
            self.told(vehicle, "parameters", "save", name)
            self.assertIn("MIS_TOTAL        8\n", content_of(name))
            self.told(vehicle, "mission", "clear")
            self.told(vehicle, "parameters", "set", "RTL_ALT", "1500")
            self.assertEqual(self.told(vehicle, "parameters", "load", name),
                             f"1 values set, {ROWS - 2} were so already, 0 not taken, MIS_TOTAL left to the vehicle\n")
            self.assertIn("RTL_ALT = 1700 ", self.told(vehicle, "parameters", "read", "RTL_ALT"))
            self.ended(vehicle)

    # the tools and the documents

    def test_parameter_files_are_saved_and_loaded(self):
        with self.served() as vehicle:
            vehicle.ready()
            for name, line in (("kept.parm", "FENCE_RADIUS     123.1\n"), ("kept.param", "FENCE_RADIUS,123.1\n")):
                file = os.path.join(self.folder, name)
                self.assertEqual(self.tool(vehicle, "parameters", "set", "FENCE_RADIUS", "123.1").returncode, 0)
                self.assertEqual(self.tool(vehicle, "parameters", "save", file).stdout, f"{ROWS} values saved\n")
                with open(file, encoding="ascii") as lines:
                    self.assertIn(line, list(lines))
                self.tool(vehicle, "parameters", "set", "FENCE_RADIUS", "5")
                self.tool(vehicle, "parameters", "set", "RTL_ALT", "1200")
                loaded = self.tool(vehicle, "parameters", "load", file)
                self.assertEqual((loaded.returncode, loaded.stdout),
                                 (0, f"2 values set, {ROWS - 2} were so already, 0 not taken\n"))
            with open(file, "w", encoding="ascii") as lines:
                lines.write("# a comment\nNO_SUCH_NAME 1\nFS_THR_ENABLE 128\n\nRTL_ALT,1600\n")
            loaded = self.tool(vehicle, "parameters", "load", file)
            self.assertEqual((loaded.returncode, loaded.stdout), (1, "1 values set, 0 were so already, 2 not taken\n"))
            self.assertEqual(self.tool(vehicle, "end").returncode, 0)
            self.assertEqual(vehicle.process.wait(timeout=30), 0)
        self.assertEqual(self.tool(vehicle, "parameters", "read", "0").stderr,
                         f"no answer from 127.0.0.1:{vehicle.port}\n")

    def test_watch_prints_what_the_vehicle_sends(self):
        with self.served() as vehicle:
            vehicle.ready()
            with self.assertRaises(subprocess.TimeoutExpired) as caught:
                self.tool(vehicle, "watch", seconds=4)
            self.assertIn(b"HEARTBEAT, not armed\n", caught.exception.stdout)
            self.assertEqual(self.tool(vehicle, "parameters", "read", "RTL_ALT_").stderr,
                             "the vehicle has no parameter RTL_ALT_\n")
            self.ended(vehicle)

    def test_the_documents_show_what_the_program_prints(self):
        shown = []
        for document in ("README.md", os.path.join("docs", "USING.md")):
            shown += re.findall(r"^    \$ ((?:tools/station\.py|\./zuddrin(?! replay)) .*)\n((?:    (?!\$ ).*\n)*)",
                                content_of(os.path.join(TOP, document)), re.M)
        for program in ("tools/station.py", "./zuddrin"):
            self.assertTrue(any(command.startswith(program) for command, _ in shown))
        with self.served(sector=131_072) as vehicle:
            vehicle.ready()
            for command, output in shown:
                real = {"./zuddrin": PROGRAM, "vehicle.img": self.image}
                words = [real.get(word, word) for word in shlex.split(command)]
                if words[0] == "tools/station.py":
                    words = [sys.executable, os.path.join(TOP, words[0]), *words[1:]]
                    cut = words.index("|") if "|" in words else len(words)
                    words[cut:cut] = ["--port", str(vehicle.port)]
                script = " ".join(word if word == "|" else shlex.quote(word) for word in words)
                done = subprocess.run(["sh", "-c", script], capture_output=True, text=True, timeout=60, check=False)
                with self.subTest(command):
                    wanted = "".join(r"(?:.*\n)*" if line.strip() == ".." else re.escape(line[4:]) + r"\n"
                                     for line in output.splitlines())
                    self.assertRegex(done.stdout, f"^{wanted}$")
            self.ended(vehicle)


if __name__ == "__main__":
    # a shell has what it runs in the background ignore SIGINT, and a server would inherit that
    signal.signal(signal.SIGINT, signal.default_int_handler)
    PROGRAM = counted.program_named(__doc__)
    counted.passes()
