#!/usr/bin/env python3
"""Uses the command `replay` of the built program as a user would: tests/replayed.py PROGRAM

The scripts are those of examples/ and some short ones. What a mission's upload leaves that is cut at a call is computed
here from docs/FORMATS.md, apart from the program. The last line counts what passed and what failed.
"""
import os
import re
import shlex
import struct
import subprocess
import sys
import tempfile
import unittest

TOP = os.path.join(os.path.dirname(os.path.abspath(__file__)), "..")
sys.path.insert(0, os.path.join(TOP, "tools"))
sys.dont_write_bytecode = True
import counted  # noqa: E402
import image  # noqa: E402
import mavlink  # noqa: E402
import plan_files  # noqa: E402
import replay  # noqa: E402
import server  # noqa: E402

PROGRAM = ""
EXAMPLES = os.path.join(TOP, "examples")
ROUTE = os.path.join(EXAMPLES, "route.waypoints")
# lines of docs/FORMATS.md, and the digest of the storage that formatting leaves
FORMATTED = bytes.fromhex("50410600144200000000FFFF3F000000")
TOTAL_PLACE, MISSION_PLACE = 8, 1280
MISSION_VERSION = bytes.fromhex("AE650000")
OLD_MISSION = """QGC WPL 110
0	1	0	16	0	0	0	0	47.1000000	8.1000000	400	1
1	0	3	22	0	0	0	0	47.1000000	8.1000000	15	1
2	0	2	20	0	0	0	0	0	0	0	1
"""


def content_of(*names):
    """What a file holds, as text."""
    with open(os.path.join(*names), encoding="utf-8") as file:
        return file.read()


def storage_with(*records):
    """The storage bytes that have these parameter records after that of MIS_TOTAL, and their digest."""
    content = b"".join(records) + bytes.fromhex("FFFF3F00")
    return (FORMATTED[:10] + content).ljust(image.LINES * image.LINE_BYTES, b"\0")


def command_bytes(item):
    """The fifteen bytes of an item's command, by the tables of docs/FORMATS.md, for commands of the sample route."""
    param1, param2, param3, _ = item.params
    if item.command == 178:
        return struct.pack("<BHBff", item.command, 0, int(param1), param2, param3).ljust(15, b"\0")
    if item.command == 20:
        return bytes([item.command]).ljust(15, b"\0")
    p1 = int(param1) + 256 * abs(int(param3)) if item.command == 18 else int(param1)
    flags = (item.frame == 3) + 4 * (param3 < 0)
    altitude = round(item.z * 100).to_bytes(3, "little", signed=True)
    return struct.pack("<BHB", item.command, p1, flags) + altitude + struct.pack("<ii", item.x, item.y)


class Upload:
    """What the upload of a mission does to a storage: its lines, in the entries in which they are put.

    At each event the eight oldest lines or more are put, in runs of adjacent lines. An entry takes a program for its
    header, one for each halfword of its lines, and one for its header again, with which it is there.
    """

    def __init__(self, storage, items):
        self.current, self.waiting, self.calls, self.entries = bytearray(storage), [], 0, []
        self.durable = bytes(storage)
        self.write(TOTAL_PLACE, struct.pack("<h", 0))
        self.write(MISSION_PLACE, MISSION_VERSION)
        self.finish()
        for number, item in enumerate(items):
            self.write(MISSION_PLACE + 4 + 15 * number, command_bytes(item))
            self.write(TOTAL_PLACE, struct.pack("<h", number + 1))
            self.finish()

    def write(self, place, content):
        """Issues the lines that change."""
        for line in range(place // 8, (place + len(content) - 1) // 8 + 1):
            before = bytes(self.current[8 * line:8 * line + 8])
            low, high = max(place, 8 * line), min(place + len(content), 8 * line + 8)
            self.current[low:high] = content[low - place:high - place]
            if bytes(self.current[8 * line:8 * line + 8]) != before:
                self.waiting.append((line, bytes(self.current[8 * line:8 * line + 8])))

    def finish(self):
        """Puts what the end of an event puts."""
        put = 0
        while self.waiting and put < 8:
            count = 1
            while count < min(8, len(self.waiting)) and self.waiting[count][0] == self.waiting[count - 1][0] + 1:
                count += 1
            self.calls, put = self.calls + 2 + 4 * count, put + count
            self.entries.append((self.calls, self.waiting[:count]))
            self.waiting = self.waiting[count:]

    def left(self, cut):
        """The storage that a loss before this call leaves, and whether anything was put by then."""
        storage = bytearray(self.durable)
        put = [lines for last, lines in self.entries if last < cut]
        for line, content in (one for lines in put for one in lines):
            storage[8 * line:8 * line + 8] = content
        return bytes(storage), bool(put)


class Replayed(unittest.TestCase):
    def setUp(self):
        folder = tempfile.TemporaryDirectory()
        self.addCleanup(folder.cleanup)
        self.folder = folder.name
        self.image = os.path.join(self.folder, "vehicle.img")
        self.run_program("format", self.image)

    def run_program(self, *words, script=""):
        done = subprocess.run([PROGRAM, *words], input=script.encode("ascii"), capture_output=True, timeout=60,
                              check=False)
        self.assertEqual(done.stderr, b"")
        return done.returncode, done.stdout.decode("ascii")

    def replayed(self, script):
        """What a script prints, whose end was reached. The image stays as it is."""
        with open(self.image, "rb") as file:
            before = file.read()
        status, printed = self.run_program("replay", self.image, script=script)
        self.assertEqual(status, 0, printed)
        with open(self.image, "rb") as file:
            self.assertEqual(file.read(), before)
        return printed

    def station(self, vehicle, *words):
        """Has tools/station.py do its work."""
        subprocess.run([sys.executable, os.path.join(TOP, "tools", "station.py"), *words, "--port", str(vehicle.port)],
                       stdout=subprocess.DEVNULL, timeout=60, check=True)

    def prepare(self, *words):
        """Serves the image, has a station do this, and ends."""
        with server.served(PROGRAM, self.image) as vehicle:
            vehicle.ready()
            self.station(vehicle, *words)
            self.assertEqual(vehicle.end()[0], 0)

    # the example of a loss

    def shown(self, value, sequence):
        """The printed line of PARAM_VALUE of FS_THR_ENABLE."""
        payload = struct.pack("<f2H16sB", value, 240, 3, b"FS_THR_ENABLE", 2)
        return f"f 0 {mavlink.frame(mavlink.PARAM_VALUE, payload, sequence, 1, mavlink.VEHICLE).hex()}\n"

    def test_what_was_only_shown_is_lost_and_what_was_acknowledged_is_kept(self):
        acknowledged = mavlink.frame(mavlink.COMMAND_ACK, struct.pack("<HB", 245, 0), 2, 1, mavlink.VEHICLE).hex()
        record = bytes.fromhex("0301000000")
        self.assertEqual(self.replayed(content_of(EXAMPLES, "loss.script")), "".join((
            self.shown(0.0, 0), "loss\n", self.shown(1.0, 0), self.shown(0.0, 1), f"f 0 {acknowledged}\n", "loss\n",
            self.shown(0.0, 0), f"bytes {image.digest(storage_with(record))}\n")))

    def test_lines_of_messages_are_those_of_the_example(self):
        made = []
        for words in (("set", "FS_THR_ENABLE", "0"), ("read", "3"), ("set", "FS_THR_ENABLE", "0"), ("flush",),
                      ("read", "3")):
            done = subprocess.run([sys.executable, os.path.join(TOP, "tools", "replay.py"), "line", *words],
                                  capture_output=True, text=True, timeout=30, check=True)
            made.append(done.stdout)
        self.assertEqual("".join(("l 3 0\n", *made[:4], "x\n", made[4], "e\n")), content_of(EXAMPLES, "loss.script"))

    # words and statuses

    def test_a_script_ends_as_it_should_or_its_line_is_named(self):
        digest = f"bytes {image.digest(storage_with())}\n"
        for script, printed in (("e\n", digest), ("e", digest), ("i\nx\ne\n", "loss\n" + digest),
                                ("l 1000000 0\n" * 16 + "e\n", digest), ("e\nwhat follows has no effect", digest),
                                ("d 3 \ne\n", digest)):
            self.assertEqual(self.replayed(script), printed)
        for script, line in (("", 1), ("i\n", 2), ("i\nz\n", 2), ("l 1000000 0\n" * 17, 17), ("i \ne\n", 1),
                             ("d 8 \ne\n", 1), ("d 0 F\ne\n", 1), ("d 0\ne\n", 1), ("l 0 0\ne\n", 1), ("l 1 3\ne\n", 1),
                             ("l 1000001 0\ne\n", 1), ("\ne\n", 1), ("i\r\ne\r\n", 1)):
            self.assertEqual(self.run_program("replay", self.image, script=script), (11, f"error 11 line {line}\n"))

    def test_a_source_that_fails_is_told(self):
        folder = os.open(self.folder, os.O_RDONLY)
        try:
            done = subprocess.run([PROGRAM, "replay", self.image], stdin=folder, capture_output=True, timeout=30,
                                  check=False)
        finally:
            os.close(folder)
        self.assertEqual((done.returncode, done.stdout), (9, b"error 9 input\n"))

    def test_words_and_images_are_tested_first(self):
        self.assertEqual(self.run_program("replay"), (1, "error 1 words\n"))
        self.assertEqual(self.run_program("replay", self.image, "--turns", "1"), (1, "error 1 words\n"))
        self.assertEqual(self.run_program("replay", self.image + "x", script="z\n"), (13, "error 13 attach\n"))
        with open(self.image, "r+b") as file:
            file.seek(4)
            file.write(b"\x0e\0")
        self.assertEqual(self.run_program("replay", self.image, script="z\n"), (3, "error 3 foreign s0 2 000E\n"))

    # an upload that is cut at each call

    def test_an_upload_that_is_cut_at_each_call_leaves_the_old_mission_or_a_prefix_of_the_new_one(self):
        name = os.path.join(self.folder, "old.waypoints")
        with open(name, "w", encoding="utf-8") as file:
            file.write(OLD_MISSION)
        self.prepare("mission", "upload", name)
        with open(self.image, "rb") as file:
            storage = image.storage_of(file.read())
        old, new = plan_files.read_mission(OLD_MISSION), plan_files.read_mission(content_of(ROUTE))
        upload = Upload(storage, new)
        cuts = replay.Cuts(replay.Replays([PROGRAM], self.image), new)
        self.assertEqual(cuts.old, [item._replace(current=0) for item in old])
        self.assertEqual(cuts.new, [item._replace(current=0) for item in new])
        for cut in range(1, upload.calls + 1):
            left, was_put = upload.left(cut)
            total, = struct.unpack_from("<h", left, TOTAL_PLACE)
            with self.subTest(cut=cut):
                self.assertEqual(cuts.at(cut)[0], cuts.new[:total] if was_put else cuts.old)
                # the digest is that of the storage that was computed
                printed = self.replayed(replay.script_of(new, 0, cut))
                self.assertEqual(printed.splitlines()[-1], f"bytes {image.digest(left)}")
        self.assertIsNone(cuts.at(upload.calls + 1))
        lines = list(cuts.lines())
        self.assertEqual(lines[0], "before calls 1 to 6: the old mission, 3 items")
        self.assertEqual(lines[-1], f"after all {upload.calls} calls: the new mission, 8 items")

    def test_the_script_of_an_upload_is_that_of_the_example(self):
        items = plan_files.read_mission(content_of(ROUTE))
        self.assertEqual(replay.script_of(items, len(items), 40), content_of(EXAMPLES, "cut_upload.script"))

    # the documents

    def test_the_documents_show_what_a_replay_prints(self):
        shown = []
        for document in ("README.md", os.path.join("docs", "USING.md")):
            shown += re.findall(r"^    \$ ((?:tools/replay\.py|\./zuddrin replay|cat) .*)\n((?:    (?!\$ ).*\n)*)",
                                content_of(TOP, document), re.M)
        self.assertTrue(shown)
        # the documents have set this before
        self.prepare("parameters", "set", "FENCE_RADIUS", "123.5")
        real = {"./zuddrin": PROGRAM, "vehicle.img": self.image}
        for command, output in shown:
            words = [real.get(word, word) for word in shlex.split(command)]
            script = " ".join(word if word in ("|", "<") else shlex.quote(word) for word in words)
            done = subprocess.run(["sh", "-c", script], cwd=TOP, capture_output=True, text=True, timeout=60,
                                  check=False)
            with self.subTest(command):
                wanted = "".join(r"(?:.*\n)*" if line.strip() == ".." else re.escape(line[4:]) + r"\n"
                                 for line in output.splitlines())
                self.assertRegex(done.stdout, f"^{wanted}$")


if __name__ == "__main__":
    PROGRAM = counted.program_named(__doc__)
    counted.passes()
