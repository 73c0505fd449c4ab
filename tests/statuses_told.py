#!/usr/bin/env python3
"""Holds what the wrappers say of a status against what the program met: tests/statuses_told.py PROGRAM

The program prints its one line on standard output and nothing on standard error; ./zuddrin and ./serve say on standard
error what the status may mean, from what they can see (tools/statuses.py). Each cause is made here in a folder of its
own. What needs a right that isn't there is skipped. And each script says how it is called, and a word that is no
command is answered, before anything is built or run. The last line counts what passed and what failed.
"""
import ast
import io
import os
import re
import shutil
import signal
import socket
import subprocess
import sys
import tempfile
import unittest

TOP = os.path.realpath(os.path.join(os.path.dirname(os.path.abspath(__file__)), ".."))
sys.path.insert(0, os.path.join(TOP, "tools"))
sys.dont_write_bytecode = True
import counted  # noqa: E402
import image  # noqa: E402
import mavlink  # noqa: E402
import program  # noqa: E402
import server  # noqa: E402
import statuses  # noqa: E402

PROGRAM = ""
NOBODY = 65534
ATTACH = b"error 13 attach\n"
SCRIPTS = ["serve", "test", "zuddrin"] + [os.path.join(folder, name) for folder in ("tools", "tests", "benchmarks")
                                 for name in sorted(os.listdir(os.path.join(TOP, folder)))
                                 if os.access(os.path.join(TOP, folder, name), os.X_OK) and name.endswith(".py")]


def told_to_nobody(words, status):
    """What is said of a status to a user who may do less."""
    reader, writer = os.pipe()
    child = os.fork()
    if child == 0:
        os.setgid(NOBODY)
        os.setuid(NOBODY)
        os.write(writer, statuses.meaning(words, status).encode())
        os._exit(0)
    os.close(writer)
    with os.fdopen(reader, "rb") as pipe:
        text = pipe.read().decode()
    os.waitpid(child, 0)
    return text


def called(script, *words):
    """What a script says that finds no other program, so none that proves, builds or runs: status, output, errors."""
    with tempfile.TemporaryDirectory() as empty:
        done = subprocess.run([sys.executable, os.path.join(TOP, script), *words], capture_output=True, text=True,
                              timeout=20, check=False, env={"PATH": empty}, stdin=subprocess.DEVNULL)
    return done.returncode, done.stdout, done.stderr


class Calls(unittest.TestCase):
    """How scripts are called, for which nothing is built."""

    def test_each_script_says_how_it_is_called(self):
        self.assertIn(os.path.join("tests", "as_a_user.py"), SCRIPTS)
        for script in SCRIPTS:
            with open(os.path.join(TOP, script), encoding="utf-8") as file:
                first = ast.get_docstring(ast.parse(file.read())).split("\n")[0]
            for word in ("--help", "-h"):
                with self.subTest(f"{script} {word}"):
                    status, said, errors = called(script, word)
                    self.assertEqual((status, errors), (0, ""))
                    # argparse breaks lines otherwise
                    self.assertIn(first.split(": ")[0], " ".join(said.split()))

    def test_words_that_a_script_does_not_have_are_refused(self):
        for script in ("test", "tools/quotes.py", "tests/refused_memory.py", "tests/station_files.py",
                       "tests/as_a_user.py", "tests/replayed.py", "tests/statuses_told.py", "tests/causes.py",
                       "tests/frames_outside.py", "tests/with_pymavlink.py"):
            with self.subTest(script):
                status, said, errors = called(script, "one", "two", "three")
                self.assertEqual((status, said), (64, ""))
                self.assertIn(os.path.basename(script), errors)

    def test_a_word_that_is_no_command_is_answered_at_once(self):
        known = "serve, replay, format, dump, report, gen"
        for words, told in ((["servee", "a.img"], f"there is no command servee: {known}"),
                            (["Dump", "a.img"], f"there is no command Dump: {known}"),
                            (["help", "serve"], f"there is no command help: {known}"),
                            ([], f"no command is named: {known}"),
                            (["dump"], "dump needs more words: dump IMAGE"),
                            (["gen"], "gen needs more words: gen N")):
            with self.subTest(words):
                self.assertEqual(called("zuddrin", *words), (1, "", f"zuddrin: {told}\n"))
        self.assertEqual(called("zuddrin", "help"), called("zuddrin", "--help"))

    def test_a_test_counts_once_however_many_of_its_parts_fail(self):
        class Some(unittest.TestCase):
            def test_with_parts_that_fail(self):
                for part in range(3):
                    with self.subTest(part):
                        self.assertGreater(part, 7)

            def test_that_passes(self):
                pass

            def test_that_is_skipped(self):
                self.skipTest("why not")

            @unittest.expectedFailure
            def test_that_should_not_pass(self):
                pass

        runner = unittest.TextTestRunner(stream=io.StringIO(), resultclass=counted.Counts)
        counts = runner.run(unittest.defaultTestLoader.loadTestsFromTestCase(Some)).counts()
        self.assertEqual(counts, (1, 2, 1))
        self.assertEqual(counted.line_of(*counts), "1 passed, 2 failed, 1 skipped")
        self.assertEqual(counted.line_of(7, 0, 0), "7 passed, 0 failed")


class StatusesTold(unittest.TestCase):
    def setUp(self):
        folder = tempfile.TemporaryDirectory()
        self.addCleanup(folder.cleanup)
        self.folder = folder.name
        self.image = os.path.join(self.folder, "vehicle.img")

    def blank(self):
        with open(self.image, "wb") as file:
            file.write(image.blank(16_384))

    def ends(self, words, status, printed, told, **options):
        """The program ends so, without a word on standard error, and this is what the status means."""
        done = subprocess.run([PROGRAM, *words], capture_output=True, timeout=60, check=False, **options)
        self.assertEqual((done.returncode, done.stdout, done.stderr), (status, printed, b""))
        self.assertIn(told, statuses.meaning(words, status))

    def test_an_image_that_cannot_be_had_is_described(self):
        missing = os.path.join(self.folder, "no", "vehicle.img")
        for command in ("serve", "dump", "report"):
            self.ends([command, missing], 13, ATTACH, "isn't there")
            self.ends([command, self.folder], 13, ATTACH, "is a folder")
            self.ends([command, "/dev/null"], 13, ATTACH, "is no file that holds an image")
        self.ends(["format", missing], 13, ATTACH, "there is no folder")
        self.ends(["format", self.folder], 13, ATTACH, "is a folder")
        for length in (0, 49_151, 49_153, 32_768, 278_529):
            with open(self.image, "wb") as file:
                file.write(b"\xff" * length)
            for command in ("serve", "dump", "report"):
                self.ends([command, self.image], 13, ATTACH, f"has {length:,} bytes; an image has 49,152, 81,920, "
                                                             "147,456, 278,528")

    def test_an_image_that_may_not_be_written_is_described(self):
        if os.geteuid() != 0 or sys.version_info < (3, 9):
            self.skipTest("only the superuser may become nobody, from Python 3.9 on")
        self.blank()
        os.chmod(self.folder, 0o755)
        copy = shutil.copy(PROGRAM, os.path.join(self.folder, "program"))
        os.chmod(copy, 0o755)
        for mode, command, told in ((0o444, "serve", "can't be written"), (0o444, "format", "can't be written"),
                                    (0o200, "dump", "can't be read"), (0o200, "report", "can't be read")):
            os.chmod(self.image, mode)
            os.chown(self.image, NOBODY, NOBODY)
            words = [command, self.image]
            done = subprocess.run([copy, *words], capture_output=True, timeout=60, check=False, user=NOBODY,
                                  group=NOBODY, extra_groups=[])
            self.assertEqual((done.returncode, done.stdout, done.stderr), (13, ATTACH, b""))
            self.assertIn(told, told_to_nobody(words, 13))

    def test_a_port_that_is_taken_is_described(self):
        self.blank()
        with socket.socket(socket.AF_INET, socket.SOCK_DGRAM) as other:
            other.bind(("127.0.0.1", 0))
            port = other.getsockname()[1]
            self.ends(["serve", self.image, f"--port={port}"], 13, ATTACH,
                      f"port {port} of 127.0.0.1 is taken; --port names another, and where a ground station listens "
                      f"there, ./serve IMAGE --station 127.0.0.1:{port} serves that station")

    def test_an_image_that_another_server_has_is_described(self):
        self.blank()
        with server.served(PROGRAM, self.image) as vehicle:
            vehicle.ready()
            self.ends(["serve", self.image, "--port", str(server.free_port())], 13, ATTACH, "another server has")
            self.ends(["format", self.image], 13, ATTACH, "another server has")

    def test_a_full_disk_is_described(self):
        disk = os.path.join(self.folder, "disk")
        os.mkdir(disk)
        if subprocess.run(["mount", "-t", "tmpfs", "-o", "size=128k", "tmpfs", disk], capture_output=True,
                          check=False).returncode != 0:
            self.skipTest("no disk can be mounted here")
        try:
            self.ends(["format", os.path.join(disk, "vehicle.img")], 13, ATTACH, "the disk is full")
            self.assertIn("is full", statuses.meaning(["serve", os.path.join(disk, "other.img")], 5))
        finally:
            subprocess.run(["umount", disk], check=False)

    def test_an_output_that_takes_nothing_is_described(self):
        self.blank()
        with open("/dev/full", "wb") as full:
            done = subprocess.run([PROGRAM, "dump", self.image], stdout=full, stderr=subprocess.PIPE, timeout=60,
                                  check=False)
        self.assertEqual((done.returncode, done.stderr), (10, b""))
        self.assertIn("standard output", statuses.meaning(["dump", self.image], 10))

    def test_an_image_of_something_else_is_described(self):
        with open(self.image, "wb") as file:
            file.write(b"\x01" * 49_152)
        for command in ("serve", "dump"):
            self.ends([command, self.image], 3, b"error 3 foreign guard 0 0101\n", "isn't an image that a vehicle left")

    def test_words_that_are_no_command_are_described(self):
        for words in ([], ["serve"], ["serve", self.image, "--port", "0"], ["erase", self.image]):
            self.ends(words, 1, b"error 1 words\n", "these words are no command: serve IMAGE")

    def test_each_status_of_the_table_has_words(self):
        known = set()
        for name in ("README.md", os.path.join("docs", "USING.md")):
            if os.path.exists(os.path.join(TOP, name)):
                with open(os.path.join(TOP, name), encoding="utf-8") as text:
                    known |= {int(number) for number in re.findall(r"^\| (\d+) \| .* \| ", text.read(), re.M)}
        self.assertLess({1, 2, 3, 4, 5, 6, 7, 10, 13}, known)
        self.assertEqual({number for number in known if statuses.meaning(["serve", self.image], number) is None}, {0, 8})

    def test_the_wrapper_says_it_and_hands_signals_on(self):
        if not program.is_built():
            self.skipTest("no program of these sources is built")
        done = subprocess.run([os.path.join(TOP, "zuddrin"), "dump", self.image], capture_output=True, timeout=60,
                              check=False)
        self.assertEqual((done.returncode, done.stdout), (13, ATTACH))
        self.assertRegex(done.stderr, rb"^zuddrin: .* isn't there; .*\n$")
        for number, told in ((signal.SIGTERM, b"ended from outside; what was flushed is kept"),
                             (signal.SIGINT, b"ended by an interrupt; what was flushed is kept")):
            self.blank()
            vehicle = server.Server(os.path.join(TOP, "zuddrin"), self.image)
            self.addCleanup(vehicle.close)
            station = vehicle.ready()
            server.ask(station, mavlink.set_value("FENCE_RADIUS", float(number)))
            server.ask(station, mavlink.request_read(0))
            vehicle.process.send_signal(number)
            printed, said = vehicle.process.communicate(timeout=60)
            self.assertEqual((vehicle.process.returncode, printed), (128 + number, b""))
            self.assertIn(told, said)
            with server.served(PROGRAM, self.image) as again:
                shown = mavlink.read_value(server.ask(again.station(), mavlink.request_read(-1, name="FENCE_RADIUS")))
                self.assertEqual(shown["value"], float(number))


if __name__ == "__main__":
    PROGRAM = counted.program_named(__doc__)
    counted.passes()
