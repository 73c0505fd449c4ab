"""The program of exactly these sources: whether it is proved and built, how it is built, and how it is run.

A build that passed leaves the checksum of its sources beside the program. Where that isn't the checksum of the sources
as they are, the program counts as not built: a stale or failed build is never run as a proved one.
"""
import ctypes
import hashlib
import os
import shutil
import signal
import subprocess
import sys
import threading
import time

from server import is_bound

TOP = os.path.dirname(os.path.dirname(os.path.abspath(__file__)))
NAME = "vehicle_program"
FOLDER = os.path.join(TOP, "crates", NAME)
PROGRAM = os.path.join(FOLDER, "out", NAME)
STAMP = PROGRAM + ".sources"
TAKES = "from nothing about an hour on four processors"
# each command of the program, and the words that it takes
COMMANDS = {
    "serve": "IMAGE [--port P] [--turns N]",
    "replay": "IMAGE",
    "format": "IMAGE [--sector S]",
    "dump": "IMAGE",
    "report": "IMAGE",
    "gen": "N",
}
# `rt try` wants a limit of time; this one is three years
NO_LIMIT = "99999999"
# `report` of a file that is no image ends with this status, which none of rt's own is
NO_IMAGE = 13
PR_SET_PDEATHSIG = 1


def say(text):
    """Says something of the wrapper's own."""
    print(f"zuddrin: {text}", file=sys.stderr, flush=True)


def usage(words, text):
    """Where the words ask how a script is called, prints its head and ends well, before anything is done."""
    asked = words[:words.index("--")] if "--" in words else words
    if "--help" in asked or "-h" in asked:
        sys.stdout.write(text.strip() + "\n")
        sys.exit(0)


def refuse(text):
    """Where the words don't fit, prints the text of a script's head on standard error and ends as sysexits.h says."""
    sys.stderr.write(text.strip() + "\n")
    sys.exit(64)


def crates():
    """Each crate of the repository with those that it uses."""
    uses = {}
    with open(os.path.join(TOP, "crates.txt"), encoding="utf-8") as lines:
        for line in lines:
            name, colon, rest = line.split("#")[0].partition(":")
            if colon:
                uses[name.split()[0]] = rest.split()
    return {name: [low for low in lows if low in uses] for name, lows in uses.items()}


def lowest_first(name):
    """A crate and those below it, each after those that it uses."""
    uses, order = crates(), []

    def add(crate):
        if crate not in order:
            for low in uses[crate]:
                add(low)
            order.append(crate)

    add(name)
    return order


def sources():
    """The files that the program is made of."""
    files = [os.path.join(TOP, "crates.txt"), os.path.join(TOP, "HANDLES")]
    for crate in lowest_first(NAME):
        for part in ("src", "specs", "proofs"):
            for folder, _, names in os.walk(os.path.join(TOP, "crates", crate, part)):
                files += [os.path.join(folder, name) for name in names
                          if name.endswith((".rt", ".antt"))]
    return sorted(files)


def checksum():
    """The checksum of the sources."""
    whole = hashlib.sha256()
    for name in sources():
        with open(name, "rb") as file:
            one = hashlib.sha256(file.read()).hexdigest()
            whole.update(f"{os.path.relpath(name, TOP)} {one}\n".encode())
    return whole.hexdigest()


def is_built():
    """The program is there, and a build of exactly these sources left it."""
    try:
        with open(STAMP, encoding="ascii") as stamp:
            return os.access(PROGRAM, os.X_OK) and stamp.read().strip() == checksum()
    except OSError:
        return False


def need_kit():
    """Ends where the kit isn't there."""
    if not shutil.which("rt"):
        say("the command rt of the Rattle kit isn't on the path; CONTRIBUTING.md says where to get it")
        sys.exit(69)


def minutes(started):
    return f"{(time.monotonic() - started) / 60:.0f} minutes so far"


def prove(crate):
    """Proves and builds a crate, over what is kept of those below it. Gives what rt said where it failed, or None."""
    words = ["rt", "run", "--", "report", os.devnull] if crate == NAME else ["rt", "lib"]
    done = subprocess.run(words, cwd=os.path.join(TOP, "crates", crate), check=False, text=True, errors="replace",
                          stdin=subprocess.DEVNULL, stdout=subprocess.PIPE, stderr=subprocess.STDOUT)
    return None if done.returncode == (NO_IMAGE if crate == NAME else 0) else done.stdout


def write_stamp(sources_sum):
    """Notes of which sources the program is."""
    with open(STAMP, "w", encoding="ascii") as stamp:
        print(sources_sum, file=stamp)


def take_passed():
    """Takes the program that `rt ci` left when it passed these sources. False where it isn't there.

    `rt ci` puts aside what earlier runs left, so a program that is newer than its sources is its own.
    """
    try:
        is_newer = all(os.path.getmtime(PROGRAM) > os.path.getmtime(source) for source in sources())
    except OSError:
        return False
    if is_newer:
        write_stamp(checksum())
    return is_newer


def build():
    """Proves and builds the program and each crate below it, and tells how far it is. True where that passed."""
    if is_built():
        return True
    need_kit()
    before, order, started = checksum(), lowest_first(NAME), time.monotonic()
    say(f"proves and builds {NAME} and {len(order) - 1} crates below it; {TAKES}")
    for number, crate in enumerate(order, 1):
        say(f"{crate}, {number} of {len(order)}, {minutes(started)}")
        said = prove(crate)
        if said is not None:
            print(said, file=sys.stderr)
            say(f"{crate} is not proved, so the program is not built")
            return False
    if checksum() != before:
        say("the sources changed meanwhile: the program is not theirs")
        return False
    write_stamp(before)
    say(f"proved and built, {minutes(started)}")
    return True


def die_with_parent():
    """The child ends where its parent is killed, so that `kill -9` of the wrapper leaves no server behind."""
    ctypes.CDLL(None).prctl(PR_SET_PDEATHSIG, signal.SIGKILL)


def tell_when_bound(port, do_then):
    """Says once that the port is served, and does what is done then, in a thread that nobody waits for."""
    def look():
        while not is_bound(port):
            time.sleep(0.1)
        say(f"serves on 127.0.0.1:{port}; tools/station.py end --port {port} ends it")
        do_then()

    try:
        if not is_bound(port):
            threading.Thread(target=look, daemon=True).start()
    except OSError:
        pass


def run(words, cwd=None):
    """Runs a command to its end, hands on the signals that end it, and gives its status as a shell does."""
    child = None

    def hand_on(number, _):
        if child is not None:
            child.send_signal(number)

    ends = (signal.SIGINT, signal.SIGTERM, signal.SIGHUP)
    before = {number: signal.signal(number, hand_on) for number in ends}
    try:
        # pylint: disable-next=subprocess-popen-preexec-fn
        child = subprocess.Popen(words, cwd=cwd, preexec_fn=die_with_parent)
        status = child.wait()
    finally:
        for number, handler in before.items():
            signal.signal(number, handler)
    return status if status >= 0 else 128 - status


def image_place(words):
    """Where IMAGE stands among the words of a command, or None; `gen` has none."""
    if words[:1] == ["gen"]:
        return None
    place, only_names = 1, False
    while place < len(words):
        word = words[place]
        if not only_names and word == "--":
            only_names = True
        elif not only_names and word in ("--port", "--turns", "--sector"):
            place += 1
        elif only_names or not word.startswith("-"):
            return place
        place += 1
    return None


def option(words, name, otherwise):
    """The value of an option, as `--port 7` or `--port=7`."""
    for place, word in enumerate(words):
        if word == name and place + 1 < len(words):
            return words[place + 1]
        if word.startswith(name + "="):
            return word[len(name) + 1:]
    return otherwise


def port_of(words):
    """The port that `serve` is told, or None where it is no port."""
    port = option(words, "--port", "14550")
    return int(port) if port.isdigit() and 0 < int(port) < 65536 else None


def run_sources(words):
    """Runs the sources as they are, before their proof. They run in a folder of their own, so IMAGE is named from /."""
    need_kit()
    say("not proved yet: the sources run as they are, before their proof, in about a minute")
    say(f"./test proves, tests and builds them, ./serve --proved proves and builds: {TAKES}")
    words, place = list(words), image_place(words)
    if place is not None and words[place]:
        words[place] = os.path.abspath(words[place])
    if words[:1] != ["replay"]:
        with open(os.devnull, "rb") as nothing:
            os.dup2(nothing.fileno(), 0)
    return run(["rt", "try", "--seconds", NO_LIMIT, "--", *words], cwd=FOLDER)


def run_program(words):
    """Runs the program with these words: the proved one where it is built, and else the sources."""
    return run([PROGRAM, *words]) if is_built() else run_sources(words)
