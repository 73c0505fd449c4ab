#!/usr/bin/env python3
"""Scripts of the command `replay`, and what it prints in words.

    tools/replay.py line read NAME|INDEX      prints the line of a script by which a station asks for a parameter,
    tools/replay.py line set NAME VALUE       gives one a value,
    tools/replay.py line flush|arm|disarm     or orders that
    tools/replay.py upload FILE [--cut K]     prints the script of a mission's upload, in which power is lost before the
                                              K-th program or erase, and which then asks for the mission that is left
    tools/replay.py cuts IMAGE FILE           runs that script over a copy of an image for each K in turn, and says
                                              which mission is left
    tools/replay.py told                      says in words what `replay` prints, line by line

FILE is `QGC WPL 110` text or a .plan of QGroundControl. The status is 0 where the command did all of its work.
"""
import argparse
import functools
import itertools
import os
import signal
import subprocess
import sys

import mavlink
import mission_items
import missions
import parameter_files
import plan_files
import program
import station
from mission_items import Item

STATION = 0
MOST_ITEMS = 308  # that a mission has
NO_KIT = 69
ORDERS = {"flush": (mavlink.PREFLIGHT_STORAGE, 1.0), "arm": (mavlink.COMPONENT_ARM_DISARM, 1.0),
          "disarm": (mavlink.COMPONENT_ARM_DISARM, 0.0)}


# scripts


def datagram(frame):
    """The line of a datagram."""
    return f"d {STATION} {frame.hex().upper()}"


def line_of(words):
    """The line of one message, in version 1 of MAVLink."""
    if words.message == "set":
        return datagram(mavlink.set_value(words.name, words.value))
    if words.message != "read":
        return datagram(mavlink.command(*ORDERS[words.message]))
    if words.which.isdigit():
        return datagram(mavlink.request_read(int(words.which)))
    return datagram(mavlink.request_read(-1, name=words.which))


def requests_of(items, asked):
    """The frames of a mission's upload, if one is given, and of the questions for so many items afterwards."""
    upload = [] if items is None else [functools.partial(mavlink.mission_count, len(items), mavlink.MISSION)]
    upload += [functools.partial(mavlink.mission_item, number, item, mavlink.MISSION)
               for number, item in enumerate(items or [])]
    questions = [functools.partial(mavlink.mission_request_list, mavlink.MISSION)]
    questions += [functools.partial(mavlink.mission_request, number, mavlink.MISSION) for number in range(asked)]
    return [request(sequence=number, version=2) for number, request in enumerate(upload + questions)]


def script_of(items, asked, cut=None):
    """The script of an upload, if one is given, in which power is lost before the call `cut`, if there is one."""
    loss = [] if cut is None else [f"l {cut} 0"]
    return "".join(line + "\n" for line in (*loss, *map(datagram, requests_of(items, asked)), "e"))


# what is printed


def frame_of(line):
    """The frame that a printed line shows, or None where it shows none."""
    return mavlink.read_frame(bytes.fromhex(line.split()[2])) if line.startswith("f ") else None


def told(line):
    """A printed line in words."""
    found = frame_of(line)
    if found is not None:
        return f"to station {line.split()[1]}: {station.frame_text(found)}"
    if line.startswith("bytes "):
        return f"the storage has the digest {line.split()[1]}"
    return "power is lost" if line == "loss" else line


def runs_of(printed):
    """The frames of each run: losses stand between them."""
    runs = [[]]
    for line in printed.splitlines():
        found = frame_of(line)
        if line == "loss":
            runs.append([])
        elif found is not None:
            runs[-1].append((found["message"], mavlink.fields_of(found)))
    return runs


def mission_in(frames):
    """The mission that these frames show, which answer the questions for it."""
    counts = [at for at, (message, _) in enumerate(frames) if message == mavlink.MISSION_COUNT]
    if not counts:
        raise station.Failed("the vehicle shows no mission")
    shown = [fields for message, fields in frames[counts[-1]:] if message == mavlink.MISSION_ITEM_INT]
    return [Item(fields["command"], fields["frame"], tuple(fields[name] for name in missions.PARAMS), fields["x"],
                 fields["y"], fields["z"], fields["current"], fields["autocontinue"]) for fields in shown]


def result_in(frames):
    """The result that ends an upload, with the number of the last item that was asked for, or None."""
    number = -1
    for message, fields in frames:
        if message in (mavlink.MISSION_REQUEST_INT, mavlink.MISSION_REQUEST):
            number = fields["seq"]
        elif message == mavlink.MISSION_ACK:
            return fields["type"], number
    return None


# cuts


class Replays:
    """The built program, which runs scripts over a copy of an image. The image stays as it is."""

    def __init__(self, words, image):
        self.words, self.image = words, image

    def runs(self, script):
        """The frames of each run of a script."""
        done = subprocess.run([*self.words, "replay", self.image], input=script.encode("ascii"), check=False,
                              stdout=subprocess.PIPE)
        printed = done.stdout.decode("ascii", "replace")
        if done.returncode != 0:
            raise station.Failed(f"replay ends with {done.returncode}: {printed.rstrip().rpartition(chr(10))[2]}")
        return runs_of(printed)


class Cuts:
    """The upload of a mission over an image, which a loss of power may cut short."""

    def __init__(self, replays, items):
        self.replays, self.items = replays, items
        shown = replays.runs(script_of(None, MOST_ITEMS))
        self.old = mission_in(shown[-1])
        self.asked = max(len(self.old), len(items))
        whole = replays.runs(script_of(items, self.asked))[-1]
        result, number = result_in(whole) or (None, -1)
        if result != missions.ACCEPTED:
            refusal = (mission_items.item_refusal(number, items[number], result) if 0 <= number < len(items)
                       else mission_items.whole_refusal(mavlink.MISSION, "taken", result))
            raise station.Failed(refusal)
        self.new = mission_in(whole)

    def at(self, cut):
        """The mission that a loss before this call leaves, and whether the upload was accepted by then.

        None where the upload makes fewer calls.
        """
        runs = self.replays.runs(script_of(self.items, self.asked, cut))
        if len(runs) == 1:
            return None
        return mission_in(runs[-1]), result_in(runs[0]) is not None

    def name_of(self, mission):
        """A mission that is left, in words."""
        if mission == self.new:
            return f"the new mission, {station.counted_items(mission)}"
        if mission == self.old and mission:
            return f"the old mission, {station.counted_items(mission)}"
        if not mission:
            return "no mission"
        if mission != self.new[:len(mission)]:
            raise station.Failed(f"neither the old mission nor a prefix of the new one: {mission}")
        return "item 0 of the new one" if len(mission) == 1 else f"items 0 to {len(mission) - 1} of the new one"

    def lines(self):
        """What is left by a loss before each call, in lines for calls in a row that leave the same."""
        found = ((cut, self.at(cut)) for cut in itertools.count(1))
        calls = 0
        for left, group in itertools.groupby(itertools.takewhile(lambda one: one[1] is not None, found),
                                             lambda one: one[1]):
            first, calls = calls + 1, calls + len(list(group))
            mission, is_accepted = left
            accepted = "; the station was told that all are taken" if is_accepted else ""
            cut = f"before call {first}" if first == calls else f"before calls {first} to {calls}"
            yield f"{cut}: {self.name_of(mission)}{accepted}"
        yield f"after all {calls} calls: {self.name_of(self.new)}"


# words


def print_line(words):
    print(line_of(words))


def print_upload(words):
    items = plan_files.read_mission(station.read(words.file))
    print(script_of(items, len(items), words.cut), end="")


def print_cuts(words):
    if not program.is_built():
        program.say("no proved program of these sources is built: ./test or ./serve --proved builds it")
        sys.exit(NO_KIT)
    items = plan_files.read_mission(station.read(words.file))
    for line in Cuts(Replays([program.PROGRAM], os.path.abspath(words.image)), items).lines():
        print(line, flush=True)


def print_told(_):
    for line in sys.stdin:
        print(told(line.rstrip("\n")), flush=True)


def call_number(text):
    """The number of a call, from 1 to 1,000,000, or ValueError."""
    if not (text.isascii() and text.isdigit() and 0 < int(text) <= 1_000_000):
        raise ValueError(f"{text} is no number from 1 to 1000000")
    return int(text)


def add_lines(commands):
    messages = commands.add_parser("line", help="print a line of a script").add_subparsers(
        required=True, dest="message", metavar="MESSAGE")
    name = station.argument(parameter_files.name_of)
    messages.add_parser("read", help="ask for a parameter").add_argument("which", metavar="NAME|INDEX", type=name)
    setting = messages.add_parser("set", help="give a parameter a value")
    setting.add_argument("name", metavar="NAME", type=name)
    setting.add_argument("value", metavar="VALUE", type=station.argument(parameter_files.value_of))
    for order in ORDERS:
        messages.add_parser(order, help=f"order to {order}")


def parse(words):
    parser = argparse.ArgumentParser(description=__doc__.split("\n", maxsplit=1)[0])
    commands = parser.add_subparsers(required=True, dest="command", metavar="COMMAND")
    add_lines(commands)
    upload = commands.add_parser("upload", help="print the script of a mission's upload")
    upload.add_argument("file", metavar="FILE")
    upload.add_argument("--cut", metavar="K", type=station.argument(call_number),
                        help="lose power before the K-th program or erase")
    cuts = commands.add_parser("cuts", help="cut an upload at each program and erase in turn, over a copy of an image")
    cuts.add_argument("image", metavar="IMAGE")
    cuts.add_argument("file", metavar="FILE")
    commands.add_parser("told", help="say in words what `replay` prints")
    return parser.parse_args(words)


def main(words):
    """Does what the words say. What can't be done is one line on standard error."""
    words = parse(words)
    do = {"line": print_line, "upload": print_upload, "cuts": print_cuts, "told": print_told}[words.command]
    try:
        do(words)
        return 0
    except station.Failed as error:
        why = error
    except plan_files.PlanFileError as error:
        why = f"{words.file}: {error}"
    except OSError as error:
        why = f"{error.filename}: {error.strerror}" if error.filename else error
    except KeyboardInterrupt:
        return station.INTERRUPTED
    print(why, file=sys.stderr)
    return 1


if __name__ == "__main__":
    signal.signal(signal.SIGPIPE, signal.SIG_DFL)  # a reader such as head may stop early
    sys.exit(main(sys.argv[1:]))
