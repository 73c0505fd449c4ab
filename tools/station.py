#!/usr/bin/env python3
"""A ground station of one vehicle on this machine: its parameters, its mission, its fence, and arming.

    tools/station.py parameters list                 prints all parameters
    tools/station.py parameters read NAME|INDEX      prints one
    tools/station.py parameters set NAME VALUE       gives one a value
    tools/station.py parameters save FILE            writes them as MAVProxy does, or as Mission Planner does where
                                                     FILE ends in .param
    tools/station.py parameters load FILE            sets those that differ, from a file of either
    tools/station.py mission upload|download FILE    sends the mission of FILE, or writes the vehicle's into FILE:
    tools/station.py fence upload|download FILE      `QGC WPL 110` text, or QGroundControl's where FILE ends in .plan
    tools/station.py mission|fence list              prints the items
    tools/station.py mission|fence clear             empties it
    tools/station.py arm|disarm                      arms the vehicle or not; either stores what it was sent
    tools/station.py flush                           has the vehicle store what it was sent
    tools/station.py watch                           prints each frame that the vehicle sends
    tools/station.py end                             ends the vehicle's server

Each command takes --port P where the vehicle isn't at 14550. The status is 0 where the command did all of its work.
"""
import argparse
import os
import signal
import sys
import time

import mavlink
import mission_items
import missions
import parameter_files
import plan_files
from decimals import as_float, shortest
from vehicle import NoAnswer, Vehicle

END = b"END\n"
BEAT = 1  # seconds between two heartbeats of `watch`, as ground stations have it
INTERRUPTED = 130
HOME = """Item 0 of a mission is the home position, as ArduPilot's ground stations have it: the first item of a text file,
the plannedHomePosition of a .plan. It is sent as item 0, and the vehicle keeps it as it keeps the others. The numbers
to which a mission jumps count from it. Degrees are rounded to 0.0000001, altitudes to the centimetre."""
# MAV_RESULT, as a command is answered by it
ANSWERS = {0: "accepted", 1: "temporarily rejected", 2: "denied", 3: "not supported by the vehicle", 4: "failed"}


class Failed(Exception):
    """A command can't do its work, and the text says why."""


# parameters


def text_of(shown):
    return (f"{shown['name']} = {shortest(shown['value'])} ({shown['type']}), "
            f"index {shown['index']} of {shown['count']}")


def all_parameters(vehicle):
    """All values, in the order of their indices."""
    values = vehicle.list()
    if not values:
        raise NoAnswer
    if len(values) < values[0]["count"]:
        raise Failed(f"only {len(values)} of {values[0]['count']} values were shown")
    return values


def known(vehicle, which, shown):
    """What the vehicle showed of a parameter. A vehicle says nothing of a name that it doesn't know."""
    if shown is None:
        raise Failed(f"the vehicle has no parameter {which}") if vehicle.read(0) else NoAnswer
    return shown


def list_parameters(vehicle, _):
    for shown in all_parameters(vehicle):
        print(text_of(shown))
    return 0


def read_parameter(vehicle, words):
    print(text_of(known(vehicle, words.which, vehicle.read(words.which))))
    return 0


def set_parameter(vehicle, words):
    shown = known(vehicle, words.name, vehicle.set(words.name, words.value))
    print(text_of(shown))
    if shown["value"] != words.value:
        raise Failed(f"the vehicle did not take {shortest(words.value)}")
    return 0


def save_parameters(vehicle, words):
    values = {shown["name"]: shown["value"] for shown in all_parameters(vehicle)}
    write(words.file, parameter_files.write(values, words.file))
    print(f"{len(values)} values saved")
    return 0


def why_not_set(vehicle, name, value, now):
    """Sets a parameter, and says why it hasn't the value then, or None where it has it."""
    if name not in now:
        return "there is no such parameter"
    shown = vehicle.set(name, value)
    if shown is None:
        return "no answer"
    return None if shown["value"] == value else f"it is {shortest(shown['value'])}"


def load_parameters(vehicle, words):
    wanted = parameter_files.read(read(words.file))
    now = {shown["name"]: shown["value"] for shown in all_parameters(vehicle)}
    differing = {name: value for name, value in wanted.items() if now.get(name) != value}
    counted = [name for name in differing if name in parameter_files.COUNTED]
    refused = 0
    for name, value in differing.items():
        why = None if name in counted else why_not_set(vehicle, name, value, now)
        if why is not None:
            refused += 1
            print(f"{name} is not {shortest(value)}: {why}", file=sys.stderr)
    told = f"{len(differing) - len(counted) - refused} values set, {len(wanted) - len(differing)} were so already, "
    print(f"{told}{refused} not taken" + (f", {' and '.join(counted)} left to the vehicle" if counted else ""))
    return 1 if refused else 0


# missions and fences


def upload(vehicle, words):
    read_items = {mavlink.MISSION: plan_files.read_mission, mavlink.FENCE: plan_files.read_fence}[words.kind]
    items = read_items(read(words.file))
    missions.upload(vehicle, words.kind, items)
    print(f"{counted_items(items)} uploaded")
    return 0


def download(vehicle, words):
    write_items = {mavlink.MISSION: plan_files.write_mission, mavlink.FENCE: plan_files.write_fence}[words.kind]
    is_kept = plan_files.has_plan_name(words.file) and os.path.exists(words.file)
    old = read(words.file) if is_kept else None
    items = missions.download(vehicle, words.kind)
    write(words.file, write_items(items, words.file, old))
    print(f"{counted_items(items)} downloaded")
    return 0


def list_items(vehicle, words):
    items = missions.download(vehicle, words.kind)
    for number, item in enumerate(items):
        print(mission_items.line_of(number, item))
    if not items:
        print(f"the vehicle has no {mission_items.kind_name(words.kind)}")
    return 0


def clear(vehicle, words):
    missions.clear(vehicle, words.kind)
    print(f"the vehicle has no {mission_items.kind_name(words.kind)} now")
    return 0


def counted_items(items):
    return "1 item" if len(items) == 1 else f"{len(items)} items"


# commands, and the link


def command(vehicle, words):
    result = missions.command(vehicle, words.number, words.param1)
    text = f"{words.title} is {ANSWERS.get(result, f'answered by result {result}')}"
    if result != missions.ACCEPTED:
        raise Failed(text)
    print(text)
    return 0


def frame_text(found):
    """A frame as a line to read."""
    shown, fields = mavlink.value_of(found), mavlink.fields_of(found)
    if shown:
        return text_of(shown)
    name = mavlink.LAYOUTS[found["message"]].name
    if found["message"] == mavlink.HEARTBEAT:
        return f"{name}, {'armed' if fields['base_mode'] & mavlink.ARMED else 'not armed'}"
    return ", ".join([name, *(f"{field} {value}" for field, value in fields.items() if "target" not in field)])


def watch(vehicle, _):
    """Prints what the vehicle sends until it is interrupted.

    It says a heartbeat each second, as ground stations do, and so keeps its place at the vehicle.
    """
    try:
        while True:
            vehicle.send(mavlink.heartbeat)
            next_beat = time.monotonic() + BEAT
            while (left := next_beat - time.monotonic()) > 0:
                found = vehicle.frame(left)
                if found is not None:
                    print(frame_text(found), flush=True)
    except KeyboardInterrupt:
        return 0


def end(vehicle, _):
    vehicle.socket.send(END)
    return 0


# files and words


def read(name):
    with open(name, encoding="utf-8", errors="replace") as file:
        return file.read()


def write(name, content):
    with open(name, "w", encoding="utf-8", newline="\n") as file:
        file.write(content)


def argument(read_text):
    """What argparse calls to read an argument, so that its message is that of this function."""
    def read_argument(text):
        try:
            return read_text(text)
        except ValueError as error:
            raise argparse.ArgumentTypeError(error) from None
    return read_argument


def port_of(text):
    """The port that a text names, or ValueError."""
    if not (text.isascii() and text.isdigit() and 0 < int(text) < 65536):
        raise ValueError(f"{text} is no port from 1 to 65535")
    return int(text)


class Commands:
    """The commands of a parser, each with a port."""

    def __init__(self, parser):
        self.groups = parser.add_subparsers(required=True, dest="command", metavar="COMMAND")

    def group(self, name, text):
        return Commands(self.groups.add_parser(name, help=text, description=text))

    def add(self, name, do, text, *arguments, more="", **given):
        command_parser = self.groups.add_parser(name, help=text, description=text, epilog=more)
        for argument_name, options in arguments:
            command_parser.add_argument(argument_name, **options)
        command_parser.add_argument("--port", type=argument(port_of), default=14550,
                                    help="UDP port of the vehicle (14550)")
        command_parser.set_defaults(do=do, **given)


def add_parameters(commands):
    group = commands.group("parameters", "list, read, set, save or load parameters")
    name = argument(parameter_files.name_of)
    file = ("file", {"metavar": "FILE"})
    group.add("list", list_parameters, "print all parameters")
    group.add("read", read_parameter, "print one parameter", ("which", {"metavar": "NAME|INDEX", "type": name}))
    group.add("set", set_parameter, "give a parameter a value", ("name", {"metavar": "NAME", "type": name}),
              ("value", {"metavar": "VALUE", "type": argument(parameter_files.value_of)}))
    group.add("save", save_parameters,
              "write all parameters to a file: Mission Planner's NAME,VALUE where it ends in .param, else MAVProxy's",
              file)
    group.add("load", load_parameters, "set the parameters of a file of MAVProxy or Mission Planner that differ", file,
              more=f"{' and '.join(parameter_files.COUNTED)} are left out: the vehicle counts them itself.")


def add_items(commands, kind):
    name = mission_items.kind_name(kind)
    group = commands.group(name, f"upload, download, list or clear the {name}")
    file = ("file", {"metavar": "FILE"})
    home = HOME if kind == mavlink.MISSION else ""
    group.add("upload", upload, f"send the {name} of a file: QGC WPL 110 text, or QGroundControl's .plan", file,
              more=home, kind=kind)
    group.add("download", download, f"write the vehicle's {name} to a file: QGroundControl's where it ends in .plan, "
              "of which the other parts are kept, else QGC WPL 110 text", file, more=home, kind=kind)
    group.add("list", list_items, f"print the vehicle's {name}", kind=kind)
    group.add("clear", clear, f"empty the vehicle's {name}", kind=kind)


def add_orders(commands):
    for name, number, param1, text in (
            ("arm", mavlink.COMPONENT_ARM_DISARM, 1.0, "arm the vehicle, which first stores what it was sent"),
            ("disarm", mavlink.COMPONENT_ARM_DISARM, 0.0, "disarm the vehicle, which then stores what it was sent"),
            ("flush", mavlink.PREFLIGHT_STORAGE, 1.0, "have the vehicle store all that it was sent, now")):
        commands.add(name, command, text, title=name, number=number, param1=param1)


def parse(words):
    parser = argparse.ArgumentParser(description=__doc__.split("\n", maxsplit=1)[0],
                                     epilog="COMMAND --help says more of a command.")
    commands = Commands(parser)
    add_parameters(commands)
    add_items(commands, mavlink.MISSION)
    add_items(commands, mavlink.FENCE)
    add_orders(commands)
    commands.add("watch", watch, "print each frame that the vehicle sends")
    commands.add("end", end, "end the vehicle's server")
    return parser.parse_args(words)


def main(words):
    """Does what the words say. What can't be done is one line on standard error."""
    words = parse(words)
    try:
        return words.do(Vehicle(words.port), words)
    except (NoAnswer, ConnectionRefusedError):
        why = f"no answer from 127.0.0.1:{words.port}"
    except (Failed, missions.Refused) as error:
        why = error
    except (plan_files.PlanFileError, parameter_files.ParameterFileError) as error:
        why = f"{words.file}: {error}"
    except OSError as error:
        why = f"{error.filename}: {error.strerror}" if error.filename else error
    except KeyboardInterrupt:
        print("interrupted", file=sys.stderr)
        return INTERRUPTED
    print(why, file=sys.stderr)
    return 1


if __name__ == "__main__":
    signal.signal(signal.SIGPIPE, signal.SIG_DFL)  # a reader such as head may stop early
    sys.exit(main(sys.argv[1:]))
