#!/usr/bin/env python3
"""Reads what the vehicle sends by MAVLink's own description, apart from the program: tests/frames_outside.py PROGRAM

The built program serves an image, and a station speaks to it in both versions of MAVLink by tests/mavlink_described.py,
which shares nothing with tools/mavlink.py. Each kind of message that the vehicle sends is provoked, and read with its
CRC, its length and all its fields. The station says its HEARTBEAT each second, as ground stations do. The last line
counts what passed and what failed.
"""
import os
import socket
import sys
import tempfile
import time
import unittest

TOP = os.path.join(os.path.dirname(os.path.abspath(__file__)), "..")
sys.path.insert(0, os.path.join(TOP, "tools"))
sys.dont_write_bytecode = True
import counted  # noqa: E402
import mavlink_described as described  # noqa: E402
import server  # noqa: E402

PROGRAM = ""
VEHICLE = (1, 1)
STATION = (250, 191)  # another one than that of tools/mavlink.py, so that targets tell who asked
TO_VEHICLE = {"target_system": VEHICLE[0], "target_component": VEHICLE[1]}
TO_STATION = {"target_system": STATION[0], "target_component": STATION[1]}
ROWS = 240
# MAV_PARAM_TYPE, MAV_MISSION_RESULT, MAV_MISSION_TYPE, MAV_CMD, MAV_RESULT
INT8, INT16, INT32, REAL32 = 2, 4, 6, 9
ACCEPTED, ERROR, UNSUPPORTED, INVALID_SEQUENCE, CANCELLED = 0, 1, 3, 13, 15
MISSION, FENCE, RALLY = 0, 1, 2
STORAGE, ARM = 245, 400
# what the vehicle sends; all else it only reads
SENT = {"HEARTBEAT", "PARAM_VALUE", "MISSION_REQUEST_INT", "MISSION_COUNT", "MISSION_ITEM_INT", "MISSION_ACK",
        "COMMAND_ACK"}
# of each message the lengths of a payload in version 1 and 2, as MAVLink's generated headers have them
LENGTHS = {
    "HEARTBEAT": (9, 9), "PARAM_REQUEST_READ": (20, 20), "PARAM_REQUEST_LIST": (2, 2), "PARAM_VALUE": (25, 25),
    "PARAM_SET": (23, 23), "MISSION_ITEM": (37, 38), "MISSION_REQUEST": (4, 5), "MISSION_REQUEST_LIST": (2, 3),
    "MISSION_COUNT": (4, 9), "MISSION_CLEAR_ALL": (2, 3), "MISSION_ACK": (3, 8), "MISSION_REQUEST_INT": (4, 5),
    "MISSION_ITEM_INT": (37, 38), "COMMAND_LONG": (33, 33), "COMMAND_ACK": (3, 10),
}
# a HEARTBEAT of a vehicle, as ArduPilot's guide on MAVLink shows one
SEEN = bytes.fromhex("FE 09 4E 01 01 00 00 00 00 00 02 03 51 04 03 1C 7F")
# MISSION_ITEM_INT of a takeoff and of a waypoint, with values that differ in each field
TAKEOFF = {"param1": 15.0, "command": 22, "frame": 3, "x": 473977420, "y": -85455970, "z": 20.0}
WAYPOINT = {"param1": 5.0, "command": 16, "frame": 0, "x": -353629380, "y": 1491650850, "z": 584.25}
CIRCLE = {"param1": 50.0, "command": 5003, "frame": 0, "x": 473980000, "y": 85460000}


class Station:
    """A ground station that reads each datagram as one frame of the version in which it speaks."""

    def __init__(self, connected, version):
        self.socket, self.version = connected, version
        self.sequence, self.next_sequence, self.heard, self.spoke = 0, None, set(), 0.0

    def say(self, name, **fields):
        """Sends one message to the vehicle."""
        target = TO_VEHICLE if any(field.name == "target_system" for field in described.MESSAGES[name].base) else {}
        self.socket.send(described.frame(name, self.version, self.sequence, STATION, **{**target, **fields}))
        self.sequence = (self.sequence + 1) % 256

    def speak(self):
        """Says that it is there, once a second."""
        if time.monotonic() - self.spoke >= 1:
            self.spoke = time.monotonic()
            self.say("HEARTBEAT", type=6, autopilot=8, system_status=4, mavlink_version=3)

    def frame(self, seconds):
        """The next frame, or None. It is right, the vehicle's, in this version, and none was lost before it."""
        end = time.monotonic() + seconds
        while (left := end - time.monotonic()) > 0:
            self.speak()
            self.socket.settimeout(min(left, 0.2))
            try:
                datagram = self.socket.recv(4096)
            except socket.timeout:
                continue
            found = described.read(datagram)
            if (found.version, found.sender) != (self.version, VEHICLE):
                raise ValueError(f"{found} isn't the vehicle's in version {self.version}")
            if self.next_sequence not in (None, found.sequence):
                raise ValueError(f"{found} has not the sequence {self.next_sequence}")
            self.next_sequence = (found.sequence + 1) % 256
            self.heard.add(found.name)
            return found
        return None

    def hear(self, *names, seconds=10):
        """The next frame of one of these names, which is the next one but HEARTBEAT, or None."""
        end = time.monotonic() + seconds
        while (found := self.frame(end - time.monotonic())) is not None:
            if found.name in names:
                return found
            if found.name != "HEARTBEAT":
                raise ValueError(f"{found} came where {' or '.join(names)} was waited for")
        return None

    def fields(self, name):
        """The fields of the next frame, which has this name."""
        found = self.hear(name)
        if found is None:
            raise TimeoutError(f"no {name}")
        return found.fields


def text(name):
    """A parameter's name as the field param_id has it."""
    return name.encode("ascii").ljust(16, b"\0")


def value(name, number, kind, index):
    """The fields of PARAM_VALUE."""
    return {"param_value": number, "param_count": ROWS, "param_index": index, "param_id": text(name),
            "param_type": kind}


def asked(seq, kind):
    """The fields of MISSION_REQUEST_INT."""
    return {"seq": seq, **TO_STATION, "mission_type": kind}


def acknowledged(result, kind):
    """The fields of MISSION_ACK."""
    return {**TO_STATION, "type": result, "mission_type": kind, "opaque_id": 0}


def counted_items(count, kind):
    """The fields of MISSION_COUNT."""
    return {"count": count, **TO_STATION, "mission_type": kind, "opaque_id": 0}


def item(seq, fields, kind):
    """The fields of MISSION_ITEM_INT as the vehicle shows it: fields that aren't given are zero."""
    zero = {field.name: 0 for field in described.MESSAGES["MISSION_ITEM_INT"].fields}
    return {**zero, "autocontinue": 1, **fields, "seq": seq, "mission_type": kind, **TO_STATION}


class Described(unittest.TestCase):
    """The description itself, against numbers of MAVLink."""

    def test_the_crc_is_that_of_its_catalogue(self):
        # CRC-16/MCRF4XX has this check value
        self.assertEqual(described.crc(b"123456789"), 0x6F91)

    def test_each_extra_byte_follows_from_its_message(self):
        self.assertEqual(set(described.MESSAGES), set(LENGTHS))
        for name, message in described.MESSAGES.items():
            with self.subTest(name):
                self.assertEqual(described.extra_of(name), message.extra)
                self.assertEqual((message.length(1), message.length(2)), LENGTHS[name])

    def test_a_frame_that_was_seen_is_read(self):
        found = described.read(SEEN)
        self.assertEqual(found, described.Frame(1, 78, (1, 1), "HEARTBEAT", {
            "custom_mode": 0, "type": 2, "autopilot": 3, "base_mode": 81, "system_status": 4, "mavlink_version": 3}))
        self.assertEqual(described.frame(found.name, 1, found.sequence, found.sender, **found.fields), SEEN)

    def test_what_is_no_right_frame_is_refused(self):
        short = described.frame("PARAM_VALUE", 2, param_value=1.0)
        whole = described.frame("PARAM_VALUE", 2, param_value=1.0, whole=True)
        self.assertEqual((len(short), len(whole)), (4 + 12, 25 + 12))
        described.read(short)
        for wrong in (b"", b"\0" + SEEN, SEEN[:-1], SEEN + b"\0", SEEN[:10] + b"\x03" + SEEN[11:],
                      SEEN[:5] + b"\xff" + SEEN[6:], whole, short[:2] + b"\1" + short[3:]):
            with self.subTest(wrong.hex()), self.assertRaises(described.NoFrame):
                described.read(wrong)


class Outside(unittest.TestCase):
    """The vehicle, as another implementation of MAVLink meets it."""

    def setUp(self):
        folder = tempfile.TemporaryDirectory()
        self.addCleanup(folder.cleanup)
        self.image = os.path.join(folder.name, "vehicle.img")

    def served(self):
        return server.served(PROGRAM, self.image)

    def end(self, vehicle):
        """Ends the server well."""
        status, printed, said = vehicle.end()
        self.assertEqual((status, said), (0, b""))
        self.assertRegex(printed, rb"^served \d+ events \d+ frames\n$")

    def answer(self, station, name, fields):
        """The next frame has this name and exactly these fields."""
        self.assertEqual((name, station.fields(name)), (name, fields))

    def parameters(self, station):
        """Asks for parameters by index and by name, sets one, and has all listed."""
        station.say("PARAM_REQUEST_READ", param_index=0)
        self.answer(station, "PARAM_VALUE", value("FORMAT_VERSION", 120.0, INT16, 0))
        station.say("PARAM_REQUEST_READ", param_index=-1, param_id=text("FS_THR_ENABLE"))
        self.answer(station, "PARAM_VALUE", value("FS_THR_ENABLE", 1.0, INT8, 3))
        station.say("PARAM_SET", param_id=text("FENCE_RADIUS"), param_value=123.5, param_type=REAL32)
        self.answer(station, "PARAM_VALUE", value("FENCE_RADIUS", 123.5, REAL32, 12))
        # a name of all sixteen bytes, and one of which more bytes follow its end
        station.say("PARAM_REQUEST_READ", param_index=-1, param_id=b"SERVO16_FUNCTION")
        self.answer(station, "PARAM_VALUE", value("SERVO16_FUNCTION", 0.0, INT16, 143))
        station.say("PARAM_REQUEST_READ", param_index=-1, param_id=b"RTL_ALT\0behindit")
        self.answer(station, "PARAM_VALUE", value("RTL_ALT", 1500.0, INT32, 1))
        station.say("PARAM_REQUEST_LIST")
        listed = [station.fields("PARAM_VALUE") for _ in range(ROWS)]
        self.assertEqual([fields["param_index"] for fields in listed], list(range(ROWS)))
        self.assertEqual({fields["param_count"] for fields in listed}, {ROWS})
        self.assertLessEqual({fields["param_type"] for fields in listed}, {INT8, INT16, INT32, REAL32})
        self.assertEqual(len({fields["param_id"] for fields in listed}), ROWS)
        self.assertEqual(listed[12], value("FENCE_RADIUS", 123.5, REAL32, 12))

    def upload(self, station, items, kind, given):
        """Sends items, each when it is asked for."""
        station.say("MISSION_COUNT", count=len(items), **given)
        for seq, fields in enumerate(items):
            self.answer(station, "MISSION_REQUEST_INT", asked(seq, kind))
            station.say("MISSION_ITEM_INT", seq=seq, autocontinue=1, **fields, **given)
        self.answer(station, "MISSION_ACK", acknowledged(ACCEPTED, kind))

    def download(self, station, items, kind, given):
        """Asks for the number of items, and for each by either request."""
        station.say("MISSION_REQUEST_LIST", **given)
        self.answer(station, "MISSION_COUNT", counted_items(len(items), kind))
        for request in ("MISSION_REQUEST_INT", "MISSION_REQUEST"):
            for seq, fields in enumerate(items):
                station.say(request, seq=seq, **given)
                self.answer(station, "MISSION_ITEM_INT", item(seq, fields, kind))
            station.say(request, seq=len(items), **given)
            self.answer(station, "MISSION_ACK", acknowledged(INVALID_SEQUENCE, kind))
        station.say("MISSION_ACK", type=ACCEPTED, **given)

    def missions(self, station, kind, given, items):
        """Uploads, downloads and clears items of a kind."""
        self.download(station, [], kind, given)
        self.upload(station, items, kind, given)
        self.download(station, items, kind, given)
        station.say("MISSION_CLEAR_ALL", **given)
        self.answer(station, "MISSION_ACK", acknowledged(ACCEPTED, kind))
        self.download(station, [], kind, given)
        station.say("MISSION_ITEM_INT", seq=0, **items[0], **given)
        self.answer(station, "MISSION_ACK", acknowledged(ERROR, kind))
        # an upload that the station gives up is closed without an answer
        station.say("MISSION_COUNT", count=2, **given)
        self.answer(station, "MISSION_REQUEST_INT", asked(0, kind))
        station.say("MISSION_ACK", type=CANCELLED, **given)
        station.say("MISSION_ITEM_INT", seq=0, **items[0], **given)
        self.answer(station, "MISSION_ACK", acknowledged(ERROR, kind))

    def orders(self, station):
        """Has the vehicle store, arm and disarm, and what it doesn't know; its HEARTBEAT tells whether it is armed."""
        # a payload of version 1 has no target, nor have its fields
        target = TO_STATION if station.version == 2 else {"target_system": 0, "target_component": 0}
        for command, param1, result, mode, state in (
                (STORAGE, 1.0, 0, 1, 3), (STORAGE, 2.0, 2, 1, 3), (246, 1.0, 3, 1, 3), (ARM, 1.0, 0, 129, 4),
                (ARM, 0.0, 0, 1, 3)):
            station.say("COMMAND_LONG", command=command, param1=param1, param7=7.0)
            self.answer(station, "COMMAND_ACK", {"command": command, "result": result, "progress": 0,
                                                 "result_param2": 0, **target})
            self.answer(station, "HEARTBEAT", {"type": 2, "autopilot": 3, "base_mode": mode, "custom_mode": 0,
                                               "system_status": state, "mavlink_version": 3})

    def test_each_message_that_the_vehicle_sends_is_read_in_version_1(self):
        with self.served() as vehicle:
            station = Station(vehicle.station(), 1)
            self.orders(station)
            self.parameters(station)
            self.missions(station, MISSION, {}, [TAKEOFF, WAYPOINT])
            self.assertEqual(station.heard, SENT)
            self.end(vehicle)

    def test_each_message_that_the_vehicle_sends_is_read_in_version_2(self):
        with self.served() as vehicle:
            station = Station(vehicle.station(), 2)
            self.orders(station)
            self.parameters(station)
            self.missions(station, MISSION, {"mission_type": MISSION}, [TAKEOFF, WAYPOINT])
            self.missions(station, FENCE, {"mission_type": FENCE}, [CIRCLE])
            station.say("MISSION_COUNT", count=1, mission_type=RALLY)
            self.answer(station, "MISSION_ACK", acknowledged(UNSUPPORTED, RALLY))
            self.assertEqual(station.heard, SENT)
            self.end(vehicle)

    def test_a_station_of_each_version_is_told_in_its_own(self):
        with self.served() as vehicle:
            stations = [Station(vehicle.station(), version) for version in (1, 2)]
            for station in stations:
                station.say("PARAM_REQUEST_READ", param_index=1)
                self.answer(station, "PARAM_VALUE", value("RTL_ALT", 1500.0, INT32, 1))
            for station, altitude in zip(stations, (1600.0, 1700.0)):
                station.say("PARAM_SET", param_id=text("RTL_ALT"), param_value=altitude, param_type=INT32)
                for each in stations:
                    self.answer(each, "PARAM_VALUE", value("RTL_ALT", altitude, INT32, 1))
            self.end(vehicle)

    def test_what_a_sender_may_choose_is_understood(self):
        """Zeros that aren't cut off, a signature, fields that came later, and both targets or none."""
        ask = {"param_index": 1, **TO_VEHICLE}
        with self.served() as vehicle:
            station = Station(vehicle.station(), 2)
            for sent in (described.frame("PARAM_REQUEST_READ", 2, 7, STATION, whole=True, **ask),
                         described.frame("PARAM_REQUEST_READ", 2, 200, STATION, signature=bytes(range(13)), **ask),
                         described.frame("PARAM_REQUEST_READ", 2, 0, STATION, param_index=1),
                         described.frame("PARAM_REQUEST_READ", 2, 0, (0, 0), param_index=1, target_system=1)):
                with self.subTest(sent.hex()):
                    station.socket.send(sent)
                    self.answer(station, "PARAM_VALUE", value("RTL_ALT", 1500.0, INT32, 1))
            station.say("MISSION_COUNT", count=1, mission_type=MISSION, opaque_id=0x01020304)
            self.answer(station, "MISSION_REQUEST_INT", asked(0, MISSION))
            station.say("MISSION_ITEM_INT", seq=0, autocontinue=1, **WAYPOINT)
            self.answer(station, "MISSION_ACK", acknowledged(ACCEPTED, MISSION))
            self.end(vehicle)

    def test_what_is_not_for_the_vehicle_or_not_known_has_no_answer(self):
        ask = {"param_index": 0, **TO_VEHICLE}
        *most, last = described.frame("PARAM_REQUEST_READ", 2, 0, STATION, **ask)
        with self.served() as vehicle:
            station = Station(vehicle.station(), 2)
            station.socket.send(bytes([*most, last ^ 1]))
            # a flag that a receiver doesn't know, which it has to refuse
            station.socket.send(described.frame("PARAM_REQUEST_READ", 2, 0, STATION, flags=2, **ask))
            station.say("PARAM_REQUEST_READ", param_index=0, target_system=2)
            station.say("PARAM_REQUEST_READ", param_index=0, target_component=2)
            station.say("PARAM_REQUEST_READ", param_index=ROWS)
            station.say("MISSION_ITEM", seq=0, command=16, x=47.0, y=8.0)
            # the next answer is that of the next question
            station.say("PARAM_REQUEST_READ", param_index=3)
            self.answer(station, "PARAM_VALUE", value("FS_THR_ENABLE", 1.0, INT8, 3))
            self.end(vehicle)


if __name__ == "__main__":
    PROGRAM = counted.program_named(__doc__)
    counted.passes()
