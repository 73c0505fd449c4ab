"""MAVLink as it describes itself: its messages, and frames by its guide on serialization.

A module of frames_outside.py and station_files.py. It shares nothing with tools/mavlink.py and nothing with the
program: the messages stand here as common.xml has them, in the order in which their fields are declared there, and
their order in a payload, their places and their lengths follow from MAVLink's own rules. What the vehicle sends is held
against it, and what is built here is sent to the vehicle.
"""
import re
import struct
from typing import NamedTuple

V1_START, V2_START = 0xFE, 0xFD
SIGNED = 1  # MAVLINK_IFLAG_SIGNED, with which thirteen bytes of a signature follow the CRC
# the types of MAVLink, with their size and the letter that struct has for them
TYPES = {
    "float": (4, "f"), "uint32_t": (4, "I"), "int32_t": (4, "i"), "uint16_t": (2, "H"), "int16_t": (2, "h"),
    "uint8_t": (1, "B"), "char": (1, "s"),
}


class Field(NamedTuple):
    """A field of a message; count is 0 where it is no array."""

    type: str
    name: str
    count: int

    @property
    def length(self):
        """How many bytes it has in a payload."""
        return TYPES[self.type][0] * (self.count or 1)

    @property
    def form(self):
        """What struct calls it. The only arrays here are texts."""
        return f"{self.count or ''}{TYPES[self.type][1]}"


def fields_in(declared):
    """The fields of a declaration, as `uint8_t target_system, char param_id[16]`."""
    found = re.findall(r"(\w+) (\w+)(?:\[(\d+)\])?(?:, |$)", declared)
    return tuple(Field(kind, name, int(count or 0)) for kind, name, count in found)


class Message:
    """A message of the common message set."""

    def __init__(self, number, extra, declared, extended=""):
        self.number = number
        self.extra = extra  # CRC_EXTRA, as MAVLink's tables have it
        # "fields are sorted by the size of their type, largest first", and else as declared; extensions stay behind
        self.base = tuple(sorted(fields_in(declared), key=lambda field: -TYPES[field.type][0]))
        self.extensions = fields_in(extended)

    @property
    def fields(self):
        """All fields, in the order of their bytes."""
        return self.base + self.extensions

    def length(self, version):
        """The bytes of a payload of which nothing was cut off; version 1 has no extensions."""
        return sum(field.length for field in (self.fields if version == 2 else self.base))

    def pack(self, version, given):
        """The payload with these fields, of which nothing is cut off. Fields that aren't given are zero."""
        unknown = set(given) - {field.name for field in self.fields}
        if unknown:
            raise ValueError(f"there are no fields {unknown}")
        values = [given.get(field.name, b"" if field.type == "char" else 0) for field in self.fields]
        whole = struct.pack("<" + "".join(field.form for field in self.fields), *values)
        return whole[:self.length(version)]

    def unpack(self, payload):
        """The fields of a payload, by their names. What isn't there is zero."""
        whole = payload.ljust(self.length(2), b"\0")
        values = struct.unpack("<" + "".join(field.form for field in self.fields), whole)
        return {field.name: value for field, value in zip(self.fields, values)}


TARGET = "uint8_t target_system, uint8_t target_component"
KIND = "uint8_t mission_type"
# MAVLink declares opaque_id since 2023 or so; older stations and vehicles, as this one, don't know it
OPAQUE = f"{KIND}, uint32_t opaque_id"
FOUR, SEVEN = (", ".join(f"float param{number}" for number in range(1, last + 1)) for last in (4, 7))
ITEM = f"{TARGET}, uint16_t seq, uint8_t frame, uint16_t command, uint8_t current, uint8_t autocontinue, {FOUR}"
MESSAGES = {
    "HEARTBEAT": Message(0, 50, "uint8_t type, uint8_t autopilot, uint8_t base_mode, uint32_t custom_mode, "
                                "uint8_t system_status, uint8_t mavlink_version"),
    "PARAM_REQUEST_READ": Message(20, 214, f"{TARGET}, char param_id[16], int16_t param_index"),
    "PARAM_REQUEST_LIST": Message(21, 159, TARGET),
    "PARAM_VALUE": Message(22, 220, "char param_id[16], float param_value, uint8_t param_type, uint16_t param_count, "
                                    "uint16_t param_index"),
    "PARAM_SET": Message(23, 168, f"{TARGET}, char param_id[16], float param_value, uint8_t param_type"),
    "MISSION_ITEM": Message(39, 254, f"{ITEM}, float x, float y, float z", KIND),
    "MISSION_REQUEST": Message(40, 230, f"{TARGET}, uint16_t seq", KIND),
    "MISSION_REQUEST_LIST": Message(43, 132, TARGET, KIND),
    "MISSION_COUNT": Message(44, 221, f"{TARGET}, uint16_t count", OPAQUE),
    "MISSION_CLEAR_ALL": Message(45, 232, TARGET, KIND),
    "MISSION_ACK": Message(47, 153, f"{TARGET}, uint8_t type", OPAQUE),
    "MISSION_REQUEST_INT": Message(51, 196, f"{TARGET}, uint16_t seq", KIND),
    "MISSION_ITEM_INT": Message(73, 38, f"{ITEM}, int32_t x, int32_t y, float z", KIND),
    "COMMAND_LONG": Message(76, 152, f"{TARGET}, uint16_t command, uint8_t confirmation, {SEVEN}"),
    "COMMAND_ACK": Message(77, 143, "uint16_t command, uint8_t result",
                           f"uint8_t progress, int32_t result_param2, {TARGET}"),
}
# MISSION_ITEM is what stations sent before MISSION_ITEM_INT, and opaque_id what newer ones add; the vehicle speaks
# neither
NOT_SPOKEN, NOT_KNOWN = {"MISSION_ITEM"}, {"opaque_id"}


def crc(content):
    """CRC-16/MCRF4XX, byte by byte as in MAVLink's crc_accumulate."""
    value = 0xFFFF
    for byte in content:
        part = byte ^ value & 0xFF
        part = (part ^ part << 4) & 0xFF
        value = (value >> 8 ^ part << 8 ^ part << 3 ^ part >> 4) & 0xFFFF
    return value


def extra_of(name):
    """CRC_EXTRA, computed from the name and the declared fields by MAVLink's rule. Extensions don't count."""
    text = f"{name} ".encode("ascii")
    for field in MESSAGES[name].base:
        text += f"{field.type} {field.name} ".encode("ascii") + (bytes([field.count]) if field.count else b"")
    value = crc(text)
    return value & 0xFF ^ value >> 8


def frame(name, version=2, sequence=0, sender=(255, 190), whole=False, flags=0, signature=b"", **given):
    """A frame with these fields. In version 2 zeros at its end are cut off unless it is to be whole."""
    message = MESSAGES[name]
    payload = message.pack(version, given)
    if version == 1:
        covered = bytes([len(payload), sequence, *sender, message.number]) + payload
        return bytes([V1_START]) + covered + struct.pack("<H", crc(covered + bytes([message.extra])))
    if not whole:
        payload = payload[:1] + payload[1:].rstrip(b"\0")
    flags |= SIGNED if signature else 0
    covered = bytes([len(payload), flags, 0, sequence, *sender]) + message.number.to_bytes(3, "little") + payload
    return bytes([V2_START]) + covered + struct.pack("<H", crc(covered + bytes([message.extra]))) + signature


class Frame(NamedTuple):
    """A frame that was read."""

    version: int
    sequence: int
    sender: tuple
    name: str
    fields: dict


class NoFrame(ValueError):
    """The bytes aren't one right frame, and why."""


def demand(holds, why):
    """Refuses the bytes where this doesn't hold."""
    if not holds:
        raise NoFrame(why)


def read(content):
    """Reads one frame, and refuses whatever MAVLink doesn't say of it."""
    demand(content[:1] in (bytes([V1_START]), bytes([V2_START])), "no start byte")
    version, head = (1, 6) if content[0] == V1_START else (2, 10)
    demand(len(content) >= head + 2, "no whole header")
    demand(len(content) == head + content[1] + 2, "another length than its header says")
    if version == 2:
        demand(content[2:4] == b"\0\0", "flags that nothing asked for")
        sequence, sender, number = content[4], content[5:7], int.from_bytes(content[7:10], "little")
    else:
        sequence, sender, number = content[2], content[3:5], content[5]
    name = next((name for name, message in MESSAGES.items() if message.number == number), None)
    demand(name is not None, f"no message {number}")
    message, payload = MESSAGES[name], content[head:-2]
    demand(content[-2:] == struct.pack("<H", crc(content[1:-2] + bytes([message.extra]))), f"{name} with a wrong CRC")
    if version == 1:
        demand(len(payload) == message.length(1), f"{name} of {len(payload)} bytes")
    else:
        demand(1 <= len(payload) <= message.length(2), f"{name} of {len(payload)} bytes")
        demand(len(payload) == 1 or payload[-1] != 0, f"{name} with zeros at its end")
    return Frame(version, sequence, tuple(sender), name, message.unpack(payload))
