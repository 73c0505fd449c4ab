"""Just enough of MAVLink for the scripts beside it: frames of both versions for parameters, missions and commands."""
import struct
from typing import NamedTuple

HEARTBEAT = 0
PARAM_REQUEST_READ = 20
PARAM_REQUEST_LIST = 21
PARAM_VALUE = 22
PARAM_SET = 23
MISSION_REQUEST = 40
MISSION_REQUEST_LIST = 43
MISSION_COUNT = 44
MISSION_CLEAR_ALL = 45
MISSION_ACK = 47
MISSION_REQUEST_INT = 51
MISSION_ITEM_INT = 73
COMMAND_LONG = 76
COMMAND_ACK = 77
STATION = (255, 190)  # system and component of a ground station
VEHICLE = (1, 1)
# MAV_PARAM_TYPE of the MAVLink common message set
TYPES = {2: "int8", 4: "int16", 6: "int32", 9: "float"}
MISSION, FENCE = 0, 1  # MAV_MISSION_TYPE
PREFLIGHT_STORAGE, COMPONENT_ARM_DISARM = 245, 400  # MAV_CMD
ARMED = 128  # the bit of base_mode, MAV_MODE_FLAG


class Layout(NamedTuple):
    """A message of the MAVLink common message set, its fields in the order of their bytes.

    Extensions are fields that version 1 doesn't send. Forms are those of struct, without the byte order.
    """

    name: str
    extra: int  # CRC_EXTRA
    form: str
    fields: str
    extension_form: str = ""
    extensions: str = ""

    @property
    def length(self):
        """The length of the payload in version 1, in bytes."""
        return struct.calcsize("<" + self.form)

    @property
    def whole_form(self):
        return "<" + self.form + self.extension_form

    @property
    def names(self):
        return (self.fields + " " + self.extensions).split()


TARGET = "target_system target_component"
LAYOUTS = {
    HEARTBEAT: Layout("HEARTBEAT", 50, "I5B", "custom_mode type autopilot base_mode system_status mavlink_version"),
    PARAM_REQUEST_READ: Layout("PARAM_REQUEST_READ", 214, "h2B16s", f"param_index {TARGET} param_id"),
    PARAM_REQUEST_LIST: Layout("PARAM_REQUEST_LIST", 159, "2B", TARGET),
    PARAM_VALUE: Layout("PARAM_VALUE", 220, "f2H16sB", "param_value param_count param_index param_id param_type"),
    PARAM_SET: Layout("PARAM_SET", 168, "f2B16sB", f"param_value {TARGET} param_id param_type"),
    MISSION_REQUEST: Layout("MISSION_REQUEST", 230, "H2B", f"seq {TARGET}", "B", "mission_type"),
    MISSION_REQUEST_LIST: Layout("MISSION_REQUEST_LIST", 132, "2B", TARGET, "B", "mission_type"),
    MISSION_COUNT: Layout("MISSION_COUNT", 221, "H2B", f"count {TARGET}", "B", "mission_type"),
    MISSION_CLEAR_ALL: Layout("MISSION_CLEAR_ALL", 232, "2B", TARGET, "B", "mission_type"),
    MISSION_ACK: Layout("MISSION_ACK", 153, "3B", f"{TARGET} type", "B", "mission_type"),
    MISSION_REQUEST_INT: Layout("MISSION_REQUEST_INT", 196, "H2B", f"seq {TARGET}", "B", "mission_type"),
    MISSION_ITEM_INT: Layout("MISSION_ITEM_INT", 38, "4f2if2H5B", "param1 param2 param3 param4 x y z seq command "
                             f"{TARGET} frame current autocontinue", "B", "mission_type"),
    COMMAND_LONG: Layout("COMMAND_LONG", 152, "7fH3B", "param1 param2 param3 param4 param5 param6 param7 command "
                         f"{TARGET} confirmation"),
    COMMAND_ACK: Layout("COMMAND_ACK", 143, "HB", "command result", "Bi2B", f"progress result_param2 {TARGET}"),
}


def crc(data, start=0xFFFF):
    """The checksum of MAVLink, CRC-16/MCRF4XX."""
    for byte in data:
        start ^= byte
        for _ in range(8):
            start = start >> 1 ^ (0x8408 if start & 1 else 0)
    return start


def frame(message, payload, sequence=0, version=1, sender=STATION):
    """A whole frame of version 1 or 2."""
    if version == 2:
        payload = payload.rstrip(b"\0") or b"\0"
        covered = bytes([len(payload), 0, 0, sequence % 256, *sender]) + message.to_bytes(3, "little") + payload
    else:
        payload = payload[:LAYOUTS[message].length]
        covered = bytes([len(payload), sequence % 256, *sender, message]) + payload
    start = b"\xfd" if version == 2 else b"\xfe"
    return start + covered + struct.pack("<H", crc(covered + bytes([LAYOUTS[message].extra])))


def frame_of(message, sequence=0, version=1, **fields):
    """A whole frame with these fields, to the vehicle where it has a target. Fields that aren't given are 0."""
    layout = LAYOUTS[message]
    given = {"target_system": VEHICLE[0], "target_component": VEHICLE[1], "param_id": b"", **fields}
    payload = struct.pack(layout.whole_form, *(given.get(name, 0) for name in layout.names))
    return frame(message, payload, sequence, version)


def heartbeat(sequence=0, version=1):
    """HEARTBEAT of a ground station (type 6) without an autopilot (8)."""
    return frame_of(HEARTBEAT, sequence, version, type=6, autopilot=8, system_status=4, mavlink_version=3)


def request_read(index, sequence=0, version=1, name=""):
    """PARAM_REQUEST_READ of the row with this index, or with this name where the index is -1."""
    return frame_of(PARAM_REQUEST_READ, sequence, version, param_index=index, param_id=name.encode("ascii"))


def request_list(sequence=0, version=1):
    """PARAM_REQUEST_LIST."""
    return frame_of(PARAM_REQUEST_LIST, sequence, version)


def set_value(name, value, sequence=0, version=1):
    """PARAM_SET of the row with this name. Whole numbers go as the float of that value."""
    return frame_of(PARAM_SET, sequence, version, param_value=value, param_id=name.encode("ascii"), param_type=9)


def mission_count(count, kind, sequence=0, version=1):
    """MISSION_COUNT, which begins an upload of so many items."""
    return frame_of(MISSION_COUNT, sequence, version, count=count, mission_type=kind)


def mission_item(number, item, kind, sequence=0, version=1):
    """MISSION_ITEM_INT with this number."""
    param1, param2, param3, param4 = item.params
    return frame_of(MISSION_ITEM_INT, sequence, version, param1=param1, param2=param2, param3=param3, param4=param4,
                    x=item.x, y=item.y, z=item.z, seq=number, command=item.command, frame=item.frame,
                    current=item.current, autocontinue=item.autocontinue, mission_type=kind)


def mission_request_list(kind, sequence=0, version=1):
    """MISSION_REQUEST_LIST, which asks for the number of items."""
    return frame_of(MISSION_REQUEST_LIST, sequence, version, mission_type=kind)


def mission_request(number, kind, sequence=0, version=1):
    """MISSION_REQUEST_INT, which asks for the item with this number."""
    return frame_of(MISSION_REQUEST_INT, sequence, version, seq=number, mission_type=kind)


def mission_ack(result, kind, sequence=0, version=1):
    """MISSION_ACK."""
    return frame_of(MISSION_ACK, sequence, version, type=result, mission_type=kind)


def mission_clear(kind, sequence=0, version=1):
    """MISSION_CLEAR_ALL."""
    return frame_of(MISSION_CLEAR_ALL, sequence, version, mission_type=kind)


def command(number, param1, sequence=0, version=1):
    """COMMAND_LONG with one parameter."""
    return frame_of(COMMAND_LONG, sequence, version, command=number, param1=param1)


def read_frame(datagram):
    """The version, sequence, message id and payload of a datagram that is one right frame, or None."""
    version = {0xFE: 1, 0xFD: 2}.get(datagram[0] if datagram else 0)
    head = 10 if version == 2 else 6
    if version is None or len(datagram) < head + 2 or len(datagram) != head + datagram[1] + 2:
        return None
    message = int.from_bytes(datagram[7:10], "little") if version == 2 else datagram[5]
    layout = LAYOUTS.get(message)
    if layout is None or struct.pack("<H", crc(datagram[1:-2] + bytes([layout.extra]))) != datagram[-2:]:
        return None
    length = struct.calcsize(layout.whole_form)
    return {
        "version": version,
        "sequence": datagram[4 if version == 2 else 2],
        "message": message,
        "payload": datagram[head:-2][:length].ljust(length, b"\0"),
    }


def fields_of(found):
    """The fields of a frame that was read, by their names."""
    layout = LAYOUTS[found["message"]]
    return dict(zip(layout.names, struct.unpack(layout.whole_form, found["payload"])))


def value_of(found):
    """The fields of a frame that was read, where it is PARAM_VALUE, or None."""
    if found["message"] != PARAM_VALUE:
        return None
    fields = fields_of(found)
    return {
        "name": fields["param_id"].split(b"\0")[0].decode("ascii"),
        "value": fields["param_value"],
        "type": TYPES.get(fields["param_type"], f"type {fields['param_type']}"),
        "index": fields["param_index"],
        "count": fields["param_count"],
        "sequence": found["sequence"],
        "version": found["version"],
    }


def read_value(datagram):
    """The fields of a datagram with PARAM_VALUE, or None where it is no such frame."""
    found = read_frame(datagram)
    return found and value_of(found)
