"""The items of missions and fences: their names, their numbers in degrees and metres, and why a vehicle refuses one."""
import math
from decimal import Decimal
from typing import NamedTuple, Tuple

import mavlink
from decimals import as_float, nearest_whole, shortest

# MAV_CMD of the MAVLink common message set: those that the vehicle takes, and some that files of other vehicles have
NAMES = {
    16: "NAV_WAYPOINT",
    17: "NAV_LOITER_UNLIM",
    18: "NAV_LOITER_TURNS",
    19: "NAV_LOITER_TIME",
    20: "NAV_RETURN_TO_LAUNCH",
    21: "NAV_LAND",
    22: "NAV_TAKEOFF",
    31: "NAV_LOITER_TO_ALT",
    82: "NAV_SPLINE_WAYPOINT",
    84: "NAV_VTOL_TAKEOFF",
    85: "NAV_VTOL_LAND",
    92: "NAV_GUIDED_ENABLE",
    93: "NAV_DELAY",
    94: "NAV_PAYLOAD_PLACE",
    112: "CONDITION_DELAY",
    114: "CONDITION_DISTANCE",
    115: "CONDITION_YAW",
    177: "DO_JUMP",
    178: "DO_CHANGE_SPEED",
    179: "DO_SET_HOME",
    181: "DO_SET_RELAY",
    182: "DO_REPEAT_RELAY",
    183: "DO_SET_SERVO",
    184: "DO_REPEAT_SERVO",
    189: "DO_LAND_START",
    195: "DO_SET_ROI_LOCATION",
    197: "DO_SET_ROI_NONE",
    201: "DO_SET_ROI",
    203: "DO_DIGICAM_CONTROL",
    205: "DO_MOUNT_CONTROL",
    206: "DO_SET_CAM_TRIGG_DIST",
    207: "DO_FENCE_ENABLE",
    208: "DO_PARACHUTE",
    211: "DO_GRIPPER",
    530: "SET_CAMERA_MODE",
    2000: "IMAGE_START_CAPTURE",
    2001: "IMAGE_STOP_CAPTURE",
    2500: "VIDEO_START_CAPTURE",
    2501: "VIDEO_STOP_CAPTURE",
    5000: "NAV_FENCE_RETURN_POINT",
    5001: "NAV_FENCE_POLYGON_VERTEX_INCLUSION",
    5002: "NAV_FENCE_POLYGON_VERTEX_EXCLUSION",
    5003: "NAV_FENCE_CIRCLE_INCLUSION",
    5004: "NAV_FENCE_CIRCLE_EXCLUSION",
    5100: "NAV_RALLY_POINT",
    42600: "DO_WINCH",
}
WAYPOINT, DO_JUMP = 16, 177
RETURN_POINT = 5000
# fence figures by whether they include: the vertex of a polygon, and a circle
VERTEX = {True: 5001, False: 5002}
CIRCLE = {True: 5003, False: 5004}
FENCE_COMMANDS = range(5000, 5005)
GLOBAL, GLOBAL_RELATIVE_ALT = 0, 3  # MAV_FRAME
# what altitudes count from, in the frames whose x and y are degrees
HEIGHTS = {0: "above sea level", 5: "above sea level", 3: "above home", 6: "above home",
           10: "above terrain", 11: "above terrain"}
DEGREE_DIGITS, METRE_DIGITS = 7, 2
WHOLE = range(-2**31, 2**31)

# MAV_MISSION_RESULT, as said of an item
REASONS = {
    1: "an error: the vehicle has no upload open, as after a restart",
    2: "its frame is not supported",
    3: "its command is not supported",
    4: "there is no space for it, or for so many changes while the vehicle is armed",
    5: "with it the items make no fence: the vertices of a polygon stand together, each with their number as "
       "parameter 1, and there is at most one return point",
    6: "its parameter 1 is invalid",
    7: "its parameter 2 is invalid",
    8: "its parameter 3 is invalid",
    9: "its parameter 4 is invalid",
    10: "its latitude (x) is out of range",
    11: "its longitude (y) is out of range",
    12: "its altitude (z) is no whole number of centimetres in range",
    13: "its number is out of sequence",
    14: "denied: another station uploads",
    15: "the upload was cancelled",
}
# the same, as said of a whole mission or fence
WHOLE_REASONS = {
    1: "an error",
    3: "the vehicle does not have this kind",
    4: "there is no space for so many items, or for so many changes while the vehicle is armed",
    13: "an item was asked for that is not there; it was changed meanwhile",
}


class Item(NamedTuple):
    """An item as MISSION_ITEM_INT carries it: x and y are whole numbers, parameters and z binary32 values."""

    command: int
    frame: int
    params: Tuple[float, float, float, float] = (0.0, 0.0, 0.0, 0.0)
    x: int = 0
    y: int = 0
    z: float = 0.0
    current: int = 0
    autocontinue: int = 1

    @property
    def is_located(self):
        return has_place(self.command, self.frame)


def has_place(command, frame):
    """x and y of such an item are degrees, in units of 1e-7; else they are plain numbers."""
    return frame in HEIGHTS or command in FENCE_COMMANDS


def name_of(command):
    """The name of a command, without the MAV_CMD_ in front."""
    return NAMES.get(command, f"command {command}")


def coordinate(number, what, is_degrees):
    """x or y as it is carried: degrees in units of 1e-7, or a plain number, rounded to the nearest whole one."""
    if number.is_nan() and not is_degrees:
        return 0
    if number.is_nan():
        raise ValueError(f"it has no {what}")
    whole = nearest_whole(number, DEGREE_DIGITS if is_degrees else 0)
    if whole not in WHOLE:
        raise ValueError(f"{what} {number} is out of range")
    return whole


def metres(number):
    """An altitude rounded to the nearest whole number of centimetres."""
    return number if number.is_nan() else nearest_whole(number, METRE_DIGITS) / 10 ** METRE_DIGITS


def single(number):
    """The binary32 value nearest to a number, or ValueError where it is too large for one."""
    value = as_float(float(number))
    if math.isinf(value):
        raise ValueError(f"{number} is out of range")
    return value


def item_of(command, frame, numbers, current=0, autocontinue=1):
    """The item with these seven decimal numbers: four parameters, x, y and z. ValueError says which has no place."""
    is_located = has_place(command, frame)
    params, (x, y, z) = tuple(map(single, numbers[:4])), numbers[4:]
    return Item(command, frame, params, coordinate(x, "latitude", is_located), coordinate(y, "longitude", is_located),
                single(metres(z) if is_located else z), current, autocontinue)


def texts_of(item):
    """The seven numbers of an item as texts, each with the fewest digits that are needed; degrees have seven."""
    places = (f"{Decimal(whole).scaleb(-DEGREE_DIGITS):f}" if item.is_located else str(whole)
              for whole in (item.x, item.y))
    return [*map(shortest, item.params), *places, shortest(item.z)]


def line_of(number, item):
    """An item as a line to read."""
    *params, latitude, longitude, altitude = texts_of(item)
    words = [f"{number} {name_of(item.command)}"]
    if item.is_located:
        height = "" if item.command in FENCE_COMMANDS else f", {altitude} m {HEIGHTS[item.frame]}"
        words.append(f"at {latitude} {longitude}{height}")
    words += [f"parameter {place} = {text}" for place, text in enumerate(params, 1) if text != "0"]
    return words[0] + (" " + ", ".join(words[1:]) if words[1:] else "")


def kind_name(kind):
    return {mavlink.MISSION: "mission", mavlink.FENCE: "fence"}[kind]


def item_refusal(number, item, result):
    """Why a vehicle refuses an item of an upload."""
    return f"item {number} ({name_of(item.command)}) is refused: {REASONS.get(result, f'result {result}')}"


def whole_refusal(kind, done, result):
    """Why a mission or a fence isn't taken, shown or cleared."""
    reason = WHOLE_REASONS.get(result) or REASONS.get(result, f"result {result}")
    return f"the {kind_name(kind)} is not {done}: {reason}"
