"""Missions and fences in the files of ground stations: `QGC WPL 110` text and QGroundControl's `.plan`.

Item 0 of a mission is the home position, as ArduPilot's ground stations have it. Text files have it as their item 0,
and a `.plan` as its plannedHomePosition.
"""
import json
from decimal import Decimal

import mission_items
from decimals import number_of, shortest
from mission_items import Item, item_of, name_of, texts_of

HEADER = "QGC WPL 110"
COLUMNS = 12
ZERO = Decimal(0)
ARDUPILOT, QUADROTOR = 3, 2  # MAV_AUTOPILOT, MAV_TYPE
# what QGroundControl writes of a plan beside its items
EMPTY_MISSION = {"cruiseSpeed": 15, "firmwareType": ARDUPILOT, "globalPlanAltitudeMode": 1, "hoverSpeed": 5,
                 "vehicleType": QUADROTOR, "version": 2}
EMPTY_PLAN = {"fileType": "Plan", "groundStation": "Zuddrin", "version": 1,
              "mission": {**EMPTY_MISSION, "items": [], "plannedHomePosition": [0, 0, 0]},
              "geoFence": {"circles": [], "polygons": [], "version": 2},
              "rallyPoints": {"points": [], "version": 2}}


class PlanFileError(ValueError):
    """A file isn't what it should be, or can't hold what it should; the text says where and why."""


# both kinds of file


def is_plan(content):
    """The content of a file is that of a `.plan`."""
    return content.lstrip("\ufeff \t\r\n").startswith("{")


def has_plan_name(name):
    """A file of this name is written as a `.plan`."""
    return name.lower().endswith(".plan")


def read_mission(content):
    """The items of the mission that a file of either kind holds, item 0 being the home position."""
    if is_plan(content):
        items = mission_of_plan(plan_of(content))
    else:
        items = [item for _, item in items_of_text(content)]
    if any(item.command in mission_items.FENCE_COMMANDS for item in items):
        raise PlanFileError("it holds a fence; `fence upload` sends it")
    if not items:
        raise PlanFileError("it has no mission; `mission clear` empties the vehicle's")
    return items


def read_fence(content):
    """The items of the fence that a file of either kind holds."""
    items = fence_of_plan(plan_of(content)) if is_plan(content) else fence_of_text(content)
    if not items:
        raise PlanFileError("it has no fence; `fence clear` empties the vehicle's")
    return items


def write_mission(items, name, old=None):
    """The content of a file of this name with a mission. A `.plan` keeps the other parts of its old content."""
    if not has_plan_name(name):
        return text_of(items, has_home=True)
    plan = plan_of(old) if old else EMPTY_PLAN
    others = part(plan, "mission", dict, "the plan", {})
    return text_of_plan({**plan, "mission": {**EMPTY_MISSION, **others, **plan_mission(items)}})


def write_fence(items, name, old=None):
    """The content of a file of this name with a fence. A `.plan` keeps the other parts of its old content."""
    if not has_plan_name(name):
        return text_of(items, has_home=False)
    plan = plan_of(old) if old else EMPTY_PLAN
    return text_of_plan({**plan, "geoFence": plan_fence(items)})


# QGC WPL 110: index, current, frame, command, four parameters, x, y, z and autocontinue, with a tab in between


def items_of_text(content):
    """The items of a text with the numbers of their lines."""
    lines = content.lstrip("\ufeff").splitlines()
    head = lines[0].strip() if lines else ""
    if head.split() != HEADER.split():
        raise PlanFileError(f"it is neither {HEADER} text nor a .plan: line 1 is {head[:40]!r}")
    items = []
    for line, text in enumerate(lines[1:], 2):
        words = text.split()
        if words and not words[0].startswith("#"):
            items.append((line, item_of_words(line, words, len(items))))
    return items


def item_of_words(line, words, index):
    """The item of a line, whose index is this one."""
    if len(words) != COLUMNS:
        raise PlanFileError(f"line {line}: {len(words)} columns stand where an item has {COLUMNS}")
    try:
        found, command = whole_of(words[0], 0xFFFF), whole_of(words[3], 0xFFFF)
        current, frame, autocontinue = (whole_of(words[column], 0xFF) for column in (1, 2, 11))
        if found != index:
            raise ValueError(f"index {found} stands where {index} comes next")
        if command == 0 and index == 0:
            # Mission Planner writes a home position so where it knows none
            command = mission_items.WAYPOINT
        return item_of(command, frame, [number_of(word) for word in words[4:11]], current, autocontinue)
    except ValueError as error:
        raise PlanFileError(f"line {line}: {error}") from None


def whole_of(word, most):
    """The whole number up to this one that a word writes."""
    if not (word.isascii() and word.isdigit() and int(word) <= most):
        raise ValueError(f"{word} stands where a whole number from 0 to {most} does")
    return int(word)


def fence_of_text(content):
    """The items of a fence. Mission Planner writes the home position in front of them."""
    found = items_of_text(content)
    if found and found[0][1].command == mission_items.WAYPOINT:
        found = found[1:]
    for line, item in found:
        if item.command not in mission_items.FENCE_COMMANDS:
            raise PlanFileError(f"line {line}: {name_of(item.command)} is no item of a fence; "
                                "`mission upload` sends a mission")
    return [item for _, item in found]


def text_of(items, has_home):
    """The text of items. The home position is the current item, as ground stations write it."""
    lines = [HEADER]
    for index, item in enumerate(items):
        current = 1 if has_home and index == 0 else 0
        words = [index, current, item.frame, item.command, *texts_of(item), item.autocontinue]
        lines.append("\t".join(map(str, words)))
    return "\n".join(lines) + "\n"


# QGroundControl's .plan


def plan_of(content):
    """The plan of a JSON text, its numbers with a point as exact decimals."""
    def no_number(word):
        raise ValueError(f"{word} is no number")

    try:
        plan = json.loads(content.lstrip("\ufeff"), parse_float=Decimal, parse_constant=no_number)
    except (ValueError, RecursionError) as error:
        raise PlanFileError(f"it is no JSON: {error}") from None
    if not isinstance(plan, dict) or plan.get("fileType") != "Plan":
        raise PlanFileError("its fileType isn't Plan, as that of QGroundControl's .plan is")
    return plan


def part(of, key, kind, where, otherwise=None):
    """A member of a JSON object that is of a kind. Where it isn't there, it is what else is given, if anything is."""
    value = of.get(key, otherwise) if isinstance(of, dict) else None
    if not isinstance(value, kind) or isinstance(value, bool) and kind is not bool:
        raise PlanFileError(f"{where}: {key} isn't as QGroundControl writes it")
    return value


def number_in(value, where, otherwise=None):
    """A JSON number; null, by which QGroundControl writes what isn't given, is what else is given."""
    value = otherwise if value is None else value
    if isinstance(value, bool) or not isinstance(value, (int, Decimal)):
        raise PlanFileError(f"{where}: {value} stands where a number does")
    return Decimal(value)


def place_in(value, where):
    """Latitude and longitude, and the altitude or zero, of a list."""
    if not isinstance(value, list) or len(value) not in (2, 3):
        raise PlanFileError(f"{where}: latitude and longitude aren't there")
    latitude, longitude = (number_in(number, where) for number in value[:2])
    return latitude, longitude, number_in(value[2] if len(value) == 3 else None, where, ZERO)


def made(where, *words, **options):
    """The item of numbers from a plan."""
    try:
        return item_of(*words, **options)
    except ValueError as error:
        raise PlanFileError(f"{where}: {error}") from None


def mission_of_plan(plan):
    """The items of a plan's mission, with the home position in front of them."""
    mission = part(plan, "mission", dict, "the plan", {})
    listed = part(mission, "items", list, "the mission", [])
    if not listed:
        return []
    home = place_in(mission.get("plannedHomePosition"), "plannedHomePosition")
    items = [made("plannedHomePosition", mission_items.WAYPOINT, mission_items.GLOBAL, [ZERO] * 4 + list(home), 1)]
    numbers = {ZERO: ZERO}  # of each doJumpId, the item that has it
    for number, one in enumerate(listed, 1):
        items.append(item_of_plan(one, number))
        numbers[number_in(one.get("doJumpId"), f"item {number}", number)] = Decimal(number)
    return [with_target(item, number, numbers) for number, item in enumerate(items)]


def item_of_plan(one, number):
    """The item of a SimpleItem."""
    where = f"item {number}"
    kind = part(one, "type", str, where)
    if kind != "SimpleItem":
        raise PlanFileError(f"{where}: a {one.get('complexItemType', kind)} is no single command; upload the plan from "
                            "QGroundControl, which sends it as waypoints, or put waypoints in its place")
    numbers = part(one, "params", list, where)
    if len(numbers) != 7:
        raise PlanFileError(f"{where}: {len(numbers)} params stand where there are 7")
    command, frame = part(one, "command", int, where), part(one, "frame", int, where)
    if command not in range(0x10000) or frame not in range(0x100):
        raise PlanFileError(f"{where}: there is no command {command} in frame {frame}")
    numbers = [number_in(value, where, Decimal("nan")) for value in numbers]
    return made(where, command, frame, numbers, autocontinue=int(part(one, "autoContinue", bool, where, True)))


def with_target(item, number, numbers):
    """An item whose jump, where it is one, names its target as the vehicle does: by the number of the item."""
    if item.command != mission_items.DO_JUMP:
        return item
    target = numbers.get(Decimal(item.params[0]))
    if target is None:
        raise PlanFileError(f"item {number}: DO_JUMP goes to doJumpId {shortest(item.params[0])}, which no item has")
    return item._replace(params=(float(target), *item.params[1:]))


def fence_of_plan(plan):
    """The items of a plan's fence: polygons, circles, and the return point, as QGroundControl sends them."""
    fence, items = part(plan, "geoFence", dict, "the plan", {}), []
    for number, one in enumerate(part(fence, "polygons", list, "the fence", []), 1):
        where = f"polygon {number} of the fence"
        vertices = part(one, "polygon", list, where)
        command = mission_items.VERTEX[part(one, "inclusion", bool, where)]
        items += [fence_item(where, command, len(vertices), vertex) for vertex in vertices]
    for number, one in enumerate(part(fence, "circles", list, "the fence", []), 1):
        where = f"circle {number} of the fence"
        circle, command = part(one, "circle", dict, where), mission_items.CIRCLE[part(one, "inclusion", bool, where)]
        items.append(fence_item(where, command, number_in(circle.get("radius"), where), circle.get("center")))
    if fence.get("breachReturn") is not None:
        items.append(fence_item("breachReturn", mission_items.RETURN_POINT, 0, fence["breachReturn"]))
    return items


def fence_item(where, command, param1, place):
    """An item of a fence. Return points have an altitude of their own, above home."""
    latitude, longitude, altitude = place_in(place, where)
    is_return = command == mission_items.RETURN_POINT
    frame = mission_items.GLOBAL_RELATIVE_ALT if is_return else mission_items.GLOBAL
    numbers = [Decimal(param1), ZERO, ZERO, ZERO, latitude, longitude, altitude if is_return else ZERO]
    return made(where, command, frame, numbers)


def json_number(text):
    """The number of a text as JSON has it: whole without a point, and null where it isn't given."""
    number = number_of(text)
    if number.is_nan():
        return None
    return int(number) if number == number.to_integral_value() else float(text)


def numbers_of(item):
    """The seven numbers of an item as JSON has them."""
    return [json_number(text) for text in texts_of(item)]


def plan_mission(items):
    """The mission of a plan."""
    if not items:
        raise PlanFileError("there is no mission to write")
    home = items[0]
    if home.command != mission_items.WAYPOINT or home.frame != mission_items.GLOBAL or any(home.params):
        raise PlanFileError(f"item 0 is {mission_items.line_of(0, home)[2:]}, and not the home position that a .plan "
                            "has; download the mission to a .waypoints file")
    simple = [{"type": "SimpleItem", "autoContinue": bool(item.autocontinue), "command": item.command,
               "doJumpId": number, "frame": item.frame, "params": numbers_of(item)}
              for number, item in enumerate(items[1:], 1)]
    return {"items": simple, "plannedHomePosition": numbers_of(home)[4:]}


def plan_fence(items):
    """The fence of a plan."""
    fence, left = {"circles": [], "polygons": [], "version": 2}, list(items)
    while left:
        item = left[0]
        *params, latitude, longitude, altitude = numbers_of(item)
        count = 1
        if item.command == mission_items.RETURN_POINT:
            fence["breachReturn"] = [latitude, longitude, altitude]
        elif item.command in mission_items.CIRCLE.values():
            fence["circles"].append({"circle": {"center": [latitude, longitude], "radius": params[0]},
                                     "inclusion": item.command == mission_items.CIRCLE[True], "version": 1})
        else:
            count = count_of(left)
            vertices = [numbers_of(vertex)[4:6] for vertex in left[:count]]
            fence["polygons"].append({"inclusion": item.command == mission_items.VERTEX[True], "polygon": vertices,
                                      "version": 1})
        left = left[count:]
    return fence


def count_of(left):
    """The number of vertices of the polygon that items begin with."""
    count = left[0].params[0]
    vertices = [item for item in left[:int(count)] if item[:3] == (left[0].command, item.frame, left[0].params)]
    if count < 1 or len(vertices) != count:
        raise PlanFileError("its vertices make no polygons")
    return len(vertices)


def text_of_plan(plan):
    """The text of a plan as QGroundControl lays it out."""
    return json.dumps(plan, indent=4, sort_keys=True, default=float) + "\n"
