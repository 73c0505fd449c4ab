"""Missions, fences and commands of a vehicle, by MAVLink's mission protocol and command protocol."""
import functools

import mavlink
from mission_items import Item, item_refusal, whole_refusal
from vehicle import NoAnswer

SECONDS, TRIES = 1, 5  # until a message is sent again, and how often it is sent
ACCEPTED, CANCELLED = 0, 15  # MAV_MISSION_RESULT
PARAMS = ("param1", "param2", "param3", "param4")


class Refused(Exception):
    """The vehicle refuses, and the text says what and why."""


def ask(vehicle, kind, read, request, *arguments):
    """The answer of this kind to a request of the mission protocol. `read` is given a message's id and its fields."""
    def heard(found):
        fields = mavlink.fields_of(found)
        return read(found["message"], fields) if fields.get("mission_type") == kind else None

    answer = vehicle.ask(heard, functools.partial(request, *arguments, kind), TRIES, SECONDS)
    if answer is None:
        raise NoAnswer
    return answer


class Upload:
    """One upload: what was sent, and by what it goes on.

    The vehicle asks for one item after the other. Of its requests only those for the item that was sent last, or for
    the one behind it, are of this upload; others are left of an older one.
    """

    def __init__(self, kind, items):
        self.kind, self.items, self.sent = kind, items, -1

    def step(self, message, fields):
        """The result that ends the upload, as `("end", result)`, or the next item, as `("give", number)`, or None."""
        if message in (mavlink.MISSION_REQUEST_INT, mavlink.MISSION_REQUEST):
            is_next = fields["seq"] in (self.sent, self.sent + 1) and fields["seq"] < len(self.items)
            return ("give", fields["seq"]) if is_next else None
        if message != mavlink.MISSION_ACK:
            return None
        # an acceptance before the last item, or a cancellation before the first, is of an older upload
        is_older = (fields["type"] == ACCEPTED and self.sent < len(self.items) - 1
                    or fields["type"] == CANCELLED and self.sent < 0)
        return None if is_older else ("end", fields["type"])

    def run(self, vehicle):
        """Sends all items. Raises Refused where the vehicle doesn't take one."""
        act, number = ask(vehicle, self.kind, self.step, mavlink.mission_count, len(self.items))
        while act == "give":
            self.sent = number
            act, number = ask(vehicle, self.kind, self.step, mavlink.mission_item, number, self.items[number])
        if number != ACCEPTED and self.sent < 0:
            raise Refused(whole_refusal(self.kind, "taken", number))
        if number != ACCEPTED:
            raise Refused(item_refusal(self.sent, self.items[self.sent], number))


def upload(vehicle, kind, items):
    """Sends a mission or a fence in place of the one that the vehicle has. What isn't finished is cancelled."""
    try:
        Upload(kind, items).run(vehicle)
    except (NoAnswer, Refused, KeyboardInterrupt):
        vehicle.send(functools.partial(mavlink.mission_ack, CANCELLED, kind))
        raise


def need_acceptance(message, fields, kind, done):
    """Raises Refused where a message is an acknowledgement that refuses."""
    if message == mavlink.MISSION_ACK and fields["type"] != ACCEPTED:
        raise Refused(whole_refusal(kind, done, fields["type"]))


def download(vehicle, kind):
    """The items of the vehicle's mission or fence."""
    def count(message, fields):
        need_acceptance(message, fields, kind, "shown")
        return fields["count"] if message == mavlink.MISSION_COUNT else None

    def item_with(number, message, fields):
        need_acceptance(message, fields, kind, "shown")
        return fields if message == mavlink.MISSION_ITEM_INT and fields["seq"] == number else None

    items = []
    for number in range(ask(vehicle, kind, count, mavlink.mission_request_list)):
        fields = ask(vehicle, kind, functools.partial(item_with, number), mavlink.mission_request, number)
        items.append(Item(fields["command"], fields["frame"], tuple(fields[name] for name in PARAMS), fields["x"],
                          fields["y"], fields["z"], fields["current"], fields["autocontinue"]))
    vehicle.send(functools.partial(mavlink.mission_ack, ACCEPTED, kind))
    return items


def clear(vehicle, kind):
    """Empties the vehicle's mission or fence."""
    def result(message, fields):
        need_acceptance(message, fields, kind, "cleared")
        return True if message == mavlink.MISSION_ACK else None

    ask(vehicle, kind, result, mavlink.mission_clear)


def command(vehicle, number, param1):
    """The MAV_RESULT by which the vehicle answers a command."""
    def result(found):
        fields = mavlink.fields_of(found)
        is_answer = found["message"] == mavlink.COMMAND_ACK and fields["command"] == number
        return fields["result"] if is_answer else None

    answer = vehicle.ask(result, functools.partial(mavlink.command, number, param1), TRIES, SECONDS)
    if answer is None:
        raise NoAnswer
    return answer
