"""A vehicle at a UDP port of this machine, asked as a ground station asks it."""
import functools
import socket
import time

import mavlink

# The tools send from the first of these ports that is free. The vehicle has eight places for stations, by their
# ports, and tools that run one after another take one of them.
OWN_PORTS = range(14560, 14564)


class NoAnswer(Exception):
    """The vehicle says nothing."""


class Vehicle:
    """A vehicle at a UDP port of this machine. A lost datagram is asked for again."""

    def __init__(self, port, tries=4):
        self.port, self.tries, self.sequence = port, tries, 0
        self.socket = socket.socket(socket.AF_INET, socket.SOCK_DGRAM)
        for own in (*OWN_PORTS, 0):
            try:
                self.socket.bind(("127.0.0.1", own))
                break
            except OSError:
                continue
        self.socket.connect(("127.0.0.1", port))

    def send(self, request):
        """Sends the frame that a function of mavlink makes, in version 2."""
        try:
            self.socket.send(request(sequence=self.sequence, version=2))
        except ConnectionRefusedError:
            pass
        self.sequence += 1

    def frame(self, seconds):
        """The next frame that the vehicle sends, or None where none comes in that time."""
        end = time.monotonic() + seconds
        while (left := end - time.monotonic()) > 0:
            self.socket.settimeout(left)
            try:
                found = mavlink.read_frame(self.socket.recv(2048))
            except socket.timeout:
                return None
            except ConnectionRefusedError:
                time.sleep(0.05)
                continue
            if found is not None:
                return found
        return None

    def hear(self, read, seconds=0.5):
        """What `read` makes of the first frame of which it makes anything, or None where none comes in that time."""
        end = time.monotonic() + seconds
        while (left := end - time.monotonic()) > 0:
            found = self.frame(left)
            heard = None if found is None else read(found)
            if heard is not None:
                return heard
        return None

    def ask(self, read, request, tries=None, seconds=0.5):
        """What `read` makes of the answer to a request, which is sent again where none comes, or None."""
        for _ in range(tries or self.tries):
            self.send(request)
            heard = self.hear(read, seconds)
            if heard is not None:
                return heard
        return None

    def read(self, which):
        """The value of a parameter by its name or index, or None."""
        if str(which).isdigit() and int(which) in range(2**15):
            request = functools.partial(mavlink.request_read, int(which))
            return self.ask(lambda found: value_with(found, "index", int(which)), request)
        request = functools.partial(mavlink.request_read, -1, name=which)
        return self.ask(lambda found: value_with(found, "name", which), request)

    def set(self, name, value):
        """Sets a parameter, and gives the value that the vehicle shows then, or None."""
        request = functools.partial(mavlink.set_value, name, value)
        return self.ask(lambda found: value_with(found, "name", name), request)

    def list(self):
        """All values in the order of their indices. What the list left out is asked for by itself."""
        values = {}
        shown = self.ask(mavlink.value_of, mavlink.request_list)
        while shown is not None:
            values[shown["index"]] = shown
            if len(values) == shown["count"]:
                break
            shown = self.hear(mavlink.value_of, seconds=1.5)
        count = next(iter(values.values()))["count"] if values else 0
        for index in set(range(count)) - set(values):
            shown = self.read(index)
            if shown is None:
                break
            values[index] = shown
        return [values[index] for index in sorted(values)]


def value_with(found, field, wanted):
    """The value that a frame shows, where this field of it is as wanted, or None."""
    shown = mavlink.value_of(found)
    return shown if shown and shown[field] == wanted else None
