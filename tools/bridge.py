#!/usr/bin/env python3
"""Carries datagrams between a vehicle's server and ground stations that listen: bridge --station HOST:PORT [--port P]

Ground stations listen at a UDP port, most of them at 14550, and a vehicle speaks to them first, from a port of its own.
The server speaks to those alone that it has heard. So each station has a socket here, whose address the server takes
for the station's and the station for the vehicle's. The first thing that the server is sent from there is a HEARTBEAT:
then the station is heard, and finds the vehicle by itself. What it sends afterwards is its own. Where nothing is heard
of the server for two seconds it is sent a HEARTBEAT again, so that one that was started anew is heard too. A datagram
that can't be sent is lost; none is kept.
"""
import argparse
import contextlib
import select
import signal
import socket
import sys
import time

import mavlink
from program import say

HERE = "127.0.0.1"
NAMES = (HERE, "localhost")
PLACES = 8  # of stations, at the vehicle
QUIET = 2  # seconds without a word of the server, which says a HEARTBEAT each second
LOOK = 0.25  # seconds after which it is looked at who is quiet
LARGEST = 65_535  # bytes of a datagram
BURST = 64  # datagrams that one station's socket is asked for before the next one's
# The sockets have the first of these ports that are free: bridges that run one after another take the same places
OWN_PORTS = range(14570, 14570 + PLACES)
INTERRUPTED = 130


def port_number(text):
    """The port that a text names, or ArgumentTypeError."""
    if not (text.isascii() and text.isdigit() and len(text) < 6 and 0 < int(text) < 65536):
        raise argparse.ArgumentTypeError(f"{text or 'an empty word'} is no port from 1 to 65535")
    return int(text)


def station_port(text):
    """The port of the station that a text names as HOST:PORT, or ArgumentTypeError."""
    host, colon, port = text.rpartition(":")
    if not colon or not host:
        raise argparse.ArgumentTypeError(f"{text or 'an empty word'} is no HOST:PORT, as {HERE}:14550 is one")
    if host not in NAMES:
        raise argparse.ArgumentTypeError(f"{host} isn't known as this machine; a station is at {HERE} or localhost")
    return port_number(port)


def add_stations(parser, **options):
    """Adds the option that names a station."""
    parser.add_argument("--station", action="append", default=[], type=station_port, metavar="HOST:PORT",
                        help=f"a ground station that listens there, on this machine; up to {PLACES} times", **options)


def check_stations(parser, stations, port):
    """Ends with the words of what is wrong with these stations of a server at a port, if anything is."""
    if len(stations) > PLACES:
        parser.error(f"{len(stations)} stations are named; the vehicle has places for {PLACES}")
    for place, station in enumerate(stations):
        if station in stations[:place]:
            parser.error(f"the station {HERE}:{station} is named twice")
    if port in stations:
        parser.error(f"{HERE}:{port} is the server's own port and can't be a station's; --port names another one")


def own_socket():
    """A socket of this machine with a port of its own."""
    own = socket.socket(socket.AF_INET, socket.SOCK_DGRAM)
    for port in (*OWN_PORTS, 0):
        with contextlib.suppress(OSError):
            own.bind((HERE, port))
            break
    own.setblocking(False)
    return own


class Way:
    """The way between the server and one station."""

    def __init__(self, server, station):
        self.server, self.station = (HERE, server), (HERE, station)
        self.socket = own_socket()
        self.said = self.heard = None  # when the HEARTBEAT was said and the server was heard, in seconds
        self.is_told_quiet = self.is_answered = False

    def fileno(self):
        """What `select` waits for."""
        return self.socket.fileno()

    def say_heartbeat(self):
        """Says a HEARTBEAT to the server, where it wasn't said yet or nothing has been heard for a while."""
        now = time.monotonic()
        last = max((when for when in (self.said, self.heard) if when is not None), default=None)
        if last is not None and now - last < QUIET:
            return
        if last is not None and not self.is_told_quiet:
            self.is_told_quiet = True
            say(f"no vehicle is heard at {HERE}:{self.server[1]} for {HERE}:{self.station[1]}: nothing serves there, "
                f"or its {PLACES} places are taken; it is asked again")
        self.said = now
        self.send(mavlink.heartbeat(version=2), self.server)

    def send(self, datagram, to):
        """Sends a datagram. One that can't be sent is lost, as it may be on any link."""
        with contextlib.suppress(OSError):
            self.socket.sendto(datagram, to)

    def carry(self):
        """Carries what has come, each way. What comes from any other address is dropped."""
        for _ in range(BURST):
            try:
                datagram, sender = self.socket.recvfrom(LARGEST)
            except OSError:
                return
            if sender == self.server:
                self.note_server()
                self.send(datagram, self.station)
            elif sender == self.station:
                self.note_station()
                self.send(datagram, self.server)

    def note_server(self):
        """The server was heard. It is told the first time, and when it had been quiet."""
        if self.heard is None or self.is_told_quiet:
            say(f"the vehicle at {HERE}:{self.server[1]} is carried to the station at {HERE}:{self.station[1]}")
        self.heard, self.is_told_quiet = time.monotonic(), False

    def note_station(self):
        """The station was heard. It is told the first time."""
        if not self.is_answered:
            say(f"the station at {HERE}:{self.station[1]} answers")
        self.is_answered = True


def carry(server, stations):
    """Carries datagrams between the server at a port and the stations at theirs, until it is interrupted."""
    ways = [Way(server, station) for station in stations]
    while True:
        for way in ways:
            way.say_heartbeat()
        for way in select.select(ways, [], [], LOOK)[0]:
            way.carry()


def main(words):
    """Carries as the words say."""
    parser = argparse.ArgumentParser(
        description="Carries datagrams between a vehicle's server and ground stations that listen at a port of this "
                    "machine. The server runs already.",
        epilog="./serve IMAGE --station HOST:PORT serves and carries at once. An interrupt ends the bridge.")
    add_stations(parser, required=True)
    parser.add_argument("--port", type=port_number, default=14550, help="UDP port of the server (14550)")
    given = parser.parse_args(words)
    check_stations(parser, given.station, given.port)
    try:
        carry(given.port, given.station)
    except KeyboardInterrupt:
        say("interrupted")
        return INTERRUPTED
    except OSError as error:
        say(f"no socket can be had: {error.strerror}")
        return 1


if __name__ == "__main__":
    signal.signal(signal.SIGINT, signal.default_int_handler)  # a shell has what it runs in the background ignore it
    sys.exit(main(sys.argv[1:]))
