"""A server of the program, for the tests and benchmarks: a free port, the wait until it answers, and its end."""
import contextlib
import os
import socket
import subprocess
import time

import mavlink

END = b"END\n"


def free_port():
    """A UDP port of this machine that nothing has."""
    with socket.socket(socket.AF_INET, socket.SOCK_DGRAM) as spare:
        spare.bind(("127.0.0.1", 0))
        return spare.getsockname()[1]


def is_bound(port):
    """A socket has the port of 127.0.0.1, which is at the end of its address in the system's table."""
    with open("/proc/net/udp", encoding="ascii") as table:
        return any(line.split()[1] == f"0100007F:{port:04X}" for line in list(table)[1:])


def ask(station, request, seconds=30):
    """The answer to a request, once it is no HEARTBEAT. Nothing is lost within a machine, so it is asked for once."""
    station.send(request)
    return hear(station, seconds)


def hear(station, seconds=5):
    """The next frame but HEARTBEAT, which comes once a second."""
    end = time.monotonic() + seconds
    while (left := end - time.monotonic()) > 0:
        station.settimeout(left)
        datagram = station.recv(2048)
        found = mavlink.read_frame(datagram)
        if found is None:
            raise ValueError(f"no frame: {datagram.hex()}")
        if found["message"] != mavlink.HEARTBEAT:
            return datagram
    raise TimeoutError("nothing heard")


class Server:
    """The program, which serves an image on a port of its own."""

    def __init__(self, program, image, *words, before=()):
        self.port = free_port()
        self.sockets = []
        command = [*before, program, "serve", image, "--port", str(self.port), *words]
        self.process = subprocess.Popen(command, stdout=subprocess.PIPE, stderr=subprocess.PIPE)

    def wait(self):
        """Waits until the server has its port, or has ended."""
        end = time.monotonic() + 60
        while not is_bound(self.port) and self.process.poll() is None and time.monotonic() < end:
            time.sleep(0.005)

    def station(self):
        """A ground station's socket, connected to the server."""
        self.wait()
        station = socket.socket(socket.AF_INET, socket.SOCK_DGRAM)
        station.connect(("127.0.0.1", self.port))
        self.sockets.append(station)
        return station

    def ready(self):
        """A station that has been answered."""
        station = self.station()
        ask(station, mavlink.request_read(0))
        return station

    def end(self):
        """Ends the server by the datagram that does so, and gives its status with what it printed."""
        self.station().send(END)
        printed, said = self.process.communicate(timeout=60)
        return self.process.returncode, printed, said

    def close(self):
        """Lets go of all, and kills the server where it runs."""
        for station in self.sockets:
            station.close()
        if self.process.poll() is None:
            self.process.kill()
        self.process.communicate()


@contextlib.contextmanager
def served(program, image, *words, sector=16_384, before=()):
    """A server of an image, which is made where there is none."""
    if not os.path.exists(image):
        subprocess.run([program, "format", image, "--sector", str(sector)], check=True, timeout=30)
    server = Server(program, image, *words, before=before)
    try:
        yield server
    finally:
        server.close()
