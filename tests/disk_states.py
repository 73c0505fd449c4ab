"""What a disk may hold when the power goes: every state of a session's image, held against docs/FORMATS.md.

A module of as_a_user.py, which calls it; it isn't called by itself. A session that crosses borders of pages and makes a
switch runs under strace. The system keeps written pages of 4,096 bytes in memory and may put any of them onto the disk
at any time until a synchronization. So a disk may hold, of each page that was written since the last synchronization,
any version, in any mixture. Each such state must stand for the storage bytes of some moment since the last
synchronization, for an independent reader of the format and for the command `dump`. And no frame goes out, and no event
is waited for, while a written page isn't synchronized.
"""
import itertools
import os
import re
import shutil
import struct
import subprocess

import image
import mavlink
import server

PAGE = 4096
SECTOR = 16_384
CALLS = "openat,pwrite64,pwritev,write,ftruncate,fsync,fdatasync,recvfrom,sendto"
CALL = re.compile(r"^(?:\[pid +\d+\] |\d+ +)?(\w+)\((.*)\) += (-?\d+)")


def why_not(folder):
    """Why the session can't be traced here, or None."""
    if not shutil.which("strace"):
        return "strace isn't here"
    done = subprocess.run(["strace", "-o", os.path.join(folder, "none"), "true"], capture_output=True, check=False)
    return None if done.returncode == 0 else "strace may not trace here"


def entry(first, content):
    """A valid entry of the log."""
    return struct.pack("<H", first << 2 | len(content) // image.LINE_BYTES - 1 << 13) + content


def full_image(spare):
    """An image whose sector 0 has so many spare bytes, with 72 chunks that a switch has to copy.

    They stand where a mission does, which nothing reads while it has no items.
    """
    chunks = [(line, bytes([line % 251 + 1] * 64)) for start, end in ((160, 472), (744, 1008))
              for line in range(start, end, 8)]
    log = b"".join(entry(line, content) for line, content in chunks)
    while len(log) + 10 <= SECTOR - 4 - spare:
        log += entry(160, bytes([len(log) % 251 + 1] * 8))
    content = bytearray(image.blank(SECTOR))
    content[4:4 + len(log)] = log
    return bytes(content)


def session(program, name, trace, sets):
    """Serves an image under strace, and sets and reads a value so often."""
    before = ("strace", "-f", "-xx", "-s", "300000", "-e", f"trace={CALLS}", "-e", "signal=none", "-o", trace)
    with server.served(program, name, before=before) as vehicle:
        station = vehicle.ready()
        for number in range(sets):
            server.ask(station, mavlink.set_value("RTL_ALT", 1000.0 + number))
        server.ask(station, mavlink.request_read(1))
        status, printed, said = vehicle.end()
    if status != 0 or not printed.startswith(b"served"):
        raise AssertionError((status, printed, said))


def steps(trace, name):
    """What the program did to the image and the socket, in order: ("write", offset, bytes), ("sync",) or ("link", call)."""
    fd = None
    quoted = "".join(f"\\x{byte:02x}" for byte in os.fsencode(name))
    with open(trace, encoding="ascii", errors="replace") as lines:
        for line in lines:
            found = CALL.match(line)
            if not found:
                continue
            call, words, result = found[1], found[2], int(found[3])
            if call == "openat" and quoted in words and result >= 0:
                fd = result
            elif fd is None or call in ("recvfrom", "sendto"):
                if call in ("recvfrom", "sendto"):
                    yield "link", call
            elif words.split(",")[0].strip(")") == str(fd):
                if call == "pwrite64":
                    data = bytes.fromhex(re.search(r'"((?:\\x[0-9a-f]{2})*)"', words)[1].replace("\\x", ""))
                    if result != len(data):
                        raise AssertionError(line[:80])
                    yield "write", int(words.rsplit(",", 1)[1]), data
                elif call in ("fsync", "fdatasync"):
                    yield ("sync",)
                elif call != "openat":
                    raise AssertionError(f"a call that this check doesn't know: {line[:80]}")


class Disk:
    """The file as the program sees it, and what a disk may hold of it."""

    def __init__(self, content):
        self.file = bytearray(content)
        # what the file stood for at each moment since the last synchronization
        self.bytes_since = [image.storage_of(content)]
        self.versions = {}  # of each page written since, all that it held
        self.seen = set()
        self.most = 0

    def write(self, offset, data):
        """A write, page by page. Gives each state that a disk may hold by then and that is new."""
        for at in range(offset - offset % PAGE, offset + len(data), PAGE):
            page = at // PAGE
            self.versions.setdefault(page, [bytes(self.file[at:at + PAGE])])
        self.file[offset:offset + len(data)] = data
        for page, held in self.versions.items():
            now = bytes(self.file[page * PAGE:(page + 1) * PAGE])
            if now != held[-1]:
                held.append(now)
        self.bytes_since.append(image.storage_of(bytes(self.file)))
        self.most = max(self.most, len(self.versions))
        yield from self.states()

    def states(self):
        """Each mixture of versions of the pages written since the last synchronization, where it is new."""
        pages = sorted(self.versions)
        for mixture in itertools.product(*(self.versions[page] for page in pages)):
            content = bytearray(self.file)
            for page, held in zip(pages, mixture):
                content[page * PAGE:(page + 1) * PAGE] = held
            content = bytes(content)
            if content not in self.seen:
                self.seen.add(content)
                yield content

    def sync(self):
        self.versions = {}
        self.bytes_since = [image.storage_of(bytes(self.file))]


def shown_digest(program, content, name):
    """The digest of the storage bytes that the program's `dump` shows of an image."""
    with open(name, "wb") as file:
        file.write(content)
    done = subprocess.run([program, "dump", name], capture_output=True, text=True, timeout=30, check=False)
    if done.returncode != 0:
        raise AssertionError(done.stdout)
    return done.stdout.split("sha256 ")[1].strip()


def check_one(program, folder, title, content, sets):
    """Checks one session, and says what it was."""
    name, trace = os.path.join(folder, "traced.img"), os.path.join(folder, "trace")
    with open(name, "wb") as file:
        file.write(content)
    session(program, name, trace, sets)
    disk, states, syncs, pages, erases = Disk(content), 0, 0, set(), 0
    for step in steps(trace, name):
        if step[0] == "write":
            pages.add(step[1] // PAGE)
            erases += len(step[2]) == SECTOR
            for state in disk.write(step[1], step[2]):
                states += 1
                storage = image.storage_of(state)
                if storage not in disk.bytes_since:
                    raise AssertionError(f"{title}: state {states} stands for bytes of no moment since the last "
                                         "synchronization")
                if shown_digest(program, state, os.path.join(folder, "state.img")) != image.digest(storage):
                    raise AssertionError(f"{title}: dump shows other bytes of state {states}")
        elif step[0] == "sync":
            syncs += 1
            disk.sync()
        elif disk.versions:
            raise AssertionError(f"{title}: {step[1]} while a written page isn't synchronized")
    with open(name, "rb") as file:
        if file.read() != bytes(disk.file):
            raise AssertionError(f"{title}: the trace isn't what became of the file")
    if disk.versions:
        raise AssertionError(f"{title}: the end left a written page that isn't synchronized")
    text = f"{title}: {len(pages)} pages written, {erases} erases, {syncs} synchronizations, {states} states of a disk"
    return text, pages, erases


def check(program, folder):
    """Checks a session across a border of pages and one with a switch, and gives a line for each."""
    # 10 bytes an entry: the third of these stands on both sides of the border at 12,288
    text, pages, _ = check_one(program, folder, "a border of pages", full_image(SECTOR - 12_288 + 25), 8)
    if not {2, 3} <= pages:
        raise AssertionError(f"no border was crossed: {text}")
    yield text
    text, _, erases = check_one(program, folder, "a switch", full_image(45), 8)
    if not erases:
        raise AssertionError(f"there was no switch: {text}")
    yield text
