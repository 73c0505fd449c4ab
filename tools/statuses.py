"""What a status of the program may mean, as far as it can be seen from outside."""
import errno
import fcntl
import os
import socket

import image
import program

FORMS = [f"{name} {words}" for name, words in program.COMMANDS.items()]
LENGTHS = ", ".join(f"{image.image_bytes(size):,}" for size in image.SECTOR_SIZES)


def disk_is_full(path):
    """No block is free where a file of this name is."""
    try:
        disk = os.statvfs(os.path.dirname(os.path.abspath(path)))
        return disk.f_blocks > 0 and disk.f_bavail == 0
    except OSError:
        return False


def why_not_made(name):
    """Why no image of this name can be made."""
    folder = os.path.dirname(os.path.abspath(name))
    if not os.path.isdir(folder):
        return f"there is no folder {folder}"
    if os.path.isdir(name):
        return f"{name} is a folder"
    if not os.access(name if os.path.exists(name) else folder, os.W_OK):
        return f"{name} can't be written"
    return None


def is_locked(name):
    """Another program serves the image."""
    try:
        with open(name, "rb") as file:
            fcntl.flock(file, fcntl.LOCK_SH | fcntl.LOCK_NB)
    except BlockingIOError:
        return True
    except OSError:
        pass
    return False


def why_not_opened(name, is_served):
    """Why an image of this name can't be opened."""
    if os.path.isdir(name):
        return f"{name} is a folder"
    if not os.path.exists(name):
        return f"{name} isn't there; ./serve makes an image, and so does ./zuddrin format"
    if not os.path.isfile(name):
        return f"{name} is no file that holds an image"
    if os.path.getsize(name) not in map(image.image_bytes, image.SECTOR_SIZES):
        return f"{name} has {os.path.getsize(name):,} bytes; an image has {LENGTHS}"
    if not os.access(name, os.R_OK | os.W_OK if is_served else os.R_OK):
        return f"{name} can't be {'written' if is_served else 'read'}"
    return None


def why_not_bound(port):
    """Why the port can't be had."""
    with socket.socket(socket.AF_INET, socket.SOCK_DGRAM) as probe:
        try:
            probe.bind(("127.0.0.1", port))
        except OSError as error:
            if error.errno == errno.EADDRINUSE:
                return (f"port {port} of 127.0.0.1 is taken; --port names another, and where a ground station listens "
                        f"there, ./serve IMAGE --station 127.0.0.1:{port} serves that station")
            return f"port {port} of 127.0.0.1: {error.strerror}"
    return None


def why_not_attached(words, name):
    """Why a command had no image or no link."""
    command = words[0]
    why = why_not_made(name) if command == "format" else why_not_opened(name, command == "serve")
    if why is None and command in ("format", "serve") and is_locked(name):
        why = f"another server has {name} open"
    if why is None and command == "serve" and (port := program.port_of(words)):
        why = why_not_bound(port)
    if why is None and disk_is_full(name):
        why = "the disk is full"
    return why or f"{name} or the port couldn't be had, and nothing of it can be seen now"


def tell(words, status):
    """Says on standard error what a status may mean, where there is something to say."""
    text = meaning(words, status)
    if text is None:
        return
    if 1 <= status <= 6 and not program.is_built():
        # rt's own statuses are among these
        text = f"where the program itself ended, as the line run=ended tells, status {status} says: {text}"
    program.say(text)


def meaning(words, status):
    """What the status of a command with these words may mean, or None where there is nothing to say."""
    place = program.image_place(words)
    name = words[place] if place is not None else ""
    full = (f"the disk of {name} is full" if disk_is_full(name) else
            f"{name} couldn't be read or written; its disk may fail")
    if status == 13 and name:
        return why_not_attached(words, name)
    return {
        1: f"these words are no command: {', '.join(FORMS[:-1])} or {FORMS[-1]}",
        2: "there was no memory",
        3: f"{name} isn't an image that a vehicle left; ./zuddrin report shows what each region holds",
        4: full,
        5: full,
        6: f"the socket failed, or {full} before a frame was sent",
        7: f"the guard row of {name or 'the image in memory'} is used up: it takes no more switches",
        9: "standard input, which has the script, couldn't be read",
        10: "standard output took nothing more",
        11: "a line of the script isn't of its grammar, or its end e is missing, or a seventeenth loss would wait",
        13: "no image was named",
        128 + 2: "ended by an interrupt; what was flushed is kept",
        128 + 15: "ended from outside; what was flushed is kept",
        128 + 9: "killed; what was flushed is kept",
    }.get(status)
