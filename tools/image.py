"""Reads the image of a flash device as docs/FORMATS.md describes it, and makes a blank one.

It shares nothing with the program: the tests hold the two against each other.
"""
import hashlib
import struct

SECTOR_SIZES = (16_384, 32_768, 65_536, 131_072)
GUARD_BYTES = 16_384
LINE_BYTES = 8
LINES = 1920
SIGNATURE = 0x5168
AVAILABLE, IN_USE, FULL = 0x5BFF, 0x5BFE, 0x5BFC
ERASED = 0xFFFF


class Foreign(Exception):
    """The image isn't one that a vehicle may have left."""


def image_bytes(sector_bytes):
    """The length of an image's file."""
    return 2 * sector_bytes + GUARD_BYTES


def blank(sector_bytes=131_072):
    """A fresh image: sector 0 in use, sector 1 available, and FFFF everywhere else."""
    rest = b"\xff" * (sector_bytes - 4)
    return b"".join((struct.pack("<HH", IN_USE, SIGNATURE), rest, struct.pack("<HH", AVAILABLE, SIGNATURE), rest,
                     b"\xff" * GUARD_BYTES))


def guard_count(row):
    """How many halfwords 0 the guard row begins with; only FFFF may follow."""
    count = 0
    while count < len(row) and row[count] == 0:
        count += 1
    if any(word != ERASED for word in row[count:]):
        raise Foreign("guard row")
    return count


def entries(words):
    """The entries of a sector's log, as (is valid, first line, content), in order."""
    found, at = [], 2
    while at < len(words) and words[at] & 3 in (0, 1):
        header = words[at]
        first, end = header >> 2 & 0x7FF, at + 1 + 4 * ((header >> 13) + 1)
        if end > len(words) or first + (header >> 13) + 1 > LINES:
            break
        found.append((header & 3 == 0, first, struct.pack(f"<{end - at - 1}H", *words[at + 1:end])))
        at = end
    if any(word != ERASED for word in words[at:]):
        raise Foreign(f"a word after the log, from halfword {at}")
    return found


def apply(storage, log):
    """The storage bytes with the valid entries of a log."""
    for is_valid, first, content in log:
        if is_valid:
            storage[first * LINE_BYTES:first * LINE_BYTES + len(content)] = content


def log_of(sector, marks):
    """The mark of a sector, which is one of these, and its log."""
    if sector[0] not in marks or sector[1] != SIGNATURE:
        raise Foreign("the head of a sector")
    log = entries(sector)
    if sector[0] == AVAILABLE and log:
        raise Foreign("entries of an available sector")
    return sector[0], log


def storage_of(image):
    """The 15,360 storage bytes that an image stands for, or Foreign where it stands for none.

    The rule that the sector beside a full one keeps room for what isn't copied yet is left out.
    """
    sector_bytes = next((size for size in SECTOR_SIZES if image_bytes(size) == len(image)), None)
    if sector_bytes is None:
        raise Foreign("length")
    words = struct.unpack(f"<{len(image) // 2}H", image)
    half = sector_bytes // 2
    sectors = words[:half], words[half:2 * half]
    count = guard_count(words[2 * half:])
    home = 0 if count % 4 in (0, 3) else 1
    storage = bytearray(LINES * LINE_BYTES)
    if count % 2 == 1:  # the other sector is void, and isn't looked at
        apply(storage, log_of(sectors[home], (IN_USE,))[1])
        return bytes(storage)
    mark, log = log_of(sectors[home], (IN_USE, FULL))
    beside = log_of(sectors[1 - home], (AVAILABLE,) if mark == IN_USE else (AVAILABLE, IN_USE))[1]
    apply(storage, log)
    apply(storage, beside)
    return bytes(storage)


def digest(storage):
    """The digest of storage bytes, as the command `dump` shows it."""
    return hashlib.sha256(storage).hexdigest()
