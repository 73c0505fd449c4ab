"""Images of a vehicle in each state that a switch of sectors passes through, built from the bytes of its storage.

A module of measure.py, which calls it; it isn't called by itself. The formats are those of docs/FORMATS.md. All images
have the largest size.
"""
import struct

import image

SECTOR_BYTES = 131_072
HEADER_BYTES = 4
CHUNK_LINES = 8
CHUNK_BYTES = CHUNK_LINES * image.LINE_BYTES
STORAGE_BYTES = image.LINES * image.LINE_BYTES
ERASED = b"\xff"


def entry(first, content):
    """A valid entry: lines of content from the line `first` on."""
    count = len(content) // image.LINE_BYTES
    return struct.pack("<H", first << 2 | count - 1 << 13) + content


def sector(mark, entries=b""):
    written = struct.pack("<HH", mark, image.SIGNATURE) + entries
    return written + ERASED * (SECTOR_BYTES - len(written))


def guard(count):
    return bytes(2 * count) + ERASED * (image.GUARD_BYTES - 2 * count)


def log_of(home):
    """The bytes of the valid entries of a sector."""
    words = struct.unpack(f"<{SECTOR_BYTES // 2}H", home)
    return b"".join(entry(first, content) for is_valid, first, content in image.entries(words) if is_valid)


def chunks(storage):
    """An entry for each chunk of the storage that isn't zero, as a copy of the switch writes them."""
    parts = [storage[at:at + CHUNK_BYTES] for at in range(0, STORAGE_BYTES, CHUNK_BYTES)]
    return [entry(number * CHUNK_LINES, part) for number, part in enumerate(parts) if any(part)]


def full_log(entries, storage):
    """Entries, and the last line again and again until the sector has no room for one more."""
    last = entry(image.LINES - 1, storage[-image.LINE_BYTES:])
    room = SECTOR_BYTES - HEADER_BYTES - len(entries)
    return entries + last * (room // len(last))


def without_zero_chunks(storage):
    """The same storage with a byte set in the end of each chunk that was zero."""
    parts = [storage[at:at + CHUNK_BYTES] for at in range(0, STORAGE_BYTES, CHUNK_BYTES)]
    return b"".join(part if any(part) else part[:-1] + b"\x5a" for part in parts)


def full_image(alone, with_every_chunk):
    """The image with a home that has no room for another entry, and with something in every chunk if that is asked."""
    log, storage = log_of(alone[:SECTOR_BYTES]), image.storage_of(alone)
    if with_every_chunk:
        storage = without_zero_chunks(storage)
        log = b"".join(chunks(storage))
    return sector(image.IN_USE, full_log(log, storage)) + sector(image.AVAILABLE) + guard(0)


def uncovered(spilled):
    """How many chunks of a spilled image, whose home is sector 0, the other sector doesn't give."""
    words = struct.unpack(f"<{SECTOR_BYTES // 2}H", spilled[SECTOR_BYTES:2 * SECTOR_BYTES])
    if spilled[:2] != struct.pack("<H", image.FULL) or words[0] != image.IN_USE:
        raise ValueError("the image isn't spilled")
    storage, upper = image.storage_of(spilled), bytearray(STORAGE_BYTES)
    image.apply(upper, image.entries(words))
    return sum(storage[at:at + CHUNK_BYTES] != upper[at:at + CHUNK_BYTES]
               for at in range(0, STORAGE_BYTES, CHUNK_BYTES))


def states(alone):
    """Of an image with one sector in use: the same storage in each state, by name, and the worst marked image."""
    log = log_of(alone[:SECTOR_BYTES])
    storage = image.storage_of(alone)
    copies = chunks(storage)
    full = full_log(log, storage)
    worst = without_zero_chunks(storage)
    worst_copies = chunks(worst)
    worst_full = full_log(b"".join(worst_copies), worst)
    half, whole = b"".join(copies[:len(copies) // 2]), b"".join(copies)
    home, other = sector(image.FULL, full), sector(image.AVAILABLE)
    return {
        "alone": alone,
        "alone, full": sector(image.IN_USE, full) + other + guard(0),
        f"marked, {len(copies)} chunks to copy": home + other + guard(0),
        f"marked, {len(worst_copies)} chunks to copy": sector(image.FULL, worst_full) + other + guard(0),
        "spilled, half copied": home + sector(image.IN_USE, half) + guard(0),
        "spilled, all copied": home + sector(image.IN_USE, whole) + guard(0),
        "voided": home + sector(image.IN_USE, whole) + guard(1),
        "voided, erased": ERASED * SECTOR_BYTES + sector(image.IN_USE, whole) + guard(1),
    }
