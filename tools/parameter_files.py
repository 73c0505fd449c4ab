"""Parameters in the files of ground stations: MAVProxy's columns, `NAME VALUE`, and Mission Planner's `NAME,VALUE`."""
import math

from decimals import as_float, number_of, shortest

MOST_LETTERS = 16  # of a name, as MAVLink carries it
# the vehicle counts these itself, and takes no value for them
COUNTED = ("MIS_TOTAL", "RALLY_TOTAL")


class ParameterFileError(ValueError):
    """A file isn't what it should be; the text says where and why."""


def value_of(text):
    """The binary32 value nearest to the number that a text writes, or ValueError."""
    value = as_float(float(number_of(text)))
    if not math.isfinite(value):
        raise ValueError(f"{text} is no number that a parameter can have")
    return value


def name_of(text):
    """The name that a text is, or ValueError."""
    if not (text.isascii() and text.isprintable() and 0 < len(text) <= MOST_LETTERS):
        raise ValueError(f"{text} is no name of a parameter")
    return text


def read(content):
    """The values by their names, of a file of either kind. A name that stands twice has its last value."""
    values = {}
    for number, line in enumerate(content.lstrip("\ufeff").splitlines(), 1):
        words = line.split("#")[0].replace(",", " ").split()
        if not words:
            continue
        if len(words) != 2:
            raise ParameterFileError(f"line {number}: {len(words)} columns stand where a name and a value do")
        try:
            values[name_of(words[0])] = value_of(words[1])
        except ValueError as error:
            raise ParameterFileError(f"line {number}: {error}") from None
    return values


def write(values, name):
    """The content of a file of this name, in the order of the names: Mission Planner's where it ends in `.param`."""
    is_planner = name.lower().endswith(".param")
    lines = (f"{one},{shortest(value)}" if is_planner else f"{one:<16} {shortest(value)}"
             for one, value in sorted(values.items()))
    return "".join(line + "\n" for line in lines)
