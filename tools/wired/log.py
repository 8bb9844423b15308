"""A run on a wire, kept as a script.

    # osi live, tick SECONDS, systems NAME,NAME..
    the lines of the set-up, as they stand
    # at SECONDS tick NUMBER            before `start` and each `tick`: the time, and the tick of the clock
    # at SECONDS                        before other lines: when they were handed on

A log is never written over: FILE.log is followed by FILE.2.log, FILE.3.log and so on.
"""
import os
import re
from collections import namedtuple

from .clock import nanoseconds, seconds, SECOND
from .command import Fault, WRITE_FAILED, WRONG_WORDS
from .setup import Setup

HEAD = re.compile(r"# osi live, tick ([0-9.]+), systems ([a-z0-9,]+)$")
AT = re.compile(r"# at ([0-9]+)\.([0-9]{6})(?: tick ([0-9]+))?$")

# A line that was handed on: its number in the log, the time in microseconds, the tick of the clock, and its text.
Entry = namedtuple("Entry", "number time tick text")


def head(period, systems):
    """The first line of a log."""
    return b"# osi live, tick %s, systems %s\n" % (seconds(period).rstrip("0").rstrip(".").encode(), ",".join(systems).encode())


def at(now, tick=None):
    """The comment that tells the time of the lines below."""
    return b"# at %s%s\n" % (seconds(now).encode(), b"" if tick is None else b" tick %d" % tick)


class Series:
    """The logs of one name: FILE.log, FILE.2.log and so on. `path` is the first name."""

    def __init__(self, path):
        self.path = path
        self.stem, self.ending = os.path.splitext(path)
        self.is_device = os.path.exists(path) and not os.path.isfile(path)

    def name(self, number):
        """The name of the so many-th log, from 1."""
        return self.path if number == 1 else "%s.%d%s" % (self.stem, number, self.ending)

    def numbers(self):
        """The numbers of those that are there, in order."""
        folder, stem = os.path.split(self.stem)
        wanted = re.compile(re.escape(stem) + r"(?:\.([1-9][0-9]{0,8}))?" + re.escape(self.ending) + "$")
        try:
            found = [wanted.match(name) for name in os.listdir(folder or ".")]
        except OSError:
            return []
        return sorted(int(each.group(1) or 1) for each in found if each)

    def paths(self):
        """The logs that are there, in order; a device keeps none."""
        return [] if self.is_device else [self.name(number) for number in self.numbers()]

    def next(self):
        """The log that is written next, behind all that are there."""
        number = max(self.numbers(), default=0) + 1
        return Writer(self.path, "wb") if self.is_device else Writer(self.name(number), "xb")


class Writer:
    """A log that is written."""

    def __init__(self, path, mode):
        self.path = path
        try:
            self.file = open(path, mode, buffering=0)
        except OSError as error:
            raise Fault(WRONG_WORDS, "the log %s cannot be written: %s" % (path, error.strerror))

    def write(self, octets):
        """Keeps lines."""
        try:
            while octets:
                octets = octets[self.file.write(octets):]
        except OSError as error:
            raise Fault(WRITE_FAILED, "the log %s cannot be written: %s" % (self.path, error.strerror))


class Log:
    """A log that was read. `octets` is the script; `entries` are its lines from `start` on that do something."""

    def __init__(self, path):
        self.path = path
        self.octets = whole_lines(path)
        lines = self.octets.decode("ascii", "replace").split("\n")[:-1]
        found = HEAD.match(lines[0]) if lines else None
        if not found or "start" not in lines:
            raise Fault(WRONG_WORDS, "%s is no log of ./osi live --log" % path)
        self.period, self.systems = nanoseconds(found.group(1)), found.group(2).split(",")
        start = lines.index("start")
        # The comment above `start` is the log's own.
        self.setup_lines = [line.encode() for line in lines[1:start - 1]]
        self.entries = []
        self.read(lines, start)

    @property
    def first(self):
        """The tick of the clock at `start`."""
        return self.entries[0].tick

    @property
    def last(self):
        """The last tick of the clock."""
        return self.entries[-1].tick

    def setup(self):
        """Its set-up."""
        return Setup(self.setup_lines)

    def read(self, lines, start):
        """Reads the lines from the comment above `start` on."""
        time = tick = None
        for number, line in enumerate(lines[start - 1:], start):
            found = AT.match(line)
            if found:
                time = int(found.group(1)) * (SECOND // 1000) + int(found.group(2))
                tick = int(found.group(3)) if found.group(3) else tick
            elif line and not line.startswith("#"):
                if tick is None:
                    raise Fault(WRONG_WORDS, "%s:%d: no comment tells the tick of this line" % (self.path, number))
                self.entries.append(Entry(number, time, tick, line))


def was_given_nothing(path):
    """Whether a log has no line `start`: its run gave the program nothing, so no system of it did anything. Fault: no such file."""
    octets = whole_lines(path)
    first, *lines = octets.split(b"\n")
    return not octets or bool(HEAD.match(first.decode("ascii", "replace"))) and b"start" not in lines


def whole_lines(path):
    """The whole lines of a file: the last may be cut where the run was."""
    try:
        with open(path, "rb") as file:
            octets = file.read()
    except OSError as error:
        raise Fault(WRONG_WORDS, "there is no file %s that can be read: %s" % (path, error.strerror))
    return octets[:octets.rfind(b"\n") + 1]
