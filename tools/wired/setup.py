"""The set-up of a script: its lines up to `start`, with the systems, ports and LANs that they name."""
import os
import subprocess
from collections import namedtuple

from .command import Fault, TOOLS, WRONG_WORDS
from .frame import GROUP_OF

# A system's port: the names of the system and the LAN, and the SNPA, 6 octets.
Port = namedtuple("Port", "system lan snpa")
NOT_SET = {"life": 32, "ct": 0, "t1": 8, "n": 4, "i": 60}  # what holds without a line `set`
VERSION = b"version "


class Setup:
    """A set-up that the program takes. `lines` are those above `start`, as octets without line feeds."""

    def __init__(self, lines):
        self.lines = lines
        self.kinds = {}  # of each system `es` or `is`, in the order of the lines
        self.ports = []
        self.bounds = {}  # of each LAN, in ticks
        self.rooms = {}  # of each LAN, in octets of a network PDU
        self.settings = dict(NOT_SET)
        for line in self.statements():
            self.add(line.split(" "))

    def add(self, fields):
        """Takes what a line declares."""
        word = fields[0]
        if word in ("es", "is"):
            self.kinds[fields[1]] = word
        elif word == "port":
            self.ports.append(Port(fields[1], fields[2], bytes.fromhex(fields[3])))
        elif word == "lan":
            self.bounds[fields[1]], self.rooms[fields[1]] = int(fields[2]), int(fields[3])
        elif word == "set":
            self.settings[fields[1]] = int(fields[2])

    @property
    def hello_ticks(self):
        """The ticks from one hello to the next; 0 is none."""
        return self.settings["ct"]

    @property
    def life(self):
        """M: for how many ticks a PDU is on its way at most."""
        return self.settings["life"]

    @property
    def frozen_ticks(self):
        """F = 2M + I + N T1: for how many ticks a reference is frozen, and a transport entity that begins again is silent."""
        return 2 * self.life + self.settings["i"] + self.settings["n"] * self.settings["t1"]

    @property
    def is_of_version_2(self):
        """Whether it has the line `version 2`."""
        return VERSION + b"2" in self.lines

    def of_version_2(self):
        """The set-up with the line `version 2`, in which a script has lines `restart`: nothing else that it may have means something else."""
        if self.is_of_version_2:
            return self
        lines = [line for line in self.lines if not line.startswith(VERSION)]
        first = next(number for number, line in enumerate(lines) if does_something(line))
        return Setup(lines[:first] + [VERSION + b"2"] + lines[first:])

    def statements(self):
        """The lines that do something, as text."""
        return [line.decode("ascii") for line in self.lines if does_something(line)]

    def unversioned(self):
        """The same without the version."""
        return [line for line in self.statements() if not line.startswith(VERSION.decode())]

    def end_systems(self, systems):
        """Those of the systems named that are end systems."""
        return [name for name in systems if self.kinds[name] == "es"]

    def receivers(self, lan, systems):
        """For whom a frame on a LAN is: of each SNPA and group the systems, of those named, that take it."""
        takers = {}
        for port in self.ports:
            if port.lan == lan and port.system in systems:
                for snpa in (port.snpa, GROUP_OF[self.kinds[port.system]]):
                    takers.setdefault(snpa, []).append(port.system)
        return takers

    def snpas(self, lan, systems):
        """The SNPAs of those systems on a LAN."""
        return {port.snpa for port in self.ports if port.lan == lan and port.system in systems}

    def owner(self, lan, snpa):
        """The system whose SNPA on the LAN it is, or None."""
        return next((port.system for port in self.ports if (port.lan, port.snpa) == (lan, snpa)), None)


def does_something(line):
    """Whether a line is no comment, and not empty."""
    return bool(line) and not line.startswith(b"#")


def word_of(lines):
    """The word of the program that the first comment of a script names; `run` without one."""
    told = subprocess.run(["awk", "-f", os.path.join(TOOLS, "word.awk")], input=b"\n".join(lines) + b"\n", stdout=subprocess.PIPE, check=False)
    return told.stdout.decode().strip() or "run"


def lines_of(path):
    """The lines of a script up to `start`, without it. Fault: the file is not there, or has no `start`."""
    try:
        with open(path, "rb") as file:
            lines = [line[:-1] if line.endswith(b"\r") else line for line in file.read().split(b"\n")]
    except OSError as error:
        raise Fault(WRONG_WORDS, "there is no file %s that can be read: %s" % (path, error.strerror))
    if b"start" not in lines:
        raise Fault(WRONG_WORDS, "%s is no set-up: it has no line `start`" % path)
    return lines[:lines.index(b"start")]


def systems_of(setup, text):
    """The systems that a word names, with commas between them. Fault: one is not of the set-up, or stands twice."""
    names = text.split(",")
    for name in names:
        if name not in setup.kinds:
            raise Fault(WRONG_WORDS, "the set-up has no system %s, but %s" % (name, ", ".join(setup.kinds)))
        if names.count(name) > 1:
            raise Fault(WRONG_WORDS, "the system %s stands twice" % name)
    return names
