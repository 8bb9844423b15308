"""A transcript, event by event: of which line of the script each event is, and of which systems.

Numbers that count over all systems are told by their order among some systems: so what these did can be compared in two runs, one of
their log alone, and one of all systems. An event is a tuple: its word, and its fields in that form.
"""
# The own events of lines: each line that does something writes one, first.
OWN = set("tick sent no deliver nosuch late notthere notours connect accept refuse data expedite window disconnect inject restart".split())
MAKE_END = {"connect", "incoming"}  # the number of an end, and its system
OF_END = {"accept", "confirm", "data", "got", "expedite", "urgent", "refuse", "disconnect", "gone", "window", "held"} | MAKE_END
DELIVERIES = {"deliver", "nosuch", "late", "notthere", "notours"}  # the number of a frame, and a system
CLOSING = {"done", "toomuch", "strays"}


class Part:
    """Some systems, and what a transcript tells of them from a tick on."""

    def __init__(self, systems, first_tick=None):
        self.systems = systems
        self.first_tick = first_tick  # of the transcript; None is not begun
        self.events = []  # the number of the line of the script, and the event
        self.frames = []  # of each frame the number, and the tick
        self.ends = []  # of each end the number


class Teller:
    """Reads a transcript for parts. Those that have one system follow one another: what is told of it is of the last that has begun.
    `owner_of` gives the part whose line is the so many-th that does something; `frames` are the octets of all frames, where they are
    compared as well."""

    def __init__(self, parts, owner_of=lambda line: None, frames=None):
        self.parts = parts
        self.parts_of = {}
        for part in parts:
            for system in part.systems:
                self.parts_of.setdefault(system, []).append(part)
        self.owner_of = owner_of
        self.frames = frames
        self.ends = {}  # of the number of each end the part, and its place there, from 1
        self.line = 0  # the number of the line, of those that do something, from 1
        self.tick = 0

    def part_of(self, system):
        """The part that has a system now; None before the first has begun, and of a system of none."""
        begun = [part for part in self.parts_of.get(system, ()) if self.has_begun(part)]
        return max(begun, key=lambda part: part.first_tick, default=None)

    def tell(self, text):
        """Takes a line of the transcript."""
        word, *fields = text.split(" ")
        self.line += word in OWN
        if word == "tick":
            self.tell_tick(int(fields[0]))
        elif word == "frame":
            self.tell_frame(int(fields[0]), fields[1:])
        elif word in OF_END:
            self.tell_end(word, int(fields[0]), fields[1:])
        elif word in DELIVERIES:
            self.put(self.part_of(fields[1]), word, fields[1])
        elif word == "inject":
            self.put(self.part_of(fields[-1]), "deliver", fields[-1])
        elif word == "no":
            self.put(self.owner_of(self.line), word, *fields)
        elif word not in CLOSING:
            self.put(self.part_of(fields[1] if (word, fields[0]) == ("drop", "frame") else fields[0]), word, *fields)

    def has_begun(self, part):
        """Whether a part has begun."""
        return part.first_tick is not None and self.tick >= part.first_tick

    def put(self, part, *event):
        """Takes an event of a part, or of none."""
        if part:
            part.events.append((self.line, event))

    def tell_tick(self, tick):
        """The clock went on, for all parts that have begun; each counts from its first tick."""
        self.tick = tick
        for part in self.parts:
            if self.has_begun(part):
                self.put(part, "tick", str(tick - part.first_tick))

    def tell_frame(self, number, fields):
        """A system sent a frame: its number is of no account, its octets are."""
        part = self.part_of(fields[1])
        if part:
            part.frames.append((number, self.tick))
            self.put(part, "frame", *fields, *([self.frames[number - 1].hex()] if self.frames else []))

    def tell_end(self, word, number, fields):
        """An event of an end, whose number is told by its place among those of the part."""
        if word in MAKE_END:
            part = self.part_of(fields[0])
            if part:
                part.ends.append(number)
                self.ends[number] = part, str(len(part.ends))
        part, place = self.ends.get(number, (None, ""))
        self.put(part, word, place, *fields)


def shown(event):
    """An event as a line, of a length that a terminal has room for."""
    return "`%s`" % " ".join(event)[:60] if event else "nothing"
