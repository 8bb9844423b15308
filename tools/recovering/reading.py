"""A script beside its transcript: each line that does something, with its events."""
import sys

from wired.command import Fault, REFUSED

ANSWERS = {  # of each line the words with which its events begin
    "tick": {"tick"}, "deliver": {"deliver", "nosuch", "late", "notthere", "notours"}, "unit": {"sent", "no"}, "inject": {"inject"},
    "restart": {"restart"}, **{word: {word, "no"} for word in "connect accept refuse data expedite window disconnect".split()}}
FIRST = set().union(*ANSWERS.values(), {"settled", "stopped", "done", "refused", "toomuch", "strays"})
OF_END = set("accept refuse data expedite window disconnect".split())
NOT_SET = {"life": 32, "ct": 0, "t1": 8, "n": 4, "w": 20, "i": 60, "credit": 8, "refs": 64}


LOSSES = {"drop", "stopped", "discard"}
KEPT = 1000  # the octets of a line that are kept


class Step:
    """A line of the script from `start` on: its number from 1, its text, the clock after it, and its events, each a list of fields. The events are kept only
    until the step was looked at; then `is_whole` says whether it is a `settle` that left nothing, and `lost` why not all that was sent in it can have come."""
    __slots__ = "number", "text", "word", "tick", "events", "is_whole", "lost"

    def __init__(self, number, text):
        self.number, self.text = number, text
        self.word = sys.intern(text.split(" ")[0])
        self.tick = 0
        self.events = []
        self.is_whole, self.lost = False, None

    def close(self, script):
        """Keeps of the events what is asked later."""
        self.is_whole = self.word == "settle" and self.events[-1][0] == "settled"
        for event in self.events:
            if event[0] in LOSSES and not self.lost:
                self.lost = lost(script, event)
        self.events = None
        if len(self.text) > KEPT:
            self.text = self.text[:KEPT]


def lost(script, event):
    """Why not all that was sent in a step with that event can have come, or None."""
    if event[0] == "drop":
        return "drops: `%s`" % " ".join(event)
    if event[0] == "stopped":
        return "stops with frames left: `%s`" % " ".join(event)
    if event[0] == "discard" and (event[2:] == ["03", "0"] or not script.is_one_lan() and event[2] != "a1"):
        return "discards: `%s`" % " ".join(event)
    return None


def lines_of(text):
    """The lines of a text, one at a time."""
    at = 0
    while at < len(text):
        end = text.find("\n", at)
        if end < 0:
            end = len(text)
        yield text[at:end]
        at = end + 1


class Script:
    """The set-up of a script, and its steps. Fault: it has no `start`."""

    def __init__(self, text):
        self.times = dict(NOT_SET)
        self.titles, self.kinds, self.lans, self.ports, self.routes, self.selectors = {}, {}, [], set(), [], set()
        self.steps = []
        self.one_lan = None
        for number, line in enumerate(lines_of(text), 1):
            line = line.rstrip("\r")
            if line and not line.startswith("#"):
                self.add(number, line)
        if not self.steps:
            raise Fault(REFUSED, "the script has no line `start`, so nothing happens")

    def add(self, number, line):
        """Takes a line that does something."""
        fields = line.split(" ")
        if self.steps or fields[0] == "start":
            self.steps.append(Step(number, line))
        elif fields[0] == "set":
            self.times[fields[1]] = int(fields[2])
        elif fields[0] in ("es", "is"):
            self.kinds[fields[1]] = fields[0]
            self.titles[fields[1]] = fields[2].lower()
        elif fields[0] == "lan":
            self.lans.append(fields[1])
        elif fields[0] == "port":
            self.ports.add((fields[1], fields[2]))
        elif fields[0] == "tsap":
            self.selectors.add((fields[1], fields[2].lower()))
        elif fields[0] == "route":
            self.routes.append((fields[1], "" if fields[2] == "-" else fields[2].lower(), fields[3], fields[4]))

    def user_of(self, nsap):
        """The system whose users of transport have the address, or None."""
        return next((name for name, title in self.titles.items() if self.kinds[name] == "es" and title[:-2] + "01" == nsap), None)

    def is_one_lan(self):
        """Whether it has two end systems on one LAN, and no intermediate system."""
        if self.one_lan is None:
            self.one_lan = self.why_not_one_lan() is None
        return self.one_lan

    def hop(self, system, address):
        """The next system and the LAN by the longest prefix that covers the address, or None."""
        return max(((len(prefix), to, lan) for of, prefix, to, lan in self.routes if of == system and address.startswith(prefix)), default=(0, None, None))[1:]

    def why_not_one_lan(self):
        """Why it is none of two end systems on one LAN, each with the other as the next one for all its addresses; or None."""
        if "is" in self.kinds.values():
            return "it has an intermediate system"
        if len(self.kinds) != 2 or len(self.lans) != 1:
            return "it has %d end systems and %d LANs" % (len(self.kinds), len(self.lans))
        for system, other in zip(self.kinds, reversed(self.kinds)):
            if (system, self.lans[0]) not in self.ports:
                return "%s has no port" % system
            if any(self.hop(system, self.titles[other][:-2] + "%02x" % selector) != (other, self.lans[0]) for selector in range(256)):
                return "%s has no route to all addresses of %s" % (system, other)
        return None


class Reader:
    """Reads a transcript for a script."""

    def __init__(self, script, text):
        self.script = script
        self.lines = (line.split(" ") for line in lines_of(text) if line)
        self.next = next(self.lines, None)

    def head(self):
        """The word of the next event."""
        return self.next[0] if self.next else ""

    def fail(self, step):
        """Fault: the transcript is that of another script."""
        raise Fault(REFUSED, "the transcript is not of this script: behind line %d, `%s`, comes `%s`" %
                    (step.number, step.text[:40], " ".join(self.next)[:60] if self.next else "nothing"))

    def pull(self):
        """The next event, which is taken."""
        event, self.next = self.next, next(self.lines, None)
        return event

    def take(self, step):
        """Gives the step its next event, and what comes with it."""
        step.events.append(self.pull())
        while self.next and self.next[0] not in FIRST:
            step.events.append(self.pull())

    def is_of(self, step):
        """Whether the next event is the own one of the step's line."""
        event, fields = self.next, step.text.split(" ")
        if event[0] not in ANSWERS.get(step.word, ()):
            return False
        if step.word == "deliver":
            return event[1:3] == fields[1:3]
        if event[0] in OF_END:
            return event[1] == fields[1] and (event[0] not in ("data", "expedite") or event[2] == fields[2].lower())
        return True

    def take_all(self, step):
        """Gives the step all its events."""
        if step.word == "start":
            if self.next != ["tick", "0"]:
                self.fail(step)
            self.take(step)
        elif step.word == "settle":
            while self.head() == "deliver":
                self.take(step)
            if self.head() not in ("settled", "stopped"):
                self.fail(step)
            self.take(step)
        elif not self.next or not self.is_of(step):
            self.fail(step)
        else:
            self.take(step)

    def read(self, see):
        """Gives each step its tick and, until `see(place, step)` has looked at them, its events. What ended the run: the last line of the transcript."""
        tick = 0
        for place, step in enumerate(self.script.steps):
            if self.head() in ("refused", "toomuch"):
                del self.script.steps[place:]
                break
            self.take_all(step)
            if step.word == "tick":
                tick += 1
                if step.events[0] != ["tick", str(tick)]:
                    self.fail(step)
            step.tick = tick
            see(place, step)
            step.close(self.script)
        if self.head() == "strays":
            self.pull()
        last = self.pull()
        if not last or last[0] not in ("done", "refused", "toomuch") or self.next:
            self.next = self.next or last
            self.fail(self.script.steps[-1])
        return " ".join(last)


def read(script_text, transcript_text, see):
    """A script, each step with its tick, and the last line of the transcript; `see(place, step)` looks at each with its events. Fault: one is not of the other."""
    if transcript_text.startswith("refused "):
        raise Fault(REFUSED, "the script is not run to its end: " + transcript_text.split("\n", 1)[0])
    script = Script(script_text)
    return script, Reader(script, transcript_text).read(see(script))
