"""Which lines may be handed on to a run: those that the program takes, of systems that live here."""
import os
import subprocess
import tempfile

from .command import REFUSED, TOOLS
from .program import explanation, transcript
from .waiting import Asked, WHEN

NOT_TYPED = {
    "tick": "the clock ticks by itself",
    "deliver": "frames are delivered by the wires",
    "settle": "frames are delivered by the wires",
    "inject": "frames come in by the wires",
}
NAMES_ITS_SYSTEM = ("connect", "unit", "restart")
COMMENTS = ("distance.awk", "comments.awk", "lossy-comments.awk")  # what looks at such comments, beside ./osi lossy
OF_LOSSES = (b"#losses", b"#calm", b"#down", b"#up", b"#lan")


class Typed:
    """Looks lines through, before they are handed on: a line that the program refuses would end the run."""

    def __init__(self, setup, here):
        self.setup = setup
        self.here = here
        self.events = []  # for which the next line waits
        self.is_faulty = False  # whether a comment above it has a fault

    def look(self, lines):
        """Of lines, octets without line feeds, those that may be handed on, each with the events for which it waits; and the
        explanations, texts, of those that may not. Empty lines and comments, but for those that losses read, do nothing, and are neither."""
        lines = [line[:-1] if line.endswith(b"\r") else line for line in lines]
        faults = faults_of([line for line in lines if is_when(line)])
        wanted, explanations = [], []
        for number, line in enumerate(lines):
            reason = None
            if is_when(line):
                reason = self.take_event(line, faults.pop(0))
            elif line.startswith(b"#"):
                reason = of_wires(line)
            elif line:
                reason, asked = self.reason(line), self.asked(line)
                wanted += [] if reason else [(number, asked)]
            explanations += [(number, reason)] if reason else []
        taken = []
        while wanted:
            count = self.count_taken([asked.line for _, asked in wanted])
            taken += [asked for _, asked in wanted[:count]]
            explanations += [(number, self.explain(asked.line)) for number, asked in wanted[count:count + 1]]
            wanted = wanted[count + 1:]
        return taken, [text for _, text in sorted(explanations)]

    def take_event(self, line, fault):
        """Takes a line `#when EVENT`. Gives its fault as a text, or None."""
        if fault:
            self.is_faulty = True
            return "not handed on, nor is the line below it: %s: column %s: %s: %s" % (line[:60].decode("ascii", "replace"), *fault)
        self.events.append(line[len(WHEN) + 1:])
        return None

    def asked(self, line):
        """A line, with the events of the comments above it."""
        events, self.events, self.is_faulty = self.events, [], False
        return Asked(line, events)

    def left_over(self):
        """What is told at the end of the input of comments that have no line below them; None of none."""
        return "`%s` has no line below it" % (WHEN + b" " + self.events[-1]).decode("ascii", "replace") if self.events else None

    def reason(self, line):
        """Why a line is not handed on, before the program is asked; or None."""
        if self.is_faulty:
            return "not handed on: %s: the comment above it has a fault" % line[:60].decode("ascii", "replace")
        reason = self.elsewhere(line.decode("ascii", "replace"))
        return reason and "not handed on: " + reason

    def elsewhere(self, line):
        """Why a line is none for the users of the systems here, or None."""
        word, *fields = line.split(" ")
        if word in NOT_TYPED:
            return "%s: %s" % (word, NOT_TYPED[word])
        if word in NAMES_ITS_SYSTEM and fields and fields[0] in self.setup.kinds and fields[0] not in self.here:
            return "%s: the system %s lives elsewhere; here: %s" % (line[:60], fields[0], ", ".join(self.here))
        return None

    def script(self, lines):
        """A script of the set-up and the lines."""
        return b"".join(line + b"\n" for line in self.setup.lines + [b"start"] + lines)

    def count_taken(self, lines):
        """How many of the lines, from the first, the program takes."""
        told = transcript(self.script(lines))[1][-1].split(" ")
        return int(told[1]) - len(self.setup.lines) - 2 if told[0] == "refused" else len(lines)

    def explain(self, line):
        """Why the program refuses a line, and what to do: as ./osi explain has it, without its place in the script."""
        with tempfile.NamedTemporaryFile(prefix="osi-live-") as file:
            file.write(self.script([line]))
            file.flush()
            first, *more = explanation(file.name) or ["::the program refuses the line"]
            place = first[len(file.name) + 1:].split(":", 2)
        return "\n".join(["not handed on: column %s:%s" % (place[1], place[2]) if len(place) == 3 else "not handed on"] + more)


def is_when(line):
    """Whether a line is a comment `#when`."""
    return line.split(b" ")[0] == WHEN


def of_wires(line):
    """Of a comment that losses read, and that a run on wires has no use for, why it is left out; None of another one."""
    word = line.split(b" ")[0]
    return "left out: %s: what is lost, the wires lose" % word.decode() if word in OF_LOSSES else None


def faults_of(comments):
    """Of each line `#when` its first fault, the column, the cause and what is wanted; or None. They are those of ./osi lossy."""
    faults = []
    while len(faults) < len(comments):
        script = b"".join(line + b"\ndata 1 00\n" for line in comments[len(faults):])
        told = subprocess.run(["awk"] + [word for name in COMMENTS for word in ("-f", os.path.join(TOOLS, name))], input=script, stdout=subprocess.PIPE, check=False)
        line, *fault = told.stdout.decode().strip().split(" ", 3)
        if not fault:
            return faults + [None] * (len(comments) - len(faults))
        faults += [None] * ((int(line) - 1) // 2) + [fault]
    return faults


def refusal_of(path, lines):
    """Why the program refuses a set-up, the lines of a file up to `start`; None where it takes it."""
    status, _ = transcript(b"".join(line + b"\n" for line in lines) + b"start\n")
    return "\n".join(explanation(path)) if status == REFUSED else None
