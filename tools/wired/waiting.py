"""Lines that wait for events, as `#when EVENT` says above them: for the first line of the transcript that begins so, field by field; `*`
stands for any field. The lines behind a line that waits go on without it. ./osi lossy reads the same comments.
"""
import re
import tempfile
from collections import namedtuple

WHEN = b"#when"
ANY = b"*"

# A line to be handed on, and the events for which it waits: octets.
Asked = namedtuple("Asked", "line events")


def begins(line, wanted):
    """Whether a line of the transcript begins so, both as fields."""
    return len(line) >= len(wanted) and all(field in (ANY, other) for field, other in zip(wanted, line))


class Waiting:
    """The lines that wait, and the transcript so far, in a file that has no name: an event may have come already."""

    def __init__(self):
        self.told = tempfile.TemporaryFile(prefix="osi-live-")
        self.held = []  # each line with the events that have not come yet
        self.awaited = {}  # of the first field of each such event all fields of those that begin so

    def take(self, asked):
        """Whether a line has to wait; then it is kept."""
        events = {tuple(event.split(b" ")) for event in asked.events}
        missing = {event for event in events if not self.has_come(event)}
        if missing:
            self.held.append((asked.line, missing))
            for event in missing:
                self.awaited.setdefault(event[0], set()).add(event)
        return bool(missing)

    def has_come(self, event):
        """Whether the transcript so far has a line that begins so."""
        self.told.seek(0)
        fields = [b"[^ \\n]*" if field == ANY else re.escape(field) for field in event]
        return bool(re.search(b"(?m)^" + b" ".join(fields) + b"[ \\n]", self.told.read()))

    def hear(self, octets, lines):
        """Takes the next octets of the transcript, and the lines that they end. Gives the lines that wait no longer, in order."""
        self.told.write(octets)
        come = set()
        for line in lines if self.awaited else ():
            fields = line.split(b" ")
            come.update(event for event in self.awaited.get(fields[0], ()) if begins(fields, event))
        return self.release(come) if come else []

    def release(self, come):
        """The lines that waited for nothing but these events."""
        released = []
        for line, missing in self.held:
            missing -= come
            if not missing:
                released.append(line)
        self.held = [each for each in self.held if each[1]]
        for event in come:
            self.awaited[event[0]].discard(event)
        self.awaited = {word: events for word, events in self.awaited.items() if events}
        return released
