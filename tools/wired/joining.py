"""./osi together: of the logs of all systems that took part, one script of what was seen.

The lines of all logs stand in the order of their clocks: those of a tick behind the one line `tick` that is for all. Each `inject` of
octets that a system of a log sent becomes a `deliver` of that frame; ends have the numbers that they have in the whole. So the script
has no `inject`, and what is claimed of such scripts holds of it. Its transcript is then compared with that of each log, event by event.

Several logs of one system follow one another: it was ended, and began again. Behind each of them but the last stands a line `restart` of it.
The network of such a system goes on in the script, and began anew in its log: so its PDUs have other identifiers, and pieces of units that
it held before may be given up in the script alone.
"""
from collections import namedtuple

from . import program
from .command import Fault, REFUSED, TOO_MUCH, WRONG_WORDS
from .frame import destination, source, without_identifiers
from .story import OF_END, Part, shown, Teller

BOUND_MOST = 16  # ticks
NO_END = 999999999  # the number of no end
LEFTOVER = "a1", "0"  # the reason and the place with which pieces are given up whose unit did not become whole
# A frame that a log tells of: the log, its place among the frames of the log's systems, and the tick of the clock.
Source = namedtuple("Source", "logged place tick")


class Logged:
    """A log, what its own run tells of its systems, and what of it is in the whole."""

    def __init__(self, log):
        self.log = log
        self.own = Part(log.systems, 0)
        self.seen = Part(log.systems)  # what the program tells while the script is made
        self.again = []  # those of its systems that began again in a later log
        self.follows = False  # whether a system of it is in an earlier log
        self.next = 0  # the first entry that is not in the script
        self.last_line = 0  # the number of its last line in the script, of those that do something
        self.run()

    def run(self):
        """Runs the log alone. Fault: a line of it is refused."""
        status, transcript = program.transcript(self.log.octets)
        if status == REFUSED:
            _, line, column, cause = transcript[-1].split(" ")
            raise Fault(REFUSED, "%s:%s:%s: the line is refused: %s" % (self.log.path, line, column, cause))
        teller = Teller([self.own], lambda line: self.own, program.frames(self.log.octets))
        for text in transcript:
            teller.tell(text)
        del self.log.entries[teller.line:]  # those behind a limit, with `toomuch`

    def sources(self):
        """Of each frame of its systems the LAN with the octets, and where it is from."""
        sent = [event for _, event in self.own.events if event[0] == "frame"]
        for place, (event, (_, tick)) in enumerate(zip(sent, self.own.frames)):
            yield (event[1], event[5]), Source(self, place, self.log.first + tick)

    def head(self, tick):
        """Its next entry, where that is of the tick."""
        entries = self.log.entries
        return entries[self.next] if self.next < len(entries) and entries[self.next].tick == tick else None

    def place(self):
        """The place of its next entry, as it is told."""
        return "%s:%d" % (self.log.path, self.log.entries[self.next].number)

    def is_over(self):
        """Whether all its entries are in the script."""
        return self.next == len(self.log.entries)

    def shares(self, other):
        """Whether a system is in both logs."""
        return not set(self.log.systems).isdisjoint(other.log.systems)

    def without_leftovers(self, events, alike, life):
        """Events of the whole without those that only tell of pieces that came before the systems began again."""
        if not self.follows:
            return events
        kept, ticks = [], 0
        for line, event in events:
            ticks += event[0] == "tick"
            is_old = event[0] == "discard" and event[2:] == LEFTOVER and ticks <= life + 1
            if is_old and (len(kept) == len(self.own.events) or alike(self.own.events[len(kept)][1]) != event):
                continue
            kept.append((line, event))
        return kept

    def difference(self, told, alike, life):
        """The first event in which what the whole tells differs from its own run, as a text; None where all agree. Events are compared as
        `alike` makes them."""
        mine = self.own.events
        others = self.without_leftovers([each for each in told.events if each[0] <= self.last_line], alike, life)
        for at in range(max(len(mine), len(others))):
            line, event = mine[at] if at < len(mine) else (len(self.log.entries), ())
            other = others[at][1] if at < len(others) else ()
            if alike(event) != alike(other):
                number = self.log.entries[min(line, len(self.log.entries)) - 1].number
                return "%s:%d: differs: %s here, and %s in the script" % (self.log.path, number, shown(event), shown(other))
        return None


class Whole:
    """The script of all, as it is made: its lines, each with the log whose line it is, and the program that is asked."""

    def __init__(self, setup, logs):
        self.setup = setup
        self.lines = []  # from `start` on
        self.owners = []
        self.asked = program.Asked(next(iter(setup.kinds)))
        self.teller = Teller([logged.seen for logged in logs])
        self.answered = 0
        self.questions = 0
        for line in setup.lines:
            self.asked.add(line.decode())

    def add(self, line, owner=None):
        """Adds a line. Fault: the program would not take so many."""
        if len(self.setup.lines) + len(self.lines) + self.questions + 2 > program.SCRIPT_LINES:
            raise Fault(TOO_MUCH, "the script would be longer than the program takes: 100,000 lines, with one for each question to it")
        self.lines.append(line)
        self.owners.append(owner)
        self.asked.add(line)

    def ask(self):
        """Asks what the lines so far make."""
        if self.answered == len(self.lines):
            return
        told, goes_on = self.asked.ask()
        self.questions += 1
        self.answered = len(self.lines)
        for text in told:
            self.teller.tell(text)
        if not goes_on:
            raise Fault(TOO_MUCH, "the script passes a limit of the program: 16,777,216 octets, or 4,194,304 events")

    def end(self, logged, place):
        """The number of the so many-th end of a log, from 1; that of no end, where it is not made yet, or never."""
        if len(logged.seen.ends) < place <= len(logged.own.ends):
            self.ask()
        return logged.seen.ends[place - 1] if 0 < place <= len(logged.seen.ends) else NO_END

    def script(self):
        """The script, octets."""
        return b"".join(line + b"\n" for line in self.setup.lines) + "".join(line + "\n" for line in self.lines).encode()


def unnumbered(event):
    """An event, a frame without the identifier of its PDU."""
    return event[:-1] + (without_identifiers(bytes.fromhex(event[-1])).hex(),) if event[:1] == ("frame",) else event


class Joining:
    """Makes the script of several logs of one set-up."""

    def __init__(self, logs):
        self.logs = logs
        self.mark_following()
        is_of_version_2 = any(logged.again or logged.log.setup().is_of_version_2 for logged in logs)
        self.setup = logs[0].log.setup().of_version_2() if is_of_version_2 else logs[0].log.setup()
        self.whole = Whole(self.setup, logs)
        self.base = min(logged.log.first for logged in logs)  # the tick of the clock that is tick 0 of the script
        self.sources = {}
        for logged in logs:
            for key, each in logged.sources():
                self.sources.setdefault(key, []).append(each)

    def mark_following(self):
        """Marks the logs of which a system is in another. Fault: such logs do not follow one another."""
        for earlier in self.logs:
            for later in self.logs:
                if later is earlier or not earlier.shares(later) or later.log.first > earlier.log.last:
                    continue
                if earlier.log.first > later.log.last:
                    continue
                raise Fault(WRONG_WORDS, "%s and %s are logs of one system, and overlap: the one goes from tick %d of the clock to tick %d, the other "
                            "from tick %d to tick %d" % (earlier.log.path, later.log.path, earlier.log.first, earlier.log.last, later.log.first,
                                                         later.log.last))
        for logged in self.logs:
            later = [each for each in self.logs if each.log.first > logged.log.last]
            logged.again = [name for name in logged.log.setup().end_systems(logged.log.systems) if any(name in each.log.systems for each in later)]
            for each in later:
                each.follows = each.follows or logged.shares(each)

    def make(self):
        """Makes the script, tick by tick, and gives it. Fault: it cannot be made, by the line of a log."""
        try:
            for tick in range(self.base, max(logged.log.last for logged in self.logs) + 1):
                self.go_to(tick)
                while any(logged.head(tick) for logged in self.logs):
                    self.go_on(tick)
            return self.whole.script()
        finally:
            self.whole.asked.end()

    def go_to(self, tick):
        """The clock goes on, by one line for all logs that have begun."""
        self.whole.add("start" if tick == self.base else "tick")
        for logged in self.logs:
            if logged.log.first == tick:
                logged.seen.first_tick = tick - self.base
            if logged.head(tick):
                self.pass_head(logged)

    def pass_head(self, logged):
        """The next entry of a log is in the script; behind the last one its systems begin again that are in a later log."""
        logged.next += 1
        logged.last_line = len(self.whole.lines)
        if logged.is_over():
            for name in logged.again:
                self.whole.add("restart " + name)

    def go_on(self, tick):
        """Takes the earliest line of a log that can stand next: a frame is sent before it is delivered."""
        waiting = sorted((logged for logged in self.logs if logged.head(tick)), key=lambda logged: logged.head(tick).time)
        for logged in waiting:
            line = self.line(logged, logged.head(tick).text, tick)
            if line:
                self.whole.add(line, logged)
                self.pass_head(logged)
                return
        self.refuse_clocks(waiting, tick)

    def line(self, logged, text, tick):
        """The line of the whole for an entry; None where it is a frame that is not sent yet."""
        word, *fields = text.split(" ")
        if word == "inject":
            number = self.frame_of(logged, fields, tick)
            return number and "deliver %d %s" % (number, fields[1])
        if word == "deliver":
            self.whole.ask()
            place = [number for number, _ in logged.own.frames].index(int(fields[0]))
            number = logged.seen.frames[place][0] if place < len(logged.seen.frames) else program.NO_FRAME
            return "deliver %d %s" % (number, fields[1])
        if word in OF_END and word != "connect":
            return " ".join([word, str(self.whole.end(logged, int(fields[0])))] + fields[1:])
        return text

    def frame_of(self, logged, fields, tick):
        """The number of the latest frame with the octets of a line `inject`, its fields; None where none is sent yet. Fault: no log
        tells of it, or it came late."""
        lan, system, octets = fields
        sources = self.sources.get((lan, octets.lower()))
        if not sources:
            raise Fault(REFUSED, "%s: %s" % (logged.place(), self.foreign(lan, system, bytes.fromhex(octets), tick)))
        for look in (lambda: None, self.whole.ask):
            look()
            sent = [each.logged.seen.frames[each.place] for each in sources if each.place < len(each.logged.seen.frames)]
            number, age = max((number, tick - self.base - sent_tick) for number, sent_tick in sent) if sent else (None, 0)
            if sent and age <= self.setup.bounds[lan]:
                return number
        if len(sent) == len(sources):
            raise Fault(REFUSED, "%s: %s" % (logged.place(), self.late(lan, system, age)))
        return None

    def late(self, lan, system, age):
        """What is told of a frame that is older than the bound of its LAN."""
        text = "the frame came to %s %d ticks after it was sent, and the bound of %s is %d: " % (system, age, lan, self.setup.bounds[lan])
        if age > BOUND_MOST:
            return text + "no bound is above %d" % BOUND_MOST
        return text + "`lan %s %d %d` in SETUP would do" % (lan, age, self.setup.rooms[lan])

    def foreign(self, lan, system, octets, tick):
        """What is told of a frame that no log tells of, and that came in a tick of the clock."""
        owner = self.setup.owner(lan, source(octets))
        text = "no system of a log sent this frame of %d octets, which came to %s on %s, from %s to %s: " % (
            len(octets), system, lan, source(octets).hex(), destination(octets).hex())
        if owner is None:
            return text + "that is the SNPA of no system of the set-up"
        logs = sorted((logged.log for logged in self.logs if owner in logged.log.systems), key=lambda log: log.first)
        if not logs:
            return text + "that is the SNPA of %s, of which no log is given" % owner
        if any(log.first <= tick < log.last for log in logs):
            return text + "that is the SNPA of %s, so it is forged, or was altered on its way" % owner
        return text + "that is the SNPA of %s, %s" % (owner, outside(logs, tick))

    def refuse_clocks(self, waiting, tick):
        """Fault: each of these logs waits for a frame. One came before the tick in which it was sent, or its sender does otherwise."""
        for logged in waiting:
            _, lan, system, octets = logged.head(tick).text.split(" ")
            first = min(self.sources[lan, octets.lower()], key=lambda each: each.tick)
            if first.tick > tick:
                raise Fault(REFUSED, "%s: the frame came to %s in tick %d of the clock, and was sent in tick %d, as %s tells: the clocks are too "
                            "far apart" % (logged.place(), system, tick, first.tick, first.logged.log.path))
        # Its sender does not send it in the script: so it did something else there before.
        found = dict(self.differences(self.whole.script()))
        raise Fault(REFUSED, found[first.logged] or "%s: the frame came before it was sent" % waiting[0].place())

    def alike(self):
        """What makes of an event what is compared: identifiers count only where no system began again."""
        return unnumbered if any(logged.follows for logged in self.logs) else lambda event: event

    def differences(self, script):
        """Runs the script, and compares what it tells of each log with the log's own run: of each the first difference, or None."""
        parts = {logged: Part(logged.log.systems, logged.log.first - self.base) for logged in self.logs}
        owners = self.whole.owners
        teller = Teller(list(parts.values()), lambda line: parts.get(owners[line - 1]), program.frames(script))
        for text in program.transcript(script)[1]:
            teller.tell(text)
        return [(logged, logged.difference(part, self.alike(), self.setup.life)) for logged, part in parts.items()]


def outside(logs, tick):
    """What is told of a frame that came in a tick in which none of the logs of its sender has more lines."""
    earlier = [log for log in logs if log.last <= tick]
    if not earlier:
        return "whose log %s begins only in tick %d of the clock, and the frame came in tick %d" % (logs[0].path, logs[0].first, tick)
    last = earlier[-1]
    return "whose log %s ends at tick %d (%d of the clock), and the frame came in tick %d of the clock: what it did from then on is missing" % (
        last.path, last.last - last.first, last.last, tick)
