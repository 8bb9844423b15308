"""Each end of a transport connection, from the events of a run and the frames that were sent and taken."""
from array import array
from bisect import bisect_right
from collections import deque

from wired.command import Fault, REFUSED

from .frames import NUMBERED, Store, Tpdu

DATA = {"DT", "ED", "AK", "EA"}  # what opens a called end
ANSWERS = {"AK": "DT", "EA": "ED"}  # what acknowledges which
UNITS = {"data": ("normal", 0), "got": ("normal", 1), "expedite": ("expedited", 0), "urgent": ("expedited", 1)}
FREEZES = {"answertime", "restart", "refuse"}  # causes by which an end is frozen at once, or stands no more
UNTAKEN = {"discard", "unknown", "silent", "badtpdu"}  # what is in the transcript of a frame that was delivered and not taken
NEVER = 1 << 60
MOST_AHEAD = 256  # the numbers that a window has at most


class Changes:
    """A number that changes: its values, each with the place of the step from which on it has it."""

    def __init__(self):
        self.places, self.values = array("q"), array("q")

    def set(self, place, value):
        """It has that value from the step on."""
        if not self.values or self.values[-1] != value:
            self.places.append(place)
            self.values.append(value)

    def at(self, place, default=None):
        """The value after the step."""
        found = bisect_right(self.places, place)
        return self.values[found - 1] if found else default


class Sendings:
    """The DTs or the EDs that an end sent, by their true numbers: when each was sent first, and each further time; and which are acknowledged."""

    def __init__(self):
        self.firsts, self.ticks = array("q"), array("q")
        self.again = {}  # of a number the (place, tick) of its further sendings
        self.acknowledged = Changes()  # the number that the partner expects

    def true(self, wire, is_extended):
        """The true number of one on the wire: at most a block past the next one, since what the network did not take has no frame."""
        following, modulus = len(self.firsts), 1 << (31 if is_extended else 7)
        ahead = (wire - following) % modulus
        return following + ahead - (modulus if ahead >= modulus // 4 else 0)

    def add(self, number, place, tick):
        """A number was sent."""
        if number < 0:
            return
        if number < len(self.firsts):
            self.again.setdefault(number, []).append((place, tick))
        while number >= len(self.firsts) and number - len(self.firsts) < MOST_AHEAD:
            self.firsts.append(place)
            self.ticks.append(tick)

    def following(self, place):
        """The number that is next after the step."""
        return bisect_right(self.firsts, place)

    def of(self, number, place):
        """The ticks at which a number was sent by the step."""
        return [self.ticks[number]] * (self.firsts[number] <= place) + [tick for at, tick in self.again.get(number, ()) if at <= place]

    def outstanding(self, place):
        """Of each number that is not acknowledged after the step the ticks of its sendings."""
        return [self.of(number, place) for number in range(max(0, self.acknowledged.at(place, 0)), self.following(place))]

    def last_between(self, first, end, place):
        """The latest tick by the step at which one of these numbers was sent, or None."""
        return max((ticks[-1] for ticks in (self.of(number, place) for number in range(max(0, first), end)) if ticks), default=None)


class End:
    """An end. Places are those of steps; NEVER is none."""

    def __init__(self, number, system, reference, place, partner):
        self.number, self.system, self.reference, self.partner = number, system, reference, partner
        self.made = self.indicated = place
        self.pair, self.is_calling, self.partner_system, self.selector = None, partner is None, None, None
        self.accepted = self.opened = self.left = self.frozen = NEVER
        self.why, self.left_tick, self.left_by = "", None, ""
        self.is_extended = False
        self.credits = Changes()
        self.units = {what: array("q") for what in (("normal", 0), ("normal", 1), ("expedited", 0), ("expedited", 1))}  # the places of what was submitted, shown
        self.waiting = {"normal": deque(), "expedited": deque()}  # what was submitted and is not shown
        self.sent = {"DT": Sendings(), "ED": Sendings()}
        self.calls = []  # the (place, tick) of each CR or CC
        self.took = Changes()  # the tick of what it took last
        self.held = set()  # what the number rule held back, by its `held` line: the kind and the number

    def state(self, place):
        """The state after a step, in the words of the standard."""
        if place >= self.left:
            return "gone"
        if place >= self.opened:
            return "Opened"
        if self.is_calling:
            return "CrWait"
        return "AkWait" if place >= self.accepted else "UserWait"

    def is_opened(self, place):
        """Whether it is Opened after the step."""
        return self.opened <= place < self.left

    def leave(self, place, tick, why):
        """It is no longer Opened, nor on the way to it. By which it is frozen at once, or not."""
        if self.left != NEVER:
            if why == "restart":
                self.frozen = min(self.frozen, place)
            return
        before = self.state(place)
        self.left, self.left_tick, self.why, self.left_by = place, tick, "user" if why == "refuse" else why, before
        if why in FREEZES or why.isdigit() or why == "exhausted" and before in ("CrWait", "AkWait"):
            self.frozen = place

    def count(self, what, place):
        """How many units of a kind, submitted or shown, there are after the step."""
        return bisect_right(self.units[what], place)

    def credit(self, place):
        """The credit that it gives after the step."""
        return self.credits.at(place)

    def last_took(self, place):
        """The tick of what it took last by the step."""
        return self.took.at(place)


class Pair:
    """The two ends of a connection: the calling one, and the called one or None."""

    def __init__(self, calling):
        self.calling, self.called = calling, None

    def ends(self):
        """Both ends, each with its partner."""
        return [(self.calling, self.called), (self.called, self.calling)]

    def both_opened(self, place):
        """Whether both are Opened after the step."""
        return self.called is not None and self.calling.is_opened(place) and self.called.is_opened(place)


class Ends:
    """All ends of a run, by their numbers, and in pairs."""

    def __init__(self, script, frames):
        self.script, self.frames = script, frames
        self.ends, self.pairs = {}, []
        self.latest = {}  # of a system and a reference the latest end
        self.stores = {}
        self.drops = {}  # of a system the places and ticks of what it sent and the network did not take
        self.restarts = {}  # of a system the places and ticks of its `restart` lines
        self.fault = None  # that the frames are of another run
        self.misshown = []  # of each end and kind the first unit that its partner did not submit as that: place, end, kind, how many were shown
        self.users = {title[:-2] + "01": name for name, title in script.titles.items() if script.kinds[name] == "es"}
        self.does = {name[3:]: getattr(self, name) for name in dir(self) if name.startswith("on_")}

    def step(self, place, step):
        """Takes the events of a step, in their order."""
        taken = {(event[0], event[1]) for event in step.events if event[0] in UNTAKEN} if len(step.events) > 1 else ()
        for at, event in enumerate(step.events):
            word = event[0]
            if word == "frame":
                self.send(place, step.tick, event)
            elif word == "deliver" and not self.fault:
                if not taken or not self.is_untaken(step.events, at, event[2]):
                    self.take(place, step.tick, int(event[1]), event[2])
            elif word in self.does and len(event) > 1:
                self.does[word](place, step.tick, event)

    @staticmethod
    def is_untaken(events, at, system):
        """Whether what was delivered by the event at that place was not taken."""
        for later in events[at + 1:]:
            if later[0] in ("deliver", "settled", "stopped"):
                return False
            if later[0] in UNTAKEN and later[1] == system:
                return True
        return False

    def is_silent(self, system, place, tick):
        """Whether the entity of a system is silent after the step, since it began again."""
        times = self.script.times
        frozen = 2 * times["life"] + times["i"] + times["n"] * times["t1"]
        return any(at <= place and tick <= when + frozen for at, when in self.restarts.get(system, ()))

    def make(self, event, place, partner):
        """A new end."""
        end = End(int(event[1]), event[2], int(event[3]), place, partner)
        end.credits.set(place, self.script.times["credit"])
        self.ends[end.number] = self.latest[end.system, end.reference] = end
        return end

    def on_drop(self, place, tick, event):
        self.drops.setdefault(event[2] if event[1] == "frame" else event[1], []).append((place, tick))

    def on_restart(self, place, tick, event):
        self.restarts.setdefault(event[1], []).append((place, tick))
        for end in self.ends.values():
            if end.system == event[1]:
                end.leave(place, tick, "restart")

    def on_connect(self, place, _, event):
        end = self.make(event, place, None)
        end.pair = Pair(end)
        end.partner_system, end.selector = self.users.get(event[6]), event[7]
        self.pairs.append(end.pair)

    def on_incoming(self, place, tick, event):
        calling = self.latest.get((self.users.get(event[4]), int(event[5])))
        if calling is None or not calling.is_calling or calling.pair.called is not None:
            raise Fault(REFUSED, "the transcript has `incoming %s` at tick %d, and no `connect` that it could answer" % (event[1], tick))
        end = self.make(event, place, calling)
        end.pair = calling.pair
        end.indicated = tick
        end.partner_system = calling.system
        calling.partner = calling.pair.called = end

    def on_accept(self, place, _, event):
        end = self.ends[int(event[1])]
        end.accepted = place
        end.is_extended = end.partner.is_extended = event[2] == "extended"

    def on_confirm(self, place, tick, event):
        end = self.ends[int(event[1])]
        end.opened = place
        end.took.set(place, tick)

    def on_gone(self, place, tick, event):
        self.ends[int(event[1])].leave(place, tick, event[2])

    def on_disconnect(self, place, tick, event):
        self.ends[int(event[1])].leave(place, tick, "user")

    def on_refuse(self, place, tick, event):
        self.ends[int(event[1])].leave(place, tick, "refuse")

    def on_window(self, place, _, event):
        self.ends[int(event[1])].credits.set(place, int(event[2]))

    def on_held(self, _place, _tick, event):
        self.ends[int(event[1])].held.add((event[2].upper(), int(event[3])))

    def unit(self, place, _, event):
        """A unit was taken of a user, or shown to one."""
        end, what = self.ends[int(event[1])], UNITS[event[0]]
        end.units[what].append(place)
        if not what[1]:
            end.waiting[what[0]].append(event[2])
            return
        submitted = end.partner.waiting[what[0]] if end.partner else ()
        if not submitted or submitted.popleft() != event[2]:
            self.misshown.append((place, end, what[0], len(end.units[what])))

    on_data = on_got = on_expedite = on_urgent = unit

    def send(self, place, tick, event):
        """A system sent a frame."""
        number = int(event[1])
        if number > len(self.frames) or self.frames.length(number - 1) != int(event[5]):
            self.fault = self.fault or Fault(REFUSED, "the capture is not of this transcript: frame %d has not %s octets" % (number, event[5]))
            return
        pdu = self.frames.pdu(number - 1)
        if not pdu or pdu.offset or self.users.get(pdu.source) != event[3]:
            return
        tpdu = Tpdu(pdu.text)
        if tpdu.kind in ("CR", "CC"):
            sender = self.latest.get((event[3], tpdu.source))
            if sender:
                sender.calls.append((place, tick))
            return
        end = self.latest.get((self.users.get(pdu.to), tpdu.to))
        sender = end and end.partner
        if sender and sender.system == event[3] and tpdu.kind in sender.sent:
            sendings = sender.sent[tpdu.kind]
            sendings.add(sendings.true(tpdu.number(sender.is_extended), sender.is_extended), place, tick)

    def take(self, place, tick, number, system):
        """A frame was delivered to a system, and taken."""
        pdu = self.frames.pdu(number - 1)
        if not pdu or self.users.get(pdu.to) != system:
            return
        octets = self.stores.setdefault(system, Store()).take(pdu, tick)
        tpdu = octets and Tpdu(octets)
        end = tpdu and self.latest.get((system, tpdu.to))
        if not end or tpdu.kind == "CR" or end.partner_system != self.users.get(pdu.source):
            return
        if place >= end.left and tpdu.kind in ("DC", "DR") and end.left_by in ("AkWait", "Opened"):
            end.frozen = min(end.frozen, place)
        if place > end.left:
            return
        if tpdu.kind not in NUMBERED and end.partner and tpdu.source != end.partner.reference:
            return
        end.took.set(place, tick)
        if tpdu.kind in ANSWERS:
            sendings = end.sent[ANSWERS[tpdu.kind]]
            expected = sendings.true(tpdu.number(end.is_extended), end.is_extended) + (tpdu.kind == "EA")
            if sendings.acknowledged.at(place, 0) < expected <= len(sendings.firsts):
                sendings.acknowledged.set(place, expected)
        if not end.is_calling and end.accepted <= place and end.opened == NEVER and tpdu.kind in DATA:
            end.opened = place
