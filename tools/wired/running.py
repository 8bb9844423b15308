"""./osi live: systems of a set-up on a wire.

Two processes of the program run the same lines. `run` tells what happens, `frames` gives the octets: the program is deterministic, so
frame N of one is record N of the other. A frame that comes in is a line `inject`; a frame that a system sends goes out; the clock ticks.
"""
import collections
import os
import sys
import time

from . import log
from .clock import Clock, SECOND
from .command import Fault, INTERRUPTED, say, TOO_MUCH, write_out
from .frame import destination, HEADER, longest, Records, source, without_padding
from .program import EVENTS, LINE_OCTETS, Program, READ, SCRIPT_LINES, SCRIPT_OCTETS
from .waiting import Waiting
from .watching import FOR_ROOM, Interrupts, Watching

BACKLOG = 1 << 20  # octets that wait for the program: with more of them nothing is taken
NEAR = 0.9  # the part of a limit at which it is told
DRAINED = 100000  # frames, more than find room to wait in

# A frame that a system sent, as the transcript tells it.
Sent = collections.namedtuple("Sent", "number lan system snpa")


class Limits:
    """What the input and the transcript had so far, beside the limits of the program."""

    def __init__(self):
        self.lines = self.octets = self.events = 0
        self.is_told = False

    def given(self, octets):
        """Counts what was handed on, and tells once that a limit is near."""
        self.lines += octets.count(b"\n")
        self.octets += len(octets)
        limits = (self.lines, SCRIPT_LINES, "lines"), (self.octets, SCRIPT_OCTETS, "octets of input"), (self.events, EVENTS, "events")
        for count, most, what in limits:
            if count >= NEAR * most and not self.is_told:
                say("%d of the %d %s of a run are used; behind them it ends with `toomuch`" % (count, most, what))
                self.is_told = True


class Transcript:
    """Reads the transcript as it comes, for the frames that systems sent; `sent` are those whose octets are still to come."""

    def __init__(self):
        self.rest = b""
        self.sent = collections.deque()
        self.lines = 0

    def take(self, octets):
        """Takes the next octets, and gives the lines that they end."""
        lines = (self.rest + octets).split(b"\n")
        self.rest = lines.pop()
        self.lines += len(lines)
        for line in lines:
            if line.startswith(b"frame "):
                fields = line.split(b" ")
                self.sent.append(Sent(int(fields[1]), fields[2].decode(), fields[3].decode(), bytes.fromhex(fields[4].decode())))
        return lines


class Receiving:
    """Makes lines `inject` of the frames that come in on a LAN, and counts those that it makes none of."""

    def __init__(self, setup, here, lan):
        self.lan = lan
        self.takers = setup.receivers(lan, here)
        self.own = setup.snpas(lan, here)
        self.longest = longest(setup.rooms[lan])
        self.counts = collections.Counter()

    def lines(self, frames):
        """The lines for frames, in order."""
        lines = []
        for frame in frames:
            frame = without_padding(frame)
            systems = self.takers.get(destination(frame), ())
            fault = self.fault(frame, systems)
            self.counts[fault or "in"] += 1
            if not fault:
                octets = frame.hex()
                lines += [("inject %s %s %s" % (self.lan, system, octets)).encode() for system in systems]
        return lines

    def fault(self, frame, systems):
        """Why a frame is not handed on, or None."""
        if len(frame) < HEADER:
            return "runts"
        if not systems:
            return "for nobody here"
        if source(frame) in self.own:
            return "from a system here, that came back"
        if len(frame) > self.longest:
            return "longer than their LAN allows"
        return None


class Live:
    """The run: what comes in by standard input, the wires and the clock goes to the program, and its frames to the wires."""

    def __init__(self, setup, here, silent, wires, period, skew, stay, kept, typed):
        self.setup = setup.of_version_2() if silent else setup
        self.here = here
        self.silent = silent  # the systems that begin so
        self.first_tick = 0  # of the clock
        self.wires = wires  # of each LAN a list
        self.clock = Clock(period, skew)
        self.stay = stay  # nanoseconds behind the end of standard input; None is until the run is interrupted
        self.kept = kept  # the log, or None
        self.typed = typed
        self.waiting = Waiting()
        self.receiving = {lan: Receiving(setup, here, lan) for lan in wires}
        self.takers = {lan: setup.receivers(lan, here) for lan in setup.bounds}
        self.limits = Limits()
        self.transcript = Transcript()
        self.records = Records()
        self.frames = collections.deque()
        self.counts = collections.Counter()
        self.rest = b""  # of standard input, behind its last line feed
        self.stop = None  # the time at which the run ends, where that is known
        self.watching = Watching()
        self.taking = False  # whether standard input and the wires are waited for
        self.is_input_open = True
        self.is_ending = False
        self.run_process = self.frames_process = None

    # ---- what goes to the program

    def hand_on(self, octets):
        """Gives lines to both processes, and keeps them."""
        if self.kept:
            self.kept.write(octets)
        self.limits.given(octets)
        for process in (self.run_process, self.frames_process):
            process.give(octets)
            self.watch_input(process)

    def hand_on_lines(self, lines, now):
        """Hands on lines, of a time."""
        if lines:
            comment = log.at(now) if self.kept else b""
            self.hand_on(comment + b"\n".join(lines) + b"\n")

    def hand_on_typed(self, lines, now):
        """Hands on lines of users, but for those that come too early."""
        early = [line for line in lines if self.is_early(line)]
        for line in early:
            say("not handed on: %s: units that may be cut go from tick %d on: pieces of earlier ones may be on their way, with the same "
                "identifiers" % (line[:60].decode(), self.setup.life + 1))
        self.hand_on_lines([line for line in lines if line not in early], now)

    def is_early(self, line):
        """Whether a line is a raw unit that may be cut, of a system that may have sent others before it began."""
        word, *fields = line.decode().split(" ")
        is_young = self.clock.tick - self.first_tick <= self.setup.life
        return is_young and word == "unit" and fields[0] in self.silent and "s" in fields[2]

    def tick_where_due(self):
        """Hands on the ticks that are due, and gives the time."""
        now = time.time_ns()
        if self.clock.goes_back(now):
            say("the clock of the machine went back: the next tick comes in %.3f s" % ((self.clock.due() - now) / SECOND))
        ticks = self.clock.take_due(now)
        if ticks:
            self.hand_on(b"".join((log.at(now, tick) if self.kept else b"") + b"tick\n" for tick in ticks))
            if len(ticks) > 1 and len(ticks) == self.clock.late + 1:
                say("a tick came %.3f s late: it is made up" % (self.clock.latest / SECOND))
            self.set_taking()
        return now

    # ---- what is waited for

    def watch_input(self, process):
        """Waits for room in the pipe of a process, as long as something waits for it."""
        wanted = bool(process.waiting) and not process.input.closed
        if wanted and process.input not in self.watching.files:
            self.watching.add(process.input, lambda: self.on_room(process), FOR_ROOM)
        elif not wanted and process.input in self.watching.files:
            self.watching.remove(process.input)

    def set_taking(self, is_held=False):
        """Waits for standard input and the wires, but where frames are held back or the program is behind."""
        backlog = max(len(self.run_process.waiting), len(self.frames_process.waiting))
        taking = not self.is_ending and not is_held and backlog < BACKLOG
        if taking == self.taking:
            return
        self.taking = taking
        sources = [(wire, lambda lan=lan, wire=wire: self.on_wire(lan, wire)) for lan, wires in self.wires.items() for wire in wires]
        if self.is_input_open:
            sources.append((sys.stdin.fileno(), self.on_typed))
        for file, call in sources:
            if taking:
                self.watching.add(file, call)
            else:
                self.watching.remove(file)

    # ---- what comes

    def on_room(self, process):
        """The pipe of a process has room."""
        process.flush()
        self.watch_input(process)
        self.set_taking()

    def on_wire(self, lan, wire):
        """Frames have come. Ticks that became due meanwhile go before them: a frame may have been sent behind such a tick."""
        if self.clock.is_near(time.time_ns()):
            self.set_taking(is_held=True)
            return
        frames = wire.take()
        now = self.tick_where_due()
        self.hand_on_lines(self.receiving[lan].lines(frames), now)
        self.set_taking()

    def on_typed(self):
        """Lines have been typed, or standard input has ended."""
        try:
            octets = os.read(sys.stdin.fileno(), READ)
        except OSError as error:
            say("standard input cannot be read: %s" % error.strerror)
            octets = b""
        lines = (self.rest + octets).split(b"\n")
        self.rest = lines.pop()[:LINE_OCTETS + 1]  # one octet more than a line has is refused
        if not octets:
            lines = [self.rest] if self.rest else []
            self.watching.remove(sys.stdin.fileno())
            self.end_input()
        taken, explanations = self.typed.look(lines)
        for explanation in explanations:
            say(explanation)
        self.hand_on_typed([asked.line for asked in taken if not self.waiting.take(asked)], self.tick_where_due())
        if not octets and self.typed.left_over():
            say(self.typed.left_over())

    def on_transcript(self):
        """Lines of the transcript have come, or it has ended."""
        octets = self.run_process.take()
        if octets == b"":
            self.watching.remove(self.run_process.output)
            self.begin_end()
        elif octets:
            write_out(octets)
            released = self.waiting.hear(octets, self.transcript.take(octets))
            self.limits.events = self.transcript.lines
            if released and not self.is_ending:
                self.hand_on_typed(released, self.tick_where_due())

    def on_capture(self):
        """Octets of frames have come, or there are no more."""
        octets = self.frames_process.take()
        if octets == b"":
            self.watching.remove(self.frames_process.output)
        elif octets:
            self.frames.extend(self.records.take(octets))

    def put_out(self):
        """Puts out the frames of which both is there, what the transcript tells and the octets; those for systems here are delivered."""
        lines = []
        while self.frames and self.transcript.sent:
            sent, frame = self.transcript.sent.popleft(), self.frames.popleft()
            if sent.system not in self.here:
                continue
            for wire in self.wires.get(sent.lan, ()):
                wire.give(frame)
                self.counts["out"] += 1
            lines += [b"deliver %d %s" % (sent.number, system.encode())
                      for system in self.takers[sent.lan].get(sent.snpa, ()) if system != sent.system]
        if not self.is_ending:
            self.hand_on_lines(lines, time.time_ns())

    # ---- beginning and end

    def begin(self):
        """Hands on the set-up, at the tick of the clock from which hellos are in step with those of others."""
        # (a silent system begins in a later tick than its earlier run ended: so one script has room for both)
        begins = self.clock.begin(self.setup.hello_ticks, bool(self.silent))
        self.first_tick = self.clock.tick
        self.wait_until(begins)
        self.run_process, self.frames_process = Program("run"), Program("frames")
        for wires in self.wires.values():
            for wire in wires:
                self.counts["before the run began"] += drain(wire)
        comments = (log.head(self.clock.period, self.here), log.at(time.time_ns(), self.clock.tick)) if self.kept else (b"", b"")
        restarts = b"".join(b"restart %s\n" % name.encode() for name in self.silent)
        self.hand_on(comments[0] + b"".join(line + b"\n" for line in self.setup.lines) + comments[1] + b"start\n" + restarts)
        if self.silent:
            say(self.silence())
        self.watching.add(self.run_process.output, self.on_transcript)
        self.watching.add(self.frames_process.output, self.on_capture)
        self.set_taking()

    def wait_until(self, begins):
        """Waits for the time at which the run begins."""
        wait = begins - time.time_ns()
        if wait > SECOND:
            hellos = "hellos go each %d ticks of the clock: " % self.setup.hello_ticks if self.setup.hello_ticks else ""
            say("%sit begins in %.1f s" % (hellos, wait / SECOND))
        while time.time_ns() < begins:
            self.watching.wait(max(0, begins - time.time_ns()) / SECOND)

    def silence(self):
        """What is told of systems that begin silent."""
        ticks = self.setup.frozen_ticks
        return "silent up to tick %d, %.1f s from now: %s may have run before, so it makes no connection and answers none; where it never ran, " \
            "begin it with --fresh" % (ticks, (ticks + 1) * self.clock.period / SECOND, ", ".join(self.silent))

    def end_input(self):
        """Standard input has ended: without --stay a terminal's ends the run, and that of a file or a pipe does not."""
        self.is_input_open = False
        stay = self.stay
        if stay is None and sys.stdin.isatty():
            stay = 0
        if stay is not None:
            self.stop = time.time_ns() + stay

    def begin_end(self):
        """Ends the input of the program."""
        if not self.is_ending:
            self.is_ending = True
            self.set_taking()
            for process in (self.run_process, self.frames_process):
                process.close()
                self.watch_input(process)

    def interrupt(self):
        """A signal has come. Fault: the run has not begun."""
        if not self.run_process:
            raise Fault(INTERRUPTED, "interrupted before the run began")
        self.begin_end()

    def next_time(self):
        """The time of what comes by the clock, a tick or the end of the run."""
        return min(self.clock.due(), self.stop) if self.stop is not None else self.clock.due()

    def run(self):
        """Runs until the program has ended; its status."""
        with Interrupts(self.watching, self.interrupt):
            self.begin()
            outputs = (self.run_process.output, self.frames_process.output)
            while not self.watching.files.isdisjoint(outputs):
                self.watching.wait(None if self.is_ending else max(0, self.next_time() - time.time_ns()) / SECOND)
                self.put_out()
                if not self.is_ending and self.tick_where_due() >= (self.stop or sys.maxsize):
                    self.begin_end()
            return self.end()

    def end(self):
        """Tells what was counted, and gives the status of the run."""
        status = self.run_process.wait()
        self.frames_process.wait()
        for line, _ in self.waiting.held:
            say("waited for what never came: %s" % line[:60].decode())
        for text in self.summary():
            say(text)
        if status == TOO_MUCH:
            say("the run passed a limit, as `toomuch` tells")
        elif status != 0:
            say("the program ended with status %d" % status)
        return status

    def summary(self):
        """What was counted, in lines."""
        counts = sum((receiving.counts for receiving in self.receiving.values()), collections.Counter())
        yield "frames: %d in, %d out" % (counts.pop("in", 0), self.counts["out"])
        counts["before the run began"] = self.counts["before the run began"]
        wires = [wire for wires in self.wires.values() for wire in wires]
        counts["from elsewhere than the wire's far end"] = sum(wire.strange for wire in wires)
        counts["still waiting when the run ended"] = sum(map(drain, wires))
        counts["lost, as no room was left for them to wait in"] = sum(wire.lost_in() or 0 for wire in wires)
        for what, count in counts.items():
            if count:
                yield "frames not handed on, %s: %d" % (what, count)
        for wire in wires:
            if wire.why_lost:
                yield "frames not put out on %s: %d (%s)" % (wire.name, wire.lost_out, wire.why_lost)
            if wire.lost_in() is None:
                yield "how many frames were lost before %s was read is not known on this machine" % wire.name
        if self.clock.late:
            yield "ticks made up: %d; the latest came %.3f s behind its time" % (self.clock.late, self.clock.latest / SECOND)


def drain(wire):
    """Takes what has come so far, and gives how many frames that were; of a wire on which more come all the time, a part."""
    count = 0
    frames = wire.take()
    while frames and count < DRAINED:
        count += len(frames)
        frames = wire.take()
    return count
