"""What tools/tests/live is made of: systems on a wire, the wire between them, and what is waited for.

All waits are for events, with one long deadline: no check relies on how fast a machine is.
"""
import heapq
import os
import random
import re
import select
import signal
import socket
import subprocess
import threading
import time

TOP = os.path.realpath(os.path.join(os.path.dirname(__file__), os.pardir, os.pardir))
DEADLINE = 60  # seconds
PROGRAM = os.environ.get("OSI_PROGRAM", os.path.join(TOP, "crates/osi/out/osi"))
ENVIRONMENT = dict(os.environ, OSI=PROGRAM, OSI_BUILT="yes", OSI_PROGRAM=PROGRAM)


GONE_BY_TIME = re.compile(r"gone \d+ (exhausted|inactive|answertime)")


class Wrong(Exception):
    """What a check did not find."""


class Busy(Exception):
    """The machine was too busy for the length of the tick."""


def free_ports(count):
    """Ports of UDP of this machine that nobody has."""
    sockets = [socket.socket(socket.AF_INET, socket.SOCK_DGRAM) for _ in range(count)]
    for each in sockets:
        each.bind(("127.0.0.1", 0))
    ports = [each.getsockname()[1] for each in sockets]
    for each in sockets:
        each.close()
    return ports


def together(*words):
    """Runs ./osi together: the status, the script, and what was said."""
    done = subprocess.run([os.path.join(TOP, "tools/together"), *words], stdout=subprocess.PIPE, stderr=subprocess.PIPE, env=ENVIRONMENT,
                          timeout=DEADLINE, check=False)
    return done.returncode, done.stdout.decode(), done.stderr.decode()


def transcript(script):
    """The transcript of a script, octets."""
    return subprocess.run([PROGRAM, "run"], input=script, stdout=subprocess.PIPE, timeout=DEADLINE, check=False).stdout


def shifted(folder, seconds):
    """An environment in which python3 has a clock that is so much ahead."""
    with open(os.path.join(folder, "sitecustomize.py"), "w", encoding="ascii") as file:
        file.write("import time\nreal = time.time_ns\ntime.time_ns = lambda: real() + %d\n" % round(seconds * 1e9))
    return dict(ENVIRONMENT, PYTHONPATH=folder)


class Side:
    """One ./osi live: its lines are typed here, and its transcript is waited for. Its clock is `ahead` by so many seconds. It begins with
    --fresh, unless it is to be `unsure`; `run` is which run of its systems it is, from 1, and so which log it writes."""

    def __init__(self, folder, setup, systems, *words, prefix=(), ahead=0.0, unsure=False, run=1):
        self.name = systems
        stem = os.path.join(folder, systems.replace(",", "-"))
        self.log = stem + (".log" if run == 1 else ".%d.log" % run)
        self.said = open("%s.%d.said" % (stem, run), "w+b")
        command = [*prefix, os.path.join(TOP, "tools/live"), setup, systems, *words, "--log", stem + ".log", *([] if unsure else ["--fresh"])]
        self.process = subprocess.Popen(command, stdin=subprocess.PIPE, stdout=subprocess.PIPE, stderr=self.said,
                                        env=shifted(folder, ahead) if ahead else ENVIRONMENT)
        self.octets = b""
        self.lines = []
        self.is_over = False
        self.gone = 0  # how many ends are gone by their timers, as was waited for
        self.changed = threading.Condition()
        self.reader = threading.Thread(target=self.read, daemon=True)
        self.reader.start()

    def read(self):
        """Reads the transcript, to its end."""
        rest = b""
        for octets in iter(lambda: os.read(self.process.stdout.fileno(), 65536), b""):
            *lines, rest = (rest + octets).split(b"\n")
            with self.changed:
                self.octets += octets
                self.lines += [line.decode() for line in lines]
                self.changed.notify_all()
        with self.changed:
            self.is_over = True
            self.changed.notify_all()

    def type(self, *lines):
        """Types lines; where the run has ended they are lost."""
        try:
            self.process.stdin.write("".join(line + "\n" for line in lines).encode())
            self.process.stdin.flush()
        except BrokenPipeError:
            pass

    def found(self, pattern, count=1):
        """The so many-th line of the transcript that begins with a pattern, or None."""
        return next((line for number, line in enumerate((line for line in self.lines if re.match(pattern, line)), 1) if number == count), None)

    def count_gone(self):
        """How many ends are gone by their timers."""
        return sum(1 for line in self.lines if GONE_BY_TIME.match(line))

    def wait(self, pattern, count=1):
        """Waits for such a line, and gives it. Wrong: it does not come. Busy: an end is gone by its timers in its place."""
        with self.changed:
            self.changed.wait_for(lambda: self.found(pattern, count) or self.is_over or self.count_gone() > self.gone, DEADLINE)
            found = self.found(pattern, count)
            if not found and self.count_gone() > self.gone:
                raise Busy("%s: an end is gone by its timers" % self.name)
            if not found:
                raise Wrong("%s: no line %s: %s%s" % (self.name, pattern, self.lines[-5:], " (it has ended)" if self.is_over else ""))
            self.gone = self.count_gone()
            return found

    def wait_ticks(self, count):
        """Waits until so many ticks have passed."""
        self.wait("tick")
        last = max(int(line.split()[1]) for line in list(self.lines) if line.startswith("tick "))
        self.wait("tick %d$" % (last + count))

    def units(self, word, end):
        """The octets of the lines of an end with that word, in order."""
        return [line.split()[2] for line in list(self.lines) if line.startswith("%s %d " % (word, end))]

    def end(self, status=0, last="done"):
        """Interrupts it, and gives what was said. Wrong: it does not end as it should, or its log has another transcript."""
        if self.process.poll() is None:
            self.process.send_signal(signal.SIGINT)
        came = self.process.wait(DEADLINE)
        self.reader.join(DEADLINE)
        try:
            self.process.stdin.close()
        except BrokenPipeError:
            pass
        self.said.seek(0)
        said = self.said.read().decode()
        if came != status or self.lines[-1:] != [last]:
            raise Wrong("%s: status %d, last line %s: %s" % (self.name, came, self.lines[-1:], said))
        with open(self.log, "rb") as log:
            if transcript(log.read()) != self.octets:
                raise Wrong("%s: the log has another transcript" % self.name)
        return said

    def kill(self):
        """Ends it, where a check went wrong."""
        if self.process.poll() is None:
            self.process.kill()
            self.process.wait()


class Between:
    """A wire between two ports, by a thread: of the frames LOSS in a hundred are lost, REPEAT come twice, and each copy comes after up to
    DELAY seconds; by a seed. `hold` keeps the frames that it picks, until `release`; `put` puts a frame of its own in."""

    def __init__(self, near, far, seed=1, loss=0, repeat=0, delay=0.0):
        # Of each side the port here, and that of the system there.
        self.ports = [near, far]
        self.sockets = []
        for here, _ in self.ports:
            each = socket.socket(socket.AF_INET, socket.SOCK_DGRAM)
            each.bind(("127.0.0.1", here))
            self.sockets.append(each)
        self.random = random.Random(seed)
        self.loss, self.repeat, self.delay = loss, repeat, delay
        self.hold = lambda frame: False
        self.held, self.passed, self.waiting = [], [], []
        self.is_over = False
        self.thread = threading.Thread(target=self.run, daemon=True)
        self.thread.start()

    def copies(self):
        """How many copies of a frame come."""
        return (self.random.randrange(100) >= self.loss) + (self.random.randrange(100) < self.repeat)

    def run(self):
        """Carries frames."""
        count = 0
        while not self.is_over:
            for each in select.select(self.sockets, [], [], 0.005)[0]:
                frame = each.recv(65536)
                side = 1 - self.sockets.index(each)
                if self.hold(frame):
                    self.held.append((side, frame))
                    continue
                for _ in range(self.copies()):
                    count += 1
                    heapq.heappush(self.waiting, (time.monotonic() + self.random.random() * self.delay, count, side, frame))
            while self.waiting and self.waiting[0][0] <= time.monotonic():
                _, _, side, frame = heapq.heappop(self.waiting)
                self.put(side, frame)

    def put(self, side, frame):
        """Puts a frame out, to the second side with 1."""
        self.passed.append((side, frame))
        self.sockets[side].sendto(frame, ("127.0.0.1", self.ports[side][1]))

    def release(self):
        """Lets the frames go on that are held."""
        self.hold = lambda frame: False
        for side, frame in self.held:
            self.put(side, frame)

    def end(self):
        """Ends the wire."""
        self.is_over = True
        self.thread.join()
        for each in self.sockets:
            each.close()
