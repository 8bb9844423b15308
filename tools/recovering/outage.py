"""Scripts with an outage, at random: a calm part, some ticks in which little or nothing comes, and a part in which all comes again."""
import random

from wired.program import Asked

ROOMS = 264, 400, 1497
SIZES = 128, 256, 1024


class Outage:
    """The script of a seed. It asks the program which frames were sent, so that some of them come in the outage, in any order and more than once."""

    def __init__(self, seed):
        self.random = random.Random(seed)
        self.lines = []
        self.program = Asked("a")
        self.frames, self.ends, self.calling, self.called = 0, 0, [], []
        self.systems = []  # of each connection those of its two ends

    def add(self, line):
        """Adds a line."""
        self.lines.append(line)
        self.program.add(line)

    def hear(self):
        """Takes what the program tells of the lines up to here."""
        told, _ = self.program.ask()
        for line in told:
            fields = line.split(" ")
            if fields[0] == "frame":
                self.frames = int(fields[1])
            elif fields[0] in ("connect", "incoming"):
                self.ends = int(fields[1])
            elif fields[0] == "confirm":
                self.calling.append(int(fields[1]))
            elif fields[0] == "accept":
                self.called.append(int(fields[1]))

    def settled(self, line):
        """Adds a line, and a `settle`."""
        self.add(line)
        self.add("settle")
        self.hear()

    def set_up(self):
        """Times by which the outage is some ticks long."""
        some = self.random
        t1, n, w = some.randint(2, 8), some.randint(2, 5), some.randint(1, 10)
        longest = some.randint(1, (n - 1) * t1)
        times = {"life": some.randint(4, 32), "t1": t1, "n": n, "w": w, "i": min(255, 2 * w + max(1, longest - some.randint(0, 2))),
                 "credit": some.choice((1, 2, 4, 8, 15))}
        self.times = times
        for key in times:
            self.add("set %s %d" % (key, times[key]))
        for line in ("lan x %d %d" % (some.randint(1, 3), some.choice(ROOMS)), "es a 490a00", "es b 490b00", "port a x 02000000000a",
                     "port b x 02000000000b", "route a 490b b x", "route b 490a a x", "tsap a aa", "tsap b bb", "start"):
            self.add(line)

    def connect(self):
        """A connection, in a calm part."""
        some = self.random
        options = "%s %d %s %s -" % (some.choice(("normal", "extended")), some.choice(SIZES), some.choice(("exp", "exp", "noexp")),
                                     some.choice(("sum", "nosum")))
        here, there = some.choice(("ab", "ba"))
        self.systems.append((here, there))
        self.settled("connect %s %s %s %s %s" % (here, here * 2, there, there * 2, options))
        self.settled("accept %d %s" % (self.ends, options))

    def user_line(self):
        """A line of a user of an open end."""
        some = self.random
        end = some.choice(self.calling + self.called)
        kind = some.random()
        if kind < 0.6:
            return "data %d %s" % (end, some.randbytes(some.choice((1, 3, 100, 300, 700))).hex())
        if kind < 0.8:
            return "expedite %d %s" % (end, some.randbytes(some.randint(1, 16)).hex())
        return "window %d %d" % (end, some.choice((0, 1, 2, 3, 8, 15)))

    def deliveries(self):
        """Some of the frames that may be in time, in any order."""
        for _ in range(self.random.choice((0, 0, 1, 2, 5))):
            self.add("deliver %d %s" % (max(1, self.frames - self.random.randint(0, 6)), self.random.choice("ab")))

    def reverse(self, lines, system):
        """Adds the lines, and then delivers to the system the frames that they make, the latest first."""
        first = self.frames
        for line in lines:
            self.add(line)
        self.hear()
        for frame in range(self.frames, first, -1):
            self.add("deliver %d %s" % (frame, system))

    def end_reversed(self, number):
        """The last tick of an outage in which the called end of a connection lowered its credit, and was not heard: DTs outside of it come first, and the
        AKs that say so last. So what is outstanding then goes again T1 later."""
        units = ["data %d %02x" % (self.calling[number], unit) for unit in range(self.random.randint(2, 4))]
        here, there = self.systems[number]
        self.reverse(units, there)
        first = self.frames
        self.hear()
        for frame in range(self.frames, first, -1):
            self.add("deliver %d %s" % (frame, here))

    def make(self):
        """The lines of the script."""
        some = self.random
        self.set_up()
        for _ in range(some.choice((1, 1, 2))):
            self.connect()
        for _ in range(some.randint(0, 12)):
            self.settled(some.choice((self.user_line(), "tick")))
        bound = min((self.times["n"] - 1) * self.times["t1"] - 1, self.times["i"] - 2 * self.times["w"])
        is_deaf = some.random() < 0.5
        reversed_at = some.randrange(len(self.called)) if is_deaf else None
        if is_deaf:
            self.add("window %d 1" % self.called[reversed_at])
        for tick in range(max(1, bound - some.choice((0, 0, 0, 1, 2))) + 1):
            if tick:
                self.add("tick")
            for _ in range(some.choice((0, 0, 1, 3))):
                self.add(self.user_line())
            if not is_deaf:
                self.hear()
                self.deliveries()
        if is_deaf:
            self.hear()
            self.end_reversed(reversed_at)
        self.add("settle")
        for _ in range(max(2 * self.times["t1"], self.times["i"]) + 2):
            self.settled("tick")
            if some.random() < 0.2:
                self.settled(self.user_line())
        for end in self.calling + self.called:
            self.settled("window %d 15" % end)
        self.program.end()
        return "".join(line + "\n" for line in self.lines)


def script(seed):
    """The script of a seed, as text."""
    return Outage(seed).make()
