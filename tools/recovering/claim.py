"""What is claimed of networks that lose no more, and where a run breaks it.

T1, N, W, I, M are the times of the `set` lines. t0 is the tick of the first `settle` that left nothing and from which on each line that does
anything is followed by a `settle`, no line is `deliver`, `inject` or `restart`, and nothing is dropped or refused for want of room. Each later
`settle` that left nothing is such a t0 too.
"""
from bisect import bisect_left
from collections import namedtuple

from .ends import NEVER

SENTENCES = {
    "shown": "from t0 + max(T1, W) on each of two ends has shown all that was submitted at the other",
    "order": "what is shown is what was submitted, in order and once",
    "exhausted": "an end is exhausted by what it had sent N times by t0, the last time T1 before, so at t0 + T1 at the latest",
    "inactive": "an end is inactive that took nothing for I ticks, the last of it by t0, so at t0 + W at the latest",
    "cause": "the first of two ends to go is exhausted or inactive, or its user disconnects",
    "partner": "neither end is Opened after the `settle` in which one of them went",
    "request": "from t0 + T1 on the called end of one that waits for its answer is indicated, or one of them has gone",
    "refused": "an end that waits for its answer goes by its user, exhausted, by protocol, or by the reason 128, 129, 131 or, without a `tsap` line, 3",
    "opening": "from t0 + T1 on two ends of which one was accepted are both Opened, or one of them has gone",
    "half-open": "from t0 + I on no end is Opened beside one that had left by t0",
    "half-accepted": "no end is in AkWait beside one that had left by t0: from t0 + T1 on where that was frozen or gone, else from t0 + 2 T1 on",
    "unanswered": "an indication that no user answers ends within I ticks",
    "outage": "no connection that was up to date before an outage of at most min((N - 1) T1 - 1, I - 2W) ticks goes by itself",
}
OWN_LINES = {"deliver": "delivers a frame by a line of its own", "inject": "injects a frame", "restart": "begins again a system"}
OWN_CAUSES = {"exhausted", "inactive"}
NAMED_CAUSES = {"user", "exhausted", "protocol", "128", "129", "131"}  # of an end in CrWait; and 3, where the selector has no `tsap` line

# A sentence that does not hold: the step, the end, the sentence's name, and what came instead.
Broken = namedtuple("Broken", "step end name told")
# What is not claimed, and still strange: the step, the end, and what came.
Strange = namedtuple("Strange", "step end told")


def why_not_settled(steps, place):
    """Why a step is none of a part in which all is settled, or None."""
    step = steps[place]
    if step.word in OWN_LINES:
        return OWN_LINES[step.word]
    if step.word not in ("settle", "start") and not (place + 1 < len(steps) and steps[place + 1].word == "settle"):
        return "has no `settle` behind it"
    return None


class Parts:
    """The parts of a script: up to `calm`, the place of a `settle`, nothing was lost; from `recovering` on nothing is any more. Each is a place
    or None. `out` is the step that ends what is within the claim, and `reason` why."""

    def __init__(self, script):
        self.script, self.steps = script, script.steps
        self.out = self.reason = None
        injected = next((step for step in self.steps if step.word == "inject"), None)
        self.end = len(self.steps)
        self.recovering = self.find_recovering()
        if injected:
            self.recovering, self.out, self.reason = None, injected, "is an `inject`"
        self.calm = None if injected else self.find_calm()

    def why_not(self, place):
        """Why the step is none of a part in which all comes, or None."""
        return why_not_settled(self.steps, place) or self.steps[place].lost

    def find_recovering(self):
        """The first `settle` from which on all comes."""
        found = None
        for place in range(self.end - 1, -1, -1):
            if self.steps[place].is_whole:
                found = place
            reason = self.why_not(place)
            if reason:
                self.out, self.reason = self.steps[place], reason
                break
        return found

    def find_calm(self):
        """The last `settle` up to which all came."""
        found = None
        for place in range(self.end):
            if self.why_not(place):
                break
            if self.steps[place].is_whole:
                found = place
        return found


class Claim:
    """The sentences, looked for in a run. With `less` each bound is so many ticks sharper than is claimed."""

    def __init__(self, script, parts, ends, less=0):
        self.script, self.parts, self.ends, self.less = script, parts, ends, less
        self.steps = script.steps
        self.t1, self.n, self.w, self.i = (script.times[key] for key in ("t1", "n", "w", "i"))
        self.limit = 2 * script.times["life"] + self.t1 * (self.n - 1)
        self.longer = max(self.t1, self.w)
        self.broken, self.strange = [], []
        self.settles = [place for place in range(parts.recovering, parts.end) if self.steps[place].is_whole]
        self.t0 = self.tick(parts.recovering)
        self.since = {}  # of each pair the first `settle` at t0 or later behind which both are Opened
        self.before = {}  # of each pair that was open before t0 the latest place, up to that of t0, at which both were up to date
        self.longest = min((self.n - 1) * self.t1 - 1, self.i - 2 * self.w)
        for place, end, kind, shown in ends.misshown:
            self.fail(place, end, "order", "shows as its %s unit %d what end %s did not submit as that" %
                      (kind, shown, end.partner.number if end.partner else "none"))
        for pair in ends.pairs:
            self.look_at(pair)
        self.broken.sort(key=lambda broken: broken.step.number)

    def tick(self, place):
        """The clock after the step."""
        return self.steps[place].tick

    def outage(self):
        """The most ticks from a place at which a pair was up to date to t0; 0 where none was open before."""
        return max((self.t0 - self.tick(place) for place in self.before.values()), default=0)

    def is_kept_outage(self):
        """Whether there was an outage, so short that no connection may go."""
        return 0 < self.outage() <= self.longest + self.less

    def missing(self, pair):
        """Whether something that was submitted was not shown when both were first Opened from t0 on."""
        first = self.since[pair]
        return any(other.count((kind, 1), first) < end.count((kind, 0), first) for end, other in pair.ends() for kind in ("normal", "expedited"))

    def waiting(self):
        """The connections that were on the way at t0: an end in CrWait or AkWait, and none that has left."""
        at = self.parts.recovering
        return [pair for pair in self.ends.pairs if pair.calling.made <= at and not pair.both_opened(at) and
                not any(end and end.left <= at for end, _ in pair.ends())]

    def settles_of(self, *ends):
        """Of the `settle` lines from t0 on those at which one of the ends stood, and the next one."""
        there = [end for end in ends if end]
        return self.settles[bisect_left(self.settles, min(end.made for end in there)):bisect_left(self.settles, max(end.left for end in there)) + 1]

    def fail(self, place, end, name, told):
        """A sentence does not hold; it is told once for an end."""
        if not any((broken.end, broken.name) == (end, name) for broken in self.broken):
            self.broken.append(Broken(self.steps[place], end, name, told))

    def wonder(self, end, told):
        """What an end went by is strange, and excluded by no sentence."""
        self.strange.append(Strange(self.steps[end.left], end, told))

    def look_at(self, pair):
        """Looks at a pair, over all of the run."""
        self.look_at_unanswered(pair)
        self.look_at_outage(pair)
        first = next((place for place in self.settles_of(pair.calling, pair.called) if pair.both_opened(place)), None)
        if first is not None:
            self.since[pair] = first
            self.look_at_opened(pair, first)
        self.look_at_request(pair)
        self.look_at_accepted(pair)
        if pair.called:
            for end, other in pair.ends():
                self.look_at_half(end, other)
        self.look_at_strange(pair)

    # -- two ends that are both Opened

    def look_at_opened(self, pair, first):
        """Both are Opened after the `settle` at `first`."""
        goes = min(end.left for end, _ in pair.ends())
        if goes < self.parts.end:
            self.look_at_going(pair, first)
        # (of two ends that were opening at t0 the ticks count from there)
        begin = self.tick(first)
        if pair.called.accepted <= self.parts.recovering:
            begin = self.t0
        for place in self.settles_of(pair.calling, pair.called):
            if place >= first and pair.both_opened(place) and self.tick(place) >= begin + self.longer - self.less:
                for end, other in pair.ends():
                    self.look_at_shown(place, end, other, begin)

    def look_at_shown(self, place, sender, receiver, begin):
        """All that was submitted at one is shown at the other, but for want of credit or by the number rule."""
        for kind in ("expedited", "normal"):
            submitted, shown = sender.count((kind, 0), place), receiver.count((kind, 1), place)
            if shown < submitted and not self.is_excused(place, sender, receiver, kind):
                self.fail(place, receiver, "shown", "has shown %d of the %d %s units of end %d at tick %d; t0 + max(T1, W) is %d" %
                          (shown, submitted, kind, sender.number, self.tick(place), begin + self.longer - self.less))

    def is_excused(self, place, sender, receiver, kind):
        """Whether a unit of that kind may be missing: by the number rule, or for want of credit."""
        if self.is_held(place, sender, "ED"):
            return True
        return kind == "normal" and (self.is_held(place, sender, "DT") or receiver.credit(place) == 0)

    def is_held(self, place, end, kind):
        """Whether the number rule holds back the next DT or ED of an end after the step, and that has its `held` line."""
        sendings = end.sent[kind]
        block, number = 1 << (29 if end.is_extended else 5), sendings.following(place)
        if number % block or number < 3 * block or (kind, number) not in end.held:
            return False
        last = sendings.last_between(number - 3 * block, number - 2 * block, place)
        return last is not None and last + self.limit >= self.tick(place)

    def look_at_going(self, pair, first):
        """Who of the two went first, why and when; and that the other one followed."""
        leaving = sorted((end for end, _ in pair.ends() if end.left < self.parts.end), key=lambda end: (end.left_tick, end.left))
        by_itself = [end for end in leaving if end.why in OWN_CAUSES]
        user = [end for end in leaving if end.why == "user"]
        if not by_itself and not user:
            end = leaving[0]
            self.fail(end.left, end, "cause", "goes at tick %d: `%s`" % (end.left_tick, end.why))
        for end in leaving:
            if end.why not in OWN_CAUSES and end.why not in ("128", "user"):
                self.fail(end.left, end, "cause", "goes at tick %d: `%s`" % (end.left_tick, end.why))
        for end in by_itself:
            if not user or user[0].left >= end.left:
                self.look_at_cause(end, first)
        after = next((place for place in self.settles if place >= leaving[0].left), None)
        for end, other in pair.ends():
            if after is not None and end.is_opened(after):
                self.fail(after, end, "partner", "is Opened still at tick %d; end %d went at tick %d: `%s`" %
                          (self.tick(after), other.number, other.left_tick, other.why))

    def look_at_cause(self, end, first):
        """An end that went by itself did so for what was lost before, in time."""
        begin, went = self.tick(first), end.left_tick
        latest = begin + (self.t1 if end.why == "exhausted" else self.w) - self.less
        if went > latest:
            self.fail(end.left, end, end.why, "goes at tick %d, and %s is %d" % (went, "t0 + T1" if end.why == "exhausted" else "t0 + W", latest))
        if end.why == "inactive":
            took = end.last_took(end.left)
            if took is None or took + self.i != went or took > begin:
                self.fail(end.left, end, "inactive", "goes at tick %d, and took something at tick %s; I is %d" % (went, took, self.i))
            return
        tries = end.sent["DT"].outstanding(first) + end.sent["ED"].outstanding(first)
        # (what the network did not take has no frame, so it may be a sending of any number)
        dropped = [tick for at, tick in self.ends.drops.get(end.system, []) if at <= first]
        is_last = [ticks for ticks in tries if ticks and (ticks[-1] + self.t1 == went or went - self.t1 in dropped)]
        most = max((len(ticks) for ticks in is_last), default=0)
        if most + len(dropped) < self.n:
            self.fail(end.left, end, "exhausted", "goes at tick %d, and had sent nothing %d times by tick %d, the last time at tick %d, but %d times at most" %
                      (went, self.n, begin, went - self.t1, most))

    # -- outages

    def is_up_to_date(self, pair, place):
        """Whether both are Opened after the step, and up to date: what is outstanding was first sent in that tick, and each took something less than W
        ticks before."""
        return pair.both_opened(place) and (place == self.parts.calm or all(self.is_end_up_to_date(end, place) for end, _ in pair.ends()))

    def is_end_up_to_date(self, end, place):
        """As `is_up_to_date`, of one end."""
        now, took = self.tick(place), end.last_took(place)
        if took is None or now >= took + self.w:
            return False
        # (of what the network did not take it is not known which number it was)
        if any(at <= place and tick + self.n * self.t1 >= now for at, tick in self.ends.drops.get(end.system, ())):
            return False
        return all(ticks and now + len(ticks) * self.t1 <= ticks[-1] + self.t1 for kind in ("DT", "ED") for ticks in end.sent[kind].outstanding(place))

    def look_at_outage(self, pair):
        """Where both were up to date before a short outage, neither goes by itself."""
        if not pair.called:
            return
        opened, gone = max(end.opened for end, _ in pair.ends()), min(end.left for end, _ in pair.ends())
        place = self.latest_up_to_date(pair, opened, min(gone, self.parts.recovering) - 1)
        if place is not None:
            self.before[pair] = place
        leaving = sorted((end for end, _ in pair.ends() if end.left < self.parts.end), key=lambda end: end.left)
        if not leaving or any(end.why in ("user", "restart") for end in leaving):
            return
        for begin, recovered in self.outages_of(pair, place):
            length = self.tick(recovered) - self.tick(begin)
            if length <= self.longest + self.less and self.is_up_to_date(pair, begin):
                end = leaving[0]
                self.fail(end.left, end, "outage", "goes at tick %d: `%s`; t0 - s is %d, at most %d" %
                          (end.left_tick, end.why, length, self.longest + self.less))
                return

    def outages_of(self, pair, place):
        """Each place before t0 at which the pair was up to date last, with t0; and each `settle` from t0 on, with the next one, which is a t0 too."""
        if place is not None:
            yield place, self.parts.recovering
        settles = self.settles_of(pair.calling, pair.called)
        yield from zip(settles, settles[1:])

    def latest_up_to_date(self, pair, first, last):
        """The latest place of these at which both are up to date, or None. Longer ago than any short outage only `settle` lines are looked at."""
        for place in range(last, first - 1, -1):
            is_near = self.t0 - self.tick(place) <= self.longest + self.less
            if (is_near or self.steps[place].is_whole) and self.is_up_to_date(pair, place):
                return place
        return None

    # -- ends that are not both Opened

    def is_silent(self, system, place):
        """Whether the system makes no end and takes nothing after the step, since it began again."""
        return system is not None and self.ends.is_silent(system, place, self.tick(place))

    def look_at_request(self, pair):
        """An end in CrWait, of which no user answered the called end: from T1 after each such `settle` on it waits for its user alone, or it went."""
        calling, called = pair.calling, pair.called
        since = None
        for place in self.settles_of(calling):
            if since is not None and self.tick(place) >= self.tick(since) + self.t1 - self.less:
                return self.look_at_asked(pair, since, place)
            if calling.state(place) != "CrWait":
                return self.look_at_named(pair, since) if since is not None else None
            if since is None and not self.is_answered(called, place) and not self.is_silent(calling.partner_system, place):
                since = place
        return None

    def is_answered(self, called, place):
        """Whether a called end that stands and is not frozen was answered by its user."""
        return called is not None and called.made <= place and called.accepted <= place and self.frozen_by(called) > place

    def look_at_asked(self, pair, since, place):
        """It was in CrWait T1 before; each `settle` from that at the place on."""
        calling, called = pair.calling, pair.called
        for later in self.settles_of(calling):
            if later < place or calling.state(later) != "CrWait":
                continue
            if called is None or called.made > later:
                what = "no end is indicated"
            elif called.state(later) == "UserWait":
                continue
            else:
                what = "end %d is %s" % (called.number, called.state(later))
            bound = self.tick(since) + self.t1 - self.less
            return self.fail(later, calling, "request", "waits at tick %d, and %s; t0 + T1 is %d" % (self.tick(later), what, bound))
        return self.look_at_named(pair, since)

    def look_at_named(self, pair, since):
        """Where it went without a confirm since that place, it did so for a named cause."""
        calling = pair.calling
        if calling.opened != NEVER or not since < calling.left < self.parts.end or calling.why in NAMED_CAUSES:
            return
        if calling.why == "3" and (calling.partner_system, calling.selector) not in self.script.selectors:
            return
        self.fail(calling.left, calling, "refused", "goes at tick %d: `%s`" % (calling.left_tick, calling.why))

    def look_at_accepted(self, pair):
        """Two ends of which the called one was accepted: from T1 after each such `settle` on both are Opened, or one has gone."""
        calling, called = pair.calling, pair.called
        since = None
        if called is None or called.accepted == NEVER:
            return
        for place in self.settles_of(called):
            if since is not None and self.tick(place) >= self.tick(since) + self.t1 - self.less:
                if calling.left > place < called.left and not pair.both_opened(place):
                    self.fail(place, called, "opening", "is %s at tick %d, and end %d is %s; t0 + T1 is %d" %
                              (called.state(place), self.tick(place), calling.number, calling.state(place), self.tick(since) + self.t1 - self.less))
                return
            if since is None and called.accepted <= place < min(calling.left, called.left):
                since = place

    def frozen_by(self, end):
        """The place from which on an end that left is surely frozen or gone."""
        if end.frozen != NEVER or end.left == NEVER:
            return end.frozen
        ends = 2 if end.left_by == "CrWait" else 1
        begin = bisect_left(self.settles, end.left)
        return next((place for place in self.settles[begin:] if self.tick(place) > end.left_tick + ends * self.n * self.t1), NEVER)

    def look_at_half(self, end, other):
        """An end whose partner had left: from I after each such `settle` on it is not Opened; from T1 or 2 T1 on it is not in AkWait."""
        frozen = self.frozen_by(other)
        begins = {}  # of each sentence the first `settle` from which on it counts: Opened, AkWait beside one that left, AkWait beside one that is frozen
        bounds = {"left": self.i, "leaving": 2 * self.t1, "frozen": self.t1}
        for place in self.settles_of(end):
            now = self.tick(place)
            for which, begin in begins.items():
                if now < self.tick(begin) + bounds[which] - self.less:
                    continue
                bound = self.tick(begin) + bounds[which] - self.less
                if which == "left" and end.is_opened(place):
                    return self.fail(place, end, "half-open", "is Opened at tick %d, and end %d left at tick %d; t0 + I is %d" %
                                     (now, other.number, other.left_tick, bound))
                if which != "left" and end.state(place) == "AkWait":
                    return self.fail(place, end, "half-accepted", "is AkWait at tick %d, and end %d left at tick %d; t0 + %sT1 is %d" %
                                     (now, other.number, other.left_tick, "" if which == "frozen" else "2 ", bound))
            if end.made <= place < end.left and other.left <= place and (not end.is_calling or end.opened <= place):
                begins.setdefault("left", place)
                if not end.is_calling and not self.is_silent(end.partner_system, place):
                    begins.setdefault("leaving", place)
                    if frozen <= place:
                        begins.setdefault("frozen", place)
        return None

    # -- of each run

    def look_at_unanswered(self, pair):
        """An indication is answered, or has ended in time."""
        for place in self.settles_of(pair.called) if pair.called else ():
            if pair.called.state(place) == "UserWait":
                if self.tick(place) >= pair.called.indicated + self.i - self.less:
                    self.fail(place, pair.called, "unanswered", "waits at tick %d for its user, since tick %d; I is %d" %
                              (self.tick(place), pair.called.indicated, self.i))

    # -- what no sentence excludes

    def look_at_strange(self, pair):
        """An end that goes as no end of the program does, since t0."""
        calling, called = pair.calling, pair.called
        for end, word in ((calling, "CR"), (called, "CC")):
            if end and self.went(end) and end.why == "exhausted" and end.left_by in ("CrWait", "AkWait") and end.system not in self.ends.drops:
                if len(end.calls) < self.n or end.calls[-1][1] + self.t1 != end.left_tick:
                    self.wonder(end, "is exhausted at tick %d, and sent its %s %d times, the last time at tick %s; N is %d, T1 is %d" %
                                (end.left_tick, word, len(end.calls), end.calls[-1][1] if end.calls else "none", self.n, self.t1))
        if not self.went(calling) or calling.left_by != "CrWait":
            return
        if calling.why == "129" and not self.is_full(calling):
            self.wonder(calling, "goes at tick %d: `129`, and %s has a reference free" % (calling.left_tick, calling.partner_system))
        if calling.why == "131" and called is None and not self.was_called_before(calling):
            self.wonder(calling, "goes at tick %d: `131`, and it has no called end" % calling.left_tick)
        if calling.why == "128" and (called is None or called.why not in ("user", "answertime")):
            self.wonder(calling, "goes at tick %d: `128`, and no called user refused or left" % calling.left_tick)

    def went(self, end):
        """Whether it left behind t0."""
        return self.parts.recovering < end.left < self.parts.end

    def was_called_before(self, calling):
        """Whether an earlier end with its reference had a called end, which may be frozen still."""
        return any(end.made < calling.made and not end.is_calling and (end.partner.system, end.partner.reference) == (calling.system, calling.reference)
                   for end in self.ends.ends.values())

    def is_full(self, calling):
        """Whether the references of the called system may all have been in use or frozen: as many ends were made there in F ticks, or stood."""
        ends = [end for end in self.ends.ends.values() if end.system == calling.partner_system and end.made <= calling.left]
        return len({end.reference for end in ends}) >= self.script.times["refs"]
