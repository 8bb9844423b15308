"""What is told of a run: t0, whether it is within the claim, and what became of each connection."""
from .claim import SENTENCES

LINE = 60  # the octets of a line of the script that are shown


def shown(step):
    """A line of the script, by its number."""
    return "line %d, `%s`" % (step.number, step.text if len(step.text) <= LINE else step.text[:LINE - 2] + "..")


def of_parts(name, script, parts):
    """From where on the claim speaks of the run, or why it does not."""
    times = "T1 %d, N %d, W %d, I %d" % tuple(script.times[key] for key in ("t1", "n", "w", "i"))
    lines = ["%s: %s, up to tick %d" % (name, times, script.steps[-1].tick)]
    if parts.recovering is None:
        where = "%s %s" % (shown(parts.out), parts.reason) if parts.out else "there is no `settle` that left nothing"
        return lines + ["outside the claim: " + where]
    step = script.steps[parts.recovering]
    above = "above it all comes too" if parts.out is None else "the last above it that takes the run out is %s: it %s" % (shown(parts.out), parts.reason)
    return lines + ["t0 is tick %d: from the `settle` of line %d on all comes; %s" % (step.tick, step.number, above), of_network(script)]


def of_network(script):
    """Whether claim 5 of docs/claims.md, which is proved, speaks of the run too."""
    reason = script.why_not_one_lan()
    return "tried and not proved: " + reason if reason else "proved, as claim 5 says of which ends: two end systems on one LAN"


def units(pair, place):
    """What each has shown of the other's units."""
    told = []
    for end, other in pair.ends():
        count = [sum(owner.count((kind, which), place) for kind in ("normal", "expedited")) for owner, which in ((other, 1), (end, 0))]
        told.append("end %d has shown %d of %d units" % (other.number, *count))
    return ", ".join(told)


def of_end(end):
    """When and why it left."""
    causes = {"user": "by its user", "restart": "since its system began again"}
    return "end %d left at tick %d, %s" % (end.number, end.left_tick, causes.get(end.why, "`%s`" % end.why))


def of_pair(claim, pair):
    """What became of a connection."""
    last = claim.settles[-1]
    recovering = claim.parts.recovering
    names = "ends %d of %s and %s" % (pair.calling.number, pair.calling.system,
                                      "%d of %s" % (pair.called.number, pair.called.system) if pair.called else "none")
    ends = [end for end, _ in pair.ends() if end]
    states = " and ".join(end.state(recovering) if end.made <= recovering else "not there" for end in ends)
    left = sorted((end for end in ends if end.left <= last), key=lambda end: end.left)
    if left:
        became = "; ".join(of_end(end) for end in left)
    elif pair.both_opened(last):
        became = "Opened at tick %d; %s" % (claim.tick(last), units(pair, last))
    else:
        became = " and ".join(end.state(last) for end in ends) + " at tick %d" % claim.tick(last)
    return "%s: at t0 %s; %s" % (names, states, became)


def ticks(count):
    return "1 tick" if count == 1 else "%d ticks" % count


def spared(longest):
    """How long an outage may be that ends no connection."""
    if longest < 1:
        return "with these T1, N, W and I none is so short that it surely ends no open connection"
    return "one of at most %s ends no open connection" % ticks(longest)


def of_claim(claim):
    """What became of each connection, and whether what is claimed of them holds."""
    lines = [of_pair(claim, pair) for pair in claim.ends.pairs]
    if claim.outage():
        lines.append("two open ends were up to date at tick %d last, so the outage has %s; %s" %
                     (claim.t0 - claim.outage(), ticks(claim.outage()), spared(claim.longest + claim.less)))
    return lines + (["%d broken" % len(claim.broken)] if claim.broken else ["the claim holds"])


def of_strange(name, claim):
    """What is strange, and excluded by no sentence."""
    return ["%s:%d (tick %d): not claimed: end %d %s" % (name, strange.step.number, strange.step.tick, strange.end.number, strange.told) for strange in claim.strange]


UNPROVED = "an unproved program made this run: what is proved is proved of the one that ./osi-build builds"


def of_broken(name, claim):
    """The sentences that do not hold: by the line of the script, the tick and the end."""
    return ["%s:%d (tick %d): end %d %s\n    claimed: %s" % (name, broken.step.number, broken.step.tick, broken.end.number, broken.told, SENTENCES[broken.name])
            for broken in claim.broken]
