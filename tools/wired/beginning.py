"""How systems begin: silent, where it is not known that nothing of an earlier run is on its way.

A system that ran before, and began again without its memory, does not know which references it used. A line `restart` makes its transport
entity silent for F ticks, after which nothing of the earlier run can come. It is not needed where the logs tell that the earlier run ended
more than F ticks ago, or where the user says so.
"""
from .clock import SECOND
from .command import Fault
from .log import Log, was_given_nothing

# How much of the end of a log a machine may lose where its power fails: what it wrote and had not put on the disk yet.
LOST_AT_MOST = 60 * SECOND


def silent_systems(network, here, logs, period, now):
    """The systems here that begin silent: end systems of which no log tells that they ended long enough ago."""
    ended = ends_of(logs, network, period)
    wait = network.frozen_ticks * period + LOST_AT_MOST
    return [name for name in network.end_systems(here) if name not in ended or ended[name] + wait >= now]


def ends_of(paths, network, period):
    """Of each system of these logs the time at which its last run ended; of none, where one of them tells nothing that can be relied on."""
    ended = {}
    for path in paths:
        try:
            if was_given_nothing(path):
                continue
            log = Log(path)
        except Fault:
            return {}
        if log.period != period or log.setup().unversioned() != network.unversioned():
            return {}
        for name in log.systems:
            ended[name] = max(ended.get(name, 0), (log.last + 1) * period)
    return ended
