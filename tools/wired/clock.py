"""Ticks at whole multiples of a period, by the machine's clock: so machines that keep time tick alike.

A tick has a number: how many periods passed since the epoch of the clock. Times are in nanoseconds.
"""
import time
from decimal import Decimal, InvalidOperation

SECOND = 1000000000


def nanoseconds(text):
    """A decimal number of seconds in nanoseconds, to the microsecond; None where it is none, or above a day."""
    try:
        value = Decimal(text)
    except InvalidOperation:
        return None
    return int(value * 1000000) * 1000 if value.is_finite() and 0 <= value <= 86400 else None


def seconds(time_ns):
    """Nanoseconds as a decimal number of seconds, to the microsecond."""
    return "%d.%06d" % (time_ns // SECOND, time_ns % SECOND // 1000)


class Clock:
    """Tells which ticks are due; `skew` is how long before a tick frames are held back, that clocks so far apart fit."""

    def __init__(self, period, skew):
        self.period = period
        self.skew = skew
        self.tick = 0  # the number of the last one that was given
        self.late = 0  # how many were made up, behind a later one that was due as well
        self.latest = 0  # the most that one came behind its time
        self.is_back = False  # whether the machine's clock is before the last tick

    def begin(self, every, is_later):
        """Sets the clock to the tick that is, or with `is_later` to the next one; of these to the first that is a multiple of `every`, where
        that is not 0. Gives its time."""
        tick = time.time_ns() // self.period + is_later
        if every:
            tick += -tick % every
        self.tick = tick
        return tick * self.period

    def due(self):
        """The time of the next tick."""
        return (self.tick + 1) * self.period

    def is_near(self, now):
        """Whether the next tick is so near that frames are held back."""
        return self.due() - now <= self.skew

    def goes_back(self, now):
        """Whether the machine's clock went back before the last tick, once each time."""
        was_back, self.is_back = self.is_back, now < self.tick * self.period
        return self.is_back and not was_back

    def take_due(self, now):
        """The numbers of the ticks that are due, each once."""
        first, self.tick = self.tick + 1, max(self.tick, now // self.period)
        if self.tick >= first:
            self.late += self.tick - first
            self.latest = max(self.latest, now - first * self.period)
        return range(first, self.tick + 1)
