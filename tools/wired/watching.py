"""What a run waits for: files of any kind, and the signals that end it."""
import selectors
import signal
import socket

FOR_ROOM = selectors.EVENT_WRITE


class Watching:
    """Files that are waited for, each with what is called each time that it has something, or room."""

    def __init__(self):
        # One that takes files of any kind as standard input.
        self.selector = selectors.PollSelector() if hasattr(selectors, "PollSelector") else selectors.SelectSelector()
        self.files = set()

    def add(self, file, call, event=selectors.EVENT_READ):
        """Waits for a file."""
        self.selector.register(file, event, call)
        self.files.add(file)

    def remove(self, file):
        """Waits for it no more."""
        self.selector.unregister(file)
        self.files.discard(file)

    def wait(self, seconds):
        """Waits up to so many seconds, or with None for an event, and makes the calls. Gives whether there were any."""
        events = self.selector.select(seconds)
        for key, _ in events:
            if key.fileobj in self.files:
                key.data()
        return bool(events)


class Interrupts:
    """While it stands, a signal that ends a process calls `end` in its place, and a second one ends the process."""

    SIGNALS = signal.SIGINT, signal.SIGTERM, signal.SIGHUP

    def __init__(self, watching, end):
        self.watching = watching
        self.end = end

    def __enter__(self):
        self.reading, self.writing = socket.socketpair()
        self.reading.setblocking(False)
        self.writing.setblocking(False)
        signal.set_wakeup_fd(self.writing.fileno())
        for number in self.SIGNALS:
            signal.signal(number, self.on_signal)
        self.watching.add(self.reading, self.on_wakeup)

    def on_signal(self, _number, _frame):
        """The first signal has come: the next one has its usual effect."""
        for number in self.SIGNALS:
            signal.signal(number, signal.SIG_DFL)

    def on_wakeup(self):
        """What the first signal wrote has come."""
        self.watching.remove(self.reading)
        self.end()

    def __exit__(self, *_):
        signal.set_wakeup_fd(-1)
        self.reading.close()
        self.writing.close()
