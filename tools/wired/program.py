"""Processes of the program that lines are given to."""
import os
import select
import signal
import subprocess

from .command import environment, program, TOOLS
from .frame import Records

LINE_OCTETS, SCRIPT_LINES, SCRIPT_OCTETS, EVENTS = 40000, 100000, 16777216, 4194304
READ = 1 << 18  # the octets that are read at once
NO_FRAME = 999999999  # the number of no frame


class Program:
    """One process of the program. Lines go in and octets come out; no call waits."""

    def __init__(self, word):
        # A session of its own: Ctrl-C is the tool's, which ends the input, and so the run.
        self.process = subprocess.Popen([program(), word], stdin=subprocess.PIPE, stdout=subprocess.PIPE, bufsize=0, start_new_session=True)
        self.input, self.output = self.process.stdin, self.process.stdout
        os.set_blocking(self.input.fileno(), False)
        os.set_blocking(self.output.fileno(), False)
        self.waiting = bytearray()
        self.closing = False

    def give(self, octets):
        """Gives octets, as many as the pipe takes; the rest waits."""
        self.waiting += octets
        self.flush()

    def close(self):
        """Ends the input, behind all that waits."""
        self.closing = True
        self.flush()

    def flush(self):
        """Writes of what waits as much as the pipe takes."""
        try:
            while self.waiting and not self.input.closed:
                del self.waiting[:os.write(self.input.fileno(), self.waiting[:READ])]
        except BlockingIOError:
            return
        except BrokenPipeError:  # the program has ended, as its output tells
            self.waiting.clear()
        if self.closing and not self.input.closed:
            self.input.close()

    def take(self):
        """What has come: octets, b"" where the output has ended, None where nothing is there yet."""
        try:
            return os.read(self.output.fileno(), READ)
        except BlockingIOError:
            return None

    def wait(self):
        """The status, once the output has ended."""
        return self.process.wait()

    def kill(self):
        """Ends the process at once."""
        self.process.send_signal(signal.SIGKILL)
        self.process.wait()


class Asked:
    """`osi run`, which is asked: lines are collected, and their transcript comes with the answer to a delivery of a frame that there is not."""

    def __init__(self, system):
        self.program = Program("run")
        self.question = ("deliver %d %s\n" % (NO_FRAME, system)).encode()
        self.answer = ("nosuch %d %s" % (NO_FRAME, system)).encode()
        self.lines = []
        self.rest = b""

    def add(self, line):
        """Collects a line."""
        self.lines.append(line.encode() + b"\n")

    def ask(self):
        """The lines of the transcript since the last question, and whether the program goes on."""
        self.program.give(b"".join(self.lines) + self.question)
        self.lines.clear()
        told = []
        while not told or told[-1] != self.answer:
            writing = [self.program.input] if self.program.waiting else []
            _, writable, _ = select.select([self.program.output], writing, [])
            if writable:
                self.program.flush()
            octets = self.program.take()
            if octets == b"":
                return told, False
            lines = (self.rest + (octets or b"")).split(b"\n")
            self.rest = lines.pop()
            told += lines
        return [line.decode() for line in told[:-1]], True

    def end(self):
        """Ends the process."""
        self.program.kill()


def run(word, script):
    """Runs a whole script, octets, by a word: the status, and what is written."""
    done = subprocess.run([program(), word], input=script, stdout=subprocess.PIPE, check=False)
    return done.returncode, done.stdout


def transcript(script):
    """Runs a whole script: the status, and the lines of its transcript."""
    status, octets = run("run", script)
    return status, octets.decode().split("\n")[:-1]


def frames(script):
    """The frames of a whole script, in order."""
    return Records().take(run("frames", script)[1])


def explanation(path):
    """What ./osi explain tells of a script with a refused line: its lines."""
    told = subprocess.run([os.path.join(TOOLS, "explain"), path], stdout=subprocess.PIPE, env=environment(), check=False)
    return told.stdout.decode().split("\n")[:-1]
