"""A tool's words, its faults, and the program that it takes.

The launcher names itself in OSI, the program in OSI_PROGRAM, and says by OSI_BUILT (yes, no) whether a tool may take that one: it is proved from these
sources, or the caller knows that it is not. OSI_SAYS has the reason of a no. A tool that is called by its own path is called again through the launcher.
"""
import argparse
import os
import sys

OLDEST = 3, 8  # of Python
TOOLS = os.path.dirname(os.path.dirname(os.path.realpath(__file__)))
REFUSED, WRONG_WORDS, WRITE_FAILED, TOO_MUCH, NO_BUILD, NO_PYTHON, INTERRUPTED = 1, 2, 4, 7, 125, 127, 130


class Fault(Exception):
    """What ends a tool: the status, and the text that standard error gets behind the tool's name."""

    def __init__(self, status, text):
        super().__init__(text)
        self.status = status


class Words(argparse.ArgumentParser):
    """The words of a tool; those that are wrong are a Fault."""

    def __init__(self):
        super().__init__(add_help=False, allow_abbrev=False)

    def error(self, message):
        """Fault: the words are wrong, for that reason."""
        raise Fault(WRONG_WORDS, message)


def tool():
    """The name of the tool that runs."""
    return os.path.basename(sys.argv[0])


def say(text):
    """Tells the user a line, on standard error."""
    sys.stderr.write("osi %s: %s\n" % (tool(), text))
    sys.stderr.flush()


def is_kept():
    """Whether an unproved program answers, which the launcher keeps: what the launcher says of it is in OSI_SAYS."""
    return bool(os.environ.get("OSI_SAYS"))


def program():
    """The path of the program: that of the launcher where an unproved one is kept. Fault: it is not built."""
    if os.environ.get("OSI_BUILT") != "yes":
        raise Fault(NO_BUILD, os.environ.get("OSI_SAYS") or "it takes the proved program, which is not built: ./osi-build builds it")
    return os.environ["OSI" if is_kept() else "OSI_PROGRAM"]


def environment():
    """The environment in which the tools in sh run the same program."""
    return dict(os.environ, OSI=program(), OSI_BUILT="yes")


def write_out(octets):
    """Writes to standard output. Fault: its reader has gone, or its device is full."""
    if sys.stdout is None:
        raise Fault(WRITE_FAILED, "a write failed: there is no standard output")
    try:
        sys.stdout.buffer.write(octets)
        sys.stdout.buffer.flush()
    except OSError as error:
        os.dup2(os.open(os.devnull, os.O_WRONLY), sys.stdout.fileno())  # what is left in the buffer goes there
        raise Fault(WRITE_FAILED, "a write failed: %s" % error.strerror)


def end(text, run):
    """Runs a tool whose help is `text` by `run(words)`, which gives the status, and ends the process with it."""
    words = sys.argv[1:]
    if "OSI_PROGRAM" not in os.environ:
        launcher = os.path.join(TOOLS, os.pardir, "osi")
        os.execv(launcher, [launcher, tool()] + words)
    if not words:
        sys.stderr.write(text.strip() + "\n")
        sys.exit(WRONG_WORDS)
    try:
        if sys.version_info < OLDEST:
            raise Fault(NO_PYTHON, "it takes python3 %d.%d or later, and the one on PATH is %s" % (*OLDEST, sys.version.split()[0]))
        if words in (["-h"], ["--help"]):
            write_out(text.strip().encode() + b"\n")
            sys.exit(0)
        sys.exit(run(words))
    except Fault as fault:
        say(str(fault) + ("; see ./osi %s --help" % tool() if fault.status == WRONG_WORDS else ""))
        sys.exit(fault.status)
