"""What carries frames: an Ethernet interface (Linux), or datagrams of UDP, a frame in each."""
import errno
import os
import socket
import struct

from .command import Fault, WRONG_WORDS
from .frame import padded

AT_ONCE = 128  # the frames that are taken at once
FRAME_OCTETS = 65536  # more than any frame has
BUFFER_OCTETS = 4194304  # what is asked of the system, for frames that wait to be taken
ETH_P_802_2, SOL_PACKET, PACKET_ADD_MEMBERSHIP, PACKET_STATISTICS, PACKET_MR_PROMISC, PACKET_OUTGOING = 4, 263, 1, 6, 1, 4
SO_RCVBUFFORCE = 33


class Wire:
    """A socket that carries frames. `lost_out` counts frames that could not be put out; `strange` those that came from elsewhere."""

    def __init__(self, name, carrier):
        self.name = name
        self.socket = carrier
        self.strange = 0
        self.lost_out = 0
        self.why_lost = ""
        carrier.setblocking(False)
        for option in (socket.SO_RCVBUF, SO_RCVBUFFORCE):
            try:
                carrier.setsockopt(socket.SOL_SOCKET, option, BUFFER_OCTETS)
            except OSError:
                pass

    def fileno(self):
        """The descriptor, for a selector."""
        return self.socket.fileno()

    def take(self):
        """The frames that have come, up to a number."""
        frames = []
        try:
            while len(frames) < AT_ONCE:
                frame, sender = self.socket.recvfrom(FRAME_OCTETS)
                if self.is_of_wire(sender):
                    frames.append(frame)
        except BlockingIOError:
            pass
        except OSError as error:  # as of an interface that is down; frames that come later are taken
            self.why_lost = os.strerror(error.errno)
        return frames

    def give(self, frame):
        """Puts a frame out, or counts it."""
        try:
            self.put(frame)
        except OSError as error:
            self.lost_out += 1
            self.why_lost = os.strerror(error.errno)


class Ethernet(Wire):
    """An interface. All 802.3 frames on it are taken, since the SNPAs are those of the script."""

    def __init__(self, interface):
        if not hasattr(socket, "AF_PACKET"):
            raise Fault(WRONG_WORDS, "eth:%s: Ethernet interfaces are taken on Linux alone" % interface)
        try:
            carrier = socket.socket(socket.AF_PACKET, socket.SOCK_RAW, 0)
            carrier.bind((interface, ETH_P_802_2))
            number = socket.if_nametoindex(interface)
            carrier.setsockopt(SOL_PACKET, PACKET_ADD_MEMBERSHIP, struct.pack("iHH8s", number, PACKET_MR_PROMISC, 0, b""))
        except OSError as error:
            raise Fault(WRONG_WORDS, "eth:%s: %s" % (interface, self.reason(error)))
        super().__init__("eth:" + interface, carrier)

    @staticmethod
    def reason(error):
        """Why an interface cannot be had, and what to do."""
        if error.errno == errno.EPERM:
            return "it takes the right CAP_NET_RAW, which root has: sudo ./osi live .., or once " \
                "sudo setcap cap_net_raw+ep $(readlink -f $(command -v python3)), which gives it to all that python3 runs"
        if error.errno == errno.ENODEV:
            return "there is no interface of that name: ip link tells the names"
        return error.strerror

    @staticmethod
    def is_of_wire(sender):
        """Whether a frame came in: what the machine itself sends is told as such."""
        return sender[2] != PACKET_OUTGOING

    def put(self, frame):
        """Sends a frame."""
        self.socket.send(padded(frame))

    def lost_in(self):
        """How many frames came and found no room to wait in, since the last question; None where that is not known."""
        return struct.unpack("II", self.socket.getsockopt(SOL_PACKET, PACKET_STATISTICS, 8))[1]


class Datagrams(Wire):
    """A port of this machine, and one of another, between which each datagram of UDP is a frame."""

    def __init__(self, port, host, far):
        name = "udp:%s:%s:%s" % (port, host, far)
        try:
            self.far = socket.getaddrinfo(host, int(far), socket.AF_INET, socket.SOCK_DGRAM)[0][4]
            carrier = socket.socket(socket.AF_INET, socket.SOCK_DGRAM)
            carrier.bind(("127.0.0.1" if self.far[0].startswith("127.") else "", int(port)))
        except (OSError, OverflowError) as error:
            raise Fault(WRONG_WORDS, "%s: %s" % (name, getattr(error, "strerror", None) or error))
        super().__init__(name, carrier)

    def is_of_wire(self, sender):
        """Whether a datagram came from the far end; others are counted."""
        if sender == self.far:
            return True
        self.strange += 1
        return False

    def put(self, frame):
        """Sends a frame."""
        self.socket.sendto(frame, self.far)

    def lost_in(self):
        """How many datagrams came and found no room to wait in, as Linux tells; None where that is not known."""
        inode = str(os.fstat(self.fileno()).st_ino)
        try:
            with open("/proc/net/udp", encoding="ascii") as table:
                return next((int(row[12]) for row in map(str.split, table) if len(row) > 12 and row[9] == inode), None)
        except OSError:
            return None


def open_wire(text):
    """The wire that a word names: eth:NAME, or udp:PORT:HOST:PORT."""
    kind, _, rest = text.partition(":")
    if kind == "eth" and rest:
        return Ethernet(rest)
    parts = rest.split(":")
    if kind == "udp" and len(parts) == 3 and parts[0].isdigit() and parts[1] and parts[2].isdigit():
        return Datagrams(*parts)
    raise Fault(WRONG_WORDS, "%s is no wire: eth:NAME, or udp:PORT:HOST:PORT" % text)
