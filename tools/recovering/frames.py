"""What frames carry (ISO/IEC 8802-2 and 8802-3, X.233, X.224): the units of transport in the frames of a capture."""
from array import array

from wired.command import Fault, REFUSED

FILE_HEADER, RECORD_HEADER = 24, 16
MOST_READ = 64
LLC = bytes.fromhex("fefe03")
CLNP, DT_PDU, SEGMENTS_MAY = 0x81, 28, 0x80
KINDS = {0xE: "CR", 0xD: "CC", 0x8: "DR", 0xC: "DC", 0xF: "DT", 0x1: "ED", 0x6: "AK", 0x2: "EA", 0x7: "ER"}
NUMBERED = {"DT", "ED", "AK", "EA"}


class Capture:
    """The frames of a capture, by their numbers from 0, each read where it is asked for. Fault: it is none."""

    def __init__(self, octets):
        if octets[:4] not in (bytes.fromhex("a1b2c3d4"), bytes.fromhex("a1b23c4d")):
            raise Fault(REFUSED, "the capture is none that ./osi frames writes")
        self.octets, self.places = octets, array("L")
        self.read = {}  # the PDUs of frames that were read of late
        at = FILE_HEADER
        while at + RECORD_HEADER <= len(octets):
            end = at + RECORD_HEADER + int.from_bytes(octets[at + 8:at + 12], "big")
            if end > len(octets):
                break
            self.places.append(at)
            at = end

    def __len__(self):
        return len(self.places)

    def length(self, number):
        """The octets of a frame."""
        at = self.places[number]
        return int.from_bytes(self.octets[at + 8:at + 12], "big")

    def pdu(self, number):
        """The data PDU in a frame, or None: as a rule one is sent, and soon taken."""
        if number not in self.read:
            if len(self.read) >= MOST_READ:
                self.read.clear()
            at = self.places[number] + RECORD_HEADER
            self.read[number] = pdu_of(self.octets[at:at + self.length(number)])
        return self.read[number]


class Pdu:
    """A data PDU of the network: both addresses in hexadecimal, and which octets of which unit it has."""

    def __init__(self, octets):
        header, self.lifetime, flags, length = octets[1], octets[3], octets[4], int.from_bytes(octets[5:7], "big")
        at = 9
        self.to = octets[at + 1:at + 1 + octets[at]].hex()
        at += 1 + octets[at]
        self.source = octets[at + 1:at + 1 + octets[at]].hex()
        at += 1 + octets[at]
        self.text = octets[header:length]
        self.id, self.offset, self.total = None, 0, len(self.text)
        if flags & SEGMENTS_MAY:
            self.id = int.from_bytes(octets[at:at + 2], "big")
            self.offset = int.from_bytes(octets[at + 2:at + 4], "big")
            self.total = int.from_bytes(octets[at + 4:at + 6], "big") - header
        self.is_whole = len(self.text) == self.total  # whether it has all octets of its unit


def pdu_of(frame):
    """The data PDU in a frame, or None: a hello, an error report."""
    octets = frame[17:]
    if frame[14:17] != LLC or octets[0] != CLNP or octets[4] & 0x1F != DT_PDU:
        return None
    return Pdu(octets)


class Tpdu:
    """The head of a TPDU: its kind, its references, and where its formats are known its number."""

    def __init__(self, octets):
        self.kind = KINDS.get(octets[1] >> 4, "?")
        self.to = int.from_bytes(octets[2:4], "big")
        self.source = int.from_bytes(octets[4:6], "big")
        self.octets = octets

    def number(self, is_extended):
        """The number of a DT, an ED, an AK or an EA, as it stands on the wire."""
        return int.from_bytes(self.octets[4:8], "big") & 0x7FFFFFFF if is_extended else self.octets[4] & 0x7F


class Store:
    """Puts the segments of units together at one system. It forgets what is held longer than the unit's lifetime."""

    def __init__(self):
        self.held = {}

    def take(self, pdu, tick):
        """The octets of the unit that the PDU makes whole, or None."""
        if pdu.is_whole:
            return pdu.text
        key = pdu.source, pdu.to, pdu.id
        if key in self.held and self.held[key][0] <= tick:
            del self.held[key]
        _, parts = self.held.setdefault(key, (tick + pdu.lifetime, {}))
        parts[pdu.offset] = max(parts.get(pdu.offset, b""), pdu.text, key=len)
        octets = b""
        while len(octets) < pdu.total:
            part = next((text[len(octets) - at:] for at, text in parts.items() if at <= len(octets) < at + len(text)), b"")
            if not part:
                return None
            octets += part
        del self.held[key]
        return octets[:pdu.total]
