"""802.3 frames, and the records of a capture that `osi frames` writes.

A frame is: destination, 6 octets; source, 6; length of what follows, 2; LLC header, 3; a network PDU; padding up to 60 octets.
"""
HEADER = 14
LLC = 3
SHORTEST = 60  # Ethernet pads a frame up to here
LONGEST_LENGTH = 1500  # a greater value in the length field is a type, and the frame none of 802.3
CLNP, MAY_BE_CUT, TYPE, ERROR_REPORT = 0x81, 0x80, 0x1f, 0x01  # the first octet of a PDU, and bits of the fifth
GROUP_OF = {"es": bytes.fromhex("09002b000004"), "is": bytes.fromhex("09002b000005")}


def destination(frame):
    """The SNPA or group that a frame is for."""
    return bytes(frame[:6])


def source(frame):
    """The SNPA that a frame says it comes from."""
    return bytes(frame[6:12])


def without_padding(frame):
    """The frame up to the end that its length field tells; as it is where that is no length, or is longer."""
    length = int.from_bytes(frame[12:HEADER], "big")
    return frame[:HEADER + length] if length <= LONGEST_LENGTH else frame


def padded(frame):
    """The frame as Ethernet wants it: of 60 octets at least."""
    return frame.ljust(SHORTEST, b"\0")


def longest(room):
    """The octets of the longest frame of a LAN whose network PDUs have so many octets at most."""
    return HEADER + LLC + room


def without_identifiers(frame):
    """The frame with zeros for the identifier of its PDU, and for the checksum that covers it: a system that begins again counts anew."""
    return frame[:HEADER + LLC] + pdu_without_identifier(frame[HEADER + LLC:])


def pdu_without_identifier(pdu):
    """The same of a PDU. An error report has no identifier, but holds the header of a PDU that may have one."""
    if len(pdu) < 11 or pdu[0] != CLNP:
        return pdu
    header = pdu[1]
    if pdu[4] & TYPE == ERROR_REPORT:
        return pdu[:header] + pdu_without_identifier(pdu[header:])
    if not pdu[4] & MAY_BE_CUT:
        return pdu
    of_source = 10 + pdu[9]  # the length of the source address, behind the destination
    identifier = of_source + 1 + (pdu[of_source] if of_source < len(pdu) else 0)
    return pdu[:7] + b"\0\0" + pdu[9:identifier] + b"\0\0" + pdu[identifier + 2:]


class Records:
    """Takes the octets of a capture as they come, and gives the frames that are whole."""

    def __init__(self):
        self.octets = bytearray()
        self.skip = 24  # the header of the file

    def take(self, octets):
        """The frames that these octets make whole, in order."""
        self.octets += octets
        at, frames = self.skip, []
        while at + 16 <= len(self.octets):
            length = int.from_bytes(self.octets[at + 8:at + 12], "big")
            if at + 16 + length > len(self.octets):
                break
            frames.append(bytes(self.octets[at + 16:at + 16 + length]))
            at += 16 + length
        if at <= len(self.octets):
            del self.octets[:at]
            at = 0
        self.skip = at
        return frames
