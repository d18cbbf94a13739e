"""An implementation of the wire format apart from the Rattle code, to test that code against.

It follows docs/PROTOCOL.md and docs/REFUSALS.md and shares nothing with crates/.
"""

import struct

HEADER = struct.Struct("<BBHIIHHqqq")
LONG_MAX = 2**63 - 1
LONGEST_BLOCK = 1430

LAYERS = {**{n: "header" for n in range(1, 9)}, 9: "block", 10: "block"}


class Refused(Exception):
    """A refusal: its number and the byte at which it was found."""

    def __init__(self, number, place):
        super().__init__(number, place)
        self.number = number
        self.place = place
        self.layer = LAYERS[number]


def read_segment(datagram, protocol, channel, session=None):
    """The header's fields and the messages as (number, place, data), or Refused."""
    if len(datagram) < 40:
        raise Refused(1, len(datagram))
    if len(datagram) > 65535:
        raise Refused(2, 65535)
    (version, _, got_protocol, got_channel, got_session, payload, count, offset, first, time) = HEADER.unpack_from(datagram)
    if version != 1:
        raise Refused(3, 0)
    if got_protocol != protocol:
        raise Refused(4, 2)
    if got_channel != channel:
        raise Refused(5, 4)
    if session is not None and got_session != session:
        raise Refused(6, 8)
    if len(datagram) != 40 + payload:
        raise Refused(7, 12)
    if first < 1 or first + count > LONG_MAX:
        raise Refused(8, 24)
    if offset < 0 or offset + payload > LONG_MAX:
        raise Refused(8, 16)
    messages = []
    at = 40
    for number in range(first, first + count):
        if at + 2 > len(datagram):
            raise Refused(9, at)
        (length,) = struct.unpack_from("<H", datagram, at)
        if length > LONGEST_BLOCK:
            raise Refused(10, at)
        if at + 2 + length > len(datagram):
            raise Refused(9, at)
        messages.append((number, offset + at - 40, datagram[at + 2 : at + 2 + length]))
        at += 2 + length
    if at < len(datagram):
        raise Refused(9, at)
    return {"session": got_session, "offset": offset, "first": first, "count": count, "time": time, "messages": messages}


def write_segment(messages, *, version=1, reserved=0, protocol=0x8004, channel=1, session=0x42870000, offset=0, first=1,
                  time=0, count=None, payload=None, tail=b""):
    """A segment; count, payload and tail can be set apart from the messages, to damage it."""
    blocks = b"".join(struct.pack("<H", len(m)) + m for m in messages) + tail
    return HEADER.pack(version, reserved, protocol, channel, session, len(blocks) if payload is None else payload,
                       len(messages) if count is None else count, offset, first, time) + blocks


def records(capture):
    """The records of a capture: a two-byte length and that many bytes each; the last may be cut."""
    at = 0
    while at + 2 <= len(capture):
        (length,) = struct.unpack_from("<H", capture, at)
        yield capture[at + 2 : at + 2 + length]
        at += 2 + length


def record(datagram):
    return struct.pack("<H", len(datagram)) + datagram


def dump(capture, protocol=0x8004, channel=1):
    """What the program dump prints for a capture."""
    total = {"records": 0, "segments": 0, "heartbeats": 0, "refusals": 0, "messages": 0}
    lines = []
    for datagram in records(capture):
        total["records"] += 1
        try:
            segment = read_segment(datagram, protocol, channel)
        except Refused as fault:
            total["refusals"] += 1
            text = f"refused, number {fault.number}, layer {fault.layer}, place {fault.place}"
        else:
            total["segments"] += 1
            if not segment["messages"]:
                total["heartbeats"] += 1
                text = f"heartbeat, next {segment['first']}"
            else:
                total["messages"] += segment["count"]
                last = segment["messages"][-1][0]
                text = f"messages {segment['first']} to {last}, offset {segment['offset']}, bytes {len(datagram) - 40}"
        lines.append(f"{total['records']}: {text}\n")
    lines.append("total: " + ", ".join(f"{name} {n}" for name, n in total.items()) + "\n")
    return "".join(lines)
