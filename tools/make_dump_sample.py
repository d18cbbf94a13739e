#!/usr/bin/env python3
"""Makes crates/dump/stdin, a small capture, and crates/dump/stdout, what dump prints for it, by the reference."""

import pathlib

from reference import dump, record, write_segment

# the example segment of the transport's specification: a trade report and a price level update
EXAMPLE = bytes.fromhex(
    "01 00 04 80 01 00 00 00 00 00 87 42 48 00 02 00 8c a6 21 00 00 00 00 00 ca c3 00 00 00 00 00 00 ec 45 c2 20 96 86 6d 14"
    "26 00 54 00 ac 63 c0 20 96 86 6d 14 5a 49 45 58 54 20 20 20 64 00 00 00 24 1d 0f 00 00 00 00 00 96 8f 06 00 00 00 00 00"
    "1e 00 38 01 ac 63 c0 20 96 86 6d 14 5a 49 45 58 54 20 20 20 e4 25 00 00 24 1d 0f 00 00 00 00 00"
)

Z = 2**63 - 1
NEXT = {"offset": 2205396, "first": 50124}

DATAGRAMS = [
    EXAMPLE,
    write_segment([], **NEXT),  # a heartbeat
    EXAMPLE[:39],  # 1: under 40 bytes
    write_segment([b"a"], version=2, **NEXT),  # 3
    write_segment([b"a"], protocol=0x8003, **NEXT),  # 4
    write_segment([b"a"], channel=2, **NEXT),  # 5
    write_segment([b"a"], payload=4, **NEXT),  # 7
    write_segment([b"a"], offset=2205396, first=0),  # 8 at the number
    write_segment([b"a"], offset=Z, first=50124),  # 8 at the offset
    write_segment([b"a", b"bc"], count=3, **NEXT),  # 9: a length runs out
    write_segment([b"a"], tail=b"\x05\x00bc", count=2, **NEXT),  # 9: data runs out
    write_segment([b"a", b"bc"], count=1, **NEXT),  # 9: bytes are left over
    write_segment([b"a", b"x" * 1431], **NEXT),  # 10
    write_segment([b"a", b"", b"x" * 1430], **NEXT),  # a segment with a message of no bytes and a longest one
]


def main():
    crate = pathlib.Path(__file__).parent.parent / "crates" / "dump"
    cut = record(write_segment([b"cut off"], first=50127, offset=2206833))[:-3]  # the last record lacks three bytes
    capture = b"".join(record(d) for d in DATAGRAMS) + cut
    (crate / "stdin").write_bytes(capture)
    (crate / "stdout").write_text(dump(capture))


if __name__ == "__main__":
    main()
