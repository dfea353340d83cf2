#!/usr/bin/env python3
"""Writes crates/drill/stdin and stdout: a script with each command of docs/DRILL.md at least once, and a refusal where it has one of its
own. The lines are derived by hand from 01 and docs/DRILL.md, not from the program. Run it from anywhere: python3 tests/cases/drill.py; with
--check it writes nothing and fails where the files are others.
"""
import pathlib
import sys

HERE = pathlib.Path(__file__).resolve().parent.parent.parent / "crates" / "drill"

script = bytearray()
lines = []


def step(command, *operands, line):
    """One command: each operand is bytes, or a number with its width; and the line that is due."""
    script.append(command)
    for o in operands:
        script.extend(o if isinstance(o, bytes) else o[0].to_bytes(o[1], "little"))
    lines.append(line)


def total(batch):
    n = 0
    for b in batch:
        n = (31 * n + b) % 4_294_967_291
    return n


end = [(0, 1), (1, 1)]
# 255, 1, type, data offset, stream id, window, seq, ack: the first packet of end 0, for id 2
header = bytes.fromhex("ff010100" "02000000" "ffffffff" "00000000" "00000000")
packet = header + b"AAA"
second = 1_000_000_000

fresh = f"0 0 0 0 2800 0 0 0 0 {second} {second} 0 0 0 0 0 0 0 0 0 0 0"
step(0x15, end[0], line=f"numbers 0 {fresh}")
# an end at other numbers, then opened anew
step(0x11, end[1], (9, 4), (100, 4), (1_399, 4), line="base 1 none 0")
step(0x11, end[1], (9, 4), (100, 4), (1_400, 4), line="base 1 ok 0")
step(0x15, end[1], line=f"numbers 1 9 9 0 0 1400 100 100 0 0 {second} {second} 0 0 0 0 0 0 0 0 0 0 0")
step(0x12, end[1], (2, 4), (1, 4), (11, 1), (0, 8), line="open 1 3 0")
step(0x12, end[1], (2, 4), (1, 4), (10, 1), (0, 8), line="open 1 ok 0")
step(0x15, end[1], line=f"numbers 1 {fresh}")
# a packet is written, shown only once a drive has left it to take, and taken into a buffer that is long enough
step(0x01, end[0], (3, 2), (0x41, 1), line="write 0 ok 3")
step(0x14, end[0], line="look 0 ok 0 -")
step(0x02, end[0], (0, 8), line="drive 0 ok 0")
step(0x14, end[0], line=f"look 0 ok 23 {packet.hex()}")
step(0x13, end[0], (13_999, 2), line="room 0 2 0 0 0")
step(0x13, end[0], (14_000, 2), line=f"room 0 ok 23 0 {total(packet)}")
step(0x03, end[0], line="take 0 none 0")
step(0x15, end[0], line=f"numbers 0 1 0 0 23 2800 0 0 0 0 {second} {second} 0 0 0 0 0 1 3 0 0 1 3")
# it arrives as raw bytes, then once more as the datagram kept, and is read once
step(0x10, end[1], (5, 8), (23, 2), packet, line="raw 1 ok 0")
step(0x10, end[1], (5, 8), (19, 2), packet[:19], line="raw 1 7 0")
step(0x04, end[1], (0, 2), (5, 8), line="hand 1 ok 0")
step(0x05, end[1], (8, 2), line="read 1 ok 3 414141")
step(0x06, end[1], line="close 1 ok 0")
# two deliveries and a close have queued a state packet each; the repeated payload counts as received
step(0x15, end[1], line=f"numbers 1 0 0 0 0 2800 1 1 0 0 {second} {second} 1 1 0 3 0 3 0 2 6 0 0")
# headers alone
fields = [(1, 1), (0, 1), (2, 4), (4_294_967_295, 4), (3, 4), (4, 4)]
coded = bytes.fromhex("ff010100" "02000000" "ffffffff" "03000000" "04000000")
step(0x16, (24, 1), *fields, line=f"encode ok 24 {coded.hex()}aaaaaaaa")
step(0x16, (19, 1), *fields, line=f"encode 2 19 {'aa' * 19}")
step(0x17, (20, 1), coded, line="decode ok 1 0 2 4294967295 3 4")
step(0x17, (19, 1), coded[:19], line="decode 7")
# one thing broken at a time; the end itself stays as it is
step(0x18, end[0], (0, 1), (2, 1), (10, 8), line="spoil 0 ok 0")
step(0x18, end[0], (0, 1), (3, 1), (10, 8), line="spoil 0 none 0")
step(0x18, end[0], (2, 1), (0, 1), (10, 8), line="spoil 0 1 0")
step(0x18, end[0], (7, 1), (1, 1), (10, 8), line="spoil 0 1 0")
step(0x18, end[0], (22, 1), (0, 1), (10, 8), line="spoil 0 ok 0")
step(0x18, end[1], (0, 1), (5, 1), (10, 8), line="spoil 1 14 0")
step(0x15, end[0], line=f"numbers 0 1 0 0 23 2800 0 0 0 0 {second} {second} 0 0 0 0 0 1 3 0 0 1 3")
# no such command
step(0x19, line=f"script {len(script)}")

text = "".join(line + "\n" for line in lines)
if sys.argv[1:] == ["--check"]:
    if ((HERE / "stdin").read_bytes(), (HERE / "stdout").read_text()) != (bytes(script), text):
        sys.exit("crates/drill: stdin or stdout is not what tests/cases/drill.py writes")
else:
    (HERE / "stdin").write_bytes(script)
    (HERE / "stdout").write_text(text)
print(f"{len(lines)} commands, {len(script)} bytes")
