#!/usr/bin/env python3
"""Packs scripts and their answers for the program `drill_replay`: python3 tests/cases/pack_scripts.py OUT KIND SCRIPT ANSWER [KIND SCRIPT ANSWER ..]
KIND is `session` or `drill`. Each is one byte (0 or 1), the two lengths (4 bytes each, little-endian), the script and the answer."""
import pathlib
import sys

out = bytearray()
rest = sys.argv[2:]
for kind, script, answer in zip(rest[0::3], rest[1::3], rest[2::3]):
    s, a = pathlib.Path(script).read_bytes(), pathlib.Path(answer).read_bytes()
    out.append(["session", "drill"].index(kind))
    out += len(s).to_bytes(4, "little") + len(a).to_bytes(4, "little") + s + a
pathlib.Path(sys.argv[1]).write_bytes(out)
