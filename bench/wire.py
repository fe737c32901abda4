#!/usr/bin/env python3
"""Counts the instructions of a request of 16,444 bytes that is fed in parts (bench/wire.c), on what bindings/build has built."""
import instructions

one, parts, bytewise, finish, built, copy = instructions.of_source("wire")
print(f"one part {one}, parts of 1,460 {parts}, byte by byte {bytewise} ({bytewise / 16444:.1f} a byte), finish {finish}")
print(f"build_bytes refused by its dates {built}, a copy {copy}; one part and the finish are {(one + finish) / (built + copy):.2f} times both")
