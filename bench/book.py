#!/usr/bin/env python3
"""Counts the instructions of books and of single calls from the same bytes (bench/book.c), on what bindings/build has built."""
import instructions

counts = instructions.of_source("book")
for name, book, single in zip(("60 small trades", "60 large trades", "64 that are no requests"), counts[0::2], counts[1::2]):
    print(f"{name}: {book:,} in a book, {single:,} singly, {book / single:.3f} times")
