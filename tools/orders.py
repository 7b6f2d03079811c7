#!/usr/bin/env python3
"""Writes an order file to standard output, from lines of text on standard input.

One order to a line, operands separated by blanks; an account is two letters and a number, as AA1;
what follows '#' is ignored, and so is an empty line:

    account AA1
    device 17
    day 32
    declare 17 AA1 0 30 2500000          device, account, first and last day, watt-hours
    offer AA1 AA2 2 3                    from, to, first and last number
    accept AA2 1                         account, offer
    recall AA1 1                         account, offer
    cancel AA1 1 2 2000 MILL STREET BAKERY    account, first and last number, year, beneficiary

The beneficiary is the rest of the line, padded with blanks to 24 bytes. Nothing is checked beyond
what fits its width, so that files with unlawful operands can be written too.
"""
import sys


def number(text, width):
    return int(text).to_bytes(width, "big")


def account(text):
    return text[:2].encode("ascii") + number(text[2:], 4)


def beneficiary(words):
    return " ".join(words).encode("ascii").ljust(24)[:24]


def order(line):
    name, *w = line.split()
    if name == "account":
        return b"\x41" + account(w[0])
    if name == "device":
        return b"\x50" + number(w[0], 8)
    if name == "day":
        return b"\x44" + number(w[0], 4)
    if name == "declare":
        return b"\x49" + number(w[0], 8) + account(w[1]) + number(w[2], 4) + number(w[3], 4) + number(w[4], 8)
    if name == "offer":
        return b"\x4f" + account(w[0]) + account(w[1]) + number(w[2], 8) + number(w[3], 8)
    if name == "accept":
        return b"\x59" + account(w[0]) + number(w[1], 4)
    if name == "recall":
        return b"\x52" + account(w[0]) + number(w[1], 4)
    if name == "cancel":
        return b"\x43" + account(w[0]) + number(w[1], 8) + number(w[2], 8) + number(w[3], 2) + beneficiary(w[4:])
    raise SystemExit(f"orders.py: no such order: {name}")


def main():
    for line in sys.stdin:
        line = line.split("#")[0].strip()
        if line:
            sys.stdout.buffer.write(order(line))


main()
