#!/usr/bin/env python3
"""Writes a log from a readable text, which it reads from standard input: samples/make.py FILE <TEXT

A line of the text is one of

    frame log                                              the first line of a log of frame keys
    label log                                              the first line of a log of label keys
    row node 7 frame 1 moment 1000 level -60 receiver 3    a row; '-' for a missing number, or a level not measured
    row label 000102030405060708090a0b moment 1000 level - receiver 3
    close                                                  closes a batch
    end                                                    ends the log

and an empty line or one that begins with '#' says nothing.
"""
import struct
import sys

NOT_MEASURED = -128


def frame_key(node, number):
    if number == "-":
        return struct.pack(">HBI", int(node), 0, 0)
    return struct.pack(">HBI", int(node), 1, int(number))


def label_key(label):
    if label == "-":
        return bytes(13)
    return bytes([1]) + bytes.fromhex(label)


def reading(moment, level, receiver):
    return struct.pack(">IbH", int(moment), NOT_MEASURED if level == "-" else int(level), int(receiver))


def command(words):
    match words:
        case ["frame", "log"]:
            return b"\x00\x01"
        case ["label", "log"]:
            return b"\x00\x02"
        case ["row", "node", node, "frame", number, "moment", moment, "level", level, "receiver", receiver]:
            return b"\x01" + frame_key(node, number) + reading(moment, level, receiver)
        case ["row", "label", label, "moment", moment, "level", level, "receiver", receiver]:
            return b"\x01" + label_key(label) + reading(moment, level, receiver)
        case ["close"]:
            return b"\x02"
        case ["end"]:
            return b"\x03"
    sys.exit("not a line of a log: " + " ".join(words))


def log(text):
    lines = (line.split() for line in text.splitlines())
    return b"".join(command(words) for words in lines if words and not words[0].startswith("#"))


if __name__ == "__main__":
    if len(sys.argv) != 2:
        sys.exit(__doc__)
    with open(sys.argv[1], "wb") as file:
        file.write(log(sys.stdin.read()))
