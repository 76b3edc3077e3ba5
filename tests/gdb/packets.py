#!/usr/bin/env python3
"""packets.py NAME sent|told: a session of tests/gdb/rows in the bytes of GDB's protocol: what a client sends,
or what it is told. Frames, sums and the packets of texts are made here, by nothing of the program."""
import os
import sys


def frame(body):
    return b"$" + body + b"#%02x" % (sum(body) % 256)


def texts(text):
    pieces = [text[k : k + 8191] for k in range(0, len(text), 8191)]
    return b"".join(frame(b"O" + piece.hex().encode()) for piece in pieces)


def lines_of(name):
    rows = open(os.path.join(os.path.dirname(__file__), "rows")).read()
    part = rows.split("[" + name + "]\n")[1].split("\n\n")[0]
    return [[side.strip() for side in line.split("=>")] for line in part.splitlines()]


def monitors(sent, told):
    text = told.replace(" / ", "\n").encode()
    # the console's bytes are told as they are, all else as lines
    if text and sent != "!output":
        text += b"\n"
    return frame(b"qRcmd," + sent[1:].encode().hex().encode()), texts(text) + frame(b"OK")


def answers(sent, told):
    if sent.startswith("!"):
        return monitors(sent, told)
    return frame(sent.encode()), b"".join(frame(part.encode()) for part in told.split(" "))


def main(name, side):
    both = [(frame(b"QStartNoAckMode"), b"+" + frame(b"OK"))]
    both += [answers(sent, told) for sent, told in lines_of(name)]
    sys.stdout.buffer.write(b"".join(pair[side == "told"] for pair in both))


main(*sys.argv[1:])
