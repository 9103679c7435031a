#!/usr/bin/env python3
"""Times how `measure` reads design texts: those of files, and texts of up to 2^30 bytes that come through a pipe.

    bench/reading_speed.py [--mib N] [--only KIND ..] [--design FILE ..] [--grouter PROGRAM]

Of each file, and of each kind of long text below, the design is read and its nets' grounds are found; ROUTES are empty, so a design
with nets is answered by `no 41 0 1` or the like. It prints a line of a table for each: the bytes, the status, the first line that was
said, the seconds of the processor, by the GiB too, and the most memory. N is how long the texts are, 1024 MiB if nothing is said.

- pins: 2^20 nets of 16 pins, whose numbers have many zeros in front;
- adjustments: 2^23 of them, likewise;
- blanks: nothing but blanks between the last two tokens of the grid's line;
- digits: a number of zeros before its last digit;
- names: nets without pins, whose names take nearly all of the text;
- tail: a design without nets, and anything behind its last adjustment;
- word: one token without end where `grid` has to stand, refused at its first byte;
- late: pins, and a fault in the last bytes of the text.
"""
import argparse
import os

from runs import built, run

MIB = 1 << 20
HEADER = b"""grid 100 100 1
vertical capacity 2
horizontal capacity 2
minimum width 1
minimum spacing 1
via spacing 1
0 0 10 10
"""


def padded(number, width):
    return str(number).zfill(width).encode()


def pins(size, ends):
    """2^20 nets of 16 pins, as long as the text has to be."""
    nets, each = 1 << 20, 16
    yield HEADER + b"num net %d\n" % nets
    width = max(1, (size // (nets * each) - 4) // 2 - 1)
    places = b"".join(b"%s %s 1\n" % (padded(5 + 10 * k, width), padded(995 - 10 * k, width)) for k in range(each))
    for net in range(nets):
        yield b"n %d %d 1\n" % (net, each) + places
    yield ends


def adjustments(size, ends):
    count = 1 << 23
    yield HEADER + b"num net 0\n%d\n" % count
    width = max(1, (size // count - 10) // 4)
    block = b"".join(b"%s %s 1 %s %s 1 1\n" % tuple(padded(n, width) for n in (k, k, k + 1, k)) for k in range(64))
    for _ in range(count // 64):
        yield block
    yield ends


def filled(front, byte, behind):
    def text(size, _ends):
        yield front
        left = size - len(front) - len(behind)
        while left > 0:
            yield byte * min(left, MIB)
            left -= MIB
        yield behind
    return text


def names(size, ends):
    nets = 1 << 18
    yield HEADER + b"num net %d\n" % nets
    name = b"n" * max(1, size // nets - 12)
    for net in range(nets):
        yield b"%s %d 0 1\n" % (name, net)
    yield ends


KINDS = {
    "pins": pins,
    "adjustments": adjustments,
    "blanks": filled(b"grid 100 100", b" ", b"1\n"),
    "digits": filled(b"grid 100 100 ", b"0", b"1\n"),
    "names": names,
    "tail": filled(HEADER + b"num net 0\n0\n", b"x", b"\n"),
    "word": filled(b"g", b"g", b"\n"),
    "late": lambda size, _ends: pins(size, b"1 x"),
}


def front(text, size):
    """The parts of a text, of which no more than so many bytes are sent."""
    for part in text:
        yield part[:size]
        size -= len(part[:size])


def measured(program, design, text, size):
    """Runs `measure` on a file or on what the parts of a text are: the bytes, and the run."""
    sent = []

    def parts():
        for part in front(text, size):
            sent.append(len(part))
            yield part
    done = run(program, "measure", design, "/dev/null", parts=parts() if text else ())
    return sum(sent) or os.path.getsize(design), done


def main():
    words = argparse.ArgumentParser(description=__doc__, formatter_class=argparse.RawDescriptionHelpFormatter)
    words.add_argument("--mib", type=int, default=1024)
    words.add_argument("--only", nargs="*", choices=KINDS)
    words.add_argument("--design", nargs="*", default=[])
    words.add_argument("--grouter", default=built("grouter"))
    asked = words.parse_args()
    size = asked.mib * MIB
    runs = [(os.path.basename(design), design, ()) for design in asked.design]
    kinds = asked.only if asked.only is not None else ([] if asked.design else KINDS)
    runs += [(kind, "/dev/stdin", KINDS[kind](size, b"0\n")) for kind in kinds]
    print("| text | bytes | status | said | processor seconds | by the GiB | memory, MiB |\n|---|---|---|---|---|---|---|")
    for name, design, text in runs:
        count, done = measured(asked.grouter, design, text, size)
        said, by_gib = done.said.partition("\n")[0], done.processor * (1 << 30) / count
        print(f"| {name} | {count:,} | {done.status} | `{said}` | {done.processor:.1f} | {by_gib:.1f} | {done.memory:.0f} |", flush=True)


if __name__ == "__main__":
    main()
