"""Reads card images byte by byte and compares each place with what image_places prints of it."""

import random
import subprocess
import sys

SIZES = {"d": 11, "b": 256}
LIFE = 250


def place(size, record):
    """The meter of a place, and what probe answers there."""
    mark, high, low, meter = record
    meter = min(meter, LIFE)
    number = 256 * high + low
    if mark != 1 or number >= size:
        return meter, "!2"
    if meter == LIFE:
        return meter, "!3"
    return meter, str(number)


def lines(size, rows, node, memory):
    out = []
    for row in range(rows):
        start = 4 * rows * node + 4 * row
        meter, answer = place(size, memory[start : start + 4])
        out.append(f"{row} {node} {meter} {answer}")
    return out


def expected(letter, rows, nodes, memory):
    """All that the program is to print."""
    if not (1 <= rows <= 32 and 1 <= nodes <= 93 and 4 * rows * nodes <= len(memory)):
        return ["no 10"]
    size = SIZES[letter]
    out = []
    for node in range(nodes):
        run = 4 * rows * node
        out += lines(size, rows, node, memory)
        total = sum(min(memory[run + 4 * row + 3], LIFE) for row in range(rows))
        out.append(f"refresh {node} {total}")
        rewound = bytearray(memory)
        for row in range(rows):
            rewound[run + 4 * row + 3] = 0
        out += lines(size, rows, node, rewound)
    return out


def images():
    """Every number, every mark with every meter, and random bytes in stores of many shapes."""
    every = 32 * 93
    for first in range(0, 65536, every):
        yield 32, 93, b"".join(
            bytes([1, (number >> 8) & 255, number & 255, number % 256])
            for number in range(first, first + every)
        )
    for first in range(0, 65536, every):
        yield 32, 93, b"".join(
            bytes([(k >> 8) & 255, 0, (7 * k) % 23, k & 255]) for k in range(first, first + every)
        )
    source = random.Random(2976)
    for rows, nodes in [(1, 1), (1, 93), (32, 1), (3, 4), (5, 7), (32, 93)]:
        for beyond in (0, 1, 9):
            yield rows, nodes, source.randbytes(4 * rows * nodes + beyond)
            low = bytearray(source.randbytes(4 * rows * nodes + beyond))
            for at in range(0, len(low) - 3, 4):
                low[at] = source.choice((0, 1, 1, 1, 2, 255))
                low[at + 1] = source.choice((0, 0, 0, 1))
                low[at + 2] = source.choice((0, 5, 10, 11, 255))
                low[at + 3] = source.choice((0, 1, 249, 250, 251, 252, 253, 254, 255))
            yield rows, nodes, bytes(low)
    for rows, nodes, size in [(0, 4, 99), (33, 1, 999), (4, 0, 99), (1, 94, 999), (3, 4, 47), (3, 4, 0)]:
        yield rows, nodes, bytes(size)


def main():
    program = sys.argv[1]
    count = 0
    for rows, nodes, memory in images():
        for letter in "db":
            given = letter.encode() + bytes([rows, nodes]) + memory
            run = subprocess.run([program], input=given, stdout=subprocess.PIPE, check=True)
            found = run.stdout.decode().splitlines()
            wanted = expected(letter, rows, nodes, memory)
            if found != wanted:
                for one, other in zip(found, wanted):
                    if one != other:
                        print(f"{letter} {rows} {nodes}: printed {one!r}, read {other!r}")
                        break
                sys.exit("image: the program and the reading differ")
            count += len(wanted)
    print(f"image: {count} lines agree")


if __name__ == "__main__":
    main()
