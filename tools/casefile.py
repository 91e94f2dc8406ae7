#!/usr/bin/env python3
"""Makes a case file from a readable text, and shows a case file as text.

    casefile.py make TEXT FILE     writes the case file that the text says
    casefile.py show FILE          prints a case file as text

A convenience beside the product: nothing is proved of it, and the gate does not run it.

The text has one field to a line; what follows a # is left out:

    kind SIZE PRICE COUNT..        a kind with its allowed counts
    band LOW HIGH
    list TOTAL..
    stride MODULUS REMAINDER
    rule KIND COUNT
    end

The numbers are written as they are, so a text can also say a file that the planner refuses.
"""
import struct
import sys

TAGS = {"end": 0, "kind": 1, "band": 2, "list": 3, "stride": 4, "rule": 5}
NAMES = {tag: name for name, tag in TAGS.items()}


def field(tag, value):
    return struct.pack(">BH", tag, len(value)) + value


def made(line):
    name, *words = line.split()
    if name not in TAGS:
        sys.exit(f"no such field: {line}")
    numbers = [int(word) for word in words]
    if name == "kind":
        size, price, *counts = numbers
        value = struct.pack(">HHQ", size, price, sum(1 << count for count in set(counts)))
    elif name == "rule":
        value = bytes(numbers)
    else:
        value = b"".join(struct.pack(">H", number) for number in numbers)
    return field(TAGS[name], value)


def make(text):
    lines = (line.split("#")[0].strip() for line in text.splitlines())
    return b"".join(made(line) for line in lines if line)


def shown(tag, value):
    name = NAMES[tag]
    if name == "kind" and len(value) == 12:
        size, price, counts = struct.unpack(">HHQ", value)
        return [name, size, price] + [count for count in range(64) if counts >> count & 1]
    if name == "rule":
        return [name] + list(value)
    return [name] + [number for (number,) in struct.iter_unpack(">H", value[: len(value) // 2 * 2])]


def show(data):
    place = 0
    while place + 3 <= len(data):
        tag, length = struct.unpack_from(">BH", data, place)
        value = data[place + 3 : place + 3 + length]
        if tag not in NAMES or len(value) < length:
            break
        print(*shown(tag, value))
        place += 3 + length
    if place < len(data):
        print(f"# {len(data) - place} more bytes from place {place}: {data[place:place + 24].hex(' ')}")


def main(arguments):
    if len(arguments) == 3 and arguments[0] == "make":
        with open(arguments[1], encoding="utf-8") as text:
            data = make(text.read())
        with open(arguments[2], "wb") as file:
            file.write(data)
    elif len(arguments) == 2 and arguments[0] == "show":
        with open(arguments[1], "rb") as file:
            show(file.read())
    else:
        sys.exit(__doc__)


main(sys.argv[1:])
