#!/usr/bin/env python3
"""Writes the images that stand in the repository, or a large one.

    tools/make_images.py               writes samples/ and crates/inspect/data/ anew
    tools/make_images.py full FILE     writes the largest image: 1,024 files, 33,554,432 bytes, no folder
    tools/make_images.py nested FILE   writes one of 1,024 files in 16 nested folders, 33,030,144 bytes

An image is a row of files, each three tagged fields: a one-byte tag, a two-byte length and the content,
numbers with the lowest byte first. Field 1 has the number, the parent and the format, field 2 the name's units, field 3 the bytes.
"""

import pathlib
import struct
import sys

UNDEFINED, FOLDER, TEXT = 0x3000, 0x3001, 0x3004
ROOT = pathlib.Path(__file__).resolve().parent.parent


def field(tag, content):
    return struct.pack("<BH", tag, len(content)) + content


def head(number, parent, form):
    return field(1, struct.pack("<IIH", number, parent, form))


def name(text):
    return field(2, text.encode("utf-16-le", "surrogatepass"))


def body(content):
    return field(3, content)


def file(number, parent, form, text, content=b""):
    return head(number, parent, form) + name(text) + body(content)


def folder(number, parent, text):
    return file(number, parent, FOLDER, text)


def text(number, parent, title, content):
    return file(number, parent, TEXT, title, content.encode("utf-8"))


HANDBOOK = [
    text(1, 0, "Read me first.txt", """\
Orchard irrigation handbook

Changes to the controller are made on its panel. This handbook is read-only: it is shown
beside the logs so that it is at hand in the field.

Irrigation   hours, pressure and flushing of the drip lines
Seasons      what to change in spring, summer and autumn
"""),
    folder(2, 0, "Irrigation"),
    text(3, 2, "Drip line hours.txt", """\
How to set a drip line's hours

1. Add up the emitters of the line: emitters a tree times trees.
2. Litres an hour = emitters times the litres printed on one emitter (2 or 4).
3. Litres a day = trees times the need of one tree (see Seasons).
4. Hours = litres a day divided by litres an hour. Round up to a quarter.

Example: 40 trees, 2 emitters of 4 litres each give 320 litres an hour.
At 16 litres a tree the line needs 640 litres, so set 2.0 hours.

Start before sunrise. Split more than 4 hours into two runs, so that the soil can take it up.
"""),
    text(4, 2, "Pressure.txt", """\
Pressure at the head of a drip line

Normal   1.0 to 1.5 bar
Low      below 0.8 bar: look for an open flush valve, a torn hose or a clogged filter
High     above 2.0 bar: close the regulator by a quarter turn and read again after a minute
"""),
    text(5, 2, "Flushing a line.txt", """\
Flush each line once a month, and after any repair.

1. Open the end cap while the line runs.
2. Wait until the water is clear, at least one minute.
3. Close the cap and look at the last three emitters: each should drip.
"""),
    folder(6, 2, "Valves"),
    text(7, 6, "Valve numbers.txt", """\
Valve  line
1      apples, north rows
2      apples, south rows
3      pears
4      nursery
"""),
    folder(8, 0, "Seasons"),
    text(9, 8, "Litres a tree.txt", """\
Litres a day for one grown tree on loam. Halve it for a tree in its first three years.

April, May             8
June                  12
July, August          16
September             10
October to March       0, but water once where three weeks stay dry
"""),
    text(10, 8, "Before frost.txt", """\
Before the first night below -2 degrees:

Close the main valve, open every end cap, and let the lines run empty.
Leave the end caps open until spring.
"""),
]

NAMES = [
    folder(1, 0, "Höfe und Gärten"),
    text(2, 1, "Æbler.txt", "Belle de Boskoop"),
    folder(5, 1, "苗圃"),
    folder(6, 5, "Reihe 12"),
    text(0x10000, 6, "\U0001F34F Tropfrohr.txt", "4 l/h"),
    file(0x10001, 6, UNDEFINED, "Messung", bytes(range(256)) * 128),
    text(0x10002, 0, "high\ud83chalf", ""),
    text(0x10003, 0, "\udf4flow and both\udf4f\ud83c", ""),
    text(0x10004, 0, "del\u007f, escape\u009b", "x"),
    text(0x7FFFFFFE, 0, "n" * 63, "the last number"),
]

A = text(3, 0, "A", "hi")


def spoilt():
    """Images that are refused, by the name of the file."""
    two = A + text(4, 0, "B", "ho")
    return {
        "tag.img": A + b"\x04" + two[len(A) + 1:],
        "head-cut.img": A[:9],
        "no-name.img": A[:13],
        "no-bytes.img": A[:18],
        "name-tag.img": A[:13] + b"\x03" + A[14:],
        "body-cut.img": A[:-1],
        "not-rising.img": A + text(3, 0, "B", "ho"),
        "format.img": file(3, 0, 0x3002, "A", b"hi"),
        "no-parent.img": A + text(4, 2, "B", "ho"),
        "parent-is-file.img": A + text(4, 3, "B", "ho"),
        "slash.img": A + text(4, 0, "B/C", "ho"),
        "folder-bytes.img": A + file(4, 0, FOLDER, "B", b"!"),
        "long.img": A + file(4, 0, UNDEFINED, "B", bytes(32769)),
    }


def full():
    """The largest image: 1,024 files of 32,768 bytes, so none is a folder."""
    return b"".join(log(number, 0) for number in range(1, 1025))


def nested():
    """1,024 files, 33,030,144 bytes: a chain of 16 folders and 1,008 files of 32,768 bytes spread over them."""
    folders = b"".join(folder(number, number - 1, f"Block {number}") for number in range(1, 17))
    return folders + b"".join(log(number, 1 + number % 16) for number in range(17, 1025))


def log(number, parent):
    return file(number, parent, UNDEFINED, f"Log {number:04}.bin", bytes([number % 251]) * 32768)


def write(path, image):
    path.parent.mkdir(parents=True, exist_ok=True)
    path.write_bytes(image)


def main(words):
    if len(words) == 2 and words[0] in ("full", "nested"):
        pathlib.Path(words[1]).write_bytes(full() if words[0] == "full" else nested())
        return
    if words:
        sys.exit(__doc__)
    write(ROOT / "samples" / "handbook.img", b"".join(HANDBOOK))
    data = ROOT / "crates" / "inspect" / "data"
    write(data / "handbook.img", b"".join(HANDBOOK))
    write(data / "names.img", b"".join(NAMES))
    write(data / "one-file.img", A)
    write(data / "empty.img", b"")
    for label, image in spoilt().items():
        write(data / label, image)


if __name__ == "__main__":
    main(sys.argv[1:])
