#!/usr/bin/env python3
"""A stand-in for the program `serve`: the model of ../compare as a responder on standard input and output.

In:  a command container; behind SendObjectInfo and SendObject one container more, the data or a cancel (type 4, code 0x4001);
     four zero bytes in the place of a length mean unplug. A data container in the place of a command is dropped.
Out: the data container if there is one, then the response.
"""

import argparse
import struct
import sys
from pathlib import Path

sys.path.insert(0, str(Path(__file__).resolve().parent.parent / "compare"))
import model

TAKES_DATA = (model.SEND_OBJECT_INFO, model.SEND_OBJECT)
EVENT, CANCEL = 4, 0x4001
ROOM = model.HEAD.size + model.LARGEST_FILE
UNPLUG = b""


def read_container(stream):
    """The next container, UNPLUG, or None at the end of the stream. Four bytes that are the length of no container are dropped."""
    while len(head := stream.read(4)) == 4:
        length = struct.unpack("<I", head)[0]
        if length == 0:
            return UNPLUG
        if length >= model.HEAD.size:
            rest = stream.read(length - 4)
            return head + rest if len(rest) == length - 4 else None
    return None


def is_cancel(container):
    return model.HEAD.unpack_from(container)[1:3] == (EVENT, CANCEL)


def reply_to(responder, container, stream):
    """The reply to a command, with its data read from the stream; None if none is owed."""
    try:
        command = model.read_command(container)
    except model.Refusal:
        return None
    if command.code not in TAKES_DATA:
        return responder.answer(command, b"", ROOM)
    host = read_container(stream)
    if host is None or host == UNPLUG:
        responder.unplug()
        return None
    if is_cancel(host):
        return responder.cancel(command)
    return responder.answer(command, host, ROOM)


def serve(responder, stream, out, log):
    while (container := read_container(stream)) is not None:
        if container == UNPLUG:
            responder.unplug()
            continue
        reply = reply_to(responder, container, stream)
        if reply is None:
            continue
        if log:
            print(f"0x{reply.code:04X} {reply.why}", file=sys.stderr, flush=True)
        out.write(reply.data + reply.response())
        out.flush()


def load(store, paths):
    for number, path in enumerate(map(Path, paths), 1):
        name = model.units_of(path.name.encode("utf-16-le"))
        format = model.TEXT if path.suffix == ".txt" else model.UNDEFINED
        store.add(number, model.File(format, model.UNPROTECTED, 0, name, path.read_bytes()))


def main():
    parser = argparse.ArgumentParser(description=__doc__, formatter_class=argparse.RawDescriptionHelpFormatter)
    makes = parser.add_mutually_exclusive_group()
    makes.add_argument("--packed", nargs=2, type=int, metavar=("PLACES", "BYTES"))
    makes.add_argument("--slotted", nargs=1, type=int, metavar="PLACES", default=[64])
    parser.add_argument("--lock", action="store_true")
    parser.add_argument("--image", type=Path)
    parser.add_argument("--load", nargs="+", default=[])
    parser.add_argument("--log", action="store_true")
    given = parser.parse_args()
    first = model.packed_store(*given.packed) if given.packed else model.slotted_store(*given.slotted)
    load(first, given.load)
    second = model.open_image(given.image.read_bytes() if given.image else b"")
    responder = model.Responder(model.WriteLock(first, given.lock), second)
    serve(responder, sys.stdin.buffer, sys.stdout.buffer, given.log)


if __name__ == "__main__":
    main()
