#!/usr/bin/env python3
"""Reads a session script on standard input and writes one line for each line, by the model.

    new                              -> new
    store packed PLACES BYTES        -> ok | refused 2
    store slotted PLACES [BYTES]     -> ok | refused 2
    lock 0|1                         -> ok
    image HEX|-                      -> ok | refused 3 PLACE
    add NUMBER FORMAT PROTECTION PARENT NAMEHEX|- BYTESHEX|-  -> added | store CODE
    remove NUMBER                    -> removed | store CODE
    answer CMDHEX|- DATAHEX|- BUFLEN -> reply RESPONSEHEX DATAHEX|- | refused 1
    cancel CMDHEX|-                  -> reply RESPONSEHEX - | refused 1
    unplug                           -> unplugged

Anything else gets `malformed` and changes nothing, and so does a line that sets up after the first call of a responder.
Empty lines and lines that start with # get no line.
"""

import argparse
import re
import sys

import model
from model import Code, Refusal

LARGEST_NUMBER = 0xFFFFFFFF
DIGITS = re.compile(r"[0-9]+", re.ASCII)
HEX = re.compile(r"(?:[0-9a-f]{2})+", re.ASCII)


class Malformed(Exception):
    pass


def number(word):
    if not DIGITS.fullmatch(word):
        raise Malformed
    digits = word.lstrip("0") or "0"
    if len(digits) > 10 or int(digits) > LARGEST_NUMBER:
        raise Malformed
    return int(digits)


def flag(word):
    if word not in ("0", "1"):
        raise Malformed
    return word == "1"


def octets(word):
    if word == "-":
        return b""
    if not HEX.fullmatch(word):
        raise Malformed
    return bytes.fromhex(word)


def may_be_stored(format, protection, name):
    """Whether a record can hold these fields at all."""
    return (format in model.FORMATS and protection in model.PROTECTIONS and len(name) % 2 == 0
            and model.is_legal_name(model.units_of(name)))


def refused(refusal):
    if refusal.code >= 0x1000:
        return f"store {refusal.code:04X}"
    if refusal.place is None:
        return f"refused {refusal.code:d}"
    return f"refused {refusal.code:d} {refusal.place}"


class Replay:
    """Plays scripts line by line. `reply` is the reply to the last line, and `why` says in words why it was refused."""

    def __init__(self):
        self.set_up_new()
        self.reply = None
        self.why = ""

    def line(self, line):
        """The answer to a line, or None if it gets none."""
        self.reply, self.why = None, ""
        if line == "" or line.startswith("#"):
            return None
        try:
            return self.play(line.split(" "))
        except Malformed:
            return "malformed"
        except Refusal as refusal:
            self.why = refusal.why
            return refused(refusal)

    def play(self, words):
        verb, arguments = words[0], words[1:]
        if verb not in VERBS:
            raise Malformed
        counts, method, sets_up = VERBS[verb]
        if len(arguments) not in counts or (sets_up and self.responder is not None):
            raise Malformed
        return method(self, *arguments)

    # Setting up

    def new(self):
        self.set_up_new()
        return "new"

    def set_up_new(self):
        self.first = model.no_store()
        self.is_locked = False
        self.second = model.open_image(b"")
        self.responder = None

    def store(self, make, places, size=None):
        places = number(places)
        size = None if size is None else number(size)
        if make == "packed" and size is not None:
            self.first = model.packed_store(places, size)
        elif make == "slotted":
            self.first = model.slotted_store(places, size)
        else:
            raise Malformed
        return "ok"

    def lock(self, is_set):
        self.is_locked = flag(is_set)
        return "ok"

    def image(self, image):
        self.second = model.open_image(octets(image))
        return "ok"

    def locked_store(self):
        return model.WriteLock(self.first, self.is_locked)

    def add(self, file_number, format, protection, parent, name, content):
        file_number, format, protection, parent = map(number, (file_number, format, protection, parent))
        name, content = octets(name), octets(content)
        store = self.locked_store()
        model.refuse_if(store.locked, Code.StoreReadOnly, "the store is locked")
        model.refuse_if(not may_be_stored(format, protection, name), Code.InvalidDataset, "no record can hold it")
        store.add(file_number, model.File(format, protection, parent, model.units_of(name), content))
        return "added"

    def remove(self, file_number):
        self.locked_store().remove(number(file_number))
        return "removed"

    # Calls

    def ready(self):
        """The responder, made at the first call."""
        if self.responder is None:
            self.responder = model.Responder(self.locked_store(), self.second)
        return self.responder

    def answer(self, command, host, room):
        command, host, room = octets(command), octets(host), number(room)
        return self.replied(self.ready().answer(model.read_command(command), host, room))

    def cancel(self, command):
        command = octets(command)
        return self.replied(self.ready().cancel(model.read_command(command)))

    def replied(self, reply):
        self.reply, self.why = reply, reply.why
        return f"reply {reply.response().hex()} {reply.data.hex() or '-'}"

    def unplug(self):
        self.ready().unplug()
        return "unplugged"


# For each verb how many words may follow, what it does, and whether it may only stand before the first call.
VERBS = {
    "new": ((0,), Replay.new, False),
    "store": ((2, 3), Replay.store, True),
    "lock": ((1,), Replay.lock, True),
    "image": ((1,), Replay.image, True),
    "add": ((6,), Replay.add, True),
    "remove": ((1,), Replay.remove, True),
    "answer": ((3,), Replay.answer, False),
    "cancel": ((1,), Replay.cancel, False),
    "unplug": ((0,), Replay.unplug, False),
}


def main():
    argparse.ArgumentParser(description=__doc__, formatter_class=argparse.RawDescriptionHelpFormatter,
                            usage="reference.py < SCRIPT > ANSWERS").parse_args()
    replay = Replay()
    for line in sys.stdin.buffer:
        answer = replay.line(line.decode("latin-1").removesuffix("\n"))
        if answer is not None:
            sys.stdout.write(answer + "\n")


if __name__ == "__main__":
    main()
