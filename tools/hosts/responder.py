"""A responder program on pipes, and a trace of what it is asked and what it answers: one line for each command."""

import struct
import subprocess
import sys
from pathlib import Path

HEAD = struct.Struct("<IHHI")
COMMAND, DATA, RESPONSE, EVENT = 1, 2, 3, 4
CANCEL = 0x4001
TAKES_DATA = (0x100C, 0x100D)

OPERATIONS = {
    0x1001: "GetDeviceInfo", 0x1002: "OpenSession", 0x1003: "CloseSession", 0x1004: "GetStorageIDs", 0x1005: "GetStorageInfo",
    0x1006: "GetNumObjects", 0x1007: "GetObjectHandles", 0x1008: "GetObjectInfo", 0x1009: "GetObject", 0x100A: "GetThumb",
    0x100B: "DeleteObject", 0x100C: "SendObjectInfo", 0x100D: "SendObject", 0x100F: "FormatStore", 0x1010: "ResetDevice",
    0x1012: "SetObjectProtection", 0x1014: "GetDevicePropDesc", 0x1015: "GetDevicePropValue", 0x1016: "SetDevicePropValue",
    0x1019: "MoveObject", 0x101A: "CopyObject", 0x101B: "GetPartialObject", 0x9801: "GetObjectPropsSupported",
    0x9802: "GetObjectPropDesc", 0x9803: "GetObjectPropValue", 0x9804: "SetObjectPropValue", 0x9805: "GetObjectPropList",
    0x9806: "SetObjectPropList", 0x9808: "SendObjectPropList", 0x9810: "GetObjectReferences", 0x9811: "SetObjectReferences",
}

RESPONSES = {
    0x2001: "OK", 0x2002: "GeneralError", 0x2003: "SessionNotOpen", 0x2004: "InvalidTransaction", 0x2005: "OperationNotSupported",
    0x2006: "ParameterNotSupported", 0x2007: "IncompleteTransfer", 0x2008: "InvalidStorage", 0x2009: "InvalidHandle",
    0x200B: "InvalidFormat", 0x200C: "StoreFull", 0x200D: "ObjectProtected", 0x200E: "StoreReadOnly", 0x200F: "AccessDenied",
    0x2014: "FormatNotSupported", 0x2015: "NoObjectInfo", 0x201A: "InvalidParent", 0x201D: "InvalidParameter",
    0x201E: "SessionAlreadyOpen", 0x201F: "TransactionCancelled", 0xA806: "InvalidDataset", 0xA809: "ObjectTooLarge",
}

# Where the numbers of an ObjectInfo stand, with their widths; the rest of its fixed part is left out when it is 0.
OBJECT_INFO = (("storage", 0, 4), ("format", 4, 2), ("protection", 6, 2), ("size", 8, 4), ("thumb format", 12, 2),
               ("thumb size", 14, 4), ("thumb width", 18, 4), ("thumb height", 22, 4), ("width", 26, 4), ("height", 30, 4),
               ("depth", 34, 4), ("parent", 38, 4), ("association", 42, 2), ("description", 44, 4), ("sequence", 48, 4))
STRINGS = 52


def strings_behind(dataset, place):
    """The strings from the place on, as far as they go, and the bytes that are left."""
    found = []
    while place < len(dataset) and len(found) < 4:
        end = place + 1 + 2 * dataset[place]
        if end > len(dataset):
            break
        found.append(dataset[place + 1:end].decode("utf-16-le", "replace"))
        place = end
    return found, dataset[place:]


def show_object_info(dataset):
    """A dataset that a host sent; strings with their closing 0, since hosts differ there."""
    if len(dataset) < STRINGS:
        return f"cut short: {dataset.hex()}"
    numbers = [(name, int.from_bytes(dataset[at:at + width], "little")) for name, at, width in OBJECT_INFO]
    shown = [f"{name} {value:#x}" for name, value in numbers if value]
    strings, rest = strings_behind(dataset, STRINGS)
    return ", ".join(shown) + f", strings {strings!r}" + (f", left over {rest.hex()}" if rest else "")


def parameters(container):
    return struct.unpack_from(f"<{(len(container) - HEAD.size) // 4}I", container, HEAD.size)


def small(number):
    return str(number) if number < 0x3000 else f"0x{number:X}"


class Trace:
    """Writes lines for people, and if a file is given the containers too, in the form that `decode` reads."""

    def __init__(self, out=sys.stdout, capture=None):
        self.out = out
        self.capture = capture

    def note(self, words):
        print(words, file=self.out, flush=True)
        if self.capture:
            print("#", words, file=self.capture, flush=True)

    def container(self, bytes):
        if self.capture:
            print(bytes.hex(), file=self.capture, flush=True)

    def exchange(self, command, host, data, response):
        _, _, code, transaction = HEAD.unpack_from(command)
        words = [f"t{small(transaction)}", OPERATIONS.get(code, f"0x{code:04X}"), *map(small, parameters(command))]
        cancelled = host is not None and HEAD.unpack_from(host)[1] == EVENT
        if host is not None:
            words.append("<cancel>" if cancelled else f"<{len(host) - HEAD.size} bytes>")
        if data is not None:
            words.append(f"[{len(data) - HEAD.size} bytes]")
        answer = HEAD.unpack_from(response)[2]
        words += ["->", RESPONSES.get(answer, f"0x{answer:04X}"), *map(small, parameters(response))]
        print("  " + " ".join(words), file=self.out, flush=True)
        if host is not None and code == 0x100C and not cancelled:
            print("      " + show_object_info(host[HEAD.size:]), file=self.out, flush=True)


class Responder:
    """The program, with what it owes: a command is answered at once, or behind its data."""

    def __init__(self, words, trace):
        self.trace = trace
        self.program = subprocess.Popen(words, stdin=subprocess.PIPE, stdout=subprocess.PIPE, start_new_session=True)
        self.waiting = None  # a command whose data has not come yet

    def take(self, container):
        """Hands on a container of the host. Gives the containers to send back, none if nothing is owed yet or at all."""
        type, code = HEAD.unpack_from(container)[1:3]
        if type == COMMAND and self.waiting is not None:
            self.trace.note("  a command in the place of data: what waited is cancelled, and its response kept back")
            self.cancel()
        self.trace.container(container)
        if type == COMMAND and code in TAKES_DATA:
            self.write(container)
            self.waiting = container
            return []
        if type == COMMAND:
            self.write(container)
            return self.answer(container, None)
        if self.waiting is not None:
            self.write(container)
            command, self.waiting = self.waiting, None
            return self.answer(command, container)
        self.trace.note(f"  data behind a refused command, {len(container) - HEAD.size} bytes, dropped")
        self.write(container)
        return []

    def cancel(self):
        """The host broke off. Gives the response if data was awaited, and else nothing."""
        if self.waiting is None:
            return []
        transaction = HEAD.unpack_from(self.waiting)[3]
        return self.take(HEAD.pack(HEAD.size, EVENT, CANCEL, transaction))

    def unplug(self):
        self.trace.note("  (unplugged)")
        self.write(bytes(4))
        self.waiting = None

    def end(self):
        self.program.stdin.close()
        self.program.wait()

    def write(self, bytes):
        self.program.stdin.write(bytes)
        self.program.stdin.flush()

    def answer(self, command, host):
        """Reads what the program sends: a response, with a data container before it or none."""
        containers = [self.read()]
        if HEAD.unpack_from(containers[0])[1] == DATA:
            containers.append(self.read())
        data = containers[0] if len(containers) == 2 else None
        self.trace.exchange(command, host, data, containers[-1])
        for container in containers:
            self.trace.container(container)
        return containers

    def read(self):
        head = self.read_exactly(HEAD.size)
        return head + self.read_exactly(HEAD.unpack(head)[0] - HEAD.size)

    def read_exactly(self, count):
        bytes = self.program.stdout.read(count)
        if len(bytes) < count:
            sys.exit("the responder program has ended")
        return bytes


STAND_IN = [sys.executable, str(Path(__file__).resolve().parent / "serve.py")]
