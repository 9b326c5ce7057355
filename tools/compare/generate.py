#!/usr/bin/env python3
"""Writes COUNT sessions of a seed as a script for `reference.py` and `replay`.

The sessions seek the edges: the writer follows the reference while it writes, knows what is stored, expected and
announced, and so asks mostly for what is there, and by intent for what is just not. The same seed gives the same script.

With --tally it writes, instead of the script, how often each operation got each answer from the reference, and for which
cause, and which answers that the docs allow did not come.
"""

import argparse
import sys
from collections import Counter

import edges
import model
from model import Code, File, OPERATIONS, numbers4
from reference import Replay

UNKNOWN_OPERATIONS = (0x0000, 0x0001, 0x1000, 0x1006, 0x100A, 0x100E, 0x101A, 0x101C, 0x1101, 0x1802, 0x2001, 0x9801, 0x0110,
                      0xFFFF)
WRONG_STORAGES = (1, 0x00010000, 0x00010002, 0x00020000, 0x00020002, 0x00030001, 0x01000100, 0x80010001, 0xFFFFFFFE)
LARGE = 2_000  # contents above this are rare

MALFORMED = (
    "news", "New", "new 1", "store", "store packed", "store packed 4", "store packed 4 100 1", "store flat 4 100",
    "store packed x 100", "store packed 4 4294967296", "store slotted", "store slotted 4 131072 1", "store slotted -1",
    "lock", "lock 2", "lock x", "lock 0 0", "image", "image 0", "image 01A0", "image 0g", "image 00 00", "image --",
    "add 1 12292 0 0 4100", "add 1 12292 0 0 4100 61 61", "add 99999999999 12292 0 0 4100 61", "add 1 0x3004 0 0 4100 61",
    "add 1 12292 0 0 410 61", "add 1 12292 0 0 4100 6", "add 1 12292 0 0 4100 6A", "add a 12292 0 0 4100 61",
    "add 1 12292 0 4294967296 4100 61", "remove", "remove 1 2", "remove x", "remove 4294967296", "remove -",
    "answer", "answer -", "answer - -", "answer - - -", "answer - - 0 0", "answer 0c0 - 0",
    "answer 0C0000000100011000000000 - 0", "answer 0c0000000100011000000000 - 4294967296",
    "answer 0c0000000100011000000000 - 1a", "answer 0c0000000100011000000000 0 512",
    "answer 0c0000000100011000000000 AB 512", "answer 0c0000000100011000000000  512", "answer  - - 0",
    "cancel", "cancel - 0", "cancel 0c0", "cancel 0C0000000100011000000000", "unplug 1", "unplugged", " unplug", "unplug ", " ",
    "nothing", "Answer 0c0000000100011000000000 - 512")

# The kinds of sessions, with their weights.
THEMES = {"mixed": 60, "tight": 60, "crowded": 30, "last numbers": 25, "locked": 20, "images": 40, "uploads": 60,
          "folders": 40, "steps": 45, "set-up": 20, "bare": 10, "short": 10, "large": 6, "many files": 3}


class Writer(edges.Edges):
    """Writes one session and follows it."""

    def __init__(self, seed, index):
        super().__init__(f"{seed}/{index}")
        self.replay = Replay()
        self.lines = []
        self.answers = []
        self.tally = Counter()
        self.theme = self.weighted(THEMES)
        self.room_for_large = 140_000 if self.theme == "large" else 0
        self.wrong = 0.15 if self.theme == "steps" else 0.035  # the share of wrong transactions, and of surplus parameters
        self.say(f"# session {index} of seed {seed}: {self.theme}")
        self.say("new")

    def say(self, line):
        answer = self.replay.line(line)
        self.lines.append(line)
        if answer is not None:
            self.answers.append(answer)
            self.tally[self.heading(line, answer)] += 1
        return answer

    def heading(self, line, answer):
        """Under what the tally counts the line."""
        verb = line.split(" ")[0]
        reply = self.replay.reply
        if reply is None:
            outcome = answer if answer[:7] != "refused" else " ".join(answer.split(" ")[:2])
            return ("malformed", "", "", "") if answer == "malformed" else ("line", verb, outcome, self.replay.why)
        code = int(line.split(" ")[1][12:16], 16)
        operation = OPERATIONS.get((code & 0xFF) << 8 | code >> 8)
        return verb, operation.name if operation else "unknown", f"{reply.code:04X}", self.replay.why

    # What is there

    def session(self):
        return self.replay.responder and self.replay.responder.session

    def announced(self):
        session = self.session()
        return session and session.announced

    def first(self):
        return self.replay.first

    def second(self):
        return self.replay.second

    def numbers(self, store, wanted=lambda file: True):
        return [number for number, file in store.files.items() if wanted(file)]

    def handles(self, wanted=lambda file: True):
        return (self.numbers(self.first(), wanted)
                + [model.SECOND_HANDLES + number for number in self.numbers(self.second(), wanted)])

    def absent_handle(self):
        near = [handle + step for handle in self.handles() for step in (1, -1, 0x80000000, -0x80000000)]
        next = self.session().next if self.session() else 1
        far = [0, 0x7FFFFFFE, 0x7FFFFFFF, 0x80000000, 0xFFFFFFFE, 0xFFFFFFFF, 0x01000000, next]
        return self.pick(*[handle for handle in near + far + far if 0 <= handle <= 0xFFFFFFFF])

    def handle_of(self, wanted=lambda file: True):
        """A handle of a wanted file, or an absent one if there is none."""
        handles = self.handles(wanted)
        return self.pick(*handles) if handles else self.absent_handle()

    def size(self):
        """A size for a file: small, or at the edge of what is free."""
        free = self.first().free_bytes()
        exact = [size for size in (free - 1, free, free, free + 1) if 0 <= size <= 200]
        if self.room_for_large > 0 and self.chance(0.4):
            self.room_for_large -= 2 * model.LARGEST_FILE
            return self.pick(32_767, 32_768, 32_768)
        if exact and self.chance(0.6):
            return self.pick(*exact)
        return self.pick(0, 1, 2, 3, 5, 8, 13, 21, 34) if self.chance(0.93) else self.pick(63, 64, 65, 128, 255, 256, 257, 700)

    # Setting up

    def set_up(self):
        if self.theme == "bare":
            return self.set_up_bare()
        if self.chance(0.05):
            self.refused_store()
        self.say(self.store_line())
        if self.chance(0.05):
            self.refused_store()
        steps = [self.some_image] * self.weighted({0: 2, 1: 6, 2: 1}) + [self.some_files]
        if self.theme == "images":
            steps += [self.wrong_image] * self.random.randrange(2, 12)
        if self.theme == "many files":
            steps += [self.overfull_image]
        if self.theme == "large":
            steps += [self.too_large_file] + [self.large_image] * self.random.randrange(2)
        if self.theme == "set-up":
            steps += [self.some_files, self.some_image, self.wrong_image, self.refused_store, self.malformed, self.flip_lock,
                      self.remove_file, self.remove_file]
        if self.chance(0.15):
            steps += [self.wrong_image]
        if self.chance(0.1):
            steps += [self.malformed]
        self.random.shuffle(steps)
        for step in steps:
            step()
        self.set_lock()

    def set_up_bare(self):
        """Nothing, or everything but a store."""
        if self.chance(0.5):
            self.some_image()
        if self.chance(0.4):
            self.refused_store()
        if self.chance(0.5):
            self.some_files()
        self.set_lock()

    def set_lock(self):
        if self.chance(0.9 if self.theme == "locked" else 0.03):
            self.say("lock 1")
            if self.chance(0.2):
                self.add_file()
            if self.chance(0.2):
                self.remove_file()
        elif self.chance(0.1) or self.replay.is_locked:
            self.say("lock 0")

    def flip_lock(self):
        self.say(f"lock {self.pick(0, 1)}")

    def store_line(self):
        roomy = f"store packed {self.pick(8, 12, 20, 100, 1024)} {self.pick(300, 1000, 5000, 40_000, 33_554_432)}"
        tight = f"store packed {self.random.randrange(1, 7)} {self.random.randrange(0, 70)}"
        few = f"store packed {self.random.randrange(1, 5)} {self.pick(0, 100, 1000)}"
        slots = self.random.randrange(1, 5)
        slotted = f"store slotted {slots}" + self.pick("", f" {slots * model.LARGEST_FILE}")
        if self.theme == "tight":
            return tight if self.chance(0.85) else slotted
        if self.theme == "crowded":
            return self.pick(few, slotted, slotted)
        if self.theme == "large":
            slots = self.pick(2, 3)
            return self.pick(f"store slotted {slots}", f"store packed 4 {32_768 * slots + self.pick(-1, 0, 1)}")
        if self.theme == "set-up" and self.chance(0.2):
            return self.pick("store slotted 1024", "store slotted 1024 33554432", "store packed 1024 33554432")
        return self.weighted({roomy: 6, tight: 2, slotted: 2, f"store slotted {self.pick(6, 8, 20)}": 2})

    def refused_store(self):
        self.say("store " + self.pick(
            "packed 0 100", "packed 1025 100", "packed 4 33554433", "packed 0 0", "packed 4294967295 4294967295",
            "packed 1024 4294967295", "slotted 0", "slotted 0 0", "slotted 1025", "slotted 1025 33587200", "slotted 2 65535",
            "slotted 2 65537", "slotted 2 0", "slotted 131073 32768", "slotted 4294967295", "slotted 131072 0"))

    def some_files(self):
        count = {"short": 1, "last numbers": 4}.get(self.theme, 8)
        for _ in range(self.random.randrange(0, count)):
            self.add_file()
            if self.chance(0.12):
                self.remove_file()

    def new_number(self):
        largest = self.first().largest_number()
        if self.theme == "last numbers" and largest < 0x7FFFFF00:
            return 0x7FFFFFFE - self.random.randrange(0, 6)
        if self.chance(0.2):
            return self.random.randrange(1, largest + 3)
        return largest + self.pick(1, 1, 1, 2, 3, 100, 0x10000) if self.chance(0.95) else self.random.randrange(1, 0x7FFFFFFF)

    def add_file(self):
        self.add(self.faults("number", "taken", "format", "protection", "name", "bytes", "parent", "later parent"))

    def too_large_file(self):
        self.add({self.pick("taken", "taken", "parent", "later parent", "none")}, 32_769)

    def add(self, faults, too_large=0):
        store = self.first()
        number, name, size = self.new_number(), self.legal_name(), self.size()
        format = self.pick(*model.FORMATS)
        protection = 1 if self.chance(0.2) else 0
        folders = [folder for folder in self.numbers(store, File.is_folder) if folder < number]
        parent = self.pick(*folders) if folders and self.chance(0.6) else 0
        if "number" in faults:
            number = self.pick(0, 0x7FFFFFFF, 0x80000000, 0x80000001, 0xFFFFFFFF)
        if "taken" in faults and store.files:
            number = self.pick(*store.files)
        if "format" in faults:
            format = self.pick(*edges.UNKNOWN_FORMATS, 0x13000, 0x13001, 0x80003004, 0xFFFFFFFF)
        if "protection" in faults:
            protection = self.pick(2, 3, 0xFFFF, 0x10000, 0x10001, 0xFFFFFFFF)
        if "name" in faults:
            name = self.illegal_name()
        if "parent" in faults:
            parent = self.pick(number, 0xFFFFFFFF, 0x7FFFFFFF, *store.files, number + 1 & 0xFFFFFFFF)
        later = [folder for folder in self.numbers(store, File.is_folder) if folder - 1 not in store.files]
        if "later parent" in faults and later:
            parent = self.pick(*later)
            number = parent - 1
        if format == model.ASSOCIATION and "bytes" not in faults:
            size = 0
        elif "bytes" in faults:
            size = max(1, size)
        size = too_large or size
        self.say(f"add {number} {format} {protection} {parent} {model.bytes_of(name).hex() or '-'} "
                 f"{self.content(size).hex() or '-'}")

    def remove_file(self):
        present = list(self.first().files)
        absent = (0, 1, 2, 0x7FFFFFFF, 0x80000001, 0xFFFFFFFF)
        self.say(f"remove {self.pick(*present) if present and self.chance(0.8) else self.pick(*absent)}")

    # Images

    def say_image(self, image):
        self.say(f"image {image.hex() or '-'}")

    def some_image(self):
        self.say_image(edges.image_of(self.many_files(1024) if self.theme == "many files" else self.image_files()))

    def wrong_image(self):
        self.say_image(self.spoilt_image())

    def large_image(self):
        """One file of the largest size, or a byte more."""
        file = File(model.TEXT, model.READ_ONLY, 0, (0x41,), self.content(self.pick(32_768, 32_769)))
        self.say_image(edges.image_of({1: file}))

    def overfull_image(self):
        """As many files as an image may hold, and all or the start of another one."""
        last = edges.image_of({1025: File(model.TEXT, model.READ_ONLY, 0, (0x41,), b"")})
        self.say_image(edges.image_of(self.many_files(1024)) + self.pick(last, last, last + last, last[:1], last[:13], last[:14]))

    # Commands

    def transaction(self, wrong):
        session = self.session()
        expected = session.expected if session else 0
        if not self.chance(wrong):
            return expected
        return self.pick(0, 1, expected + 1, max(0, expected - 1), expected + 0x100, expected + 0x10000,
                         expected << 24 & 0xFFFFFFFF, 0xFFFFFFFE, 0xFFFFFFFF, self.random.randrange(0x100000000))

    def shaped(self, code, parameters):
        """The parameters as they are sent: zeros at the end may be missing, and more may follow."""
        sent = list(parameters)
        count = len(OPERATIONS[code].parameters) if code in OPERATIONS else self.random.randrange(6)
        if self.chance(self.wrong + 0.02):
            sent += [0] * (count - len(sent))
            sent += [0] * self.random.randrange(0, 6 - len(sent))
            place = self.random.randrange(5)
            if place < len(sent) and place >= count:
                sent[place] = self.pick(1, 0x01000000, 0xFFFFFFFF)
            elif len(sent) < 5:
                sent.append(self.pick(1, 0x100, 0x80000000, 0xFFFFFFFF))
        while sent and sent[-1] == 0 and self.chance(0.3):
            sent.pop()
        return sent

    def command(self, code, parameters, plain=False, wrong=None):
        """A command; a plain one has the expected transaction and just these parameters."""
        if plain:
            return model.write_container(model.COMMAND, code, self.transaction(0), numbers4(parameters))
        if wrong is None:
            wrong = self.wrong if code in OPERATIONS else 0.2
        sent = self.shaped(code, parameters)
        return model.write_container(model.COMMAND, code, self.transaction(wrong), numbers4(sent))

    def cancelled(self, code, parameters):
        """A command that is to be cancelled."""
        return self.command(code, parameters, wrong=2 * self.wrong + 0.1)

    def ask(self, code, parameters=(), payload=None, damaged=False, room=None, plain=False):
        """One call; at times a stray container or a cancel comes before it, or in its place."""
        command = self.command(code, parameters, plain)
        if not plain and self.chance(0.015):
            self.say(f"answer {self.stray(command).hex() or '-'} - {self.pick(0, 12, 512)}")
        if not plain and self.chance(0.04):
            self.say(f"cancel {self.cancelled(code, parameters).hex()}")
            if self.chance(0.5):
                return None
            command = self.command(code, parameters)
        host = self.host_data(command, payload, damaged)
        room = self.room(code, parameters, plain) if room is None else room
        self.say(f"answer {command.hex()} {host.hex() or '-'} {room}")
        return self.replay.reply

    def host_data(self, command, payload, damaged):
        transaction, code = int.from_bytes(command[8:12], "little"), int.from_bytes(command[6:8], "little")
        if payload is None:
            return self.content(self.pick(1, 11, 12, 20)) if self.chance(0.02) else b""
        container = model.write_container(model.DATA, code, transaction, payload)
        return self.damaged_data(container) if damaged else container

    def needed(self, code, parameters):
        """The length of the data container that the operation would send, or 0."""
        if code not in OPERATIONS or not OPERATIONS[code].sends_data:
            return 0
        five = (tuple(parameters) + (0,) * 5)[:5]
        try:
            _, payload = self.replay.ready().perform(model.Command(code, 0, five), b"")
        except model.Refusal:
            return 0
        return model.HEAD.size + len(payload)

    def room(self, code, parameters, plain):
        needed = self.needed(code, parameters)
        if plain:
            return needed
        if needed == 0:
            return self.pick(0, 0, 12, 109, 512)
        if self.chance(0.82):
            return self.pick(needed, needed, needed + 1, needed + self.random.randrange(500), max(needed, 40_000))
        return self.pick(needed - 1, needed - 1, 0, 11, 12, 13, self.random.randrange(needed))

    # Operations that look

    def look_device(self):
        self.ask(model.GET_DEVICE_INFO)

    def look_ids(self):
        self.ask(model.GET_STORAGE_IDS)

    def look_storage(self):
        storage = self.pick(model.FIRST, model.FIRST, model.SECOND)
        if self.chance(0.2):
            storage = self.pick(0, model.ALL, *WRONG_STORAGES)
        self.ask(model.GET_STORAGE_INFO, [storage])

    def look_handles(self):
        faults = self.faults("storage", "format", "absent", "file", "unnamed")
        storage, format = self.pick(model.FIRST, model.SECOND, model.ALL, model.ALL), 0
        folder = self.pick(0, model.ROOT)
        folders = self.handles(File.is_folder)
        if folders and self.chance(0.6):
            folder = self.pick(*folders)
            storage = self.pick(model.ALL, model.SECOND if folder >= model.SECOND_HANDLES else model.FIRST)
        if "unnamed" in faults:
            folder = self.handle_of(File.is_folder)
            storage = self.pick(model.FIRST, model.SECOND)
        if "file" in faults:
            folder = self.handle_of(lambda file: not file.is_folder())
        if "absent" in faults:
            folder = self.absent_handle()
        if "storage" in faults:
            storage = self.pick(0, *WRONG_STORAGES)
        if "format" in faults:
            format = self.pick(1, 0x3000, 0x3001, 0x3004, 0x10000, 0xFFFFFFFF)
        self.ask(model.GET_OBJECT_HANDLES, [storage, format, folder])

    def look_info(self):
        self.ask(model.GET_OBJECT_INFO, [self.absent_handle() if self.chance(0.15) else self.handle_of()])

    def readable(self):
        """A handle whose bytes may be sent without making the script too long."""
        return self.handle_of(lambda file: not file.is_folder() and (len(file.content) < LARGE or self.room_for_large > 0))

    def look_object(self):
        handle = self.weighted({self.readable(): 7, self.absent_handle(): 1, self.handle_of(File.is_folder): 1})
        file = self.replay.ready().find(handle)
        if file and len(file.content) > LARGE:
            self.room_for_large -= 2 * len(file.content)
        self.ask(model.GET_OBJECT, [handle])

    def look_partial(self):
        handle = self.handle_of(lambda file: not file.is_folder())
        if self.chance(0.15):
            handle = self.pick(self.absent_handle(), self.handle_of(File.is_folder))
        file = self.replay.ready().find(handle)
        size = len(file.content) if file else 5
        offset = self.pick(0, 1, size // 2, size - 1, size) if self.chance(0.75) else self.pick(
            size + 1, size + 1, size + 0x10000, 0x7FFFFFFF, 0x80000000, 0xFFFFFFFF)
        offset = max(0, offset)
        rest = max(0, size - offset)
        maximum = self.pick(0, 1, max(0, rest - 1), rest, rest + 1, size, 0x10000, 0x80000000, 0xFFFFFFFF - offset, 0xFFFFFFFF)
        if min(rest, maximum) > LARGE:
            maximum = self.random.randrange(100)
        self.ask(model.GET_PARTIAL_OBJECT, [handle, offset, maximum])

    # Operations that act

    def act_open(self):
        id = self.pick(1, 2, 0x01020304, 0xFFFFFFFF, self.random.randrange(1, 0x100000000))
        self.ask(model.OPEN_SESSION, [0 if self.faults("id") else id])

    def act_close(self):
        self.ask(model.CLOSE_SESSION)

    def act_delete(self):
        faults = self.faults("format", "absent", "second", "protected", "parent")
        handle = self.handle_of(lambda file: file.protection == 0)
        if "parent" in faults:
            parents = [number for number in self.first().files if self.first().is_parent(number)]
            handle = self.pick(*parents) if parents else handle
        if "protected" in faults:
            protected = self.numbers(self.first(), lambda file: file.protection == 1)
            handle = self.pick(*protected) if protected else handle
        if "second" in faults and self.second().files:
            handle = model.SECOND_HANDLES + self.pick(*self.second().files)
        if "absent" in faults:
            handle = self.absent_handle()
        format = self.pick(1, 0x3000, 0x3004, 0xFFFFFFFF) if "format" in faults else 0
        self.ask(model.DELETE_OBJECT, [handle, format])

    def act_announce(self):
        self.announce(self.faults("storage", "second", "container", "dataset", "format", "folder size", "parent", "size"))

    def act_folder(self):
        self.announce(self.faults("parent", "dataset", "folder size", "container"), format=model.ASSOCIATION)

    def announce(self, faults=frozenset(), format=None, parent=None, size=None, plain=False):
        format = self.pick(model.UNDEFINED, model.TEXT, model.TEXT, model.ASSOCIATION) if format is None else format
        size = self.announced_size() if size is None else size
        if "format" in faults:
            format = self.pick(*edges.UNKNOWN_FORMATS)
        if format == model.ASSOCIATION:
            size = 0
        if "folder size" in faults:
            format, size = model.ASSOCIATION, self.pick(1, 5, 0x100, 0xFFFFFFFF)
        if "size" in faults:
            size = self.pick(32_769, 32_770, 33_554_432, 33_554_433, 0x80000000, 0xFFFFFFFF)
        folders = self.numbers(self.first(), File.is_folder)
        if parent is None:
            parent = self.pick(*folders) if folders and self.chance(0.6) else self.pick(0, model.ROOT)
        if "parent" in faults:
            parent = self.pick(self.absent_handle(), self.handle_of(lambda file: not file.is_folder()), self.handle_of(),
                               model.SECOND_HANDLES + self.pick(1, *self.second().files))
        storage = self.pick(0, model.FIRST)
        if "second" in faults:
            storage = model.SECOND
        if "storage" in faults:
            storage = self.pick(model.ALL, *WRONG_STORAGES)
        info = model.ObjectInfo(storage, format, 1 if self.chance(0.15) else 0, size, parent, self.legal_name())
        dataset = self.dataset(info, "dataset" in faults)
        return self.ask(model.SEND_OBJECT_INFO, [storage, parent], dataset, "container" in faults, plain=plain)

    def announced_size(self):
        """Sizes near what is free; some too large to be sent here, which get other bytes then."""
        if self.chance(0.08):
            return self.pick(32_767, 32_768, self.first().free_bytes(), self.first().free_bytes() + 1)
        return self.size()

    def act_send(self):
        announced = self.announced()
        fault = self.weighted({"": 14, "size": 2, "container": 4})
        size = announced.size if announced else self.pick(0, 0, 1, 12)
        if fault == "size" or (size > LARGE and self.room_for_large <= 0):
            size = self.pick(0, 1, 12) if size > LARGE else max(0, size + self.pick(-1, 1, 1, 12, -12))
        self.ask(model.SEND_OBJECT, [], self.content(size), damaged=fault == "container")

    def send_rightly(self):
        announced = self.announced()
        if announced and announced.size < LARGE:
            self.ask(model.SEND_OBJECT, [], self.content(announced.size), plain=True)

    # Other calls

    def any_code(self):
        return self.pick(*OPERATIONS) if self.chance(0.85) else self.pick(*UNKNOWN_OPERATIONS)

    def any_parameters(self):
        return [self.pick(0, 1, model.FIRST, model.ALL, self.handle_of()) for _ in range(self.random.randrange(4))]

    def any_operation(self):
        """Any operation, with parameters that may not suit it."""
        code, parameters = self.any_code(), self.any_parameters()
        payload = self.pick(b"", b"abc") if code in (model.SEND_OBJECT, model.SEND_OBJECT_INFO) else None
        if code in OPERATIONS:
            parameters = parameters[:len(OPERATIONS[code].parameters)]
        self.ask(code, parameters, payload)

    def unknown(self):
        self.ask(self.pick(*UNKNOWN_OPERATIONS), self.any_parameters())

    def cancel(self):
        command = self.cancelled(self.any_code(), self.any_parameters())
        if self.chance(0.08):
            command = self.stray(command)
        self.say(f"cancel {command.hex() or '-'}")

    def stray_call(self):
        stray = self.stray(self.command(self.any_code(), self.any_parameters())).hex() or "-"
        self.say(self.pick(f"answer {stray} - 512", f"answer {stray} - 0", f"answer {stray} 00 512", f"cancel {stray}"))

    def unplug(self):
        self.say("unplug")

    def late_set_up(self):
        """Lines that set up, once a call was made."""
        if self.session():
            self.say(self.pick("store packed 5 100", "store slotted 2", "lock 1", "lock 0", "image -", "remove 1",
                               "add 1 12292 0 0 4100 6869"))

    def malformed(self):
        self.say(self.pick(*MALFORMED))

    # Orders of calls that chance alone would seldom bring

    def story(self):
        self.pick(self.story_parent_gone, self.story_kept, self.story_replaced, self.story_ended, self.story_number_returns,
                  self.story_children, self.story_churn, self.story_read_back)()

    def story_parent_gone(self):
        """A file is announced in a folder that is then deleted."""
        made = self.announce(format=model.ASSOCIATION, plain=True)
        if made and made.code == Code.OK:
            self.announce(format=model.TEXT, parent=made.parameters[2])
            self.ask(model.DELETE_OBJECT, [made.parameters[2]])
            self.act_send()
            self.act_send()

    def story_kept(self):
        """Calls that keep an announcement come between it and its bytes."""
        self.announce(format=model.TEXT, plain=True)
        for _ in range(self.random.randrange(1, 4)):
            self.pick(self.wrong_send, self.cancelled_send, self.act_open, self.look_handles, self.unknown,
                      self.refused_announcement, self.act_delete)()
        self.act_send()
        if self.chance(0.4):
            self.act_send()

    def wrong_send(self):
        """SendObject with a wrong transaction or a surplus parameter."""
        session = self.session()
        if session:
            wrong = self.chance(0.5)
            transaction = session.expected + (1 if wrong else 0)
            command = model.write_container(model.COMMAND, model.SEND_OBJECT, transaction, b"" if wrong else b"\1\0\0\0")
            self.say(f"answer {command.hex()} {self.host_data(command, b'abc', False).hex()} 0")

    def cancelled_send(self):
        self.say(f"cancel {self.command(self.pick(model.SEND_OBJECT, model.SEND_OBJECT_INFO), [], plain=True).hex()}")

    def refused_announcement(self):
        """An announcement with one fault alone."""
        faults = {"storage": 1, "second": 1, "container": 2, "dataset": 3, "format": 1, "folder size": 1, "parent": 1, "size": 1}
        self.announce({self.weighted(faults)}, plain=True)

    def story_replaced(self):
        """An announcement takes the place of another one, or a folder does."""
        self.announce(format=model.UNDEFINED, plain=True)
        self.announce(format=self.pick(model.TEXT, model.ASSOCIATION), plain=True)
        self.act_send()
        self.act_send()

    def story_ended(self):
        """The session ends between an announcement and its bytes."""
        self.announce(format=model.TEXT, plain=True)
        announced = self.announced()
        self.pick(self.act_close, self.unplug)()
        self.act_open()
        self.ask(model.SEND_OBJECT, [], self.content(min(announced.size, 20) if announced else 0))
        self.act_announce()

    def story_number_returns(self):
        """The largest number is deleted: within the session it does not come back, after another opening it does."""
        numbers = self.first().files
        if numbers:
            self.ask(model.DELETE_OBJECT, [max(numbers)], plain=True)
            if self.chance(0.5):
                self.pick(self.act_close, self.unplug)()
                self.ask(model.OPEN_SESSION, [1], plain=not self.session())
            self.announce(format=self.pick(*model.FORMATS), plain=True)
            self.act_send()

    def story_children(self):
        """A folder with a child is deleted, then the child, then the folder."""
        made = self.announce(format=model.ASSOCIATION, plain=True)
        if made and made.code == Code.OK:
            folder = made.parameters[2]
            child = self.announce(format=self.pick(*model.FORMATS), parent=folder, plain=True)
            self.send_rightly()
            self.ask(model.DELETE_OBJECT, [folder])
            if child and child.code == Code.OK:
                self.ask(model.DELETE_OBJECT, [child.parameters[2]])
            self.ask(model.GET_OBJECT_HANDLES, [self.pick(model.FIRST, model.ALL), 0, folder])
            self.ask(model.DELETE_OBJECT, [folder])

    def story_churn(self):
        """Files of the right size come and go, and the rest is read."""
        for _ in range(self.random.randrange(2, 5)):
            free = self.numbers(self.first(), lambda file: file.protection == 0 and not file.is_folder())
            if free and self.chance(0.6):
                self.ask(model.DELETE_OBJECT, [self.pick(*free)], plain=True)
            self.announce(format=model.TEXT, plain=True)
            self.send_rightly()
            self.ask(model.GET_OBJECT, [self.readable()])

    def story_read_back(self):
        """A file is announced and sent, looked at and read."""
        made = self.announce(format=self.pick(model.UNDEFINED, model.TEXT), plain=True)
        self.send_rightly()
        if made and made.code == Code.OK:
            handle = made.parameters[2]
            self.ask(model.GET_OBJECT_INFO, [handle], plain=True)
            self.ask(model.GET_PARTIAL_OBJECT, [handle, self.random.randrange(4), self.random.randrange(8)])

    # The session

    def audit(self):
        """Looks at everything, so that no difference of contents stays hidden."""
        if not self.session():
            self.ask(model.OPEN_SESSION, [9], plain=True)
        self.ask(model.GET_STORAGE_INFO, [model.FIRST], plain=True)
        self.ask(model.GET_STORAGE_INFO, [model.SECOND], plain=True)
        self.ask(model.GET_OBJECT_HANDLES, [model.ALL, 0, 0], plain=True)
        for handle in self.handles()[:9]:
            self.ask(model.GET_OBJECT_INFO, [handle], plain=True)
            file = self.replay.ready().find(handle)
            if len(file.content) < LARGE and (not file.is_folder() or self.chance(0.1)):
                self.ask(model.GET_OBJECT, [handle], plain=True)

    def closed_step(self):
        self.weighted({self.act_open: 20 if self.theme == "steps" else 60, self.look_device: 8, self.any_operation: 12,
                       self.unknown: 3, self.cancel: 8, self.unplug: 3, self.stray_call: 4, self.malformed: 2})()

    def open_step(self):
        if self.announced() and self.chance(0.5):
            return self.act_send()
        steps = {self.look_device: 2, self.look_ids: 2, self.look_storage: 6, self.look_handles: 9, self.look_info: 8,
                 self.look_object: 8, self.look_partial: 9, self.act_delete: 9, self.act_announce: 12, self.act_folder: 4,
                 self.act_send: 2, self.refused_announcement: 5, self.act_open: 1, self.act_close: 2, self.unplug: 1,
                 self.cancel: 3, self.unknown: 1, self.any_operation: 3, self.stray_call: 1, self.malformed: 1,
                 self.late_set_up: 1, self.story: 6}
        if self.theme in ("tight", "crowded", "uploads", "last numbers", "large"):
            steps.update({self.act_announce: 30, self.act_delete: 16, self.story: 12})
        if self.theme == "folders":
            steps.update({self.act_folder: 24, self.look_handles: 20, self.act_delete: 14})
        if self.theme == "steps":
            steps.update({self.any_operation: 40, self.cancel: 25, self.look_ids: 8, self.act_close: 8, self.unplug: 5,
                          self.unknown: 5})
        self.weighted(steps)()

    def write(self):
        self.set_up()
        length = self.random.randrange(*{"short": (1, 6), "images": (1, 12), "many files": (3, 10)}.get(self.theme, (10, 46)))
        while self.calls() < length:
            if self.session():
                self.open_step()
            else:
                self.closed_step()
        if self.chance(0.7):
            self.audit()
        return self

    def calls(self):
        return sum(count for (verb, *_), count in self.tally.items() if verb in ("answer", "cancel"))


def session(seed, index):
    """The lines of one session."""
    return Writer(seed, index).write().lines


# The answers that the docs allow.

BEFORE = {"2003", "2004", "2006"}  # those of the steps before the operation
POSSIBLE = {
    "GetDeviceInfo": {"2001", "2002", "2004", "2006"},
    "OpenSession": {"2001", "2004", "2006", "201D", "201E"},
    "CloseSession": {"2001"} | BEFORE,
    "GetStorageIDs": {"2001", "2002"} | BEFORE,
    "GetStorageInfo": {"2001", "2002", "2008"} | BEFORE,
    "GetObjectHandles": {"2001", "2002", "2008", "2009", "2014", "201A"} | BEFORE,
    "GetObjectInfo": {"2001", "2002", "2009"} | BEFORE,
    "GetObject": {"2001", "2002", "2009"} | BEFORE,
    "DeleteObject": {"2001", "2009", "200D", "200E", "200F", "2014"} | BEFORE,
    "SendObjectInfo": {"2001", "2007", "2008", "200B", "200C", "200E", "201A", "A806", "A809"} | BEFORE,
    "SendObject": {"2001", "2007", "2015", "201A"} | BEFORE,
    "GetPartialObject": {"2001", "2002", "2009", "201D"} | BEFORE,
    "unknown": {"2004", "2005"},
}
CANCELLED = {"GetDeviceInfo": {"2004", "201F"}, "OpenSession": {"2004", "201E", "201F"}, "unknown": {"2004", "2005"}}
LINES = {"new": {"new"}, "store": {"ok", "refused 2"}, "lock": {"ok"}, "image": {"ok", "refused 3"},
          "add": {"added", "store 200E", "store A806", "store 201D", "store 201A", "store 200C"},
          "remove": {"removed", "store 200E", "store 2009", "store 200F"},
          "answer": {"refused 1"}, "cancel": {"refused 1"}, "unplug": {"unplugged"}}


def possible_pairs():
    for operation, codes in POSSIBLE.items():
        yield from (("answer", operation, code) for code in codes)
        cancelled = CANCELLED.get(operation, {"2003", "2004", "201F"})
        yield from (("cancel", operation, code) for code in cancelled)
    for verb, answers in LINES.items():
        yield from (("line", verb, answer) for answer in answers)
    yield ("malformed", "", "")


def missing_pairs(tally):
    return sorted(set(possible_pairs()) - {heading[:3] for heading in tally})


def code_name(outcome):
    try:
        return Code(int(outcome, 16)).name
    except ValueError:
        return ""


def tally_lines(tally):
    """The tally as text: a line for each operation and answer, with the causes behind."""
    pairs = {}
    for (verb, operation, outcome, why), count in tally.items():
        pairs.setdefault((verb, operation, outcome), Counter())[why] += count
    for (verb, operation, outcome), causes in sorted(pairs.items()):
        told = ", ".join(f"{why} {count}" for why, count in causes.most_common() if why)
        yield f"{verb:9} {operation:17} {outcome:10} {code_name(outcome):22} {sum(causes.values()):7}  {told}".rstrip()
    allowed = list(possible_pairs())
    missing = missing_pairs(tally)
    unforeseen = sorted(set(pairs) - set(allowed))
    yield f"{len(allowed) - len(missing)} of {len(allowed)} answers that the docs allow came"
    yield from (f"did not come: {' '.join(pair)}" for pair in missing)
    yield from (f"came against the docs: {' '.join(pair)}" for pair in unforeseen)


def main():
    parser = argparse.ArgumentParser(description=__doc__, formatter_class=argparse.RawDescriptionHelpFormatter)
    parser.add_argument("seed", metavar="SEED", help="any word or number; the same seed gives the same script")
    parser.add_argument("count", metavar="COUNT", type=int, help="how many sessions")
    parser.add_argument("--tally", action="store_true", help="write the tally of answers instead of the script")
    options = parser.parse_args()
    tally = Counter()
    for index in range(options.count):
        writer = Writer(options.seed, index).write()
        tally.update(writer.tally)
        if not options.tally:
            sys.stdout.write("\n".join(writer.lines) + "\n")
    if options.tally:
        print("\n".join(tally_lines(tally)))


if __name__ == "__main__":
    main()
