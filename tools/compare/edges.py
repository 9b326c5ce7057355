"""Things at the edges, drawn by chance: names, containers, datasets and images, right ones and damaged ones."""

import random

import model
from model import File

UNKNOWN_FORMATS = (0x0000, 0x0030, 0x0130, 0x2FFF, 0x3002, 0x3003, 0x3005, 0x3100, 0x3801, 0xB001, 0xFFFF)
LEGAL_EDGES = (0x20, 0x21, 0x2E, 0x30, 0x39, 0x3B, 0x5B, 0x5D, 0x7F, 0xFF, 0x100, 0x11F, 0x2F00, 0x3A2F, 0x5C00, 0xD800, 0xDFFF,
               0xFFFE, 0xFFFF)
ILLEGAL_UNITS = (0x00, 0x01, 0x0A, 0x1F, 0x2F, 0x3A, 0x5C)
DAMAGED_STRINGS = (b"", b"\1\0\0", b"\1A\0", b"\2A\0B\0", b"\2A\0", b"\2A\0\0", b"\2A\0\0\0\0", b"\2\0\0\0\0",
                   b"\3A\0\0\0\0\0", b"\3\0\0A\0\0\0", b"\xff")


def with_field(container, place, width, value):
    """The bytes with another number at the place."""
    return container[:place] + (value % 256 ** width).to_bytes(width, "little") + container[place + width:]


def image_of(files):
    return b"".join(model.write_image_file(number, file) for number, file in files.items())


class Edges:
    def __init__(self, seed):
        self.random = random.Random(seed)

    # Chances

    def chance(self, share):
        return self.random.random() < share

    def pick(self, *things):
        return self.random.choice(things)

    def weighted(self, weights):
        return self.random.choices(list(weights), list(weights.values()))[0]

    def faults(self, *names):
        """Mostly none, at times one, at times several at once so that their order shows."""
        roll = self.random.random()
        if roll < 0.60:
            return set()
        if roll < 0.80:
            return {self.pick(*names)}
        return {name for name in names if self.chance(0.45)}

    # Names and bytes

    def content(self, size):
        return self.random.randbytes(size)

    def legal_unit(self):
        return self.pick(*LEGAL_EDGES) if self.chance(0.15) else self.random.randrange(0x41, 0x5B)

    def legal_units(self, length):
        return tuple(self.legal_unit() for _ in range(length))

    def legal_name(self):
        return self.legal_units(self.pick(1, 1, 2, 2, 3, 4, 5, 6) if self.chance(0.93) else self.pick(31, 62, 63, 63))

    def illegal_name(self):
        if self.chance(0.4):
            return self.legal_units(self.pick(0, 0, 64, 64, 65, 126, 127, 254))
        units = list(self.legal_name())
        units[self.random.randrange(len(units))] = self.pick(*ILLEGAL_UNITS)
        return tuple(units)

    # Containers

    def stray(self, command):
        """A command container made into what is none."""
        size = len(command)
        lengths = (size - 4, size - 1, size + 1, size + 4, size + 0x10000, size + 0x1000000, 0, 32 if size < 32 else 12)
        kinds = (
            lambda: with_field(command, 0, 4, self.pick(*lengths)),
            lambda: with_field(command, 4, 2, self.pick(0, 2, 3, 4, 0x100, 0x101, 0xFFFF)),
            lambda: self.of_size(command, self.random.randrange(1, 12)),
            lambda: self.of_size(command, self.pick(13, 14, 15, 17, 18, 19, 21, 23, 25, 27, 29, 30, 31)),
            lambda: self.of_size(command, self.pick(33, 36, 36, 40, 64, 512)),
            lambda: command[:-self.pick(1, 4)],
            lambda: command + bytes(self.pick(1, 4)),
            lambda: b"",
        )
        return self.pick(*kinds)()

    def of_size(self, command, size):
        """The command cut or filled up to the size, with that as its length."""
        return with_field((command + bytes(size))[:max(size, 4)], 0, 4, size)[:size]

    def damaged_data(self, container):
        """A data container made into another one, or none."""
        size, _, code, transaction = model.HEAD.unpack_from(container)
        lengths = (size - 1, size + 1, size - 12, size + 0x10000, size + 0x1000000, 0, 16 if size == 12 else 12, 0xFFFFFFFF)
        transactions = (transaction + 1, transaction - 1, transaction + 0x100, transaction + 0x1000000, 0xFFFFFFFF)
        place = self.random.randrange(12)
        short = self.random.randrange(1, 12)
        kinds = (
            lambda: b"",
            lambda: container[:-self.pick(1, 2, 4)],
            lambda: container[:12] if size > 12 else container[:11],
            lambda: with_field(container, 0, 4, self.pick(short, size))[:short],
            lambda: container + bytes(self.pick(1, 2, 4, 512)),
            lambda: container + container,
            lambda: container[12:],
            lambda: with_field(container, 0, 4, self.pick(*lengths)),
            lambda: with_field(container, 4, 2, self.pick(0, 1, 3, 4, 0x102, 0x200, 0xFFFF)),
            lambda: with_field(container, 6, 2, self.pick(code ^ 1, code + 1, code ^ 0x100, 0x2001, 0)),
            lambda: with_field(container, 8, 4, self.pick(*transactions)),
            lambda: with_field(container, place, 1, container[place] ^ 1 << self.random.randrange(8)),
        )
        return self.pick(*kinds)()

    # Datasets

    def dataset(self, info, damaged):
        """The dataset, with what is passed over set at times, and wrong in one place if it is to be damaged."""
        kinds = {"cut": 2, "cut fixed": 1, "more": 1, "protection": 1, "name": 3, "count": 1, "one unit": 1, "end": 1,
                 "zero within": 1, "strings": 4}
        kind = self.weighted(kinds) if damaged else ""
        dataset = self.fixed_part(info, kind) + self.name_string(info.name, kind) + self.other_strings(kind)
        if kind == "cut":
            return dataset[:-self.random.randrange(1, 8)]
        if kind == "cut fixed":
            return dataset[:self.pick(0, 1, 6, 8, 12, 38, 42, 51, 52, 52, 53)]
        if kind == "more":
            return dataset + bytes(self.pick(1, 1, 2, 3))
        return dataset

    def fixed_part(self, info, kind):
        passed_over = [self.random.randrange(0x10000) for _ in range(10)] if self.chance(0.2) else [0] * 10
        return model.OBJECT_INFO.pack(
            self.pick(info.storage, info.storage, 0, 7, 0xFFFFFFFF), info.format,
            self.pick(2, 3, 0x100, 0x101, 0x8000, 0xFFFF) if kind == "protection" else info.protection, info.size,
            *passed_over[:7], self.pick(info.parent, 0, 0x12345678, 0xFFFFFFFF), *passed_over[7:])

    def name_string(self, name, kind):
        written = model.write_string(name)
        if kind == "name":
            return model.write_string(self.illegal_name())
        if kind == "count":
            return bytes([written[0] + self.pick(-1, 1)]) + written[1:]
        if kind == "one unit":
            return self.pick(b"\1\0\0", b"\1A\0")
        if kind == "end":
            return written[:-2] + self.pick(b"A\0", b"\0\1", b"\1\0")
        if kind == "zero within":
            return bytes([written[0] + 1]) + self.pick(b"\0\0" + written[1:], written[1:] + b"\0\0")
        return written

    def other_strings(self, kind):
        """The three strings that are passed over."""
        strings = [self.other_string() for _ in range(3)]
        if kind == "strings":
            strings[self.random.randrange(3)] = self.pick(*DAMAGED_STRINGS)
        return b"".join(strings)

    def other_string(self):
        units = self.pick((0x41,), (0x2F, 0x01), tuple(range(1, 255))) if self.chance(0.08) else ()
        return model.write_string(units)

    # Images

    def image_files(self):
        """Numbered files that an image may hold."""
        files, folders, number = {}, [], 0
        for _ in range(self.weighted({0: 1, 1: 3, 3: 4, 5: 3, 8: 1})):
            number += self.pick(1, 1, 1, 2, 5, 0x100) if self.chance(0.97) else 0x1000000
            parent = self.pick(*folders) if folders and self.chance(0.7) else 0
            format = self.pick(*model.FORMATS)
            size = 0 if format == model.ASSOCIATION else self.pick(0, 1, 2, 7, 20, 65)
            files[number] = File(format, model.READ_ONLY, parent, self.legal_name(), self.content(size))
            folders += [number] if format == model.ASSOCIATION else []
        if files and self.chance(0.05):
            files[0x7FFFFFFE] = File(model.TEXT, model.READ_ONLY, 0, self.legal_name(), b"end")
        return files

    def many_files(self, count):
        """So many small files."""
        files = {number: File(model.TEXT, model.READ_ONLY, number % 2, (0x42,), b"") for number in range(2, count + 1)}
        return {1: File(model.ASSOCIATION, model.READ_ONLY, 0, (0x41,), b"")} | files

    def spoilt_image(self):
        """An image that is mostly wrong in one place, at times in several."""
        fields = [[tag, len(content), content] for number, file in self.image_files().items() for tag, content in (
            (model.PLACE_TAG, model.FILE_PLACE.pack(number, file.parent, file.format)),
            (model.NAME_TAG, model.bytes_of(file.name)),
            (model.BYTES_TAG, file.content))]
        for _ in range(self.pick(1, 1, 1, 1, 2, 3)):
            if fields:
                self.spoil_field(fields)
        image = b"".join(model.FIELD_HEAD.pack(tag, length) + content for tag, length, content in fields)
        return self.spoilt_bytes(image) if self.chance(0.3) else image

    def spoil_field(self, fields):
        place, other = self.random.randrange(len(fields)), self.random.randrange(len(fields))
        tag, length, content = fields[place]
        kind = self.weighted({"tag": 2, "length": 2, "drop": 1, "twice": 1, "swap": 1, "content": 8})
        if kind == "tag":
            fields[place] = [self.pick(0, 1, 2, 3, 4, tag ^ 0x80, 0xFF), length, content]
        elif kind == "length":
            fields[place] = [tag, self.pick(length - 1, length + 1, length ^ 0x100, 0, 0xFFFF) & 0xFFFF, content]
        elif kind == "drop":
            del fields[place]
        elif kind == "twice":
            fields.insert(place, fields[place])
        elif kind == "swap":
            fields[place], fields[other] = fields[other], fields[place]
        else:
            content = self.spoilt_content(fields, tag, content)
            fields[place] = [tag, len(content), content]

    def spoilt_content(self, fields, tag, content):
        if tag == model.PLACE_TAG and len(content) == model.FILE_PLACE.size:
            return self.spoilt_place(fields, *model.FILE_PLACE.unpack(content))
        if tag == model.NAME_TAG:
            return self.pick(model.bytes_of(self.illegal_name()), content + b"A", content[1:], b"", b"A\0" * 63, b"A\0" * 64)
        return self.pick(content + b"x", b"!", b"")

    def spoilt_place(self, fields, number, parent, format):
        """The first field of a file, with another number, parent, format or size."""
        numbers = [int.from_bytes(content[:4], "little") for tag, _, content in fields if tag == model.PLACE_TAG]
        kind = self.pick("number", "order", "parent", "parent", "format", "size")
        if kind == "number":
            number = self.pick(0, 0x7FFFFFFE, 0x7FFFFFFF, 0x80000000, 0x80000001, 0xFFFFFFFF)
        elif kind == "order":
            number = self.pick(*numbers)
        elif kind == "parent":
            parent = self.pick(number, number + 1 & 0xFFFFFFFF, 0xFFFFFFFF, number ^ 0x80000000, *numbers)
        elif kind == "format":
            format = self.pick(*UNKNOWN_FORMATS)
        content = model.FILE_PLACE.pack(number, parent, format)
        return self.pick(content[:9], content + b"\0", b"", content[:4], content * 2) if kind == "size" else content

    def spoilt_bytes(self, image):
        kind = self.pick("cut", "cut", "more", "flip")
        place = self.random.randrange(len(image) + 1)
        if kind == "more":
            return image + self.pick(b"\1", b"\0", b"\2", b"\1\x0a", b"\1\x0a\0", b"\1\x0a\0\1", b"\3\0\0")
        if kind == "cut" or place == len(image):
            return image[:place]
        return with_field(image, place, 1, image[place] ^ 1 << self.random.randrange(8))
