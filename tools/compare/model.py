"""A second responder, written from the pages in docs/ alone.

It serves to be compared with the proved one, so it shares nothing with it but those pages. The names are theirs: PROTOCOL
for the responder, STORAGE for the stores, FORMATS for everything in bytes, REFUSALS for the numbers.

A refused call raises Refusal; its `why` names the check that refused, in words.
"""

import struct
from enum import IntEnum
from typing import NamedTuple, Optional


# Refusals

class Code(IntEnum):
    """The numbers of docs/REFUSALS.md: this library's own below 0x1000, response codes above."""

    StrayContainer = 1
    WrongMemory = 2
    SpoiltImage = 3
    OK = 0x2001
    GeneralError = 0x2002
    SessionNotOpen = 0x2003
    InvalidTransaction = 0x2004
    OperationNotSupported = 0x2005
    ParameterNotSupported = 0x2006
    IncompleteTransfer = 0x2007
    InvalidStorage = 0x2008
    InvalidHandle = 0x2009
    InvalidFormat = 0x200B
    StoreFull = 0x200C
    ObjectProtected = 0x200D
    StoreReadOnly = 0x200E
    AccessDenied = 0x200F
    FormatNotSupported = 0x2014
    NoObjectInfo = 0x2015
    InvalidParent = 0x201A
    InvalidParameter = 0x201D
    SessionAlreadyOpen = 0x201E
    TransactionCancelled = 0x201F
    InvalidDataset = 0xA806
    ObjectTooLarge = 0xA809


class Refusal(Exception):
    def __init__(self, code, why, parameters=(), place=None):
        super().__init__(code, why)
        self.code = code
        self.why = why
        self.parameters = parameters
        self.place = place


def refuse_if(wrong, code, why):
    if wrong:
        raise Refusal(code, why)


# Objects

UNDEFINED, ASSOCIATION, TEXT = 0x3000, 0x3001, 0x3004
FORMATS = (UNDEFINED, ASSOCIATION, TEXT)
UNPROTECTED, READ_ONLY = 0, 1
PROTECTIONS = (UNPROTECTED, READ_ONLY)
LONGEST_NAME = 63
FORBIDDEN_UNITS = (0x002F, 0x003A, 0x005C)
LARGEST_NUMBER = 0x7FFFFFFE
LARGEST_FILE = 32_768
LARGEST_CAPACITY = 33_554_432
LARGEST_LIMIT = 1_024


class File(NamedTuple):
    format: int
    protection: int
    parent: int
    name: tuple
    content: bytes

    def is_folder(self):
        return self.format == ASSOCIATION


def units_of(content):
    """The 16-bit units of an even count of bytes."""
    return struct.unpack(f"<{len(content) // 2}H", content)


def bytes_of(units):
    return struct.pack(f"<{len(units)}H", *units)


def is_legal_unit(unit):
    return unit >= 0x0020 and unit not in FORBIDDEN_UNITS


def is_legal_name(units):
    return 1 <= len(units) <= LONGEST_NAME and all(map(is_legal_unit, units))


# Stores

class Store:
    """A store is known by its contents: capacity, limit and files by number."""

    locked = False

    def __init__(self, capacity, limit):
        self.capacity = capacity
        self.limit = limit
        self.files = {}

    def total(self):
        return sum(len(file.content) for file in self.files.values())

    def free_bytes(self):
        return self.capacity - self.total()

    def free_places(self):
        return self.limit - len(self.files)

    def numbers(self):
        return sorted(self.files)

    def largest_number(self):
        return max(self.files, default=0)

    def has_folder(self, number):
        return number in self.files and self.files[number].is_folder()

    def is_parent(self, number):
        return any(file.parent == number for file in self.files.values())

    def add(self, number, file):
        size = len(file.content)
        refuse_if(not 1 <= number <= LARGEST_NUMBER, Code.InvalidDataset, "a number that no file has")
        refuse_if(size > LARGEST_FILE, Code.InvalidDataset, "too many bytes for a file")
        refuse_if(file.is_folder() and size > 0, Code.InvalidDataset, "a folder with bytes")
        refuse_if(number in self.files, Code.InvalidParameter, "the number is taken")
        refuse_if(not self.may_be_parent(file.parent, number), Code.InvalidParent, "no such folder below the number")
        refuse_if(self.free_places() < 1, Code.StoreFull, "no free place")
        refuse_if(self.free_bytes() < size, Code.StoreFull, "too few free bytes")
        self.files[number] = file

    def may_be_parent(self, parent, number):
        return parent == 0 or (self.has_folder(parent) and parent < number)

    def remove(self, number):
        refuse_if(number not in self.files, Code.InvalidHandle, "the number is absent")
        refuse_if(self.is_parent(number), Code.AccessDenied, "it is some file's parent")
        del self.files[number]


def no_store():
    """A store of no rows and no bytes."""
    return Store(0, 0)


def packed_store(places, size):
    """A store in a table of so many rows and bytes."""
    refuse_if(not 1 <= places <= LARGEST_LIMIT, Code.WrongMemory, "1 to 1,024 rows")
    refuse_if(not 0 <= size <= LARGEST_CAPACITY, Code.WrongMemory, "at most 33,554,432 bytes")
    return Store(size, places)


def slotted_store(places, size=None):
    """A store with a slot of the largest file's size for each row."""
    refuse_if(not 1 <= places <= LARGEST_LIMIT, Code.WrongMemory, "1 to 1,024 rows")
    refuse_if(size is not None and size != places * LARGEST_FILE, Code.WrongMemory, "32,768 bytes for each row")
    return Store(places * LARGEST_FILE, places)


class WriteLock:
    """A writing store over another: the one below, locked if that is or the lock is set."""

    def __init__(self, below, is_set):
        self.below = below
        self.is_set = is_set

    def __getattr__(self, question):
        return getattr(self.below, question)

    @property
    def locked(self):
        return self.is_set or self.below.locked

    def add(self, number, file):
        refuse_if(self.locked, Code.StoreReadOnly, "the store is locked")
        self.below.add(number, file)

    def remove(self, number):
        refuse_if(self.locked, Code.StoreReadOnly, "the store is locked")
        self.below.remove(number)


# Image

PLACE_TAG, NAME_TAG, BYTES_TAG = 0x01, 0x02, 0x03
FIELD_HEAD = struct.Struct("<BH")
FILE_PLACE = struct.Struct("<IIH")


def image_field(tag, content):
    return FIELD_HEAD.pack(tag, len(content)) + content


def write_image_file(number, file):
    return (image_field(PLACE_TAG, FILE_PLACE.pack(number, file.parent, file.format))
            + image_field(NAME_TAG, bytes_of(file.name))
            + image_field(BYTES_TAG, file.content))


def spoilt_if(wrong, place, why):
    if wrong:
        raise Refusal(Code.SpoiltImage, why, place=place)


def read_image_field(image, place, tag):
    """The content of the field at the place, and the place behind it."""
    spoilt_if(place == len(image), place, "a field is missing")
    spoilt_if(image[place] != tag, place, "another tag is due")
    start = place + FIELD_HEAD.size
    spoilt_if(start > len(image), place, "a field's head is cut short")
    _, length = FIELD_HEAD.unpack_from(image, place)
    spoilt_if(start + length > len(image), place, "a field's content is cut short")
    return image[start:start + length], start + length


def read_image_place(image, place, store):
    """Number, parent and format of the next file, and the place behind."""
    content, behind = read_image_field(image, place, PLACE_TAG)
    spoilt_if(len(store.files) == LARGEST_LIMIT, place, "a 1,025th file")
    spoilt_if(len(content) != FILE_PLACE.size, place, "the first field has not 10 bytes")
    number, parent, format = FILE_PLACE.unpack(content)
    spoilt_if(not 1 <= number <= LARGEST_NUMBER, place, "a number that no file has")
    spoilt_if(number <= store.largest_number(), place, "the numbers do not increase")
    spoilt_if(format not in FORMATS, place, "an unknown format")
    spoilt_if(parent != 0 and not store.has_folder(parent), place, "the parent is no earlier folder")
    return number, parent, format, behind


def read_image_name(image, place):
    content, behind = read_image_field(image, place, NAME_TAG)
    spoilt_if(len(content) % 2 != 0, place, "an odd count of bytes in a name")
    units = units_of(content)
    spoilt_if(not 1 <= len(units) <= LONGEST_NAME, place, "a name of a wrong length")
    spoilt_if(not is_legal_name(units), place, "an illegal unit in a name")
    return units, behind


def read_image_bytes(image, place, format):
    content, behind = read_image_field(image, place, BYTES_TAG)
    spoilt_if(len(content) > LARGEST_FILE, place, "too many bytes for a file")
    spoilt_if(format == ASSOCIATION and len(content) > 0, place, "a folder with bytes")
    return content, behind


def open_image(image):
    """The read-only store that the image holds; it is full."""
    store = no_store()
    place = 0
    while place < len(image):
        number, parent, format, place = read_image_place(image, place, store)
        name, place = read_image_name(image, place)
        content, place = read_image_bytes(image, place, format)
        store.files[number] = File(format, READ_ONLY, parent, name, content)
    store.capacity = store.total()
    store.limit = len(store.files)
    return store


# Containers

HEAD = struct.Struct("<IHHI")
COMMAND, DATA, RESPONSE = 1, 2, 3
LONGEST_COMMAND = 32
MOST_PARAMETERS = 5


class Command(NamedTuple):
    code: int
    transaction: int
    parameters: tuple  # always five; those that were not sent are 0


def write_container(type, code, transaction, payload):
    return HEAD.pack(HEAD.size + len(payload), type, code, transaction) + payload


def numbers4(numbers):
    return struct.pack(f"<{len(numbers)}I", *numbers)


def numbers2(numbers):
    return struct.pack(f"<{len(numbers)}H", *numbers)


def read_command(container):
    """The command in the bytes, or refusal 1."""
    size = len(container)
    refuse_if(not HEAD.size <= size <= LONGEST_COMMAND, Code.StrayContainer, "not 12 to 32 bytes")
    length, type, code, transaction = HEAD.unpack_from(container)
    refuse_if(length != size, Code.StrayContainer, "another length")
    refuse_if(size % 4 != 0, Code.StrayContainer, "a length that 4 does not divide")
    refuse_if(type != COMMAND, Code.StrayContainer, "no command")
    sent = struct.unpack_from(f"<{(size - HEAD.size) // 4}I", container, HEAD.size)
    return Command(code, transaction, sent + (0,) * (MOST_PARAMETERS - len(sent)))


def read_data(host, command):
    """The payload of the host's data, which must be one container for the command."""
    refuse_if(len(host) < HEAD.size, Code.IncompleteTransfer, "less than a head")
    length, type, code, transaction = HEAD.unpack_from(host)
    refuse_if(length != len(host), Code.IncompleteTransfer, "another length")
    refuse_if(type != DATA, Code.IncompleteTransfer, "another type")
    refuse_if(code != command.code, Code.IncompleteTransfer, "another code")
    refuse_if(transaction != command.transaction, Code.IncompleteTransfer, "another transaction")
    return host[HEAD.size:]


def write_data(command, payload, room):
    """The data container, if the buffer has room for it."""
    container = write_container(DATA, command.code, command.transaction, payload)
    refuse_if(len(container) > room, Code.GeneralError, "the buffer is too short")
    return container


# Strings and arrays

def write_string(units):
    if not units:
        return b"\0"
    return bytes([len(units) + 1]) + bytes_of(units) + b"\0\0"


def text(words):
    return write_string(tuple(map(ord, words)))


def read_string(dataset, place):
    """The units of the string at the place, without the closing 0, and the place behind."""
    refuse_if(place >= len(dataset), Code.InvalidDataset, "a string is missing")
    count = dataset[place]
    start, behind = place + 1, place + 1 + 2 * count
    refuse_if(behind > len(dataset), Code.InvalidDataset, "a string is cut short")
    units = units_of(dataset[start:behind])
    if count == 0:
        return (), behind
    refuse_if(count == 1, Code.InvalidDataset, "a string of one unit")
    refuse_if(units[-1] != 0, Code.InvalidDataset, "a string that does not end in 0")
    refuse_if(0 in units[:-1], Code.InvalidDataset, "a 0 within a string")
    return units[:-1], behind


def array4(numbers):
    return numbers4([len(numbers)]) + numbers4(numbers)


def array2(numbers):
    return numbers4([len(numbers)]) + numbers2(numbers)


# Datasets

OBJECT_INFO = struct.Struct("<I HH I H III III I H II")
STORAGE_INFO = struct.Struct("<HHHQQI")
EMPTY = write_string(())


class ObjectInfo(NamedTuple):
    storage: int
    format: int
    protection: int
    size: int
    parent: int
    name: tuple


def write_object_info(info):
    association_type = 1 if info.format == ASSOCIATION else 0
    fixed = OBJECT_INFO.pack(info.storage, info.format, info.protection, info.size, 0, 0, 0, 0, 0, 0, 0,
                             info.parent, association_type, 0, 0)
    return fixed + write_string(info.name) + 3 * EMPTY


def read_object_info(dataset):
    refuse_if(len(dataset) < OBJECT_INFO.size, Code.InvalidDataset, "shorter than its fixed part")
    fixed = OBJECT_INFO.unpack_from(dataset)
    storage, format, protection, size, parent = fixed[0], fixed[1], fixed[2], fixed[3], fixed[11]
    refuse_if(protection not in PROTECTIONS, Code.InvalidDataset, "an unknown protection")
    name, place = read_string(dataset, OBJECT_INFO.size)
    refuse_if(not is_legal_name(name), Code.InvalidDataset, "a name that is not legal")
    for _ in range(3):
        _, place = read_string(dataset, place)
    refuse_if(place != len(dataset), Code.InvalidDataset, "bytes behind the last string")
    return ObjectInfo(storage, format, protection, size, parent, name)


def write_storage_info(store, type, access, description):
    fixed = STORAGE_INFO.pack(type, 2, access, store.capacity, store.free_bytes(), store.free_places())
    return fixed + text(description) + EMPTY


def write_device_info():
    return (struct.pack("<HIH", 100, 6, 100) + EMPTY + numbers2([0])
            + array2(sorted(OPERATIONS)) + array2([]) + array2([]) + array2([]) + array2(FORMATS)
            + text("Spares") + text("Drip") + text("1") + text("0"))


# The responder

FIRST, SECOND = 0x00010001, 0x00020001
ALL = ROOT = 0xFFFFFFFF
SECOND_HANDLES = 0x80000000
LAST_TRANSACTION = 0xFFFFFFFE


class Announcement(NamedTuple):
    number: int
    format: int
    protection: int
    parent: int
    name: tuple
    size: int


class Session:
    """An open session."""

    def __init__(self, id, next):
        self.id = id
        self.expected = 1
        self.next = next
        self.announced: Optional[Announcement] = None

    def move_on(self):
        self.expected = 1 if self.expected == LAST_TRANSACTION else self.expected + 1


class Reply(NamedTuple):
    code: int
    transaction: int
    parameters: tuple
    data: bytes  # the data container, or no bytes
    why: str

    def response(self):
        return write_container(RESPONSE, self.code, self.transaction, numbers4(self.parameters))


class Responder:
    """Serves a writing store and a reading store. It is closed while `session` is None."""

    def __init__(self, first, second):
        self.first = first
        self.second = second
        self.session: Optional[Session] = None

    # The calls

    def answer(self, command, host, room):
        try:
            self.admit(command)
            refuse_surplus(command)
            parameters, payload = self.perform(command, host)
            data = b"" if payload is None else write_data(command, payload, room)
            return Reply(Code.OK, command.transaction, parameters, data, "")
        except Refusal as refusal:
            return refused(command, refusal)

    def cancel(self, command):
        try:
            self.admit(command)
            raise Refusal(Code.TransactionCancelled, "cancelled")
        except Refusal as refusal:
            return refused(command, refusal)

    def unplug(self):
        self.session = None

    # Steps 1 to 4 of an answer

    def admit(self, command):
        if self.session is None:
            admit_closed(command)
        else:
            admit_open(command, self.session)

    def perform(self, command, host):
        """Step 6: the parameters of the reply, and the payload to send or None."""
        return getattr(self, OPERATIONS[command.code].method)(command, host)

    # Handles

    def storage_of(self, handle):
        return SECOND if handle >= SECOND_HANDLES else FIRST

    def find(self, handle):
        """The file with the handle, or None."""
        if handle >= SECOND_HANDLES:
            return self.second.files.get(handle - SECOND_HANDLES)
        return self.first.files.get(handle)

    def found(self, handle):
        file = self.find(handle)
        refuse_if(file is None, Code.InvalidHandle, "the handle is not found")
        return file

    def found_bytes(self, handle):
        file = self.found(handle)
        refuse_if(file.is_folder(), Code.InvalidHandle, "the handle is a folder's")
        return file.content

    # Operations that look

    def get_device_info(self, command, host):
        return (), write_device_info()

    def get_storage_ids(self, command, host):
        return (), array4([FIRST, SECOND])

    def get_storage_info(self, command, host):
        storage = command.parameters[0]
        refuse_if(storage not in (FIRST, SECOND), Code.InvalidStorage, "no such storage")
        if storage == FIRST:
            return (), write_storage_info(self.first, 3, 1 if self.first.locked else 0, "Programs")
        return (), write_storage_info(self.second, 1, 1, "Handbook")

    def get_object_handles(self, command, host):
        storage, format, folder = command.parameters[:3]
        refuse_if(storage not in (FIRST, SECOND, ALL), Code.InvalidStorage, "no such storage")
        refuse_if(format != 0, Code.FormatNotSupported, "the format is not 0")
        if folder not in (0, ROOT):
            file = self.found(folder)
            refuse_if(not file.is_folder(), Code.InvalidParent, "it is no folder")
            refuse_if(storage not in (self.storage_of(folder), ALL), Code.InvalidParent, "on a storage that is not named")
        return (), array4(self.handles(storage, folder))

    def handles(self, storage, folder):
        handles = []
        if storage in (FIRST, ALL):
            handles += handles_in(self.first, 0, folder)
        if storage in (SECOND, ALL):
            handles += handles_in(self.second, SECOND_HANDLES, folder)
        return handles

    def get_object_info(self, command, host):
        handle = command.parameters[0]
        file = self.found(handle)
        storage = self.storage_of(handle)
        parent = file.parent
        if storage == SECOND and parent != 0:
            parent += SECOND_HANDLES
        return (), write_object_info(
            ObjectInfo(storage, file.format, file.protection, len(file.content), parent, file.name))

    def get_object(self, command, host):
        return (), self.found_bytes(command.parameters[0])

    def get_partial_object(self, command, host):
        handle, offset, maximum = command.parameters[:3]
        content = self.found_bytes(handle)
        refuse_if(offset > len(content), Code.InvalidParameter, "the offset is above the size")
        part = content[offset:offset + maximum]
        return (len(part),), part

    # Operations that act

    def open_session(self, command, host):
        id = command.parameters[0]
        refuse_if(id == 0, Code.InvalidParameter, "the id is 0")
        self.session = Session(id, self.first.largest_number() + 1)
        return (), None

    def close_session(self, command, host):
        self.session = None
        return (), None

    def delete_object(self, command, host):
        handle, format = command.parameters[:2]
        refuse_if(format != 0, Code.FormatNotSupported, "the format is not 0")
        file = self.found(handle)
        refuse_if(self.storage_of(handle) == SECOND, Code.StoreReadOnly, "it is on the second storage")
        refuse_if(file.protection == READ_ONLY, Code.ObjectProtected, "the file is protected")
        self.first.remove(handle)
        return (), None

    def send_object_info(self, command, host):
        storage, parent = command.parameters[:2]
        refuse_if(storage not in (0, FIRST, SECOND), Code.InvalidStorage, "no such storage")
        refuse_if(storage == SECOND, Code.StoreReadOnly, "the second storage")
        refuse_if(self.first.locked, Code.StoreReadOnly, "the first store is locked")
        info = read_object_info(read_data(host, command))
        folder = info.format == ASSOCIATION
        parent = 0 if parent == ROOT else parent
        refuse_if(info.format not in FORMATS, Code.InvalidFormat, "an unknown format")
        refuse_if(folder and info.size > 0, Code.InvalidDataset, "a folder with a size")
        refuse_if(parent != 0 and not self.first.has_folder(parent), Code.InvalidParent, "no folder of the first store")
        refuse_if(info.size > LARGEST_FILE, Code.ObjectTooLarge, "the size is above 32,768")
        refuse_if(self.first.free_places() < 1, Code.StoreFull, "no free place")
        refuse_if(self.first.free_bytes() < info.size, Code.StoreFull, "too few free bytes")
        refuse_if(self.session.next > LARGEST_NUMBER, Code.StoreFull, "no number is left")
        number = self.take_number()
        if folder:
            self.first.add(number, File(info.format, info.protection, parent, info.name, b""))
            self.session.announced = None
        else:
            self.session.announced = Announcement(number, info.format, info.protection, parent, info.name, info.size)
        return (FIRST, parent or ROOT, number), None

    def take_number(self):
        number = self.session.next
        self.session.next += 1
        return number

    def send_object(self, command, host):
        announced = self.session.announced
        refuse_if(announced is None, Code.NoObjectInfo, "nothing is announced")
        self.session.announced = None
        content = read_data(host, command)
        refuse_if(len(content) != announced.size, Code.IncompleteTransfer, "not the announced size")
        self.first.add(announced.number, File(announced.format, announced.protection, announced.parent,
                                              announced.name, content))
        return (), None


def refused(command, refusal):
    return Reply(refusal.code, command.transaction, refusal.parameters, b"", refusal.why)


def admit_closed(command):
    refuse_if(command.code not in OPERATIONS, Code.OperationNotSupported, "an unknown operation")
    refuse_if(command.code not in (GET_DEVICE_INFO, OPEN_SESSION), Code.SessionNotOpen, "no session is open")
    refuse_if(command.transaction != 0, Code.InvalidTransaction, "the transaction is not 0")


def admit_open(command, session):
    if command.code == OPEN_SESSION:
        raise Refusal(Code.SessionAlreadyOpen, "a session is open", parameters=(session.id,))
    refuse_if(command.transaction != session.expected, Code.InvalidTransaction, "not the expected transaction")
    session.move_on()
    refuse_if(command.code not in OPERATIONS, Code.OperationNotSupported, "an unknown operation")


def refuse_surplus(command):
    count = len(OPERATIONS[command.code].parameters)
    refuse_if(any(command.parameters[count:]), Code.ParameterNotSupported, "a surplus parameter")


def handles_in(store, base, folder):
    """The ascending handles of the store's files that fit the folder, whose handle is given."""
    if folder == 0:
        return [base + number for number in store.numbers()]
    parent = 0 if folder == ROOT else folder - base
    return [base + number for number in store.numbers() if store.files[number].parent == parent]


class Operation(NamedTuple):
    name: str
    method: str
    parameters: tuple
    sends_data: bool


GET_DEVICE_INFO, OPEN_SESSION, CLOSE_SESSION, GET_STORAGE_IDS, GET_STORAGE_INFO = 0x1001, 0x1002, 0x1003, 0x1004, 0x1005
GET_OBJECT_HANDLES, GET_OBJECT_INFO, GET_OBJECT, DELETE_OBJECT = 0x1007, 0x1008, 0x1009, 0x100B
SEND_OBJECT_INFO, SEND_OBJECT, GET_PARTIAL_OBJECT = 0x100C, 0x100D, 0x101B

OPERATIONS = {
    GET_DEVICE_INFO: Operation("GetDeviceInfo", "get_device_info", (), True),
    OPEN_SESSION: Operation("OpenSession", "open_session", ("id",), False),
    CLOSE_SESSION: Operation("CloseSession", "close_session", (), False),
    GET_STORAGE_IDS: Operation("GetStorageIDs", "get_storage_ids", (), True),
    GET_STORAGE_INFO: Operation("GetStorageInfo", "get_storage_info", ("storage",), True),
    GET_OBJECT_HANDLES: Operation("GetObjectHandles", "get_object_handles", ("storage", "format", "folder"), True),
    GET_OBJECT_INFO: Operation("GetObjectInfo", "get_object_info", ("handle",), True),
    GET_OBJECT: Operation("GetObject", "get_object", ("handle",), True),
    DELETE_OBJECT: Operation("DeleteObject", "delete_object", ("handle", "format"), False),
    SEND_OBJECT_INFO: Operation("SendObjectInfo", "send_object_info", ("storage", "parent"), False),
    SEND_OBJECT: Operation("SendObject", "send_object", (), False),
    GET_PARTIAL_OBJECT: Operation("GetPartialObject", "get_partial_object", ("handle", "offset", "maximum"), True),
}
