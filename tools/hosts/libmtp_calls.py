#!/usr/bin/env python3
"""Calls of libmtp that no tool of mtp-tools makes: parts of a file, breaking off, renaming, moving. Run it by run.py.

    libmtp_calls.py part ID OFFSET COUNT | rename ID NAME | move ID STORAGE PARENT
                    | stop-get ID AFTER | stop-send FILE AFTER | send FILE TYPE

`stop-get` and `stop-send` break off when AFTER bytes have gone over. The last two lines are the list of files, to show that the
session goes on, and `closed`.
"""

import ctypes
import os
import sys

PROGRESS = ctypes.CFUNCTYPE(ctypes.c_int, ctypes.c_uint64, ctypes.c_uint64, ctypes.c_void_p)
NO_PROGRESS = ctypes.cast(None, PROGRESS)
UNKNOWN_TYPE = 44


class File(ctypes.Structure):
    pass


File._fields_ = [("id", ctypes.c_uint32), ("parent", ctypes.c_uint32), ("storage", ctypes.c_uint32), ("name", ctypes.c_void_p),
                 ("size", ctypes.c_uint64), ("time", ctypes.c_long), ("type", ctypes.c_int), ("next", ctypes.POINTER(File))]

mtp = ctypes.CDLL("libmtp.so.9")
libc = ctypes.CDLL(None)
libc.strdup.restype = ctypes.c_void_p
for name in ("LIBMTP_new_file_t", "LIBMTP_Get_Filemetadata", "LIBMTP_Get_Filelisting_With_Callback"):
    getattr(mtp, name).restype = ctypes.POINTER(File)
mtp.LIBMTP_Get_First_Device.restype = ctypes.c_void_p


def stop_after(count):
    """A progress call that breaks off, and says where it stood."""
    @PROGRESS
    def progress(done, total, _):
        print(f"progress {done} of {total}")
        return 1 if done >= count else 0
    return progress


def new_file(path, type):
    file = mtp.LIBMTP_new_file_t()
    file.contents.name = libc.strdup(os.path.basename(path).encode())
    file.contents.size = os.path.getsize(path)
    file.contents.type = type
    return file


def part(device, id, offset, count):
    bytes, size = ctypes.POINTER(ctypes.c_ubyte)(), ctypes.c_uint()
    status = mtp.LIBMTP_GetPartialObject(device, int(id), ctypes.c_uint64(int(offset)), int(count),
                                         ctypes.byref(bytes), ctypes.byref(size))
    print("part", bytes[:size.value] if status == 0 and size.value <= 16 else size.value)
    return status


def stop_get(device, id, after):
    return mtp.LIBMTP_Get_File_To_File(device, int(id), b"broken off", stop_after(int(after)), None)


def stop_send(device, path, after):
    return mtp.LIBMTP_Send_File_From_File(device, path.encode(), new_file(path, UNKNOWN_TYPE), stop_after(int(after)), None)


def send(device, path, type):
    return mtp.LIBMTP_Send_File_From_File(device, path.encode(), new_file(path, int(type)), NO_PROGRESS, None)


def rename(device, id, name):
    return mtp.LIBMTP_Set_File_Name(device, mtp.LIBMTP_Get_Filemetadata(device, int(id)), name.encode())


def move(device, id, storage, parent):
    return mtp.LIBMTP_Move_Object(device, int(id), int(storage, 0), int(parent, 0))


CALLS = {"part": part, "stop-get": stop_get, "stop-send": stop_send, "send": send, "rename": rename, "move": move}


def main():
    if len(sys.argv) < 2 or sys.argv[1] not in CALLS:
        sys.exit(__doc__)
    mtp.LIBMTP_Init()
    device = ctypes.c_void_p(mtp.LIBMTP_Get_First_Device())
    if not device:
        sys.exit("no device")
    print("status", CALLS[sys.argv[1]](device, *sys.argv[2:]))
    mtp.LIBMTP_Dump_Errorstack(device)
    mtp.LIBMTP_Clear_Errorstack(device)
    files, listed = mtp.LIBMTP_Get_Filelisting_With_Callback(device, None, None), []
    while files:
        listed.append(f"{files.contents.id} {ctypes.string_at(files.contents.name).decode()}")
        files = files.contents.next
    print("files:", ", ".join(listed))
    mtp.LIBMTP_Release_Device(device)
    print("closed")


if __name__ == "__main__":
    main()
