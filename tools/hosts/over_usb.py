#!/usr/bin/env python3
"""The device's end of a USB cable that is not there: a responder program behind bulk transfers.

    over_usb.py SOCKET [--split-heads] [--no-zero-packets] [--answer-cancels] [--slow SECONDS] [--packet 64]
                       [--capture FILE] [-- PROGRAM WORD..]

Hosts that are run with fakeusb.so come here through the socket, one after the other, and the program keeps its state between
them, as a board does that stays plugged in. Without a PROGRAM the stand-in serve.py is used.

A message is a kind of one byte, a number and a length of four bytes each, and the bytes; an answer is a status (0, or an
error of libusb), a length and the bytes.
"""

import argparse
import os
import socket
import struct
import sys
import time

from responder import HEAD, STAND_IN, Responder, Trace

MESSAGE = struct.Struct("<cII")
ANSWER = struct.Struct("<iI")
TIMEOUT, STALL, OVERFLOW = -7, -9, -8
STATUS_OK = struct.pack("<HH", 4, 0x2001)
ENDPOINT_STATUS = (0x82, 0)
NOT_HALTED = bytes(2)

# Requests of the still image class
CANCEL_REQUEST, RESET_REQUEST, STATUS_REQUEST = 0x64, 0x66, 0x67


class Device:
    def __init__(self, responder, trace, given):
        self.responder = responder
        self.trace = trace
        self.split_heads = given.split_heads
        self.zero_packets = not given.no_zero_packets
        self.answer_cancels = given.answer_cancels
        self.pause = given.slow
        self.packet = given.packet
        self.empty_pipes()

    def empty_pipes(self):
        self.received = b""
        self.packets = []  # to the host

    # To the device

    def bulk_out(self, number, bytes):
        """One transfer of the host. A container is whole when it has the length that its head names."""
        if not bytes:
            self.trace.note("    (zero-length packet from the host)")
            return 0, b""
        if self.received:
            self.trace.note(f"    (the container goes on: {len(self.received)} bytes, now {len(bytes)} more)")
        self.received += bytes
        while len(self.received) >= HEAD.size:
            length = max(HEAD.unpack_from(self.received)[0], HEAD.size)
            if len(self.received) < length:
                break
            container, self.received = self.received[:length], self.received[length:]
            for answer in self.responder.take(container):
                self.queue(answer)
        return 0, b""

    # To the host

    def queue(self, container):
        if self.split_heads and container[4] == 2:
            self.packets.append(container[:HEAD.size])
            container = container[HEAD.size:]
        self.packets += [container[at:at + self.packet] for at in range(0, len(container), self.packet)]
        if len(container) % self.packet == 0 and self.zero_packets:
            self.packets.append(b"")

    def bulk_in(self, room, _):
        """A transfer ends when the host's room is full or a packet is short."""
        if not self.packets:
            self.trace.note(f"    (the host reads {room} bytes, and there is nothing to say)")
            return TIMEOUT, b""
        bytes = b""
        while self.packets and len(bytes) < room:
            packet = self.packets.pop(0)
            bytes += packet
            if len(packet) < self.packet:
                if not packet:
                    self.trace.note("    (zero-length packet to the host)")
                break
        if len(bytes) > room:
            self.trace.note(f"    (a packet overflows the host's room of {room} bytes)")
            return OVERFLOW, bytes[:room]
        return 0, bytes

    # Control

    def control(self, _, bytes):
        kind, request, value, index, length = struct.unpack_from("<BBHHH", bytes)
        if (kind, request) == ENDPOINT_STATUS:
            return 0, NOT_HALTED
        if request == STATUS_REQUEST:
            self.trace.note("    (class request: device status)")
            return 0, STATUS_OK[:length]
        if request == CANCEL_REQUEST:
            self.trace.note(f"    (class request: cancel {bytes[8:].hex()}; {len(self.received)} bytes in and "
                            f"{len(self.packets)} packets out are dropped)")
            self.empty_pipes()
            for answer in self.responder.cancel():
                if self.answer_cancels:
                    self.queue(answer)
            return 0, b""
        if request == RESET_REQUEST:
            self.trace.note("    (class request: reset)")
            return self.reset(0, b"")
        self.trace.note(f"    (control request {kind:#x} {request:#x} {value:#x} {index:#x}, {length} bytes: stalled)")
        return STALL, b""

    def reset(self, _, bytes):
        self.empty_pipes()
        self.responder.unplug()
        return 0, b""

    def note(self, _, bytes):
        self.trace.note(f"    ({bytes.decode()})")
        return 0, b""


KINDS = {b"O": Device.bulk_out, b"I": Device.bulk_in, b"C": Device.control, b"R": Device.reset, b"N": Device.note}


def receive(connection, count):
    bytes = b""
    while len(bytes) < count:
        more = connection.recv(count - len(bytes))
        if not more:
            raise EOFError
        bytes += more
    return bytes


def attend(device, connection):
    """Serves one host until it goes."""
    try:
        while True:
            kind, number, length = MESSAGE.unpack(receive(connection, MESSAGE.size))
            bytes = receive(connection, length)
            time.sleep(device.pause)
            status, bytes = KINDS[kind](device, number, bytes)
            connection.sendall(ANSWER.pack(status, len(bytes)) + bytes)
    except (EOFError, ConnectionError):
        pass


def main():
    words = sys.argv[1:]
    program = words[words.index("--") + 1:] if "--" in words else STAND_IN
    parser = argparse.ArgumentParser(description=__doc__, formatter_class=argparse.RawDescriptionHelpFormatter)
    parser.add_argument("socket")
    parser.add_argument("--split-heads", action="store_true", help="send the head of a data container as a packet of its own")
    parser.add_argument("--no-zero-packets", action="store_true", help="no zero-length packet behind full packets")
    parser.add_argument("--answer-cancels", action="store_true", help="send the response of a cancelled command, too")
    parser.add_argument("--slow", type=float, default=0, metavar="SECONDS", help="wait before each transfer")
    parser.add_argument("--packet", type=int, default=512, metavar="BYTES", help="of a packet; the host's is FAKEUSB_PACKET")
    parser.add_argument("--capture", type=argparse.FileType("w"))
    given = parser.parse_args(words[:words.index("--")] if "--" in words else words)
    trace = Trace(sys.stdout, given.capture)
    responder = Responder(program, trace)
    device = Device(responder, trace, given)
    if os.path.exists(given.socket):
        os.unlink(given.socket)
    with socket.socket(socket.AF_UNIX) as listener:
        listener.bind(given.socket)
        listener.listen()
        print("plugged in", flush=True)
        while True:
            connection, _ = listener.accept()
            with connection:
                attend(device, connection)


if __name__ == "__main__":
    main()
