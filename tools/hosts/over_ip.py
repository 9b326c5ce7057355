#!/usr/bin/env python3
"""A responder program behind PTP/IP, on the loopback address only.

    over_ip.py [--port N] [--capture FILE] [-- PROGRAM WORD..]

A host connects twice: for commands, then for events. Operations go on as containers, and containers come back as packets. When
the host hangs up, the responder is unplugged and the next host is waited for. Without a PROGRAM the stand-in serve.py is used.
"""

import argparse
import socket
import struct
import sys

from over_usb import receive
from responder import COMMAND, DATA, HEAD, STAND_IN, Responder, Trace

PACKET = struct.Struct("<II")  # length with the head, type
INIT_COMMAND, INIT_COMMAND_ACK, INIT_EVENT, INIT_EVENT_ACK, INIT_FAIL = 1, 2, 3, 4, 5
REQUEST, RESPONSE, EVENT, START_DATA, MORE_DATA, CANCEL, END_DATA, PROBE, PROBE_ANSWER = 6, 7, 8, 9, 10, 11, 12, 13, 14
REQUEST_HEAD = struct.Struct("<IHI")  # data phase, code, transaction
DATA_FROM_HOST = 2
NO_GUID = bytes(16)
VERSION = 0x00010000
NAME = "Drip\0".encode("utf-16-le")


def read_packet(connection):
    length, type = PACKET.unpack(receive(connection, PACKET.size))
    return type, receive(connection, length - PACKET.size)


def write_packet(connection, type, bytes=b""):
    connection.sendall(PACKET.pack(PACKET.size + len(bytes), type) + bytes)


def welcome(listener, trace):
    """The two connections of the next host."""
    commands, _ = listener.accept()
    type, bytes = read_packet(commands)
    if type != INIT_COMMAND:
        raise ConnectionError(f"packet {type} in the place of an init command request")
    trace.note(f"    (host connects, name {bytes[16:-6].decode('utf-16-le', 'replace')!r}, version {bytes[-4:].hex()})")
    write_packet(commands, INIT_COMMAND_ACK, struct.pack("<I", 1) + NO_GUID + NAME + struct.pack("<I", VERSION))
    events, _ = listener.accept()
    type, bytes = read_packet(events)
    if type != INIT_EVENT:
        raise ConnectionError(f"packet {type} in the place of an init event request")
    write_packet(events, INIT_EVENT_ACK)
    return commands, events


class BrokenOff(Exception):
    """The host sends a request in the place of data."""


def read_data(connection, trace):
    """The payload of a data phase, or None if the host cancels it."""
    payload, packets, announced = b"", 0, None
    while True:
        type, bytes = read_packet(connection)
        if type == CANCEL:
            return None
        if type == REQUEST:
            raise BrokenOff(bytes)
        if type == START_DATA:
            announced = struct.unpack_from("<Q", bytes, 4)[0]
            if announced == 0:  # gphoto2 sends no end behind this
                return b""
            continue
        if type not in (MORE_DATA, END_DATA):
            raise ConnectionError(f"packet {type} in a data phase")
        payload += bytes[4:]
        packets += 1
        if type == END_DATA:
            if packets > 1:
                trace.note(f"    ({packets} packets of data)")
            if announced != len(payload):
                trace.note(f"    (announced {announced} bytes, sent {len(payload)})")
            return payload


def carry_out(responder, connection, bytes, trace):
    phase, code, transaction = REQUEST_HEAD.unpack_from(bytes)
    words = bytes[REQUEST_HEAD.size:]
    answers = responder.take(HEAD.pack(HEAD.size + len(words), COMMAND, code, transaction) + words)
    if phase == DATA_FROM_HOST:
        payload = read_data(connection, trace)
        if payload is None:
            answers += responder.cancel()
        else:
            answers += responder.take(HEAD.pack(HEAD.size + len(payload), DATA, code, transaction) + payload)
    elif responder.waiting is not None:
        trace.note("  the host announces no data")
        answers += responder.cancel()
    for container in answers:
        send_back(connection, container)


def send_back(connection, container):
    _, type, code, transaction = HEAD.unpack_from(container)
    payload = container[HEAD.size:]
    if type == DATA:
        write_packet(connection, START_DATA, struct.pack("<IQ", transaction, len(payload)))
        write_packet(connection, END_DATA, struct.pack("<I", transaction) + payload)
    else:
        write_packet(connection, RESPONSE, struct.pack("<HI", code, transaction) + payload)


def carry_out_all(responder, connection, bytes, trace):
    """Carries out a request, and then one that came in the place of its data."""
    while bytes is not None:
        try:
            carry_out(responder, connection, bytes, trace)
            bytes = None
        except BrokenOff as next:
            bytes = next.args[0]


def attend(responder, commands, trace):
    while True:
        type, bytes = read_packet(commands)
        if type == REQUEST:
            carry_out_all(responder, commands, bytes, trace)
        elif type == PROBE:
            write_packet(commands, PROBE_ANSWER)
        elif type == CANCEL:
            trace.note("    (cancel behind the end of its operation)")
        else:  # the end of no data, too
            trace.note(f"    (packet {type}, {len(bytes)} bytes, dropped)")


def main():
    words = sys.argv[1:]
    program = words[words.index("--") + 1:] if "--" in words else STAND_IN
    parser = argparse.ArgumentParser(description=__doc__, formatter_class=argparse.RawDescriptionHelpFormatter)
    parser.add_argument("--port", type=int, default=15740)
    parser.add_argument("--capture", type=argparse.FileType("w"))
    given = parser.parse_args(words[:words.index("--")] if "--" in words else words)
    trace = Trace(sys.stdout, given.capture)
    responder = Responder(program, trace)
    with socket.create_server(("127.0.0.1", given.port)) as listener:
        print("plugged in", flush=True)
        while True:
            commands = events = None
            try:
                commands, events = welcome(listener, trace)
                attend(responder, commands, trace)
            except (EOFError, ConnectionError) as end:
                trace.note(f"    (host hangs up{': ' if end.args else ''}{end})")
            responder.unplug()


if __name__ == "__main__":
    main()
