#!/usr/bin/env python3
"""Plugs a responder in, runs commands of hosts one after the other, and shows below each what crossed the cable.

    run.py [--serve PROGRAM] [--with "WORDS FOR PROGRAM"] [--usb=OPTIONS OF over_usb.py | --ip] 'COMMAND' ..

Commands are run in an empty folder, which goes away at the end. The command `replug` pulls the cable and puts it back. With --ip
the cable is PTP/IP on the loopback address.
"""

import argparse
import tempfile
from pathlib import Path

from bench import Board, Shell, build_fakeusb, program_words


def show(title, lines):
    print(title)
    for line in lines:
        print("   ", line)


def main():
    parser = argparse.ArgumentParser(description=__doc__, formatter_class=argparse.RawDescriptionHelpFormatter)
    parser.add_argument("--serve", help="the responder program; without it the stand-in")
    parser.add_argument("--with", dest="words", default="--slotted 16", help="words for the responder program")
    parser.add_argument("--usb", default="", help="options of over_usb.py")
    parser.add_argument("--ip", action="store_true", help="over_ip.py in its place")
    parser.add_argument("commands", nargs="+")
    given = parser.parse_args()
    with tempfile.TemporaryDirectory(prefix="hosts-") as name:
        folder = Path(name) / "host"
        folder.mkdir()
        board = Board(Path(name), program_words(given.serve, given.words), None if given.ip else given.usb)
        shell = Shell(folder, board, build_fakeusb(Path(name)))
        try:
            for command in given.commands:
                print(f"$ {command}", flush=True)
                if command == "replug":
                    board.replug()
                else:
                    output, status = shell.run(command)
                    show(f"  host, status {status}:", output)
                show("  cable:", board.news())
        finally:
            shell.end()
            board.end()


if __name__ == "__main__":
    main()
