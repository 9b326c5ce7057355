"""What run.py and tour.py share: a board at the end of a cable, and a shell in which hosts are run."""

import os
import select
import shlex
import socket
import subprocess
import sys
import time
from pathlib import Path

from over_usb import ANSWER, MESSAGE, receive
from responder import STAND_IN

HERE = Path(__file__).resolve().parent
PATIENCE = 60  # seconds for one command
END = "end of the command, status"


def build_fakeusb(folder):
    """Builds fakeusb.so in the folder."""
    built = folder / "fakeusb.so"
    subprocess.run(["gcc", "-shared", "-fPIC", "-O1", "-Wall", "-Wextra", "-o", built, HERE / "fakeusb.c"], check=True)
    return built


def program_words(program, words):
    """The responder program with its words; the stand-in if none is named."""
    return ([program] if program else STAND_IN) + shlex.split(words)


class Board:
    """The device's end of a cable, USB with options or PTP/IP; `news` gives the lines of its trace since the last time."""

    def __init__(self, folder, program, usb=""):
        self.socket = str(folder / "usb")
        self.path = folder / "trace"
        end = ["over_ip.py"] if usb is None else ["over_usb.py", self.socket, *shlex.split(usb)]
        with self.path.open("a") as out:  # hosts may add their own lines to it
            self.process = subprocess.Popen([sys.executable, "-u", str(HERE / end[0]), *end[1:], "--", *program],
                                            stdout=out, stderr=subprocess.STDOUT)
        self.seen = 0
        while "plugged in" not in self.path.read_text():
            if self.process.poll() is not None:
                sys.exit(self.path.read_text())
            time.sleep(0.05)
        self.news()

    def news(self):
        text = self.path.read_text()
        fresh, self.seen = text[self.seen:], len(text)
        return fresh.splitlines()

    def replug(self):
        with socket.socket(socket.AF_UNIX) as cable:
            cable.connect(self.socket)
            cable.sendall(MESSAGE.pack(b"R", 0, 0))
            receive(cable, ANSWER.size)

    def end(self):
        self.process.terminate()
        self.process.wait()


class Shell:
    """A shell that runs one command after the other, with fakeusb.so before libusb. What it mounts and starts is seen by nobody
    else and ends with it: it has namespaces of its own."""

    def __init__(self, folder, board, fakeusb, environment=()):
        words = dict(os.environ, FAKEUSB=board.socket, TRACE=str(board.path), HOME=str(folder), TMPDIR=str(folder),
                     LANG="C.UTF-8", **dict(environment))
        self.process = subprocess.Popen(["unshare", "--mount", "--pid", "--fork", "--kill-child", "bash"], cwd=folder, env=words,
                                        stdin=subprocess.PIPE, stdout=subprocess.PIPE, stderr=subprocess.STDOUT)
        self.send(f"export LD_PRELOAD={shlex.quote(str(fakeusb))}")

    def send(self, line):
        self.process.stdin.write(line.encode() + b"\n")
        self.process.stdin.flush()

    def run(self, command):
        """The lines that the command wrote, and its status; None if it took too long, and then the shell is gone."""
        self.send(f"{{ {command}\n}} < /dev/null; status=$?; echo; echo {END} $status")
        output, deadline = b"", time.monotonic() + PATIENCE
        while END.encode() not in output or not output.endswith(b"\n"):
            ready, _, _ = select.select([self.process.stdout], [], [], max(0, deadline - time.monotonic()))
            more = os.read(self.process.stdout.fileno(), 65536) if ready else b""
            if not more:
                self.end()
                return output.decode(errors="replace").splitlines(), None
            output += more
        lines = output.decode(errors="replace").splitlines()
        return [line for line in lines[:-1] if line.strip()], int(lines[-1].split()[-1])

    def end(self):
        """Ends the shell and every host that it started."""
        self.process.kill()
        self.process.wait()
