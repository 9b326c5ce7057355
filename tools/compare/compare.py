#!/usr/bin/env python3
"""Plays the same sessions to the reference and to a program, and tells the first difference in words.

Build the program with tools/run, then run this without any option from the root of the repository: it compares 2,000
fresh sessions and says `N sessions, M calls, no difference`. On a difference it says which session and line, what was
asked, and what either answered; it saves the session up to there to a file, and its exit status is 1. Play that file
again with --script, and shorten it by hand until only the difference is left.
"""

import argparse
import shlex
import subprocess
import sys
import time

import generate
import model
from model import Code, OPERATIONS, Refusal
from reference import Replay, VERBS

SHOWN = 200  # longer lines are cut when they are shown
BATCH_SECONDS = 1.0
CALL_ANSWERS = ("reply ", "refused 1", "unplugged")  # how the answers to calls begin
LONGEST_RUN = 300  # seconds that the program may take over one batch


# What a line asks and what an answer says, in words

def operation_name(code):
    return OPERATIONS[code].name if code in OPERATIONS else f"unknown operation 0x{code:04X}"


def code_words(code):
    try:
        return f"0x{code:04X} {Code(code).name}"
    except ValueError:
        return f"0x{code:04X}"


def octets(word):
    return b"" if word == "-" else bytes.fromhex(word)


def command_words(container):
    try:
        command = model.read_command(container)
    except Refusal as refusal:
        return f"a stray container of {len(container)} bytes ({refusal.why})"
    sent = command.parameters[:(len(container) - model.HEAD.size) // 4]
    names = OPERATIONS[command.code].parameters if command.code in OPERATIONS else ()
    names += ("surplus",) * (len(sent) - len(names))
    told = "".join(f", {name} 0x{value:X}" for name, value in zip(names, sent))
    return f"{operation_name(command.code)}, transaction {command.transaction}{told}"


def host_words(container, host):
    """What the host's data is, for the command in the container."""
    try:
        command = model.read_command(container)
        payload = model.read_data(host, command)
        if command.code != model.SEND_OBJECT_INFO:
            return f"data of {len(payload)} bytes"
        info = model.read_object_info(payload)
        return (f"an ObjectInfo: format 0x{info.format:04X}, protection {info.protection}, size {info.size}, "
                f"{name_words(info.name)}")
    except Refusal as refusal:
        return f"{len(host)} bytes of data, which are not as they should be: {refusal.why}" if host else "no data"


def name_words(units):
    if all(0x20 <= unit < 0x7F for unit in units):
        return f"name \"{''.join(map(chr, units))}\""
    told = " ".join(f"{unit:04X}" for unit in units[:6])
    return f"name of {len(units)} units, {told}" + (" and so on" if len(units) > 6 else "")


def line_words(line):
    """What a line of a script asks."""
    words = line.split(" ")
    try:
        if words[0] == "answer":
            _, command, host, room = words
            return (f"answer to {command_words(octets(command))}; {host_words(octets(command), octets(host))}; "
                    f"a buffer of {room} bytes")
        if words[0] == "cancel":
            return f"cancel of {command_words(octets(words[1]))}"
        if words[0] == "image":
            return f"an image of {len(octets(words[1]))} bytes"
        if words[0] == "add":
            _, number, format, protection, parent, name, content = words
            name = octets(name)
            told = name_words(model.units_of(name)) if len(name) % 2 == 0 else f"name of {len(name)} bytes"
            return (f"the store is to add number {number}, format 0x{int(format):04X}, protection {protection}, "
                    f"parent {parent}, {told}, {len(octets(content))} bytes")
    except ValueError:
        return "a line that is not of the language"
    if words[0] in VERBS:
        return {"new": "a new responder", "unplug": "unplug"}.get(line, "a line that sets up")
    return "a line of no known word"


def answer_words(line):
    """What an answer says."""
    words = (line or "").split(" ")
    if words[0] != "reply" or len(words) != 3:
        return ""
    try:
        response, data = octets(words[1]), octets(words[2])
        length, _, code, transaction = model.HEAD.unpack_from(response)
        parameters = [int.from_bytes(response[place:place + 4], "little") for place in range(12, len(response), 4)]
    except (ValueError, model.struct.error):
        return "not a response"
    told = " ".join(f"0x{parameter:X}" for parameter in parameters)
    return (f"{code_words(code)}, transaction {transaction}, " + (f"parameters {told}, " if parameters else "no parameters, ")
            + (f"data container of {len(data)} bytes" if data else "no data"))


def shown(line):
    if line is None:
        return "(no line)"
    return line if len(line) <= SHOWN else f"{line[:SHOWN]}... ({len(line)} characters)"


def other_place_words(one, other):
    """Where two replies differ, if both are replies."""
    one, other = (one or "").split(" "), (other or "").split(" ")
    if len(one) != 3 or len(other) != 3:
        return ""
    part, (a, b) = ("response", (one[1], other[1])) if one[1] != other[1] else ("data container", (one[2], other[2]))
    place = next((place for place, pair in enumerate(zip(a, b)) if pair[0] != pair[1]), min(len(a), len(b)))
    return f"they differ from byte {place // 2} of the {part} on"


# Running both

class ProgramFailed(Exception):
    pass


def reference_answers(lines):
    replay = Replay()
    answers = ((line, replay.line(line), replay.why) for line in lines)
    return [(answer, why) for line, answer, why in answers if answer is not None]


def program_answers(command, lines):
    """The program's answers, and words about how it ended if it ended badly."""
    script = "\n".join(lines) + "\n"
    try:
        done = subprocess.run(command, input=script.encode("latin-1"), capture_output=True, timeout=LONGEST_RUN)
    except FileNotFoundError:
        raise ProgramFailed(f"{command[0]} is not there. Build it with tools/run, or name another program with --program.")
    except PermissionError:
        raise ProgramFailed(f"{command[0]} cannot be run. Name a program with --program, with its arguments in the same word.")
    except subprocess.TimeoutExpired:
        raise ProgramFailed(f"the program took more than {LONGEST_RUN} seconds over {len(lines)} lines; it seems to hang.")
    answers = done.stdout.decode("latin-1").split("\n")
    if answers and answers[-1] == "":
        answers.pop()
    ending = f"the program ended with status {done.returncode}" if done.returncode else ""
    complaint = done.stderr.decode("latin-1").strip()[-2000:]
    return answers, "; ".join(part for part in (ending, complaint and f"it said:\n{complaint}") if part)


class Difference:
    def __init__(self, place, reference, why, program, ending):
        self.place = place  # of the line in the batch, or its length
        self.reference = reference
        self.why = why
        self.program = program
        self.ending = ending


def first_difference(lines, command):
    """Where the program answers otherwise than the reference, or None; and how many calls there are."""
    expected = reference_answers(lines)
    calls = sum(answer.startswith(CALL_ANSWERS) for answer, _ in expected)
    return find_difference(lines, expected, command), calls


def find_difference(lines, expected, command):
    answers, ending = program_answers(command, lines)
    asked = [place for place, line in enumerate(lines) if line != "" and not line.startswith("#")]
    for index, (answer, why) in enumerate(expected):
        given = answers[index] if index < len(answers) else None
        if given != answer:
            return Difference(asked[index], answer, why, given, ending if given is None else "")
    if len(answers) > len(expected):
        return Difference(len(lines), None, "", answers[len(expected)], ending)
    if ending:
        return Difference(len(lines), None, "", None, ending)
    return None


# Telling

def tell_difference(difference, lines, heading, number):
    line = lines[difference.place] if difference.place < len(lines) else None
    print(f"Difference in {heading}, line {number}.")
    if line is None:
        print("  behind the last line")
    else:
        print(f"  asked:     {line_words(line)}")
        print(f"  line:      {shown(line)}")
    tell_answer("reference", difference.reference, difference.why)
    tell_answer("program", difference.program, difference.ending)
    tell_remark(other_place_words(difference.reference, difference.program))


def tell_answer(who, answer, remark):
    print(f"  {who + ':':10} {shown(answer)}")
    tell_remark(answer_words(answer))
    tell_remark(remark)


def tell_remark(words):
    for line in words.split("\n") if words else ():
        print(f"  {'':10} {line}")


def save(path, lines):
    with open(path, "w", encoding="latin-1", newline="\n") as file:
        file.write("\n".join(lines) + "\n")


def tell_saved(options, path):
    print(f"The session up to there is in {path}. Play it again with:")
    print(f"  {shlex.join([sys.argv[0], '--script', path, '--program', options.program])}")


class Progress:
    """A line on standard error, about once a second."""

    def __init__(self, sessions):
        self.sessions = sessions
        self.last = time.monotonic()

    def tell(self, done, calls):
        if time.monotonic() - self.last >= 0.9:
            self.last = time.monotonic()
            print(f"{done} of {self.sessions} sessions, {calls} calls", file=sys.stderr, flush=True)


# The two ways of comparing

def compare_script(options, command):
    with open(options.script, encoding="latin-1", newline="\n") as file:
        lines = file.read().split("\n")
    if lines[-1] == "":
        lines.pop()
    difference, calls = first_difference(lines, command)
    if difference is None:
        print(f"{lines.count('new')} sessions, {calls} calls, no difference")
        return 0
    tell_difference(difference, lines, options.script, difference.place + 1)
    return 1


def compare_sessions(options, command):
    print(f"seed {options.seed}", flush=True)
    progress = Progress(options.sessions)
    done = calls = 0
    size = 20
    while done < options.sessions:
        size = min(size, options.sessions - done)
        batch, started = [], time.monotonic()
        for index in range(done, done + size):
            batch.append(generate.session(options.seed, index))
            progress.tell(index, calls)
        lines = [line for session in batch for line in session]
        difference, more = first_difference(lines, command)
        if difference is not None:
            tell_session_difference(options, batch, done, difference)
            return 1
        done += size
        calls += more
        progress.tell(done, calls)
        if time.monotonic() - started < BATCH_SECONDS:
            size = min(2 * size, 1000)
        elif size > 20:
            size //= 2
    print(f"{done} sessions, {calls} calls, no difference")
    return 0


def tell_session_difference(options, batch, done, difference):
    """Finds the session of the batch that the difference lies in, and tells it."""
    start = 0
    for index, session in enumerate(batch):
        last = index == len(batch) - 1
        if difference.place < start + len(session) or last:
            number = difference.place - start
            heading = f"session {done + index} of seed {options.seed}"
            tell_difference(difference, [line for session in batch for line in session], heading, number + 1)
            save(options.save, session[:number + 1])
            return tell_saved(options, options.save)
        start += len(session)


def arguments():
    parser = argparse.ArgumentParser(description=__doc__, formatter_class=argparse.RawDescriptionHelpFormatter)
    parser.add_argument("--seed", help="the sessions' seed, any word or number (default: from the clock); it is printed, and "
                                       "gives the same sessions again")
    parser.add_argument("--sessions", type=int, default=2000, help="how many sessions to play (default: 2000)")
    parser.add_argument("--program", default="target/bin/replay",
                        help="the program to compare, with its arguments in the same word (default: target/bin/replay, which "
                             "tools/run builds)")
    parser.add_argument("--script", help="play this script instead of generated sessions")
    parser.add_argument("--save", default="difference.script",
                        help="where to save the session that differs (default: difference.script in this directory)")
    options = parser.parse_args()
    if options.seed is None:
        options.seed = str(int(time.time()))
    return options


def main():
    options = arguments()
    try:
        command = shlex.split(options.program)
        if not command:
            raise ProgramFailed("no program is named. Name one with --program.")
        return (compare_script if options.script else compare_sessions)(options, command)
    except ProgramFailed as failure:
        print(f"compare.py: {failure}", file=sys.stderr)
        return 2
    except OSError as failure:
        print(f"compare.py: {failure}", file=sys.stderr)
        return 2


if __name__ == "__main__":
    sys.exit(main())
