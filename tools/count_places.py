#!/usr/bin/env python3
"""Lists the places in crates/ that today's language may say in a plainer form, and counts them.

    tools/count_places.py                   every place of the work tree, as FILE:LINE: [KEYS] TEXT, point by point
    tools/count_places.py COMMIT            the same of a commit
    tools/count_places.py --counts          only the table of counts, crate by point
    tools/count_places.py --only NAME,..    only these points (3 or index-loops) or these keys (rest-loops)

The script goes by text and knows no types: a place that it prints is a question and no verdict (docs/DESIGN-PASS.md). A line counts once
in its point, whatever number of keys finds it; in point 5 each fact counts. Crates of tests are counted too, and marked (tests).
Comments and ghost imports are left out, a string is one word, and contracts are read for point 5 only. The keys:

Point 1, option-like: own enums shaped like Option or Result, flags, numbers for kinds
    two-variants       an enum of two variants, one of them alone and one with a value, that is nobody's error
    flag-and-value     a struct with a field of type bool or Result<(), _> beside others
    nested-result      an answer or a parameter of type Result<Result<..>, ..> or Option<Result<..>>
    kind-numbers       constants of a file that are patterns, or compared with, passed or set as a kind, code, tag, format or storage
    kind-fields        a field called kind, code, tag, format or access, or a parameter called kind, tag or format, that is a number
    number-match       a match with two numbers or more as patterns, but on a count or a length
    sentinels          a format, storage, folder, parent, parameter or id compared with 0 or with all ones; a number as a field parent
    number-answers     a function without parameters whose body is 0 or true: it only bears its contract
Point 2, twins: functions and types that differ in a type, a size or a constant
    width-twins        functions whose names differ in u8, u16, u32, u64 only, in any crates
    same-bodies        functions and tables of one form up to names and numbers, of three statements or four lines at least, in any crates
    same-starts        functions whose first four statements have one form up to names and numbers
    same-impls         impls of one trait whose methods are the same up to names
    same-consts        a constant of 256 or more whose value another crate's constant has too, and a comparison with such a number
    same-tables        functions that share three numbers of 256 or more as patterns or as answers
    same-fields        structs of the same fields, or with three fields in common, by name and type
    namesakes          a function whose name and types a trait's function or one of another crate has too, outside of impls of traits
    delegates          a function that is one call of a private function of its crate with its own parameters, or of a namesake
Point 3, index-loops: loops that count, walk or search by hand
    counted-loops      a while or loop that adds to or takes from a variable which it tests or indexes with
    range-loops        a for i in a..b that indexes with i what stands outside of the loop
    unused-counters    a for _i in a..b
    next-walks         a loop over next_above, or a let with it
    rest-loops         a loop that cuts the front off and goes on with the rest
    search-loops       a loop that returns under a test: any, all, find, position
    fold-loops         a for whose body only sets one variable, from itself and the item or under a test
Point 4, by-hand: equality, conversion, copying and printing written out
    match-maps         a function that is one match with constants, variants or literals as answers, or one of these and called number
    if-maps            a function that is one if with constants, variants, literals or parameters as answers; an if that is min or max
    option-matches     a match on Some and None or Ok and Err that replaces one and hands on or maps the other, and an if for it
    equalities         a function called same or equal of two values of one type, or one that joins == of two values' fields by &&
    defaults           a function without parameters that is a struct literal of constants: Default
    field-copies       a struct literal with two fields or more of the same name in one other value
    local-copies       three lets or more in a function that each name one field of one value
    text-makers        a function that answers the text of a value, or pushes it to a String
Point 5, clause-facts: facts and parameters that go together
    clause-terms       a clause, or in one a comparison or a term of 41 letters or more, in three functions or more; once in a crate
    parameter-lists    two parameters or more, by name and type, side by side in three functions or more; once in a crate
Point 6, buffers: buffers and lists kept by hand
    length-fields      a struct with an array or a slice and a count, len, length, size or total
    local-buffers      a local array that is filled or read up to a count
    count-parameters   a function with a slice and a count, length, place, start, total, at or from for it
    parallel-fields    a struct with two lists of its own or lent for writing
    bounds-tests       an if that tests an index and then indexes with it: get
    halving            a search by halving a range
Point 7, switches: a switch on which step to run
    call-switches      a match on an enum or a number of which two arms or more, and all but refusals, only call a function
    receiver-switches  an if of which both branches call one function on different parameters
    function-values    a parameter, field or constant with the type of a plain function
Point 8, proofs: proof files
    plain-answers      an answer that is only search, omega, grind, simp or refl over names: the check may find it alone
    same-answers       an answer of 40 letters or more that stands in another file too, word for word
    twice-named        a lemma whose name a lemma of another file has too
    twice-stated       a lemma whose statement a lemma of another file has too, up to the names of variables
"""

import argparse
import collections
import os
import re
import subprocess
import sys

POINTS = {1: "option-like", 2: "twins", 3: "index-loops", 4: "by-hand", 5: "clause-facts", 6: "buffers", 7: "switches", 8: "proofs"}

Place = collections.namedtuple("Place", "path line text")
Token = collections.namedtuple("Token", "kind text start line")

KINDS = {"kind", "code", "tag", "format", "storage"}
SENTINELS = {"format", "storage", "folder", "parent", "parameter", "id"}
COUNTS = {"count", "len", "length", "size", "total"}
PLACES = {"count", "length", "place", "start", "total", "at", "from"}
INTEGERS = {"u8", "u16", "u32", "u64", "usize", "i8", "i16", "i32", "i64", "isize"}
KEYWORDS = INTEGERS | set(
    "as bool break const continue crate dyn else enum false fn for ghost if impl in let loop match mod move mut pub ref return self Self"
    " static str struct super trait true type unsafe use where while".split()
)


# ---- Reading the sources -------------------------------------------------------------------------------------------------------------


def wanted(path):
    """Whether a file is read: the sources of a crate, and its proofs."""
    return re.match(r"crates/[^/]+/src/.*\.rt$|crates/[^/]+/proofs/.*\.antt$", path) is not None


def read_tree(root):
    """The files of the work tree, by their paths."""
    found = {}
    for folder, dirs, names in os.walk(os.path.join(root, "crates")):
        dirs.sort()
        for name in sorted(names):
            path = os.path.relpath(os.path.join(folder, name), root).replace(os.sep, "/")
            if wanted(path):
                with open(os.path.join(root, path), encoding="utf-8") as f:
                    found[path] = f.read()
    return found


def git(root, *words):
    return subprocess.run(["git", "-C", root, *words], check=True, capture_output=True).stdout.decode("utf-8")


def read_commit(root, commit):
    """The files of a commit, by their paths."""
    paths = [p for p in git(root, "ls-tree", "-r", "--name-only", "-z", "--full-tree", commit).split("\0") if wanted(p)]
    return {path: git(root, "show", f"{commit}:{path}") for path in sorted(paths)}


def crate_of(path):
    return path.split("/")[1]


def is_tests(path):
    return crate_of(path).endswith("_tests")


# ---- Tokens --------------------------------------------------------------------------------------------------------------------------

TOKEN = re.compile(
    r"""(?P<space>\s+)
      | (?P<comment>//[^\n]*|/\*.*?\*/)
      | (?P<string>b?"(?:\\.|[^"\\])*"|b?r(?P<hashes>\#*)".*?"(?P=hashes))
      | (?P<char>b?'(?:\\[^']*|[^'\\\n])')
      | (?P<lifetime>'[A-Za-z_]\w*)
      | (?P<number>\d[\w]*(?:\.\d\w*)?)
      | (?P<name>[^\W\d]\w*)
      | (?P<sign>=>|->|==|!=|<=|>=|&&|\|\||\+=|-=|\*=|/=|%=|\^=|\|=|&=|\.\.=|\.\.|::|.)""",
    re.X | re.S,
)


def tokens_of(text):
    """The tokens of a source, without spaces and comments."""
    found = []
    line = 1
    for m in TOKEN.finditer(text):
        if m.lastgroup not in ("space", "comment"):
            found.append(Token(m.lastgroup, m.group(0), m.start(), line))
        line += m.group(0).count("\n")
    return found


OPENING = {"(": ")", "[": "]", "{": "}"}
CLOSING = {")", "]", "}"}


def closing(ts, i):
    """Where the bracket closes that opens at i."""
    depth = 0
    for k in range(i, len(ts)):
        if ts[k].kind == "sign" and ts[k].text in OPENING:
            depth += 1
        elif ts[k].kind == "sign" and ts[k].text in CLOSING:
            depth -= 1
            if depth == 0:
                return k
    return len(ts) - 1


def split(ts, sign):
    """The parts of some tokens between a sign outside of all brackets."""
    parts, part, depth, angle = [], [], 0, 0
    for i, t in enumerate(ts):
        if t.kind == "sign":
            if t.text in OPENING:
                depth += 1
            elif t.text in CLOSING:
                depth -= 1
            elif t.text == "<" and (i == 0 or ts[i - 1].text == "::" or ts[i - 1].text[:1].isupper()):
                angle += 1
            elif t.text == ">" and angle:
                angle -= 1
            elif t.text == sign and depth == 0 and angle == 0:
                parts.append(part)
                part = []
                continue
        part.append(t)
    if part:
        parts.append(part)
    return parts


SPACED = {"=>", "==", "!=", "&&", "||", "->", "+=", "-=", "=", "<=", ">=", "+", "-", "/", "{", "}"}
BEFORE_SPACE = {"in", "mut", "if", "match", "return", "let", "else", "as", "dyn", "impl", ",", ":", ";"}
WORDS = {"name", "number", "lifetime", "string"}


def joined(ts):
    """Tokens as text, with spaces where they help."""
    out, angle = "", 0
    for i, t in enumerate(ts):
        before, text = ts[i - 1] if i else None, t.text
        if text == "<" and before and (before.text == "::" or before.text[:1].isupper()):
            angle += 1
        elif text == ">" and angle:
            angle -= 1
        elif text in ("<", ">"):
            text = f" {text} "
        if text in SPACED:
            text = f" {text} "
        elif before and (before.text in BEFORE_SPACE or (before.kind in WORDS and t.kind in WORDS) or text in ("in", "as", "else")):
            text = " " + text
        out += text
    return re.sub(r"\s+", " ", out).replace(" ,", ",").replace("} )", "})").strip()


def value_of(text):
    """The value of a number as it is written, or None."""
    word = re.sub(r"(u|i)(8|16|32|64|size)$", "", text.replace("_", ""))
    try:
        return int(word, 0)
    except ValueError:
        return None


# ---- Items ---------------------------------------------------------------------------------------------------------------------------


class Item:
    """A function, struct, enum, const or impl, with what its kind has."""

    def __init__(self, kind, path, line, **fields):
        self.kind, self.path, self.line = kind, path, line
        self.crate = crate_of(path)
        self.tests = is_tests(path)
        self.__dict__.update(fields)


def items_in(path, text):
    """The items of a source, those in impls, traits and modules too."""
    found = []
    read_items(path, text, tokens_of(text), found, owner="", trait="", within="")
    return found


def read_items(path, text, ts, found, owner, trait, within):
    i, public = 0, ""
    while i < len(ts):
        word = ts[i].text
        if word == "#" and i + 1 < len(ts):
            i = closing(ts, i + (2 if ts[i + 1].text == "!" else 1)) + 1
            continue
        if word == "pub":
            public = "pub"
            i += 1
            if ts[i].text == "(":
                public = "pub(..)"
                i = closing(ts, i) + 1
            continue
        if word == "const" and i + 2 < len(ts) and ts[i + 2].text == ":":
            end = end_of_item(ts, i)
            part = ts[i + 3 : end]
            at = next((k for k, t in enumerate(part) if t.text == "="), len(part))
            found.append(Item("const", path, ts[i].line, name=ts[i + 1].text, type=joined(part[:at]), value=part[at + 1 :], public=public))
            i = end + 1
        elif word == "fn":
            i = read_function(path, text, ts, i, found, owner, trait, within, public)
        elif word in ("struct", "enum"):
            i = read_type(path, ts, i, found, public)
        elif word in ("impl", "trait", "mod"):
            i = read_block(path, text, ts, i, found)
        elif word in ("ghost", "use", "type", "static", "extern"):
            i = end_of_item(ts, i) + 1
        else:
            i += 1
            continue
        public = ""


def end_of_item(ts, i):
    """Where the item at i ends: its semicolon, or the comma or the end of a ghost field."""
    depth = 0
    for k in range(i, len(ts)):
        if ts[k].text in OPENING and ts[k].kind == "sign":
            depth += 1
        elif ts[k].text in CLOSING and ts[k].kind == "sign":
            depth -= 1
        elif ts[k].text == ";" and depth == 0:
            return k
    return len(ts)


def read_block(path, text, ts, i, found):
    """An impl, a trait or a module, and what stands in it."""
    word = ts[i].text
    at = i
    while ts[at].text not in ("{", ";"):
        at += 1
    if ts[at].text == ";":
        return at + 1
    end = closing(ts, at)
    head = ts[i + 1 : at]
    owner, trait = "", ""
    if word == "impl":
        if head and head[0].text == "<":
            head = head[angle_end(head, 0) + 1 :]
        texts = [t.text for t in head]
        if "where" in texts:
            head = head[: texts.index("where")]
        if "for" in texts:
            cut = texts.index("for")
            trait, owner = joined(head[:cut]), joined(head[cut + 1 :])
        else:
            owner = joined(head)
        found.append(Item("impl", path, ts[i].line, owner=owner, trait=trait, body=ts[at + 1 : end]))
    elif word == "trait":
        owner = trait = head[0].text
    read_items(path, text, ts[at + 1 : end], found, owner, trait, word)
    return end + 1


def angle_end(ts, i):
    depth = 0
    for k in range(i, len(ts)):
        if ts[k].text == "<":
            depth += 1
        elif ts[k].text == ">":
            depth -= 1
            if depth == 0:
                return k
    return len(ts) - 1


def read_type(path, ts, i, found, public):
    """A struct with its fields, or an enum with its variants. Ghost fields are left out."""
    kind, name, line = ts[i].text, ts[i + 1].text, ts[i].line
    at = i + 2
    if at < len(ts) and ts[at].text == "<":
        at = angle_end(ts, at) + 1
    if ts[at].text == ";":
        found.append(Item(kind, path, line, name=name, fields=[], variants=[], public=public))
        return at + 1
    end = closing(ts, at)
    parts = [without_marks(p) for p in split(ts[at + 1 : end], ",")]
    parts = [p for p in parts if p and p[0].text != "ghost"]
    if kind == "struct":
        fields = [(p[0].text, joined(p[2:])) for p in parts if len(p) > 2 and p[1].text == ":"]
        found.append(Item(kind, path, line, name=name, fields=fields, public=public))
    else:
        variants = [(p[0].text, len(p) > 1 and p[1].text in OPENING) for p in parts]
        found.append(Item(kind, path, line, name=name, variants=variants, public=public))
    return end + 1


def without_marks(ts):
    """A field or variant without attributes and pub."""
    while ts and ts[0].text in ("#", "pub"):
        if ts[0].text == "#":
            ts = ts[closing(ts, 1) + 1 :]
        elif len(ts) > 1 and ts[1].text == "(":
            ts = ts[closing(ts, 1) + 1 :]
        else:
            ts = ts[1:]
    return ts


def read_function(path, text, ts, i, found, owner, trait, within, public):
    """A function: its parameters, answer, clauses and body."""
    name, line = ts[i + 1].text, ts[i].line
    at = i + 2
    if ts[at].text == "<":
        at = angle_end(ts, at) + 1
    end = closing(ts, at)
    parameters, has_self = [], False
    for p in split(ts[at + 1 : end], ","):
        texts = [t.text for t in p]
        if ":" in texts:
            cut = texts.index(":")
            parameters.append((joined([t for t in p[:cut] if t.text != "mut"]), joined(p[cut + 1 :])))
        elif "self" in texts:
            has_self = True
    at = end + 1
    start = at
    while ts[at].text not in ("{", ";", "requires", "ensures", "where"):
        at = closing(ts, at) + 1 if ts[at].text in ("(", "[") else at + 1
    answer = ts[start:at]
    while ts[at].text not in ("{", ";", "requires", "ensures"):
        at += 1
    clauses = []
    while ts[at].text in ("requires", "ensures"):
        word, label = ts[at].text, ""
        at += 1
        if ts[at].text != "{":
            label, at = ts[at].text, at + 1
        close = closing(ts, at)
        clause = re.sub(r"\s+", " ", text[ts[at].start + 1 : ts[close].start]).strip()
        clauses.append((word, label, clause, ts[at].line))
        at = close + 1
    body = None
    if ts[at].text == "{":
        close = closing(ts, at)
        body = ts[at + 1 : close]
        at = close
    found.append(
        Item(
            "fn", path, line, name=name, public=public, owner=owner, trait=trait if within == "impl" else "",
            declared=within == "trait", parameters=parameters, has_self=has_self, answer=joined(answer[1:]),
            clauses=clauses, body=body,
        )
    )
    return at + 1


# ---- Parts of bodies -----------------------------------------------------------------------------------------------------------------

Loop = collections.namedtuple("Loop", "word head body line")
Arm = collections.namedtuple("Arm", "pattern value")
Match = collections.namedtuple("Match", "subject arms line start end")


def block_start(ts, i):
    """Where the block begins of the if, match, while or for at i."""
    depth = 0
    for k in range(i + 1, len(ts)):
        text = ts[k].text
        if ts[k].kind != "sign":
            continue
        if text == "{" and depth == 0:
            return k
        if text in OPENING:
            depth += 1
        elif text in CLOSING:
            depth -= 1
    return len(ts) - 1


def loops_in(ts):
    for i, t in enumerate(ts):
        if t.kind == "name" and t.text in ("while", "loop", "for"):
            start = block_start(ts, i)
            yield Loop(t.text, ts[i + 1 : start], ts[start + 1 : closing(ts, start)], t.line)


def name_of(l):
    return f"{l.word} {joined(l.head)}".strip()


def matches_in(ts):
    for i, t in enumerate(ts):
        if t.kind == "name" and t.text == "match":
            start = block_start(ts, i)
            end = closing(ts, start)
            yield Match(ts[i + 1 : start], arms_in(ts[start + 1 : end]), t.line, i, end)


def arms_in(ts):
    arms, i = [], 0
    while i < len(ts):
        depth, k = 0, i
        while k < len(ts) and not (ts[k].text == "=>" and depth == 0):
            depth += (ts[k].text in OPENING) - (ts[k].text in CLOSING)
            k += 1
        pattern = ts[i:k]
        k += 1
        if k < len(ts) and ts[k].text == "{":
            end = closing(ts, k)
            arms.append(Arm(pattern, ts[k + 1 : end]))
            i = end + 1
            if i < len(ts) and ts[i].text == ",":
                i += 1
            continue
        part = split(ts[k:], ",")
        value = part[0] if part else []
        arms.append(Arm(pattern, value))
        i = k + len(value) + 1
    return arms


def sources(tree, kind):
    """The items of a kind, in the order of the files."""
    return [item for items in tree.items.values() for item in items if item.kind == kind]


def bodies(tree):
    return [f for f in sources(tree, "fn") if f.body is not None]


def all_loops(tree):
    """Every loop, with the function that it stands in."""
    return [(f, l) for f in bodies(tree) for l in loops_in(f.body)]


def all_matches(tree):
    """Every match, with the function that it stands in."""
    return [(f, m) for f in bodies(tree) for m in matches_in(f.body)]


def ifs_in(ts):
    """Every if: where it stands, its test, and the tokens from its block's bracket to the closing one."""
    for i, t in enumerate(ts):
        if t.kind == "name" and t.text == "if":
            start = block_start(ts, i)
            yield i, ts[i + 1 : start], ts[start : closing(ts, start) + 1]


def has_pair(ts, first, second):
    return any(a.text == first and b.text == second for a, b in zip(ts, ts[1:]))


def is_path(ts):
    """Whether some tokens are names joined by `::`."""
    return len(ts) % 2 == 1 and all(t.kind == "name" if i % 2 == 0 else t.text == "::" for i, t in enumerate(ts))


def is_constant(ts, names=()):
    """Whether some tokens are a literal, a constant, a variant, one of some names, or one of these in a Some."""
    if len(ts) > 3 and ts[0].text in ("Some", "Ok", "Err") and ts[1].text == "(" and closing(ts, 1) == len(ts) - 1:
        ts = ts[2:-1]
    if not ts:
        return False
    if is_path(ts):
        last = ts[-1].text
        return len(ts) > 1 or last[:1].isupper() or last in ("true", "false") or last in names
    return len(ts) == 1 and ts[0].kind in ("number", "string", "char")


def is_number_pattern(ts):
    return bool(ts) and all(t.kind == "number" or t.text == "|" for t in ts)


def show(item):
    """A function as it is named in a list."""
    owner = re.sub(r"<.*", "", item.owner)
    return f"{owner}::{item.name}" if owner else item.name


# ---- The finders ---------------------------------------------------------------------------------------------------------------------

FINDERS = []


def finder(point, key):
    def enter(function):
        FINDERS.append((point, key, function))
        return function

    return enter


# Point 1


@finder(1, "two-variants")
def two_variants(tree):
    errors = set()
    for f in sources(tree, "fn"):
        if "Result<" in f.answer:
            errors |= set(re.findall(r", (?:\w+::)*(\w+)>", f.answer))
    for e in sources(tree, "enum"):
        if len(e.variants) == 2 and sorted(v for _, v in e.variants) == [False, True] and e.name not in errors:
            yield Place(e.path, e.line, f"enum {e.name} {{ {', '.join(n + ('(..)' if v else '') for n, v in e.variants)} }}")


@finder(1, "flag-and-value")
def flag_and_value(tree):
    for s in sources(tree, "struct"):
        flags = [n for n, t in s.fields if t == "bool" or t.startswith("Result<(), ")]
        others = [n for n, _ in s.fields if n not in flags]
        if flags and len(s.fields) > 1:
            yield Place(s.path, s.line, f"struct {s.name}: {', '.join(flags)} beside {', '.join(others) or 'one another'}")


@finder(1, "nested-result")
def nested_result(tree):
    for f in sources(tree, "fn"):
        for text in [f.answer] + [t for _, t in f.parameters]:
            if re.search(r"(Result|Option)<Result<", text):
                yield Place(f.path, f.line, f"{show(f)}: {text}")


def used_as_kind(tree):
    """The crates and names of constants that stand for a kind somewhere."""
    declared = {(c.crate, c.name) for c in sources(tree, "const")}
    parameters = collections.defaultdict(list)
    for f in sources(tree, "fn"):
        parameters[f.name].append([n for n, _ in f.parameters])
    used = set()

    def use(crate, name):
        used.update([(crate, name)] if (crate, name) in declared else [d for d in declared if d[1] == name])

    for f in bodies(tree) + sources(tree, "const"):
        ts = f.body if f.kind == "fn" else f.value
        for m in matches_in(ts):
            for arm in m.arms:
                for part in split(arm.pattern, "|"):
                    if is_path(part):
                        use(f.crate, part[-1].text)
        for a, sign, b in zip(ts, ts[1:], ts[2:]):
            if sign.text in ("==", "!=") and a.text in KINDS:
                use(f.crate, b.text)
            if sign.text in ("==", "!=") and b.text in KINDS:
                use(f.crate, a.text)
            if sign.text == ":" and a.text in KINDS:
                use(f.crate, b.text)
        for i, t in enumerate(ts[:-1]):
            if t.kind == "name" and t.text in parameters and ts[i + 1].text == "(":
                arguments = split(ts[i + 2 : closing(ts, i + 1)], ",")
                for names in parameters[t.text]:
                    for name, argument in zip(names, arguments):
                        if name in KINDS and len(argument) == 1:
                            use(f.crate, argument[0].text)
    return used


@finder(1, "kind-numbers")
def kind_numbers(tree):
    used = used_as_kind(tree)
    groups = collections.OrderedDict()
    for c in sources(tree, "const"):
        if c.type in INTEGERS and (c.crate, c.name) in used:
            groups.setdefault((c.path, c.type), []).append(c)
    for (path, kind), group in groups.items():
        yield Place(path, group[0].line, f"{', '.join(c.name for c in group)}: {kind}")


@finder(1, "kind-fields")
def kind_fields(tree):
    for s in sources(tree, "struct"):
        found = [f"{n}: {t}" for n, t in s.fields if n in ("kind", "code", "tag", "format", "access") and t in ("u8", "u16", "u32")]
        if found:
            yield Place(s.path, s.line, f"struct {s.name}: {', '.join(found)}")
    for f in sources(tree, "fn"):
        found = [f"{n}: {t}" for n, t in f.parameters if n in ("kind", "tag", "format") and t in ("u8", "u16", "u32")]
        if found:
            yield Place(f.path, f.line, f"{show(f)}: {', '.join(found)}")


@finder(1, "sentinels")
def sentinels(tree):
    ones = {c.name for c in sources(tree, "const") if len(c.value) == 1 and re.fullmatch(r"0x[fF_]+", c.value[0].text)}
    for f in bodies(tree):
        for a, sign, b in zip(f.body, f.body[1:], f.body[2:]):
            if sign.text in ("==", "!=") and a.text in SENTINELS and (b.text == "0" or b.text in ones):
                yield Place(f.path, a.line, f"{show(f)}: {a.text} {sign.text} {b.text}")
    for s in sources(tree, "struct"):
        for n, t in s.fields:
            if n == "parent" and t in INTEGERS:
                yield Place(s.path, s.line, f"struct {s.name}: {n}: {t}")


@finder(1, "number-match")
def number_match(tree):
    for f, m in all_matches(tree):
        numbers = [a for a in m.arms if is_number_pattern(a.pattern)]
        if len(numbers) > 1 and m.subject[-1].text not in COUNTS:
            yield Place(f.path, m.line, f"{show(f)}: match {joined(m.subject)} on {len(numbers)} numbers")


@finder(1, "number-answers")
def number_answers(tree):
    for f in bodies(tree):
        if not f.parameters and not f.has_self and len(f.body) == 1 and f.body[0].text in ("0", "true"):
            yield Place(f.path, f.line, f"fn {f.name}() -> {f.answer} {{ {f.body[0].text} }}")


# Point 2


def width_name(name):
    return re.sub(r"(?<![a-zA-Z0-9])u(8|16|32|64)(?=s?(_|$))", "uN", name)


@finder(2, "width-twins")
def width_twins(tree):
    groups = collections.defaultdict(list)
    for f in bodies(tree):
        if width_name(f.name) != f.name:
            groups[width_name(f.name)].append(f)
    for group in groups.values():
        names = sorted({f.name for f in group})
        if len(names) > 1:
            for f in group:
                yield Place(f.path, f.line, f"{show(f)}: as {', '.join(n for n in names if n != f.name)}")


def normal_form(ts):
    """Tokens with each name replaced by the place where it first stood, and each number by N."""
    seen, out = {}, []
    for t in ts:
        if t.kind == "name" and t.text not in KEYWORDS:
            out.append("@" + str(seen.setdefault(t.text, len(seen))))
        elif t.kind == "name" and t.text in INTEGERS:
            out.append("#")
        elif t.kind == "number":
            out.append("N")
        elif t.kind == "string":
            out.append('"')
        elif t.kind != "lifetime" and t.text != ",":
            out.append(t.text)
    return tuple(out)


@finder(2, "same-bodies")
def same_bodies(tree):
    groups = collections.defaultdict(list)
    for f in bodies(tree):
        lines = len({t.line for t in f.body})
        if lines >= 4 or len(split(f.body, ";")) >= 3:
            # (two matches that only map variants are alike on the same variants only)
            patterns = tuple(joined(a.pattern) for a in whole_match(f).arms) if is_map(f) else ()
            groups[(normal_form(f.body), patterns)].append(f)
    for group in groups.values():
        if len(group) > 1:
            for f in group:
                others = ", ".join(f"{g.crate}::{show(g)}" for g in group if g is not f)
                yield Place(f.path, f.line, f"{show(f)}: the body of {others}")
    groups = collections.defaultdict(list)
    for c in sources(tree, "const"):
        if len({t.line for t in c.value}) >= 4 or len(split(c.value, ",")) > 3:
            groups[normal_form(c.value)].append(c)
    for group in groups.values():
        if len(group) > 1:
            for c in group:
                yield Place(c.path, c.line, f"const {c.name}: the form of {', '.join(d.name for d in group if d is not c)}")


@finder(2, "same-starts")
def same_starts(tree):
    groups = collections.defaultdict(list)
    for f in bodies(tree):
        parts = split(f.body, ";")
        if len(parts) > 4:
            groups[normal_form([t for p in parts[:4] for t in p])].append(f)
    for group in groups.values():
        if len(group) > 1:
            for f in group:
                yield Place(f.path, f.line, f"{show(f)}: begins as {', '.join(show(g) for g in group if g is not f)}")


def method_bodies(block):
    """The methods of an impl, without ghost members, up to names."""
    out, i = [], 0
    while i < len(block):
        if block[i].text == "ghost":
            i = end_of_item(block, i) + 1
        else:
            out.append(block[i])
            i += 1
    return out


@finder(2, "same-impls")
def same_impls(tree):
    groups = collections.defaultdict(list)
    for b in sources(tree, "impl"):
        methods = method_bodies(b.body)
        if b.trait and len({t.line for t in methods}) >= 4:
            groups[(b.trait, normal_form(methods))].append(b)
    for (trait, _), group in groups.items():
        if len(group) > 1:
            for b in group:
                others = ", ".join(re.sub(r"<.*", "", g.owner) for g in group if g is not b)
                yield Place(b.path, b.line, f"impl {trait} for {b.owner}: the bodies of {others}")


@finder(2, "same-consts")
def same_consts(tree):
    groups = collections.defaultdict(list)
    for c in sources(tree, "const"):
        if c.type in INTEGERS and len(c.value) == 1 and not c.tests and (value_of(c.value[0].text) or 0) >= 256:
            groups[value_of(c.value[0].text)].append(c)
    for value, group in groups.items():
        if len({c.crate for c in group}) > 1:
            for c in group:
                others = ", ".join(f"{d.crate}::{d.name}" for d in group if d is not c)
                yield Place(c.path, c.line, f"const {c.name} = {c.value[0].text}: as {others}")
    for f in bodies(tree):
        for a, op, b in zip(f.body, f.body[1:], f.body[2:]):
            if op.text in ("==", "!=", "<", ">", "<=", ">=") and b.kind == "number" and not f.tests:
                named = groups.get(value_of(b.text))
                if named:
                    names = ", ".join(f"{c.crate}::{c.name}" for c in named)
                    yield Place(f.path, b.line, f"{show(f)}: {a.text} {op.text} {b.text}, which is {names}")


def table_numbers(f):
    """The numbers of 256 or more that a function has as patterns or as whole answers of a match."""
    found = set()
    for m in matches_in(f.body):
        for arm in m.arms:
            for part in (arm.pattern, arm.value):
                if len(part) == 1 and part[0].kind == "number":
                    found.add(value_of(part[0].text))
    return {n for n in found if n is not None and n >= 256}


@finder(2, "same-tables")
def same_tables(tree):
    tables = [(f, table_numbers(f)) for f in bodies(tree) if not f.tests]
    tables = [(f, numbers) for f, numbers in tables if len(numbers) >= 3]
    for f, numbers in tables:
        others = [f"{g.crate}::{show(g)} ({len(numbers & theirs)})" for g, theirs in tables if g is not f and len(numbers & theirs) >= 3]
        if others:
            yield Place(f.path, f.line, f"{show(f)}: {len(numbers)} numbers, shared with {', '.join(others)}")


@finder(2, "same-fields")
def same_fields(tree):
    structs = [s for s in sources(tree, "struct") if s.fields]
    for s in structs:
        others = []
        for o in structs:
            shared = set(s.fields) & set(o.fields)
            if o is not s and (len(shared) >= 3 or (shared == set(s.fields) == set(o.fields))):
                others.append(f"{o.crate}::{o.name} ({len(shared)})")
        if others:
            yield Place(s.path, s.line, f"struct {s.name}: fields of {', '.join(others)}")


@finder(2, "namesakes")
def namesakes(tree):
    groups = collections.defaultdict(list)
    for f in sources(tree, "fn"):
        if (f.parameters or f.has_self) and not f.trait and not f.tests:
            groups[(f.name, f.has_self, f.answer, tuple(t for _, t in f.parameters))].append(f)
    for group in groups.values():
        traits = {f.owner for f in group if f.declared}
        crates = {f.crate for f in group if f.parameters}
        for f in group:
            others = sorted(crates - {f.crate}) if f.crate in crates else []
            if not f.declared and (traits or others):
                yield Place(f.path, f.line, f"{show(f)}: also in {', '.join(sorted(traits) or others)}")


@finder(2, "delegates")
def delegates(tree):
    private = collections.defaultdict(list)
    for f in bodies(tree):
        if f.public != "pub" and not f.trait:
            private[(f.crate, f.name)].append(f)
    for f in bodies(tree):
        ts = f.body[:-1] if f.body and f.body[-1].text == ";" else f.body
        if not is_call(ts):
            continue
        at = next(i for i, t in enumerate(ts) if t.text == "(")
        callee = [t.text for t in ts[:at]]
        arguments = [joined([t for t in p if t.text not in ("&", "mut", "*")]) for p in split(ts[at + 1 : -1], ",")]
        own = [n for n, _ in f.parameters]
        by_method = f.has_self and callee[:-2] == ["self"] and arguments == own
        if by_method or ("." not in callee and arguments == (["self"] if f.has_self else []) + own):
            for g in private[(f.crate, callee[-1])]:
                if g is not f and len(g.parameters) + g.has_self == len(own) + f.has_self:
                    yield Place(f.path, f.line, f"{show(f)}: only {show(g)}")
                    break
        elif callee[-1] == f.name and not f.trait and own and arguments[-len(own) :] == own:
            yield Place(f.path, f.line, f"{show(f)}: only {joined(ts[:at])}")


# Point 3


def changed_by_steps(ts):
    """The variables that += or -= changes."""
    return {a.text for a, b in zip(ts, ts[1:]) if a.kind == "name" and b.text in ("+=", "-=")}


def indexed_with(ts):
    """The names that stand in an index: [i], [i + 1], [i..j]."""
    found = set()
    for i, t in enumerate(ts):
        if t.text == "[" and i and (ts[i - 1].kind == "name" or ts[i - 1].text in (")", "]")):
            found |= {u.text for u in ts[i + 1 : closing(ts, i)] if u.kind == "name"}
    return found


@finder(3, "counted-loops")
def counted_loops(tree):
    for f, l in all_loops(tree):
        if l.word in ("while", "loop"):
            steps = changed_by_steps(l.body)
            tested = {t.text for t in l.head} if l.word == "while" else {t.text for t in l.body}
            counted = sorted(steps & (tested | indexed_with(l.body)))
            if counted:
                yield Place(f.path, l.line, f"{show(f)}: {name_of(l)} counts {', '.join(counted)}")


def is_range_for(l):
    return l.word == "for" and len(l.head) > 2 and l.head[1].text == "in" and any(t.text == ".." for t in l.head)


@finder(3, "range-loops")
def range_loops(tree):
    for f, l in all_loops(tree):
        if not is_range_for(l):
            continue
        name = l.head[0].text
        local = {b.text for a, b in zip(l.body, l.body[1:]) if a.text in ("let", "mut")}
        for i, t in enumerate(l.body):
            if t.text == "[" and i and l.body[i - 1].kind == "name" and l.body[i - 1].text not in local:
                inside = l.body[i + 1 : closing(l.body, i)]
                if [u.text for u in inside] == [name]:
                    yield Place(f.path, l.line, f"{show(f)}: for {joined(l.head)} indexes {l.body[i - 1].text}")
                    break


@finder(3, "unused-counters")
def unused_counters(tree):
    for f, l in all_loops(tree):
        if is_range_for(l) and l.head[0].text.startswith("_"):
            yield Place(f.path, l.line, f"{show(f)}: for {joined(l.head)}")


@finder(3, "next-walks")
def next_walks(tree):
    for f in bodies(tree):
        if f.name == "next_above" or f.tests:
            continue
        ts = f.body
        loops = [l for l in loops_in(ts) if any(t.text == "next_above" for t in l.head + l.body)]
        lines = [l.line for l in loops]
        if not loops:
            lines = [t.line for i, t in enumerate(ts) if t.text == "next_above" and has_pair(ts, "let", "Some")][:1]
        for line in lines:
            yield Place(f.path, line, f"{show(f)}: walks by next_above")


def given_to_calls(ts):
    """The names that are an argument of a call by themselves, as `rest` in `cut(rest, 2)`."""
    found = set()
    for i, t in enumerate(ts[:-1]):
        if t.kind == "name" and t.text[:1].islower() and ts[i + 1].text == "(":
            found |= {p[0].text for p in split(ts[i + 2 : closing(ts, i + 1)], ",") if len(p) == 1}
    return found


@finder(3, "rest-loops")
def rest_loops(tree):
    for f, l in all_loops(tree):
        ts = l.head + l.body
        if any(t.text == "next_above" for t in ts):
            continue
        given = given_to_calls(ts)
        bound = {a.text for a, b in zip(ts, ts[1:]) if a.kind == "name" and b.text == ")"}
        for i in range(1, len(ts) - 2):
            if ts[i + 1].text == "=" and ts[i].text in given and ts[i - 1].text in (";", "{", "}", "=>"):
                # `rest = behind`, where `behind` is bound in a pattern of this loop, or `rest = text.rest`
                end = next((k for k in range(i + 2, len(ts)) if ts[k].text in (";", ",", "}")), len(ts))
                value = [t.text for t in ts[i + 2 : end]]
                if (len(value) == 1 and value[0] in bound) or (len(value) == 3 and value[1:] == [".", ts[i].text]):
                    yield Place(f.path, l.line, f"{show(f)}: {name_of(l)} goes on with {ts[i].text} = {''.join(value)}")
                    break


@finder(3, "search-loops")
def search_loops(tree):
    for f, l in all_loops(tree):
        for _, test, block in ifs_in(l.body):
            if block[1].text == "return" and block[2].text != "Err":
                yield Place(f.path, l.line, f"{show(f)}: {name_of(l)} returns {joined(block[2:-1]).rstrip(';')} if {joined(test)}")
                break
        else:
            for one, two, three in zip(l.body, l.body[1:], l.body[2:]):
                if one.text == "=>" and two.text == "return" and three.text in ("true", "false", "None", "Some"):
                    yield Place(f.path, l.line, f"{show(f)}: {name_of(l)} returns {three.text} in a match")
                    break


@finder(3, "fold-loops")
def fold_loops(tree):
    for f, l in all_loops(tree):
        inside, tested = l.body, False
        for i, _, block in ifs_in(l.body):
            if i == 0 and block[-1] is l.body[-1]:
                inside, tested = block[1:-1], True
        parts = split(inside, ";")
        if l.word == "for" and len(parts) == 1 and len(parts[0]) > 2 and parts[0][1].text == "=":
            if tested or any(t.text == parts[0][0].text for t in parts[0][2:]):
                yield Place(f.path, l.line, f"{show(f)}: {name_of(l)} sets {joined(parts[0])}")


# Point 4


def whole_match(f):
    found = list(matches_in(f.body))
    return found[0] if found and found[0].start == 0 and found[0].end == len(f.body) - 1 else None


def is_map(f):
    """Whether a function is one match whose answers are constants."""
    m = whole_match(f)
    names = [n for n, _ in f.parameters]
    return bool(m and m.arms and len(m.subject) == 1 and all(is_constant(a.value, names) for a in m.arms))


@finder(4, "match-maps")
def match_maps(tree):
    for f in bodies(tree):
        if f.trait:
            continue
        m = whole_match(f)
        if is_map(f):
            yield Place(f.path, f.line, f"{show(f)}: match {joined(m.subject)} with {len(m.arms)} arms -> {f.answer}")
        elif f.name == "number" and is_constant(f.body):
            yield Place(f.path, f.line, f"{show(f)}: {joined(f.body)} -> {f.answer}")


def branches(ts):
    """The answers of an if with else that is all of some tokens, or None."""
    found = []
    while ts and ts[0].text == "if":
        start = block_start(ts, 0)
        end = closing(ts, start)
        found.append(ts[start + 1 : end])
        if end + 1 >= len(ts) or ts[end + 1].text != "else":
            return None
        ts = ts[end + 2 :]
    if not found or not ts or ts[0].text != "{" or closing(ts, 0) != len(ts) - 1:
        return None
    return found + [ts[1:-1]]


@finder(4, "if-maps")
def if_maps(tree):
    for f in bodies(tree):
        answers = branches(f.body)
        names = [n for n, _ in f.parameters]
        if answers and all(is_constant(a, names) for a in answers) and any(is_constant(a) for a in answers):
            yield Place(f.path, f.line, f"{show(f)}: if with {len(answers)} answers {', '.join(joined(a) for a in answers)}")
        for i, test, block in ifs_in(f.body):
            rest = [t.text for t in f.body[i + len(test) + len(block) + 1 :]]
            compared = len(test) == 3 and test[1].text in ("<", ">", "<=", ">=")
            if compared and len(block) == 3 and rest[:2] == ["else", "{"] and {block[1].text, rest[2]} == {test[0].text, test[2].text}:
                yield Place(f.path, f.body[i].line, f"{show(f)}: if {joined(test)} {joined(block)} else {{ {rest[2]} }}")


@finder(4, "option-matches")
def option_matches(tree):
    for f, m in all_matches(tree):
        arms = {a.pattern[0].text: a for a in m.arms if a.pattern}
        if len(m.arms) != 2 or set(arms) not in ({"Some", "None"}, {"Ok", "Err"}):
            continue
        names = [n for n, _ in f.parameters]
        replaced = [n for n, a in arms.items() if n != "Some" and (not a.value or is_constant(a.value, names))]
        others = [a.value for n, a in arms.items() if n not in replaced]
        # (what stands for `ok_or(..)?` or `if let` may have any other arm)
        any_other = any(not arms[n].value or arms[n].value[0].text == "Err" for n in replaced)
        if replaced and (any_other or not any(t.text in (";", "return", "if", "match") for v in others for t in v)):
            text = "; ".join(f"{joined(a.pattern)} => {joined(a.value)[:60] or '{}'}" for a in m.arms)
            yield Place(f.path, m.line, f"{show(f)}: match {joined(m.subject)}: {text}")
    for f in bodies(tree):
        for i, _, _ in ifs_in(f.body):
            answers = branches(f.body[i:])
            if answers and len(answers) == 2 and any(joined(a) == "None" for a in answers):
                yield Place(f.path, f.body[i].line, f"{show(f)}: if with {' or '.join(joined(a)[:40] for a in answers)}")


@finder(4, "equalities")
def equalities(tree):
    for f in bodies(tree):
        if f.answer != "bool" or len(split(f.body, ";")) > 1 or any(t.text in ("if", "match", "let") for t in f.body):
            continue
        types = [t for _, t in f.parameters]
        if f.has_self:
            types = ["&" + re.sub(r"<.*", "", f.owner)] + types
        two = len(types) == 2 and types[0] == types[1] and not re.match(r"&?[A-Z]$", types[0])
        joins = [p for p in split(f.body, "&&") if re.fullmatch(r"(\w+)((\.\w+)+) == (\w+)\2", joined(p))]
        if (re.match(r"(same|equal|alike)(_|$)", f.name) and two) or len(joins) > 1:
            yield Place(f.path, f.line, f"{show(f)}: {joined(f.body)}")


def literals_in(ts):
    """The struct literals: name, fields with their values, and line."""
    for i, t in enumerate(ts[:-1]):
        if t.kind == "name" and t.text[:1].isupper() and ts[i + 1].text == "{" and not (i and ts[i - 1].text in ("match", "let")):
            fields = []
            for p in split(ts[i + 2 : closing(ts, i + 1)], ","):
                if len(p) > 2 and p[1].text == ":":
                    fields.append((p[0].text, p[2:]))
            yield t.text, fields, t.line


@finder(4, "defaults")
def defaults(tree):
    for f in bodies(tree):
        alone = f.body and [t.text for t in f.body[1:2]] == ["{"] and closing(f.body, 1) == len(f.body) - 1
        if alone and not f.parameters and not f.has_self and not f.trait:
            values = [p[2:] for p in split(f.body[2:-1], ",")]
            if values and all(is_constant(v) or (v and v[0].text == "[") for v in values):
                yield Place(f.path, f.line, f"{show(f)}: {joined(f.body)}")


@finder(4, "field-copies")
def field_copies(tree):
    for f in bodies(tree):
        for name, fields, line in literals_in(f.body):
            copied = collections.Counter()
            for field, value in fields:
                texts = [t.text for t in value]
                if len(value) > 2 and texts[-2] == "." and texts[-1] == field:
                    copied["".join(texts[:-2])] += 1
            for source, n in copied.items():
                if n > 1:
                    yield Place(f.path, line, f"{show(f)}: {name} copies {n} fields of {source}")


@finder(4, "local-copies")
def local_copies(tree):
    for f in bodies(tree):
        runs, last = collections.Counter(), {}
        for part in split(f.body, ";"):
            texts = [t.text for t in part]
            if len(texts) >= 6 and texts[0] == "let" and texts[2] == "=" and texts[4] == "." and (len(texts) == 6 or texts[6] == "."):
                runs[texts[3]] += 1
                last.setdefault(texts[3], part[0].line)
        for source, n in runs.items():
            if n >= 3 and source != "self":
                yield Place(f.path, last[source], f"{show(f)}: {n} lets of fields of {source}")


@finder(4, "text-makers")
def text_makers(tree):
    for f in bodies(tree):
        if f.tests:
            continue
        makes = f.answer.startswith(("Result<String,", "Result<Option<String>,")) and len(f.parameters) > 1
        pushes = f.answer.startswith("Result<(),") and any(t == "&mut String" for _, t in f.parameters)
        if makes or pushes:
            yield Place(f.path, f.line, f"{show(f)}({', '.join(n for n, _ in f.parameters if n != 'heap')})")


# Point 5


def terms_of(clause):
    """The clause itself, and in parentheses in it the comparisons of two values and the long terms."""
    found, stack = {clause}, []
    for i, c in enumerate(clause):
        if c == "(":
            stack.append(i)
        elif c == ")" and stack:
            term = clause[stack.pop() + 1 : i]
            if len(term) > 40 or re.fullmatch(r"[\w.]+ [<≤≡] [\w.]+", term):
                found.add(term)
    return found


def by_crate(functions):
    """The functions by crate, but for crates that have only one of them, unless a trait's."""
    crates = collections.OrderedDict()
    for f in sorted(functions, key=lambda f: (f.path, f.line)):
        crates.setdefault(f.crate, []).append(f)
    return [group for group in crates.values() if len(group) > 1 or len(crates) == 1 or group[0].declared]


@finder(5, "clause-terms")
def clause_terms(tree):
    where = collections.defaultdict(dict)
    for f in sources(tree, "fn"):
        for _, _, clause, line in f.clauses:
            for term in terms_of(clause):
                where[term].setdefault(id(f), (f, line))
    often = {t: fs for t, fs in where.items() if len(fs) >= 3}
    for term, functions in sorted(often.items()):
        # (a term that only stands within a larger one of the same functions says nothing more)
        if any(term != other and term in other and set(functions) <= set(theirs) for other, theirs in often.items()):
            continue
        for group in by_crate(f for f, _ in functions.values()):
            f = group[0]
            yield Place(f.path, functions[id(f)][1], f"{len(group)} of {len(functions)} functions: {term}")


@finder(5, "parameter-lists")
def parameter_lists(tree):
    where = collections.defaultdict(dict)
    for f in sources(tree, "fn"):
        if f.trait:
            continue
        own = [(n, re.sub(r"<'\w+>|'\w+ ?", "", t)) for n, t in f.parameters if n not in ("heap", "rt")]
        for i in range(len(own)):
            for k in range(i + 2, len(own) + 1):
                # (a list of a test is no list of the code)
                where[(("tests", ""),) * f.tests + tuple(own[i:k])][id(f)] = f
    often = {t: fs for t, fs in where.items() if len(fs) >= 3}

    def within(short, long):
        return len(short) < len(long) and any(long[i : i + len(short)] == short for i in range(len(long)))

    # (of a list and a longer one that holds it the longer stands here if two thirds of the functions have it, and else the shorter)
    dropped = set()
    for short in often:
        for long in often:
            if within(short, long):
                dropped.add(short if 3 * len(often[long]) >= 2 * len(often[short]) else long)
    for names, functions in often.items():
        if names in dropped:
            continue
        text = ", ".join(f"{n}: {t}" for n, t in names if n != "tests")
        for group in by_crate(functions.values()):
            yield Place(group[0].path, group[0].line, f"{len(group)} of {len(functions)} functions: ({text})")


# Point 6


def is_slice(kind):
    return re.match(r"&('\w+ ?)?(mut )?\[", kind) is not None


def is_array(kind):
    return kind.startswith("[")


@finder(6, "length-fields")
def length_fields(tree):
    for s in sources(tree, "struct"):
        lists = [n for n, t in s.fields if is_array(t) or is_slice(t)]
        counts = [n for n, t in s.fields if n in COUNTS and t in INTEGERS]
        if lists and counts:
            yield Place(s.path, s.line, f"struct {s.name}: {', '.join(lists)} with {', '.join(counts)}")


def is_counted(name, ts, tests):
    """Whether an array is read up to a name, split, or, outside of tests, lent for writing where a count is taken or given."""
    for statement in split([t for t in ts if t.text not in ("{", "}")], ";"):
        texts = [t.text for t in statement]
        for i in range(len(texts) - 1):
            if texts[i] != name:
                continue
            if texts[i + 1] == "[" and any(t.kind == "name" for t in statement[i + 2 : closing(statement, i + 1)]):
                return True
            if texts[i + 1 : i + 3] == [".", "split_at"]:
                return True
            lent = texts[max(i - 2, 0) : i] == ["&", "mut"]
            if lent and not tests and (texts[0] == "let" or set(texts) & (COUNTS | PLACES)):
                return True
    return False


@finder(6, "local-buffers")
def local_buffers(tree):
    for f in bodies(tree):
        ts = f.body
        for i in range(len(ts) - 5):
            if [t.text for t in (ts[i], ts[i + 1], ts[i + 3], ts[i + 4])] == ["let", "mut", "=", "["]:
                end = closing(ts, i + 4)
                if any(t.text == ";" for t in ts[i + 5 : end]) and is_counted(ts[i + 2].text, ts[end + 1 :], f.tests):
                    yield Place(f.path, ts[i].line, f"{show(f)}: {joined(ts[i + 1 : end + 1])}")


@finder(6, "count-parameters")
def count_parameters(tree):
    for f in sources(tree, "fn"):
        if f.trait:
            continue
        lists = [n for n, t in f.parameters if is_slice(t)]
        counts = [n for n, t in f.parameters if n in PLACES and t in ("usize", "u32")]
        if lists and counts:
            yield Place(f.path, f.line, f"{show(f)}: {', '.join(lists)} with {', '.join(counts)}")


@finder(6, "parallel-fields")
def parallel_fields(tree):
    for s in sources(tree, "struct"):
        lists = [n for n, t in s.fields if is_array(t) or t.startswith("Vec<") or re.match(r"&('\w+ ?)?mut \[", t)]
        if len(lists) > 1:
            yield Place(s.path, s.line, f"struct {s.name}: {', '.join(lists)}")


@finder(6, "bounds-tests")
def bounds_tests(tree):
    for f in bodies(tree):
        for i, test, block in ifs_in(f.body):
            tested = {a.text for a, b in zip(test, test[1:]) if a.kind == "name" and b.text in ("<", ">", "<=", ">=")}
            indexes = tested & indexed_with(test + block)
            if indexes:
                yield Place(f.path, f.body[i].line, f"{show(f)}: if {joined(test)} indexes with {', '.join(sorted(indexes))}")


@finder(6, "halving")
def halving(tree):
    for f, l in all_loops(tree):
        if l.word != "for" and has_pair(l.body, "/", "2") and any(t.text in ("<", "<=") for t in l.head):
            yield Place(f.path, l.line, f"{show(f)}: {name_of(l)} halves")


# Point 7


def is_call(ts):
    """Whether some tokens are one call of a function, but no Ok, Err or Some."""
    at = next((i for i, t in enumerate(ts) if t.text == "("), None)
    if at is None or at == 0 or closing(ts, at) != len(ts) - 1 or ts[at - 1].text == "!":
        return False
    return all(t.kind == "name" or t.text in ("::", ".") for t in ts[:at]) and not ts[at - 1].text[:1].isupper()


@finder(7, "call-switches")
def call_switches(tree):
    for f, m in all_matches(tree):
        patterns = [joined(a.pattern) for a in m.arms]
        if f.trait or any(re.match(r"(Some|Ok|Err|None|\()", p) for p in patterns):
            continue
        # (a constructor is no step)
        calls = [a for a in m.arms if is_call(a.value) and not a.value[0].text[:1].isupper()]
        others = [a for a in m.arms if a not in calls and a.value and a.value[0].text != "Err" and joined(a.pattern) != "_"]
        if len(calls) > 1 and not others:
            yield Place(f.path, m.line, f"{show(f)}: match {joined(m.subject)} calls {len(calls)} functions")


def called(ts):
    """The names of the functions that some tokens call, and what stands in front of each or comes first in it."""
    found = {}
    for i, t in enumerate(ts[:-1]):
        if t.kind == "name" and ts[i + 1].text == "(" and not t.text[:1].isupper():
            found[t.text] = ts[i - 2].text if i > 1 and ts[i - 1].text == "." else ts[i + 2].text
    return found


@finder(7, "receiver-switches")
def receiver_switches(tree):
    for f in bodies(tree):
        for i, test, block in ifs_in(f.body):
            rest = f.body[i + len(test) + len(block) + 1 :]
            if [t.text for t in rest[:2]] != ["else", "{"]:
                continue
            one, two = called(block), called(rest[2 : closing(rest, 1)])
            for name in one:
                if name in two and one[name] != two[name] and {one[name], two[name]} <= {n for n, _ in f.parameters}:
                    yield Place(f.path, f.body[i].line, f"{show(f)}: if {joined(test)} calls {name} of {one[name]} or {two[name]}")
                    break


@finder(7, "function-values")
def function_values(tree):
    for f in sources(tree, "fn"):
        for n, t in f.parameters:
            if re.search(r"\bfn ?\(", t):
                yield Place(f.path, f.line, f"{show(f)}: {n}: {t}")
    for s in sources(tree, "struct"):
        for n, t in s.fields:
            if re.search(r"\bfn ?\(", t):
                yield Place(s.path, s.line, f"struct {s.name}: {n}: {t}")
    for c in sources(tree, "const"):
        if re.search(r"\bfn ?\(", c.type):
            yield Place(c.path, c.line, f"const {c.name}: {c.type}")


# Point 8

PLAIN = re.compile(r"(search|omega|grind|simp|refl|rules|arith)( (\(?[\w.]+(, [\w.]+)*\)?))?")
LEMMA = re.compile(r"(?:(?:abbrev|unfoldable) )?(?:pub )?(?:(?:abbrev|unfoldable) )?([^\s:(){}]+) : ")


def proof_files(tree):
    return [(path, text) for path, text in tree.files.items() if "/proofs/" in path]


def answers_in(text):
    """The answers of a file: name, line, and what stands behind the equals sign."""
    found = []
    for m in re.finditer(r"^(?:pub )?(\S+) : goal\.\S+\n(?:unfolding[^\n]*\n)?((?:[^\n]+\n?)*)", text, re.M):
        body = " ".join(m.group(2).split())
        if " = " in body:
            found.append((m.group(1), text.count("\n", 0, m.start()) + 1, body.split(" = ", 1)[1]))
    return found


@finder(8, "plain-answers")
def plain_answers(tree):
    for path, text in proof_files(tree):
        for name, line, body in answers_in(text):
            if PLAIN.fullmatch(body):
                yield Place(path, line, f"{name} = {body}")


@finder(8, "same-answers")
def same_answers(tree):
    where = collections.defaultdict(list)
    for path, text in proof_files(tree):
        for name, line, body in answers_in(text):
            if len(body) >= 40:
                where[body].append((path, line, name))
    for body, places in where.items():
        files = {p for p, _, _ in places}
        if len(files) > 1:
            for path, line, name in places:
                yield Place(path, line, f"{name}: in {len(files)} files")


def lemmas_in(tree):
    """The lemmas and definitions of files that are no answers: name, path, line and statement."""
    for path, text in proof_files(tree):
        if os.path.basename(path) in ("Answers.antt", "Invariants.antt", "Lib.antt"):
            continue
        lines = text.split("\n")
        for i, line in enumerate(lines):
            m = LEMMA.match(line)
            if m and not line.startswith(("use ", "ghost use ", "--", " ")):
                statement = [line[m.end() :]]
                for more in lines[i + 1 :]:
                    if not more.startswith(" "):
                        break
                    statement.append(more)
                yield m.group(1), path, i + 1, " ".join(" ".join(statement).split())


def short_path(path):
    return path.replace("crates/", "", 1).replace("/proofs/", "/")


def in_other_files(groups):
    """The lemmas of each group whose lemmas stand in two files or more, with those other files."""
    for group in groups.values():
        if len({path for _, path, _ in group}) > 1:
            for name, path, line in group:
                yield Place(path, line, f"{name}: also in {', '.join(sorted({short_path(p) + ' ' + n for n, p, _ in group if p != path}))}")


@finder(8, "twice-named")
def twice_named(tree):
    groups = collections.defaultdict(list)
    for name, path, line, _ in lemmas_in(tree):
        groups[name].append((name, path, line))
    yield from in_other_files(groups)


@finder(8, "twice-stated")
def twice_stated(tree):
    groups = collections.defaultdict(list)
    for name, path, line, statement in lemmas_in(tree):
        bound = [v for binder in re.findall(r"[({]([^(){}:]+) : ", statement) for v in binder.split()]
        numbers = {v: f"#{i}" for i, v in enumerate(dict.fromkeys(bound))}
        form = re.sub(r"[\w']+", lambda m: numbers.get(m.group(0), m.group(0)), statement)
        if bound and "→" in form:
            groups[form].append((name, path, line))
    yield from in_other_files(groups)


# ---- Printing ------------------------------------------------------------------------------------------------------------------------


class Tree:
    """The files, and the items of each source."""

    def __init__(self, files):
        self.files = files
        self.items = {path: items_in(path, text) for path, text in files.items() if path.endswith(".rt")}
        self.crates = sorted({crate_of(p) for p in files}, key=lambda c: (c.endswith("_tests"), c))


def found_in(tree, chosen):
    """The places by point: for each file and line the keys that found it, and what they say. In point 5 each fact is a place."""
    found = {point: collections.OrderedDict() for point in POINTS}
    for point, key, function in FINDERS:
        if chosen and not chosen & {str(point), POINTS[point], key}:
            continue
        for place in function(tree):
            keys, texts = found[point].setdefault((place.path, place.line, place.text if point == 5 else ""), ([], []))
            if key not in keys:
                keys.append(key)
            if place.text not in texts:
                texts.append(place.text)
    return found


def marked(crate):
    return crate + " (tests)" if crate.endswith("_tests") else crate


def proof_sizes(tree):
    """The number of proof files and of their lines, by crate."""
    files, lines = collections.Counter(), collections.Counter()
    for path, text in proof_files(tree):
        files[crate_of(path)] += 1
        lines[crate_of(path)] += text.count("\n")
    return files, lines


def print_counts(tree, found, points):
    files, lines = proof_sizes(tree)
    heads = [str(n) for n in points] + (["files", "lines"] if 8 in points else [])
    rows = []
    for c in tree.crates:
        counts = [sum(crate_of(path) == c for path, _, _ in found[n]) for n in points]
        rows.append((marked(c), counts + ([files[c], lines[c]] if 8 in points else [])))
    rows.append(("total", [sum(counts) for counts in zip(*(counts for _, counts in rows))]))
    wide = max(len(name) for name, _ in rows)
    print(f"{'':{wide}}" + "".join(f"{h:>7}" for h in heads))
    for name, counts in rows:
        print(f"{name:{wide}}" + "".join(f"{c or '.':>7}" for c in counts))


def print_proof_sizes(tree):
    files, lines = proof_sizes(tree)
    print("proof files and lines: " + ", ".join(f"{marked(c)} {files[c]} {lines[c]}" for c in tree.crates))
    print(f"in all {sum(files.values())} files, {sum(lines.values())} lines")


def print_places(tree, found, points):
    for n in points:
        keys = collections.Counter(k for names, _ in found[n].values() for k in names)
        print(f"== {n} {POINTS[n]}: {len(found[n])} places ({', '.join(f'{k} {c}' for k, c in keys.items()) or 'none'})")
        for (path, line, _), (names, texts) in sorted(found[n].items()):
            mark = "(tests) " if is_tests(path) else ""
            print(f"{path}:{line}: {mark}[{', '.join(names)}] {'; '.join(texts)}")
        if n == 8:
            print_proof_sizes(tree)
        print()


def main():
    words = argparse.ArgumentParser(description=__doc__, formatter_class=argparse.RawDescriptionHelpFormatter)
    words.add_argument("commit", nargs="?", help="a commit to read in place of the work tree")
    words.add_argument("--counts", action="store_true", help="print only the table of counts by crate and point")
    words.add_argument("--only", metavar="NAME[,NAME..]", default="", help="points, by number or name, or keys")
    args = words.parse_args()
    known = {str(n) for n in POINTS} | set(POINTS.values()) | {key for _, key, _ in FINDERS}
    chosen = set(filter(None, args.only.split(",")))
    if chosen - known:
        words.error(f"no point or key is called {', '.join(sorted(chosen - known))}")
    root = os.path.dirname(os.path.dirname(os.path.abspath(__file__)))
    try:
        tree = Tree(read_commit(root, args.commit) if args.commit else read_tree(root))
    except subprocess.CalledProcessError as error:
        words.error(error.stderr.decode("utf-8").strip())
    found = found_in(tree, chosen)
    points = [n for n in POINTS if not chosen or chosen & ({str(n), POINTS[n]} | {k for p, k, _ in FINDERS if p == n})]
    if args.counts:
        print_counts(tree, found, points)
    else:
        print_places(tree, found, points)
    return 0


if __name__ == "__main__":
    sys.exit(main())
