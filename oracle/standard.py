#!/usr/bin/env python3
"""The Standard reading has no counterpart in the Rust crate. This compares it with four others: Python's gettext.c2py, a C compiler, glibc's
ngettext on catalogs that msgfmt builds, and a small reader of C's grammar below.

    oracle/standard.py [--rules N] [--c N] [--gnu N] [--seed S]     made rules, C programs, and catalogs
    oracle/standard.py --sample FILE                        the lines of the replay list that the crate did not answer

Differences of a kind that is explained are counted by kind; any other is printed, and the exit status is 1.
"""
import argparse
import ctypes
import gettext
import os
import random
import shutil
import struct
import subprocess
import sys
import tempfile
import warnings
from ctypes import POINTER, byref, c_char_p, c_size_t, c_uint16, c_uint32, c_uint64, c_uint8

ROOT = os.path.dirname(os.path.dirname(os.path.abspath(__file__)))
TOP = 2**64 - 1
COUNTS = list(range(23)) + [63, 64, 99, 100, 101, 111, 1000, 2**31, 2**32 - 1, 2**32, 2**63, TOP - 1, TOP]
SIX = " \t\n\r\x0b\x0c"
FORMS_AT = [0, 1, 2, 3, 4, 5, 7, 10, 11, 12, 21, 22, 100, 111, 2**32, TOP]


# The port.


PLACES = 1024


class Head(ctypes.Structure):
    _fields_ = [(name, c_size_t) for name in ("length", "count", "originals", "translations", "big", "nodes", "root")]


class Loaded(ctypes.Structure):
    _fields_ = [
        ("number", c_uint32),
        ("side", c_uint32),
        ("entered", c_uint32),
        ("counted", c_uint32),
        ("entry", c_size_t),
        ("forms", c_uint64),
        ("head", Head),
    ]


class Record:
    """What a load leaves: its number and its head, and the arrays of its rule."""

    def __init__(self):
        self.codes, self.places, self.values = (c_uint8 * 512)(), (c_uint16 * PLACES)(), (c_uint64 * 512)()

    def rule(self):
        return byref(self.codes), byref(self.places), byref(self.values)


class Form(ctypes.Structure):
    _fields_ = [("number", c_uint32), ("form", c_uint64)]


class Answer(ctypes.Structure):
    _fields_ = [("number", c_uint32), ("which", c_uint32), ("entry", c_size_t), ("form", c_uint64), ("start", c_size_t), ("len", c_size_t)]


def port(folder):
    library = os.path.join(os.environ.get("GETTEXT_RATTLE_LIB", os.path.join(ROOT, "target", "staticlib")), "libgettext_c.a")
    shared = os.path.join(folder, "libgettext_c.so")
    subprocess.run(["gcc", "-shared", "-o", shared, "-Wl,--whole-archive", library, "-Wl,--no-whole-archive"], check=True)
    lib = ctypes.CDLL(shared)
    rule = [POINTER(c_uint8 * 512), POINTER(c_uint16 * PLACES), POINTER(c_uint64 * 512)]
    lib.gettext_c_load.argtypes = [c_char_p, c_size_t, c_char_p, c_size_t, c_uint32, c_uint32, c_uint32, c_uint32] + rule
    lib.gettext_c_load.restype = Loaded
    lib.gettext_c_resolve.argtypes = [POINTER(Head)] + rule + [c_uint64]
    lib.gettext_c_resolve.restype = Form
    lib.gettext_c_ngettext.argtypes = [c_char_p, c_size_t, POINTER(Head)] + rule + [c_uint32] + [c_char_p, c_size_t] * 2 + [c_uint64]
    lib.gettext_c_ngettext.restype = Answer
    return lib


EMPTY = struct.pack("<7I", 0x950412DE, 0, 0, 28, 28, 0, 28)


class Port:
    def __init__(self, folder):
        self.lib = port(folder)

    def load(self, file, rule=None):
        forced, record = rule is not None, Record()
        loaded = self.lib.gettext_c_load(file, len(file), rule or b"", len(rule or b""), forced, 1, 0, 0, *record.rule())
        record.number, record.head = loaded.number, loaded.head
        return record

    def value(self, loaded, n):
        """The form, or None for a remainder by zero."""
        form = self.lib.gettext_c_resolve(byref(loaded.head), *loaded.rule(), n)
        assert form.number in (0, 10)
        return form.form if form.number == 0 else None

    def ngettext(self, file, loaded, key, plural, n):
        a = self.lib.gettext_c_ngettext(file, len(file), byref(loaded.head), *loaded.rule(), 0, b"", 0, key, len(key), n)
        text = [file[a.start : a.start + a.len], key, plural][a.which]
        return a.number, a.which, text


# A reader of C's grammar by ranks; a tree is "n", a number or a tuple with its operator.

RANKS = {"||": 1, "&&": 2, "==": 3, "!=": 3, "<": 4, ">": 4, "<=": 4, ">=": 4, "+": 5, "-": 5, "*": 6, "/": 6, "%": 6}


class Refused(Exception):
    pass


def tokens(rule):
    found, i = [], 0
    while i < len(rule):
        sign = rule[i]
        if sign in " \t":
            i += 1
        elif sign in "0123456789":
            end = i
            while end < len(rule) and rule[end] in "0123456789":
                end += 1
            if int(rule[i:end]) > TOP:
                raise Refused
            found.append(int(rule[i:end]))
            i = end
        elif rule[i : i + 2] in ("||", "&&", "==", "!=", "<=", ">="):
            found.append(rule[i : i + 2])
            i += 2
        elif sign in "n<>%!?:()+-*/":
            found.append(sign)
            i += 1
        else:
            raise Refused
    return found[::-1]


def read(rule):
    rest = tokens(rule.strip(SIX))
    tree = condition(rest)
    if rest:
        raise Refused
    return tree


def condition(rest):
    c = binary(rest, 1)
    if rest and rest[-1] == "?":
        rest.pop()
        a = condition(rest)
        if not rest or rest.pop() != ":":
            raise Refused
        return ("?", c, a, condition(rest))
    return c


def binary(rest, rank):
    left = prefix(rest)
    while rest and RANKS.get(rest[-1], 0) >= rank:
        operator = rest.pop()
        left = (operator, left, binary(rest, RANKS[operator] + 1))
    return left


def prefix(rest):
    if not rest:
        raise Refused
    sign = rest.pop()
    if sign == "!":
        return ("!", prefix(rest))
    if sign == "(":
        inside = condition(rest)
        if not rest or rest.pop() != ")":
            raise Refused
        return inside
    if sign == "n" or isinstance(sign, int):
        return sign
    raise Refused


# what a value was before it wrapped: c2py's numbers have no bound
wrapped = []


def value(tree, n):
    if tree == "n":
        return n
    if isinstance(tree, int):
        return tree
    kind, first = tree[0], value(tree[1], n)
    if first is None:
        return None
    if kind == "!":
        return int(first == 0)
    if kind == "?":
        return value(tree[2] if first else tree[3], n)
    if kind == "&&" and not first:
        return 0
    if kind == "||" and first:
        return 1
    second = value(tree[2], n)
    if second is None:
        return None
    if kind == "%":
        return first % second if second else None
    if kind == "/":
        return first // second if second else None
    if kind in "+-*":
        whole = {"+": first + second, "-": first - second, "*": first * second}[kind]
        if not 0 <= whole <= TOP:
            wrapped.append(whole)
        return whole % (TOP + 1)
    return int(
        {
            "&&": second != 0,
            "||": second != 0,
            "==": first == second,
            "!=": first != second,
            "<": first < second,
            ">": first > second,
            "<=": first <= second,
            ">=": first >= second,
        }[kind]
    )


def plainly(tree):
    """The rule for c2py: `!x` as `x==0`, and truths where && and || want them."""
    if not isinstance(tree, tuple):
        return str(tree)
    parts = ["(%s)" % plainly(part) if isinstance(part, tuple) else str(part) for part in tree[1:]]
    if tree[0] == "!":
        return parts[0] + " == 0"
    if tree[0] == "?":
        return "%s ? %s : %s" % tuple(parts)
    if tree[0] in ("&&", "||"):
        return "(%s != 0) %s (%s != 0)" % (parts[0], tree[0], parts[1])
    return "%s %s %s" % (parts[0], tree[0], parts[1])


def python(rule):
    """c2py's function, or its refusal."""
    try:
        with warnings.catch_warnings():
            warnings.simplefilter("ignore")
            return gettext.c2py(rule), None
    except SyntaxError:
        return None, "syntax"
    except RecursionError:
        return None, "complex"
    except ValueError as e:
        return None, "complex" if "complex" in str(e) else "long" if "long" in str(e) else "refused"


def at(f, n):
    try:
        return f(n)
    except ZeroDivisionError:
        return None


# Rules.

KNOWN = [
    "0", "n != 1", "n>1", "(n+1)/2", "n%10*3", "10-n%3-2", "10/(n%3+1)", "n==1 ? 0 : n==2 ? 1 : 2", "n%10==1 && n%100!=11 ? 0 : n != 0 ? 1 : 2",
    "n==1 ? 0 : (n==0 || (n%100 > 0 && n%100 < 20)) ? 1 : 2",
    "n%10==1 && n%100!=11 ? 0 : n%10>=2 && n%10<=4 && (n%100<10 || n%100>=20) ? 1 : 2",
    "(n==1) ? 0 : (n>=2 && n<=4) ? 1 : 2", "n%100==1 ? 0 : n%100==2 ? 1 : n%100==3 || n%100==4 ? 2 : 3",
    "n==0 ? 0 : n==1 ? 1 : n==2 ? 2 : n%100>=3 && n%100<=10 ? 3 : n%100>=11 ? 4 : 5",
]  # fmt: skip
SOUP = "n n n 0 1 2 10 01 18446744073709551615 18446744073709551616 && || ? : ? : >= <= > < == != % + - * / ! ( ) ( )".split() + [" ", "\t", "=", "&"]
OTHERS = ["\r", "n1", "nn", "1n", "\x0b", "x", "|"]
LEVELS = [["||"], ["&&"], ["==", "!="], ["<", ">", "<=", ">="], ["+", "-"], ["*", "/", "%"]]


def blank(rng):
    return rng.choice(["", "", "", " ", "\t"])


def grammar(rng, rank, depth):
    if depth == 0 or rng.random() < 0.25:
        leaf = "n" if rng.random() < 0.5 else str(rng.choice([0, 1, 2, 3, 4, 5, 10, 11, 100, "007", 2**32, TOP, rng.randrange(30)]))
        return blank(rng) + leaf + blank(rng)
    own = rng.choice([0, 0, 1, 2, 3, 4, 5, 6, 7])
    if own == 0:
        text = grammar(rng, 1, depth - 1) + "?" + grammar(rng, 0, depth - 1) + ":" + grammar(rng, 0, depth - 1)
    elif own == 7:
        text = "!" + grammar(rng, 7, depth - 1)
    else:
        text = grammar(rng, own, depth - 1) + rng.choice(LEVELS[own - 1]) + grammar(rng, own + 1, depth - 1)
    return "(" + text + ")" if own < rank or rng.random() < 0.1 else text


def made(rng):
    kind = rng.randrange(10)
    if kind < 5:
        return grammar(rng, 0, 1 + rng.randrange(5))
    if kind < 8:
        return "".join(rng.choice(SOUP if rng.random() < 0.97 else OTHERS) for _ in range(1 + rng.randrange(9)))
    rule = rng.choice(KNOWN)
    for _ in range(rng.randrange(3)):
        place = rng.randrange(len(rule) + 1)
        rule = rule[:place] + rng.choice(list("n01()?:&|!=<>%+-*/ ") + [""]) + rule[place + rng.randrange(2) :]
    if rng.random() < 0.02:
        rule = rng.choice(["(" * 25 + "n" + ")" * 25, "!" * 30 + "n", " " * 520 + "n", "0" * 511 + "1", "0" * 512 + "1", "\r\n" + rule])
    return rule


class Tally:
    def __init__(self):
        self.kinds, self.differ, self.accepted, self.refused, self.values = {}, 0, 0, 0, 0

    def explain(self, kind, rule):
        times, shortest = self.kinds.get(kind, (0, rule))
        self.kinds[kind] = (times + 1, min(rule, shortest, key=lambda text: (len(text), text)))

    def fault(self, what, rule):
        self.differ += 1
        if self.differ <= 20:
            print("DIFFERS %r: %s" % (rule, what))


def compare(port, rule, tally):
    text = rule.encode()
    loaded = port.load(EMPTY, text)
    try:
        tree, own = read(rule), 0
    except Refused:
        tree, own = None, 6
    if len(rule.strip(SIX)) > 512:
        own = 8
    if loaded.number != own:
        return tally.fault("%d, by the small reader %d" % (loaded.number, own), rule)
    f, why = python(rule)
    if own != 0:
        tally.refused += 1
        if f is None and why in ("refused", "syntax"):
            return None
        if own == 8:
            return tally.explain("rule over 512 bytes: 8, c2py reads up to 1000", rule)
        if any(len(run) >= 20 for run in "".join(c if c.isdigit() else " " for c in rule).split()):
            return tally.explain("integer above 2^64-1: 6, c2py reads it", rule)
        return tally.fault("6, c2py reads it (%s)" % why, rule)
    tally.accepted += 1
    ours = [port.value(loaded, n) for n in COUNTS]
    tally.values += len(COUNTS)
    wrapped.clear()
    if ours != [value(tree, n) for n in COUNTS]:
        return tally.fault("values %s" % ours, rule)
    if f is not None and ours == [at(f, n) for n in COUNTS]:
        return None
    if wrapped:
        return tally.explain("numbers that wrap: c2py's have no bound", rule)
    # what c2py does differently with this text, and the same rule said so that it does not
    if f is None and why == "refused" and rule.strip(SIX) != rule.strip(" \t"):
        return tally.explain("white space at the ends other than blanks: trimmed, c2py refuses", rule)
    again, _ = python(plainly(tree))
    if f is None and why == "complex":
        return tally.explain("over 20 brackets deep: c2py refuses", rule)
    if f is None and why == "syntax" and "!" not in rule:
        return tally.fault("c2py makes no Python of it", rule)
    if f is None and why != "syntax":
        return tally.fault("c2py refuses (%s)" % why, rule)
    if again is None:
        return tally.explain("`!`, && or || used as a number, and too deep to be said otherwise for c2py", rule)
    if ours != [at(again, n) for n in COUNTS]:
        return tally.fault("values %s, c2py otherwise, also with x==0 for !x" % ours, rule)
    if f is None:
        return tally.explain("`!` as an operand: c2py makes Python's `not`, which Python refuses there", rule)
    if "!" in rule.replace("!=", ""):
        return tally.explain("`!`: c2py makes Python's `not`, which binds more loosely", rule)
    if "&&" in rule or "||" in rule:
        return tally.explain("&& and || used as numbers: Python hands back an operand, not 0 or 1", rule)
    return tally.fault("c2py otherwise", rule)


def made_rules(port, rng, times):
    tally = Tally()
    for _ in range(times):
        compare(port, made(rng), tally)
    for kind, (count, shortest) in sorted(tally.kinds.items()):
        print("  explained %d: %s; shortest: %r" % (count, kind, shortest if len(shortest) < 60 else shortest[:60] + ".."))
    print(
        "standard, c2py: %d rules (%d read, %d refused), %d values; %d explained, %d differ"
        % (times, tally.accepted, tally.refused, tally.values, sum(count for count, _ in tally.kinds.values()), tally.differ)
    )
    return tally.differ == 0


# A C compiler, on expressions over uint64_t.


def is_truth(tree):
    """Whether C gives it the type int: truths, and what is made of truths alone."""
    if not isinstance(tree, tuple):
        return False
    if tree[0] in "+-*/%":
        return is_truth(tree[1]) and is_truth(tree[2])
    if tree[0] == "?":
        return is_truth(tree[2]) and is_truth(tree[3])
    return True


def has_int_sums(tree):
    """Whether C would compute with int somewhere, where the port's numbers are unsigned throughout."""
    if not isinstance(tree, tuple):
        return False
    return tree[0] in "+-*/%" and is_truth(tree) or any(map(has_int_sums, tree[1:]))


def cast(tree, rank=0):
    """The tree as C, with a cast round every truth, and only the brackets that C's grammar wants."""
    if not isinstance(tree, tuple):
        return "n" if tree == "n" else "%dULL" % tree
    kind = tree[0]
    if kind == "?":
        text = "%s ? %s : %s" % (cast(tree[1], 1), cast(tree[2]), cast(tree[3]))
        return "(%s)" % text if rank > 0 else text
    if kind == "!":
        return "(uint64_t)(!%s)" % cast(tree[1], 7)
    own = RANKS[kind]
    text = "%s %s %s" % (cast(tree[1], own), kind, cast(tree[2], own + 1))
    if own < 5:
        return "(uint64_t)(%s)" % text
    return "(%s)" % text if own < rank else text


def as_it_stands(rule):
    """The rule's own text; C's integers are octal after a 0, and int unless said otherwise."""
    return " ".join("%dULL" % t if isinstance(t, int) else t for t in reversed(tokens(rule.strip(SIX))))


C_BATCH = 2000
C_PROGRAM = """#include <stdint.h>
#include <stdio.h>
typedef uint64_t form(uint64_t n);
%s
static form *const forms[] = {%s};
int main(void) {
    uint64_t call[2];
    while (fread(call, sizeof call, 1, stdin) == 1) {
        uint64_t value = forms[call[0]](call[1]);
        fwrite(&value, sizeof value, 1, stdout);
    }
    return 0;
}
"""


def compiled(compiler, expressions, calls, folder):
    """What the expressions give, each call an expression and a count."""
    source, program = os.path.join(folder, "forms.c"), os.path.join(folder, "forms")
    functions = "\n".join("static uint64_t f%d(uint64_t n) { return %s; }" % each for each in enumerate(expressions))
    with open(source, "w") as out:
        out.write(C_PROGRAM % (functions, ", ".join("f%d" % i for i in range(len(expressions)))))
    subprocess.run([compiler, "-O1", "-w", "-o", program, source], check=True)
    given = b"".join(struct.pack("=2Q", *call) for call in calls)
    told = subprocess.run([program], input=given, stdout=subprocess.PIPE, check=True).stdout
    return struct.unpack("=%dQ" % len(calls), told)


def c_values(port, rng, times, folder):
    compiler = shutil.which("cc") or shutil.which("gcc")
    if not compiler:
        print("standard, C: no compiler is here; not compared")
        return True
    differ = rules = plain = values = zero = 0
    while rules < times:
        expressions, calls, wanted = [], [], []
        for _ in range(min(C_BATCH, times - rules)):
            rule = made(rng) if rng.random() < 0.1 else grammar(rng, 0, 1 + rng.randrange(6))
            loaded = port.load(EMPTY, rule.encode())
            if loaded.number != 0:
                continue
            rules += 1
            tree = read(rule)
            texts = [cast(tree)]
            # where every sum is unsigned in C too, the rule's own text as well: C's reading, not this file's
            if not has_int_sums(tree):
                texts.append(as_it_stands(rule))
                plain += 1
            for n in [0, 1, 2, 5, 2**32, TOP, rng.randrange(200), rng.randrange(TOP)]:
                ours = port.value(loaded, n)
                if ours != value(tree, n):
                    differ += 1
                    print("DIFFERS %r at %d: %s" % (rule, n, ours))
                if ours is None:
                    zero += 1
                    continue
                for k in range(len(texts)):
                    calls.append((len(expressions) + k, n))
                    wanted.append((rule, n, ours))
            expressions += texts
        values += len(calls)
        for (rule, n, ours), theirs in zip(wanted, compiled(compiler, expressions, calls, folder)):
            if ours != theirs:
                differ += 1
                if differ <= 20:
                    print("DIFFERS %r at %d: %d, in C %d" % (rule, n, ours, theirs))
    print(
        "standard, C: %d rules with casts round truths, %d of them as they stand too, %d values, %d counts with a zero divisor (not C's to say); %d differ"
        % (rules, plain, values, zero, differ)
    )
    return differ == 0


# glibc, on catalogs that msgfmt builds.

FORMS = 30


def gnu(port, rng, times, folder):
    if not shutil.which("msgfmt"):
        print("standard, GNU: msgfmt is not here; not compared")
        return True
    libc = ctypes.CDLL(None)
    libc.setlocale.restype = c_char_p
    libc.bindtextdomain.argtypes = libc.bind_textdomain_codeset.argtypes = [c_char_p, c_char_p]
    libc.dngettext.argtypes, libc.dngettext.restype = [c_char_p, c_char_p, c_char_p, c_uint64], c_char_p
    os.environ["LANGUAGE"] = "xx"
    if not (libc.setlocale(6, b"C.UTF-8") or libc.setlocale(6, b"C.utf8")):
        print("standard, GNU: no UTF-8 locale; not compared")
        return True
    messages = os.path.join(folder, "xx", "LC_MESSAGES")
    os.makedirs(messages)
    differ = lookups = beyond = zero = rules = 0
    while rules < times:
        rule = KNOWN[rules] if rules < len(KNOWN) else grammar(rng, 0, 1 + rng.randrange(5))
        if len(rule) > 500 or port.load(EMPTY, rule.encode()).number != 0:
            continue
        domain = "d%d" % rules
        rules += 1
        po = 'msgid ""\nmsgstr "Content-Type: text/plain; charset=UTF-8\\nPlural-Forms: nplurals=%d; plural=%s;\\n"\n' % (
            FORMS,
            rule.replace("\t", " "),
        )
        po += 'msgid "a"\nmsgid_plural "as"\n' + "".join('msgstr[%d] "form %d"\n' % (i, i) for i in range(FORMS))
        path = os.path.join(messages, domain + ".mo")
        subprocess.run(["msgfmt", "-o", path, "-"], input=po.encode(), check=True, stderr=subprocess.DEVNULL)
        with open(path, "rb") as mo:
            file = mo.read()
        loaded = port.load(file)
        if loaded.number != 0:
            differ += 1
            print("DIFFERS %r: %d for msgfmt's catalog" % (rule, loaded.number))
            continue
        libc.bindtextdomain(domain.encode(), folder.encode())
        libc.bind_textdomain_codeset(domain.encode(), b"UTF-8")
        for n in COUNTS:
            form = port.value(loaded, n)
            number, which, text = port.ngettext(file, loaded, b"a", b"as", n)
            lookups += 1
            if form is None:
                # glibc would raise SIGFPE
                zero += 1
                right = number == 10
            elif form >= FORMS:
                # glibc then takes form 0
                beyond += 1
                right = (number, which) == (0, 1 if n == 1 else 2)
            else:
                right = (number, which) == (0, 0) and text == libc.dngettext(domain.encode(), b"a", b"as", n)
            if not right:
                differ += 1
                print("DIFFERS %r at %d: %s, form %s" % (rule, n, (number, which, text), form))
    print(
        "standard, GNU: %d rules, %d lookups; explained: %d remainders by zero (glibc stops the process), %d forms beyond nplurals (glibc takes "
        "form 0); %d differ" % (rules, lookups, zero, beyond, differ)
    )
    return differ == 0


# The replay list: oracle/src/sample.rs says how it is laid out.


def cases(data):
    for start in range(0, len(data), 65536):
        part = data[start : start + 65536]
        place = 0
        while place + 2 <= len(part):
            (size,) = struct.unpack_from("<H", part, place)
            if size == 0:
                break
            yield part[place + 2 : place + 2 + size]
            place += 2 + size


def catalog(file):
    order = "<" if file[:4] == EMPTY[:4] else ">"
    count, originals, translations = struct.unpack_from(order + "3I", file, 8)
    found = {}
    for i in range(count):
        size, place = struct.unpack_from(order + "2I", file, originals + 8 * i)
        key = file[place : place + size + 1]
        four = key.find(4) + 1
        size, place = struct.unpack_from(order + "2I", file, translations + 8 * i)
        found[key[: key.index(0, four)]] = file[place : place + size].split(b"\0")
    return found


def header_rule(found):
    for line in found.get(b"", [b""])[0].split(b"\n"):
        if line.startswith(b"Plural-Forms:") and b"plural=" in line:
            return line.split(b" plural=")[1].split(b";")[0].decode()
    return "n != 1"


def number_of(rule):
    if len(rule.strip(SIX)) > 512:
        return 8, None
    try:
        return 0, read(rule)
    except Refused:
        return 6, None


def fits(file):
    """Whether every cell and string lies in the file."""
    if len(file) < 28:
        return False
    order = "<" if file[:4] == EMPTY[:4] else ">"
    count, originals, translations = struct.unpack_from(order + "3I", file, 8)
    cells = [table + 8 * i for table in (originals, translations) for i in range(count)]
    return all(cell + 8 <= len(file) and sum(struct.unpack_from(order + "2I", file, cell)) + 1 <= len(file) for cell in cells)


# the rules among the forced ones that the crate's reading takes otherwise than C: it cuts at && first, and at a bracket's last byte
SHIPPED = {"n&&1?2:0": ("&&", "n", ("?", 1, 2, 0)), "(n\0": "n"}


def catalog_right(case, origin):
    """A catalog of the list that the crate did not answer, by this file's own readers; and how many lookups it has."""
    flags, number = case[2:4]
    length, size = struct.unpack_from("<2H", case, 4)
    forced, file, rest = case[8 : 8 + length].decode("latin-1"), case[8 + length : 8 + length + size], case[8 + length + size :]
    if origin == "d" and not flags & 1 and number == 6:
        # where the crate panics
        return not rest, 0
    wanted, tree = number_of(forced) if flags & 1 else (0, None)
    if origin == "d" and forced in SHIPPED:
        wanted, tree = 0, SHIPPED[forced]
    if wanted == 0 and not fits(file):
        wanted = 1
    found = catalog(file) if wanted == 0 else {}
    if wanted == 0 and not flags & 1:
        wanted, tree = number_of(header_rule(found))
    right, answers = number == wanted, 0
    while rest:
        (size,) = struct.unpack_from("<H", rest)
        call, number, which, n, c, i, t = struct.unpack_from("<BBBQBBB", rest, 2)
        context, key, text = rest[16 : 16 + c], rest[16 + c : 16 + c + i], rest[16 + c + i : 16 + c + i + t]
        rest = rest[2 + size :]
        answers += 1
        stale, call = call >= 8, call % 8
        fallback = (1, key) if call < 2 or n == 1 else (2, b"plural")
        # the record's length is the file's, or 0 where it was refused
        lent, known = 0 if stale else len(file), 0 if wanted else len(file)
        form = value(tree, n) if call >= 2 and wanted == 0 else 0
        segments = found.get(context + b"\4" + key if call in (1, 3) else key, [])
        if lent != known:
            expected = (11,) + fallback
        elif form is None:
            expected = (10,) + fallback
        elif form < len(segments):
            expected = (0, 0, segments[form])
        else:
            expected = (0,) + fallback
        right &= (number, which, text) == expected
    return right, answers


def sample(path):
    with open(path, "rb") as data:
        data = data.read()
    rules = catalogs = answers = differ = by_c2py = documents = 0
    for case in cases(data):
        kind, origin = case[0], chr(case[1])
        right = True
        if kind == 2 and origin == "s":
            rules += 1
            (length,) = struct.unpack_from("<H", case, 4)
            rule, told = case[6 : 6 + length].decode("latin-1"), case[6 + length :]
            wanted, tree = number_of(rule)
            forms = [value(tree, n) for n in FORMS_AT] if wanted == 0 else []
            right = case[3] == wanted and list(told) == [255 if form is None else min(form, 64) for form in forms]
            f, _ = python(rule)
            if wanted == 0 and f is not None and [at(f, n) for n in FORMS_AT] == forms:
                by_c2py += 1
            answers += len(forms)
        elif kind == 1 and origin in "sd":
            right, more = catalog_right(case, origin)
            answers += more
            catalogs += origin == "s"
            documents += origin == "d"
        if not right:
            differ += 1
            print("DIFFERS %s" % case.hex())
    print(
        "standard, replay list: %d rules (%d of them the same in c2py as they stand), %d catalogs, %d more of document 01, %d answers; %d differ"
        % (rules, by_c2py, catalogs, documents, answers, differ)
    )
    return differ == 0


def main():
    parser = argparse.ArgumentParser()
    parser.add_argument("--rules", type=int, default=20000)
    parser.add_argument("--c", type=int, default=4000)
    parser.add_argument("--gnu", type=int, default=200)
    parser.add_argument("--seed", type=int, default=1)
    parser.add_argument("--sample")
    args = parser.parse_args()
    if args.sample:
        return sample(args.sample)
    with tempfile.TemporaryDirectory() as folder:
        library = Port(folder)
        rng = random.Random(args.seed)
        right = made_rules(library, rng, args.rules)
        right = c_values(library, random.Random(args.seed), args.c, folder) and right
        return gnu(library, rng, args.gnu, folder) and right


if __name__ == "__main__":
    sys.setrecursionlimit(10000)
    sys.exit(0 if main() else 1)
