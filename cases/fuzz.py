#!/usr/bin/env python3
"""Changes the worked cases at random, runs the program over them, and looks for what is wrong.

usage: fuzz.py [--program FILE ..] [--seconds N | --runs N] [--seed N] [--turn N]
               [--limit SECONDS] [--memory MEGABYTES] [--keep FOLDER]
       fuzz.py --test

Each turn takes a run of a case, changes some of its files and words, and gives it to each program.
A program gets it as a case on standard input, or as files in a folder. A find is

    signal      the program was ended by a signal, as it is where a `prove!` fails
    hang        it took more than --limit seconds of processor time (20)
    memory      it used more than --memory megabytes (1024)
    report      standard error has a line that doesn't begin with `countygroups: `, as a report of a
                bad access
    format      the text isn't one that the command writes with this status (TEXTS of formats.py),
                or the status is none that docs/formats.md names
    object      with `--json` the line isn't the object of its text, or an answer is no object
    names       with `--names` a group's line hasn't the names of its counties behind their codes
    listing     a listing doesn't tell as many groupings as it says, or they don't ascend, or the
                number behind it isn't that of the grouping of `--which`
    stored      a file afterwards is neither as it was nor whole in its format, another file lies
                there, or one that was to be stored doesn't
    record      a record isn't that of the words, the files, the text and the status of its run
    checker     tools/check.py contradicts `check`, `list`, `judge` where it says best, or a
                certificate that `solve` or `share` stored (if it answers within seconds)
    programs    two programs answer otherwise
    words       the program answers otherwise without `--names`, or with `--part` and `--of` in the
                place of `--tolerance`
    pipes       the program answers otherwise, or stores other files, where the files that it reads
                are pipes, which it can read once. Some runs that are given as files are asked so;
                none of `audit`, which reads two files twice

If each program stores tables and records (`--table`, `--groupings`, `--districts`, `--record`),
some runs are asked for them. Each table is made anew from the files and the report. If each has
`--which`, some lists are asked for the number of a grouping, and if each has `--json`, some runs
for an object, as with `--names` for names. An object is made a text, which is judged as that of any
run, and so is a text with names. If each has `--tolerance`, some runs say their tolerance so. If
each reads standard input as the file `-`, some runs have a file there.

A program that `rt try` built tells bad accesses, sums that wrap and a false `prove!`. A search gets
few steps and a check a small budget, so that a turn is short. The same seed and turn make the same
case: --turn N runs one turn. Without --program it runs the proved one. Without --runs it goes on
for --seconds (60). Each find is printed, and kept as the case FOLDER/SEED-TURN/found (--keep,
./fuzz-finds): its `found.txt` says what was found, and its `found.out` what the second checker
wants, where it wants something. --test tries the parts of this script, and runs no program.

An error of this script itself is no find: the line `ERROR seed S turn T` names it, standard error
has where it was, and the next turn goes on.

Statuses: 0 no find, 1 finds, 2 these words can't be run, 3 errors of this script and no find, 4
both. The last line is `N runs, M finds, K errors of this script`.
"""
from __future__ import annotations

import argparse
import collections
import contextlib
import dataclasses
import io
import os
import random
import re
import signal
import subprocess
import sys
import tempfile
import time
import traceback
from typing import Any, Callable, DefaultDict, Dict, Iterable, Iterator, List, NoReturn, Optional
from typing import Sequence, Tuple, Union

HERE = os.path.dirname(os.path.realpath(__file__))
sys.path[:0] = [HERE, f"{HERE}/../tools"]
import cases  # noqa: E402
import check  # noqa: E402
import compare_checkers  # noqa: E402
import given_files  # noqa: E402
import json_answers  # noqa: E402
import program_runs  # noqa: E402
import sample_listings  # noqa: E402
from formats import NAMED, TEXTS, are_resuming, asks_for_names, assignments_in  # noqa: E402
from formats import districts_table_of, groupings_in, groupings_table_of  # noqa: E402
from formats import is_certificate, is_grouping, is_of_format, is_record, is_told  # noqa: E402
from formats import read_lines, sum_of, table_of, takes_names, tolerance_by  # noqa: E402
from formats import without_names, wrong_listing, wrong_object, wrong_record  # noqa: E402
from script_words import ScriptWords  # noqa: E402
from sweeps import named_by  # noqa: E402

Words = List[str]
Files = Dict[str, bytes]
# A text of a check, and its status, which is None if the second checker ended by an error.
Answer = Tuple[bytes, Optional[int]]
MOST_BYTES, QUICK_SECONDS = 40_000, 3
# The line of standard error behind which the answer stands, if a store failed.
ANSWER_IS = b"countygroups: the answer is:\n"
# What these options have which commands store, in order of storing.
STORING = {
    "certificate": ("solve", "share"),
    "out": ("solve", "list"),
    "table": ("judge", "solve", "check"),
    "groupings": ("list",),
    "districts": ("audit",),
    "events": ("solve",),
    "record": tuple(TEXTS),
}
# The options that store a file only behind an answer with groups.
STORED_WITH_GROUPS = ("out", "table", "groupings", "events")
# The options that some runs get besides, if each program has them: each with a command of it.
MORE = {
    "table": "solve",
    "groupings": "list",
    "districts": "audit",
    "events": "solve",
    "record": "solve",
    "which": "list",
    "json": "size",
    "names": "solve",
    "tolerance": "size",
}
# The name of standard input, which some runs get besides, if each program reads it so.
INPUT = "-"
# The options that keep a turn short, by the command.
LIMITS: Dict[str, Tuple[str, ...]] = {
    "solve": ("--steps", "300"),
    "piece": ("--steps", "300"),
    "check": ("--budget", "3000"),
    "judge": ("--budget", "3000"),
    "list": ("--budget", "3000"),
    "share": ("--budget", "3000"),
    "worker": ("--steps", "300"),
}
NUMBERS = (
    "0 1 2 3 127 128 129 255 256 257 999 1000 1001 65535 65536 65537 1000000 1000001 16777216"
    " 256000000 256000001 4294967295 4294967296 18446744073709551615 18446744073709551616"
    " 4294967296000000000000 007 -1 +1 1.0 1e3"
).split()
TOLERANCES = (
    "5% 0.05 1/20 2/40 0 0% 0/7 10% 4.5% 0.045 1/2 50% 51% 101% 3/5 500 501 1/1000 1/1001 0.1%"
    " 0.05% 1/0 0/0 .05 5. 5%% 1/3% 5%/2 1/2/3 -1/20 +5% 0000000001/20 999999999/999999999 1e-2"
    " \u0665%"
).split()
BYTES = [b"\n", b"\r", b"\r\n", b" ", b"  ", b"|", b":", b",", b"-", b"+", b"\0", b"\t", b"\x7f"]
BYTES += [b"\xff", b"\xc3", b"\xe2\x80\x8b", b"\xef\xbb\xbf", b"0", b"9", b"x"]
# The options of files that are changed most often.
INNER = ("--certificate", "--events", "--grouping", "--which", "--assignments")
# The options that a run gets at random: those of a number, and those of a file.
NUMBER_OPTIONS = ["--state", "--part", "--of", "--limit", "--depth", "--budget", "--number"]
NUMBER_OPTIONS += ["--round", "--steps"]
FILE_OPTIONS = ["--links", "--withdrawn", "--certificate", "--out", "--events", "--which"]
FILE_OPTIONS += ["--groupings", "--districts"]
# The options of a check that the second checker is given.
CHECK_OPTIONS = ["--geo", "--segment", "--chamber", "--state", "--part", "--of", "--tolerance"]
CHECK_OPTIONS += ["--adjacency", "--people", "--links", "--withdrawn", "--certificate", "--table"]

# ---- what is changed ----


@dataclasses.dataclass
class Given:
    """What one run is given: its words, the files, and standard input.

    If it is `told`, words and files are one text on standard input: `whole`, if the text itself was
    changed.
    """

    words: Words
    files: Files
    stdin: bytes = b""
    is_told: bool = True
    whole: Optional[bytes] = None

    def text(self) -> bytes:
        """Returns the case text."""
        if self.whole is not None:
            return self.whole
        text = " ".join(self.words).encode("utf-8", "surrogateescape") + b"\n"
        for name, held in as_told(self.files).items():
            text += b"file " + name.encode() + b"\n" + held
        return text

    def all_files(self) -> Files:
        """Returns the files by their names, and standard input by its names.

        In a case `-` is a file of that name.
        """
        if self.is_told:
            return {"/dev/stdin": self.text(), **self.files}
        return {"/dev/stdin": self.stdin, **self.files, INPUT: self.stdin}

    def named(self) -> List[Tuple[int, str]]:
        """Returns the options that name a file which is there, each behind its place."""
        return [
            (place, option)
            for place, option in enumerate(self.words[:-1])
            if option.startswith("--") and self.words[place + 1] in self.files
        ]


def is_ended(held: bytes) -> bool:
    """Returns whether a file can stand before another one in a case text."""
    return held == b"" or held.endswith(b"\n")


def as_told(files: Files) -> Files:
    """Returns the files as a case text has them, in their order there.

    Only the last one can lack its LF.
    """
    names = sorted(files, key=lambda name: not is_ended(files[name]))
    needing = {name for name in names[:-1] if not is_ended(files[name])}
    return {name: files[name] + (b"\n" if name in needing else b"") for name in names}


def is_sized(stem: str) -> bool:
    """Returns whether a case has repeated lines or sparse files."""
    return any(os.path.isfile(f"{stem}.{ending}") for ending in ("times", "sizes"))


class Sources:
    """The runs of the cases, and the files by the option that names them.

    `certified` has the runs of `check` whose text is a certificate.
    """

    def __init__(self) -> None:
        self.runs: List[Given] = []
        self.by_option: DefaultDict[str, List[bytes]] = collections.defaultdict(list)
        for stem in cases.stems([]):
            if not is_sized(stem):
                self.add_case(cases.Case(stem))
        checks = [it for it in self.runs if it.words[0] == "check"]
        self.certified = [
            it
            for it in checks
            if is_certificate(it.files.get(compare_checkers.certificate_of(it.words) or "", b""))
        ]

    def add_case(self, case: cases.Case) -> None:
        """Adds the runs of a case, unless it is large or of another program."""
        if case.program or sum(map(len, case.files.values())) + len(case.given) > MOST_BYTES:
            return
        if case.runs != [[]]:
            for words in case.runs:
                self.add(Given(words, {**case.files, **case.stored}, case.given, False))
            return
        try:
            words, files = compare_checkers.case_parts(case.given)
        except UnicodeDecodeError:
            return
        self.add(Given(words, files))

    def add(self, run: Given) -> None:
        """Adds a run of a command over files."""
        if run.words[0] in TEXTS and run.files:
            self.runs.append(run)
            for place, option in run.named():
                self.by_option[option].append(run.files[run.words[place + 1]])

    def changed(self, chance: random.Random) -> Given:
        """Returns a run of a case in which one to four things are changed."""
        command = chance.choice(sorted(TEXTS)) if chance.random() < 0.7 else "check"
        runs = [it for it in self.runs if it.words[0] == command]
        if command == "check" and chance.random() < 0.75:
            runs = self.certified
        run = chance.choice(runs)
        run = dataclasses.replace(run, words=list(run.words), files=dict(run.files))
        is_chosen = run.stdin == b"" and chance.random() < 0.6
        run.is_told = is_chosen or run.is_told and not fits_folder(run)
        for _ in range(chance.choice((1, 1, 1, 2, 2, 4))):
            self.change(run, chance)
        limit = LIMITS.get(run.words[0], ())
        run.words = [*words_without(run.words, limit[0]), *limit] if limit else run.words
        if run.is_told and chance.random() < 0.1:
            change_whole(run, limit, chance)
        if run.is_told and run.whole is None:
            run.files = as_told(run.files)
        return run

    def change(self, run: Given, chance: random.Random) -> None:
        """Changes one thing of a run: most often a file that is no Census file."""
        named, way = run.named(), chance.random()
        if way < 0.07:
            run.words = changed_words(run.words, chance)
        elif way < 0.15 and named:
            place, option = chance.choice(named)
            # (no case has a file that is there for an option such as `--districts`)
            run.files[run.words[place + 1]] = chance.choice(self.by_option[option] or [b""])
        elif way < 0.18 and len(named) > 1:
            (one, _), (other, _) = chance.sample(named, 2)
            words = run.words
            words[one + 1], words[other + 1] = words[other + 1], words[one + 1]
        elif run.files:
            inner = [run.words[place + 1] for place, option in named if option in INNER]
            change_file(run, inner, chance)


def change_file(run: Given, inner: List[str], chance: random.Random) -> None:
    """Changes a file of a run: most often one of these, if there is one."""
    is_inner = bool(inner) and chance.random() < 0.75
    name = chance.choice(inner if is_inner else sorted(run.files))
    if is_certificate(run.files[name]) and chance.random() < 0.6:
        run.files[name], _ = compare_checkers.mutated(run.files[name], chance)
        return
    changes = CHANGES if name in inner or chance.random() < 0.4 else MILD_CHANGES
    run.files[name] = chance.choice(changes)(run.files[name], chance)


def add_outputs(run: Given, options: Iterable[str], chance: random.Random) -> None:
    """Has a run store what these options name, most often under a name of its own."""
    for option in options:
        is_free = run.whole is None and named_by(run.words, f"--{option}") is None
        if option == "which":
            add_which(run, is_free, chance)
        elif option == "json":
            add_flag(run, check.OBJECT, json_answers.COMMANDS, chance)
        elif option == "names":
            add_flag(run, check.NAMES, NAMED, chance)
        elif option == "tolerance":
            add_tolerance(run, chance)
        elif option == INPUT:
            add_input(run, chance)
        elif is_free and run.words[0] in STORING[option] and chance.random() < 0.3:
            other = chance.choice(run.words[1:] or [option])
            name = chance.choice((option, option, f"\\\u00e9{option}", other))
            run.words = [*run.words, f"--{option}", name]


def add_flag(run: Given, flag: str, commands: Sequence[str], chance: random.Random) -> None:
    """Has a run of one of these commands get a flag, most often behind its other words."""
    can_ask = run.whole is None and run.words[0] in commands
    if can_ask and flag not in run.words and chance.random() < 0.3:
        place = len(run.words) if chance.random() < 0.8 else 1
        run.words = [*run.words[:place], flag, *run.words[place:]]


def texts_of_tolerance(part: int, whole: int) -> List[str]:
    """Returns texts that write this tolerance: fractions, decimals and percentages."""
    texts = [f"{part * times}/{whole * times}" for times in (1, 2, 7)]
    for sign, times in (("", 1), ("%", 100)):
        for places in range(6):
            digits, left = divmod(part * times * 10**places, whole)
            before, behind = divmod(digits, 10**places)
            if left == 0:
                texts.append(f"{before}.{behind:0{places}}{sign}" if places else f"{before}{sign}")
    return texts


def add_tolerance(run: Given, chance: random.Random) -> None:
    """Has a run say its tolerance as a text, which most often writes the same one."""
    is_said = named_by(run.words, "--tolerance") is not None
    if run.whole is not None or is_said or chance.random() < 0.8:
        return
    texts, words = TOLERANCES, run.words
    if chance.random() < 0.7:
        with contextlib.suppress(ValueError, ZeroDivisionError):
            texts = texts_of_tolerance(*tolerance_by(words))
    if chance.random() < 0.9:
        words = words_without(words_without(words, "--part"), "--of")
    run.words = [*words, "--tolerance", chance.choice(texts)]


def add_input(run: Given, chance: random.Random) -> None:
    """Has a run read a file from standard input, under the name `-`.

    If the run is told, the file gets this name, and is one of the case as before.
    """
    names = read_once(run)
    is_free = run.whole is None and run.words[0] not in ("audit", "worker") and not run.stdin
    if not names or not is_free or INPUT in run.words or chance.random() < 0.8:
        return
    name = chance.choice(names)
    run.words = [INPUT if it == name else it for it in run.words]
    held = run.files.pop(name)
    if run.is_told:
        run.files = as_told({**run.files, INPUT: held})
    else:
        run.stdin = held


def add_which(run: Given, is_free: bool, chance: random.Random) -> None:
    """Has a list tell the number of a grouping.

    Most often the grouping has the groups of the list's certificate, in some order.
    """
    held = run.files.get(named_by(run.words, "--certificate") or "", b"")
    groups = re.findall(rb"^group ([0-9]+(?: [0-9]{5})+)$", held, re.MULTILINE)
    is_list = run.words[0] == "list" and "--number" not in run.words
    if not is_free or not is_list or chance.random() < 0.6:
        return
    chance.shuffle(groups)
    grouping = b"".join(it.replace(b" ", b"|") + b"\n" for it in groups)
    if chance.random() < 0.4:
        changes = CHANGES if chance.random() < 0.3 else MILD_CHANGES
        grouping = chance.choice(changes)(grouping, chance)
    run.words, run.files["which"] = [*run.words, "--which", "which"], grouping
    run.files = as_told(run.files) if run.is_told else run.files


def change_whole(run: Given, limit: Sequence[str], chance: random.Random) -> None:
    """Changes the text of a case, or the order of its files.

    A text that loses the limit of its command stays as it was.
    """
    listed = list(run.files.items())
    chance.shuffle(listed)
    run.files = dict(listed)
    text = chance.choice(CHANGES)(run.text(), chance)
    try:
        words, files = compare_checkers.case_parts(text)
    except UnicodeDecodeError:
        words, files = [""], {}
    if words[-len(limit) :] == [*limit] or words[0] not in TEXTS:
        run.words, run.files, run.whole = words, files, text


def is_plain(words: Iterable[str]) -> bool:
    """Returns whether no word leads out of the folder of a run."""
    return not any(".." in word or word.startswith("/") and word != "/dev/stdin" for word in words)


def can_stand(name: str) -> bool:
    """Returns whether a file can stand in a folder under this name."""
    return (
        bool(name)
        and name != "/dev/stdin"
        and "\0" not in name
        and not name.endswith("/")
        and len(name) <= 200
    )


def fits_folder(run: Given) -> bool:
    """Returns whether a folder can have the files of a run, and its words stay in the folder."""
    names = set(run.files)
    above = {name[:at] for name in names for at, letter in enumerate(name) if letter == "/"}
    return all(map(can_stand, names)) and not names & above and is_plain([*run.words, *names])


def stores_outside(run: Given) -> bool:
    """Returns whether a run that is given as files might store one outside of its folder."""
    outputs = {f"--{it}" for it, commands in STORING.items() if run.words[0] in commands}
    named = [word for option, word in named_words(run.words) if option in outputs]
    return not run.is_told and any(word.startswith("/") or ".." in word for word in named)


def words_without(words: Words, option: str) -> Words:
    """Returns the words without an option and the word behind it."""
    if option not in words:
        return words
    place = words.index(option)
    return words[:place] + words[place + 2 :]


def changed_words(words: Words, chance: random.Random) -> Words:
    """Returns the words with one change.

    A number is changed, an option is left out or said twice, or there is one that stands in front
    or that the case hasn't.
    """
    way = chance.randrange(8)
    options = [place for place, word in enumerate(words) if word.startswith("--")]
    numbers = [place for place, word in enumerate(words) if word.isdigit()]
    words = list(words)
    if way < 4 and numbers:
        place = chance.choice(numbers)
        words[place] = changed_word(words[place].encode(), chance).decode()
    elif way == 4 and options:
        words = words_without(words, words[chance.choice(options)])
    elif way == 5 and options:
        place = chance.choice(options)
        words += words[place : place + 2]
    elif way == 6:
        option = chance.choice([*NUMBER_OPTIONS, "--tolerance"])
        words += [option, chance.choice(TOLERANCES if option == "--tolerance" else NUMBERS)]
    elif options:
        option = chance.choice(FILE_OPTIONS)
        words += [option, word_behind(words, chance.choice(options)) if words[-1] else ""]
    return words


def word_behind(words: Words, place: int) -> str:
    """Returns the word behind an option, or an empty one if the option is the last word."""
    return words[place + 1] if place + 1 < len(words) else ""


def changed_word(word: bytes, chance: random.Random) -> bytes:
    """Returns a number in the place of a word: near it, if the word is one, or another."""
    if not word.isdigit() or chance.random() < 0.4:
        return chance.choice(NUMBERS).encode()
    if chance.random() < 0.3:
        return chance.choice((b"0" + word, word[:-1], word + b"0"))
    return b"%0*d" % (len(word), max(0, int(word[:18]) + chance.choice((-2, -1, 1, 2))))


def with_changed_bytes(text: bytes, chance: random.Random) -> bytes:
    """Returns the text with some bytes put in, in the place of others or between them."""
    at, length = chance.randrange(len(text) + 1), chance.choice((0, 0, 1, 1, 2, 5))
    one, other, any_byte = chance.choice(BYTES), chance.choice(BYTES), chance.randrange(256)
    new = chance.choice((b"", one, other, bytes([any_byte])))
    return text[:at] + new + text[at + length :]


def with_other_ends(text: bytes, chance: random.Random) -> bytes:
    """Returns the text with other ends of lines, or with another beginning or end.

    It may get a byte order mark, be cut, lack its last LF, have one long line or be of other bytes.
    """
    lines = text.split(b"\n")
    place = chance.randrange(len(lines))

    def with_line(line: bytes) -> bytes:
        """Returns the text with another line at the place."""
        return b"\n".join(lines[:place] + [line] + lines[place + 1 :])

    def with_long_line() -> bytes:
        """Returns the text with a line of about as many bytes as one may have."""
        length = chance.choice((65_535, 65_536, 65_537))
        return with_line(lines[place].ljust(length, chance.choice((b"x", b" ", b"0"))))

    ways: List[Callable[[], bytes]] = [
        lambda: text.replace(b"\n", b"\r\n"),
        lambda: text.replace(b"\n", b"\n\n"),
        lambda: text.replace(b"\n", b"\r"),
        lambda: b"\xef\xbb\xbf" + text,
        lambda: text[: chance.randrange(len(text) + 1)],
        lambda: text[:-1],
        lambda: with_line(lines[place] + b"\r"),
        with_long_line,
        lambda: bytes(chance.randrange(256) for _ in range(chance.randrange(200))),
        lambda: b"",
    ]
    return chance.choice(ways)()


def with_changed_lines(text: bytes, chance: random.Random) -> bytes:
    """Returns the text with lines left out, doubled, moved, swapped, replaced or said often."""
    lines = text.splitlines(keepends=True) or [b"\n"]
    one, other = chance.randrange(len(lines)), chance.randrange(len(lines))
    way = chance.randrange(8)
    if way == 0:
        del lines[one]
    elif way == 1:
        lines.insert(other, lines[one])
    elif way == 2:
        lines.insert(other, lines.pop(one))
    elif way == 3:
        lines[one] = lines[other]
    elif way == 4:
        lines[one], lines[other] = lines[other], lines[one]
    elif way == 5:
        del lines[one : one + chance.randrange(1, 6)]
    elif way == 6:
        del lines[one:]
    else:
        many = lines[one : one + chance.randrange(1, 4)]
        lines[one:one] = many * chance.choice((2, 255, 256, 257))
    return b"".join(lines)


def with_changed_number(text: bytes, chance: random.Random) -> bytes:
    """Returns the text with one number or word changed, or another of the text in its place."""
    found = list(re.finditer(rb"[0-9]+|[A-Za-z]+", text))
    if not found:
        return text
    word, other = chance.choice(found), chance.choice(found)
    new = other[0] if chance.random() < 0.4 else changed_word(word[0], chance)
    return text[: word.start()] + new + text[word.end() :]


def with_changed_fields(text: bytes, chance: random.Random) -> bytes:
    """Returns the text with two fields of a line swapped, or one left out or doubled."""
    lines = text.split(b"\n")
    place = chance.randrange(len(lines))
    by = b"|" if b"|" in lines[place] else b" "
    fields = lines[place].split(by)
    one, other = chance.randrange(len(fields)), chance.randrange(len(fields))
    way = chance.randrange(3)
    if way == 0:
        fields[one], fields[other] = fields[other], fields[one]
    elif way == 1:
        del fields[one]
    else:
        fields.insert(other, fields[one])
    lines[place] = by.join(fields)
    return b"\n".join(lines)


def with_another_code(text: bytes, chance: random.Random) -> bytes:
    """Returns the text with a code of five digits changed to another one of the text.

    Most often it stays a text that can be read.
    """
    found = list(re.finditer(rb"(?<![0-9])[0-9]{5}(?![0-9])", text))
    if not found:
        return text
    one, other = chance.choice(found), chance.choice(found)
    return text[: one.start()] + other[0] + text[one.end() :]


Change = Callable[[bytes, random.Random], bytes]
CHANGES: Tuple[Change, ...] = (
    with_changed_bytes,
    with_other_ends,
    with_changed_lines,
    with_changed_lines,
    with_changed_number,
    with_changed_number,
    with_changed_fields,
    with_another_code,
)
MILD_CHANGES: Tuple[Change, ...] = (with_changed_number, with_another_code, with_changed_lines)


# ---- the runs ----


@dataclasses.dataclass
class Made:
    """What a run made: its text, its status, standard error, and the files afterwards.

    Of a told run, those are the files that its text shows as stored. If it printed an object or a
    text with names, that is its `line`. The text is then that of the object, or the one without
    names, and `fault` is what is wrong with what it printed.
    """

    text: bytes
    status: int
    told: bytes
    files: Files
    line: Optional[bytes] = None
    fault: Optional[str] = None

    def printed(self) -> bytes:
        """Returns what the run printed: its object, its text with names, or its text."""
        return self.text if self.line is None else self.line


def is_alone(text: bytes, status: int) -> bool:
    """Returns whether a text is printed as it is with `--json`, too: it is no answer to words."""
    is_help = b"Usage:" in text or text.startswith(b"countygroups ")
    return is_help or status in (2, 5) and not text.startswith((b"{", b"device"))


def with_text(run: Given, made: Made) -> Made:
    """Returns what a run made, with texts in the place of its objects and of texts with names."""
    if asks_for_names(run.words) and made.status < 128:
        return with_codes(run, made)
    if not json_answers.asks_for_object(run.words) or made.text.startswith(b"refused case "):
        return made
    if is_alone(made.text, made.status) or made.status >= 128:
        return made
    fault = wrong_object(run.words, run.all_files(), made.text)
    text = made.text if fault else json_answers.text_of(made.text).encode()
    return dataclasses.replace(
        made, text=text, line=made.text, told=told_with_text(made.told), fault=fault
    )


def with_codes(run: Given, made: Made) -> Made:
    """Returns what a run made, with texts without names in the place of those with names."""
    head, mark, answer = made.told.partition(ANSWER_IS)
    try:
        text = without_names(run.words, run.all_files(), made.text)
        answer = without_names(run.words, run.all_files(), answer)
    except (json_answers.NoAnswer, check.End, check.Fault, ValueError, KeyError) as error:
        return dataclasses.replace(made, fault=f"names: {error}")
    return dataclasses.replace(made, text=text, line=made.text, told=head + mark + answer)


def told_with_text(told: bytes) -> bytes:
    """Returns standard error with the text of the object that stands behind a failed store."""
    head, mark, rest = told.partition(ANSWER_IS)
    line, end, last = rest.partition(b"\n")
    try:
        answer = json_answers.text_of(line).encode()
    except json_answers.NoAnswer:
        return told
    return head + mark + answer + last if end else told


def made_by(
    program: str, run: Given, room: str, asked: argparse.Namespace, pipes: Iterable[str] = ()
) -> Made:
    """Returns what the program makes of a run.

    The files of the names `pipes` are pipes, which it can read once.
    """
    files = {} if run.is_told else run.files
    forms = given_files.Forms(pipes={it: b"" for it in pipes})
    words = [] if run.is_told else run.words
    text = run.text() if run.is_told else run.stdin
    folder = program_runs.fresh_folder(room, files)
    with given_files.as_given(folder, files, forms):
        made = program_runs.run(
            program, words, folder, text, most=asked.memory, seconds=asked.limit
        )
    wrote, files = made.wrote, program_runs.files_below(folder)
    if run.is_told and not files:
        wrote, files = parted(wrote, outputs_of(run.words).values())
    return with_text(run, Made(wrote, made.status, made.told, files))


def pipes_of(run: Given) -> List[str]:
    """Returns the files of a run that may be pipes.

    They are those that it reads once, if it is given as files.
    """
    return [] if run.is_told or run.words[0] == "audit" else read_once(run)


def read_once(run: Given) -> List[str]:
    """Returns the files of a run that the words name once, and not as one to store."""
    named = [os.path.normpath(word.split("=", 1)[-1]) for word in run.words if word]
    names = {run.words[place + 1] for place, _ in run.named()}
    names -= {*outputs_of(run.words).values()}
    return sorted(it for it in names if named.count(os.path.normpath(it)) == 1)


def wrong_pipes(run: Given, plain: Made, piped: Made) -> Optional[str]:
    """Returns what is wrong with a run whose files are pipes, or None.

    `plain` is what the run made with plain files, and `piped` with pipes. A pipe gives fewer bytes
    at once than a file. So a run that leaves a file before its end may have read more or less of
    it. Its record may say so, since each record is that of its own run.
    """
    if (plain.printed(), plain.status) != (piped.printed(), piped.status):
        return f"pipes: {answer_told(piped)}; of plain files {answer_told(plain)}"
    record = outputs_of(run.words).get("record")
    for name in sorted({*plain.files, *piped.files}):
        held, of_pipes = plain.files.get(name), piped.files.get(name)
        if held is None or of_pipes is None or name != record and held != of_pipes:
            return f"pipes: {name} is {stored_told(of_pipes)}; of plain files {stored_told(held)}"
    why = wrong_outputs(run, piped)
    return f"pipes: {why}" if why is not None else None


def in_other_words(run: Given) -> Optional[Given]:
    """Returns the run without `--names` and with its tolerance as `--part` and `--of`.

    Returns None if the words have neither `--names` nor `--tolerance`, or if these aren't words of
    the command.
    """
    text, words = named_by(run.words, "--tolerance"), list(run.words)
    if run.whole is not None or text is None and not asks_for_names(words):
        return None
    if asks_for_names(words):
        words = [it for it in words if it != check.NAMES]
    if text is not None:
        try:
            part, whole = check.tolerance(text)
        except check.Fault:
            return None
        words = words_without([it for it in words if it != f"--tolerance={text}"], "--tolerance")
        words += ["--part", str(part), "--of", str(whole)]
    return dataclasses.replace(run, words=words)


def wrong_words(run: Given, made: Made, other: Made) -> Optional[str]:
    """Returns what is wrong with a run beside the same one in other words, or None.

    Both are to have the same answer and store the same files, but for their records, which have the
    words. A name that isn't UTF-8 is a fault only if names are read.
    """
    is_apart = made.status == 2 or made.text.startswith((b"memory\n", b"refused geo BadName "))
    if is_apart or other.text == b"memory\n":
        return None
    line = made.text if asks_for_names(run.words) else made.printed()
    if (line, made.status) != (other.printed(), other.status):
        return f"words: {answer_told(made)}; in other words {answer_told(other)}"
    record = outputs_of(run.words).get("record")
    for name in sorted({*made.files, *other.files} - {record}):
        held, of_other = made.files.get(name), other.files.get(name)
        if held != of_other:
            return f"words: {name} is {stored_told(held)}; in other words {stored_told(of_other)}"
    return None


def stored_told(held: Optional[bytes]) -> str:
    """Returns the beginning of a stored file, or that there is none, for a person."""
    return f"`{shown(held)}`" if held is not None else "not there"


def answer_told(made: Made) -> str:
    """Returns the status and the beginning of the text of a run, for a person."""
    return f"status {made.status}, `{shown(made.printed())}`"


def outputs_of(words: Words) -> Dict[str, str]:
    """Returns the names under which a run may store files, in order of storing.

    They stand by what the run stores there.
    """
    outputs = {}
    for option, commands in STORING.items():
        name = named_by(words, f"--{option}") if words[0] in commands else None
        if name is not None:
            outputs[option] = name
    return outputs


def parted(wrote: bytes, names: Iterable[str]) -> Tuple[bytes, Files]:
    """Returns the text of a told run, and the stored files behind it.

    Each of these stands under one of the names.
    """
    shapes = [re.escape(it.encode("utf-8", "surrogateescape")) for it in names]
    if not shapes:
        return wrote, {}
    heads = list(re.finditer(rb"^file (" + b"|".join(shapes) + rb")\n", wrote, re.MULTILINE))
    ends = [it.start() for it in heads[1:]] + [len(wrote)]
    files = {}
    for head, end in zip(heads, ends):
        files[head[1].decode("utf-8", "surrogateescape")] = wrote[head.end() : end]
    return wrote[: heads[0].start()] if heads else wrote, files


def shown(text: bytes) -> str:
    """Returns the beginning of a text, on one line."""
    return repr(text[:160])[2:-1]


def wrong_ending(run: Given, made: Made, asked: argparse.Namespace) -> Optional[str]:
    """Returns what is wrong with the end of a run and its texts, or None."""
    if made.status == 128 + signal.SIGXCPU:
        return f"hang: more than {asked.limit} seconds"
    if made.status == 128 + signal.SIGKILL:
        return f"memory: more than {asked.memory} megabytes"
    if made.status >= 128:
        return f"signal {made.status - 128}: `{shown(made.told)}`"
    if made.fault is not None:
        return f"{made.fault}; status {made.status}"
    if not is_told(run.words[0], made.told.decode("utf-8", "replace")):
        return f"report: status {made.status}, `{shown(made.told)}`"
    if not is_of_format(run.words[0], made.text.decode("latin-1"), made.status):
        return f"format: {answer_told(made)}"
    return None


def wrong_files(run: Given, made: Made) -> Optional[str]:
    """Returns what is wrong with the files after a run, or None.

    Each is as it was, or whole under a name that the words give.
    """
    before, outputs = {} if run.is_told else run.files, outputs_of(run.words)
    for name, held in made.files.items():
        options = [option for option, it in outputs.items() if it == name]
        is_as_it_was = before.get(name) == held
        if not is_as_it_was and not any(is_whole(it, held, run, made) for it in options):
            return f"stored: {name} is neither as it was nor whole: `{shown(held)}`"
    gone = [name for name in before if name not in made.files]
    return f"stored: {gone[0]} is gone" if gone else wrong_outputs(run, made)


def answer_in(made: Made) -> bytes:
    """Returns the answer of a run: its text, or what standard error has behind a failed store."""
    _, mark, answer = made.told.partition(ANSWER_IS)
    return answer if mark else made.text


def is_whole(option: str, held: bytes, run: Given, made: Made) -> bool:
    """Returns whether these bytes are what an option has a run store.

    Whether a record is right is asked later, of the record that is left.
    """
    words, files, text = run.words, run.all_files(), answer_in(made)
    if option == "table":
        return b"\ncounts " in text and held == table_of(words, files, text)
    if option == "groupings":
        is_listing = b"\nanswer all\n" in text
        return is_listing and held == groupings_table_of(words, files, text, held)
    if option == "districts":
        return text.startswith(b"findings ") and held == districts_table_of(words, files)
    forms = {"certificate": is_certificate, "out": is_grouping, "record": is_record}
    if option == "events":
        return are_resuming(held)
    return forms[option](held)


def is_stored(option: str, run: Given, made: Made) -> bool:
    """Returns whether a run that came to an answer stores what an option names."""
    if option == "certificate":
        return made.status in (0, 1) if run.words[0] == "solve" else made.status == 0
    if option == "events" and made.status != 3:
        return False
    return b"\ncounts " in made.text if option in STORED_WITH_GROUPS else True


def wrong_outputs(run: Given, made: Made) -> Optional[str]:
    """Returns what is wrong with the files that a run was to store, or None.

    A later file replaces an earlier one of its name.
    """
    is_help = b"Usage:" in made.text or made.text.startswith(b"countygroups ")
    if made.status not in (0, 1, 3) or is_help:
        return None
    outputs = outputs_of(run.words)
    stored = {option: name for option, name in outputs.items() if is_stored(option, run, made)}
    if any(name not in made.files for name in stored.values()):
        return f"stored: {' or '.join(stored.values())} isn't there"
    if len({*stored.values()}) < len(stored):
        return None
    for option, name in stored.items():
        held = made.files[name]
        if not is_whole(option, held, run, made):
            return f"stored: {name} isn't what --{option} stores: `{shown(held)}`"
    record = stored.pop("record", None)
    if record is None:
        return None
    others = [(option, name, made.files[name]) for option, name in stored.items()]
    files, found = run.all_files(), made.files[record]
    return wrong_record(run.words, files, others, made.printed(), made.status, found)


class TooSlow(Exception):
    """The second checker isn't quick."""


def second_answer(words: Words, files: Files) -> Optional[Answer]:
    """Returns what the second checker answers, or None if it isn't quick.

    If it ends by an error of its own, the error is its text, and it has no status.
    """

    def give_up(*_: Any) -> NoReturn:
        """Ends the second checker."""
        raise TooSlow

    signal.signal(signal.SIGALRM, give_up)
    try:
        return timed_answer(words, files)
    except TooSlow:
        return None


def timed_answer(words: Words, files: Files) -> Answer:
    """Returns what the second checker answers. Raises `TooSlow` if it isn't quick."""
    signal.alarm(QUICK_SECONDS)
    try:
        made = compare_checkers.second_checker(words, files)
        return made.wrote, made.status
    except TooSlow:
        raise
    except Exception as error:
        return repr(error).encode(), None
    finally:
        signal.alarm(0)


def words_of_check(words: Words) -> Words:
    """Returns the words of a check of the same problem and certificate.

    Of a list the table of all groupings becomes a table: with either, names are read. They are read
    for an object and for a text with names, too.
    """
    kept = ["check"]
    for option in CHECK_OPTIONS:
        name = named_by(words, option)
        kept += [option, name] if name is not None else []
    groupings = named_by(words, "--groupings") if words[0] == "list" else None
    kept += ["--table", groupings] if groupings is not None else []
    kept += [check.OBJECT] if json_answers.asks_for_object(words) else []
    return kept + ([check.NAMES] if takes_names(words) else [])


def asked_of_second(run: Given, made: Made) -> Optional[Tuple[Words, Files]]:
    """Returns the words and files of a check for the second checker, or None if it isn't asked.

    A list says what a check says up to its answer, and a grouping that `judge` calls best has the
    counts of the check. Of a certificate that was stored, only the answer is known.
    """
    command, certificate = run.words[0], named_by(run.words, "--certificate")
    # (the second checker reads no grouping, which a list reads before the certificate)
    unread = (b"budget\n", b"refused case ", b"refused grouping ")
    is_unread = b"Usage:" in made.text or made.text.startswith(unread)
    if made.status in (2, 5) or is_unread or certificate is None:
        return None
    kept = words_of_check(run.words)
    if command in ("check", "list") or command == "judge" and b"answer best\n" in made.text:
        return kept, run.all_files()
    is_alone = [word for _, word in named_words(run.words)].count(certificate) == 1
    before = run.files.get(certificate)
    stored = made.files.get(certificate, before)
    if command in ("solve", "share") and is_alone and stored is not None and stored != before:
        return kept, {**run.all_files(), certificate: stored}
    return None


def named_words(words: Words) -> List[Tuple[str, str]]:
    """Returns the options of a run, each with the word that it is given."""
    found = []
    for one, other in zip(words, words[1:]):
        if one.startswith("--") and "=" not in one:
            found.append((one, other))
    for word in words:
        option, equals, behind = word.partition("=")
        if equals and word.startswith("--"):
            found.append((option, behind))
    return found


def head_of(text: bytes, mark: bytes) -> bytes:
    """Returns what a text has before the first mark, or the whole text without one."""
    return text.split(mark)[0]


def agrees(command: str, text: bytes, status: int, found: Answer) -> bool:
    """Returns whether the answer of a run agrees with that of the second checker."""
    if command == "check":
        return found == (text, status)
    is_best = b"answer best\n" in found[0]
    if command == "solve":
        return found == (text, status) if status in (0, 1) else False
    if command == "share":
        return is_best
    if command == "judge":
        return is_best and head_of(found[0], b"group ") == head_of(text, b"group ")
    is_listing = b"\nanswer all\n" in text
    if status == 1 and not is_listing or b"refused" in text:
        return found == (text, status)
    is_same = head_of(found[0], b"answer") == head_of(text, b"answer")
    return is_best and (not is_listing or is_same)


def has_agreed(run: Given, made: Made, found: Answer) -> bool:
    """Returns whether what a run made agrees with the answer of the second checker.

    The objects of a check are to be the same. Of other commands the texts of objects are compared.
    Texts with names are compared with their names.
    """
    command, is_object = run.words[0], json_answers.asks_for_object(run.words)
    if command == "check" or made.line is None or not is_object or found[1] is None:
        return agrees(command, made.printed(), made.status, found)
    text = json_answers.text_of(found[0]).encode()
    return agrees(command, made.text, made.status, (text, found[1]))


def denial(run: Given, made: Made) -> Tuple[Optional[str], Optional[Answer]]:
    """Returns what the second checker says against a run, and its whole answer, or nothing."""
    asked = asked_of_second(run, made)
    found = second_answer(*asked) if asked else None
    if found is None or has_agreed(run, made, found):
        return None, None
    second = f"tools/check.py says `{shown(found[0])}`, status {found[1]}"
    return f"checker: {second}; the program {answer_told(made)}", found


def differ(runs: Sequence[Made]) -> bool:
    """Returns whether programs answered otherwise, though none of them was refused memory."""
    answers = [(it.printed(), it.status, it.files) for it in runs]
    is_refused = any(it.text == b"memory\n" for it in runs)
    return any(it != answers[0] for it in answers) and not is_refused


def faults_of(
    run: Given, runs: Sequence[Made], asked: argparse.Namespace
) -> Tuple[List[str], Optional[Answer]]:
    """Returns what is wrong with what each program made of a run.

    Behind it stands the answer of the second checker, where it differs.
    """
    faults: List[str] = []
    wanted: Optional[Answer] = None
    for made in runs:
        why = wrong_ending(run, made, asked)
        why = why or wrong_listing(run.words, run.all_files(), made.text)
        why = why or wrong_files(run, made)
        if why is None:
            why, wanted = denial(run, made)
        faults += [why] if why else []
    if differ(runs):
        faults.append("programs: " + " and ".join(map(answer_told, runs)))
    return faults, wanted


def lines_of(words: Iterable[str]) -> bytes:
    """Returns the words, one a line."""
    return "".join(f"{it}\n" for it in words).encode("utf-8", "surrogateescape")


def keep(
    folder: str,
    run: Given,
    faults: Iterable[str],
    wanted: Optional[Answer],
    how: str,
    pipes: Sequence[str] = (),
) -> None:
    """Keeps a run as a case that repeats it."""
    os.makedirs(folder, exist_ok=True)
    files = {"found.txt": "".join(f"{it}\n" for it in [how, *faults]).encode()}
    files["found.out"] = b"an answer of the formats\n"
    if wanted is not None and wanted[1] is not None:
        files["found.out"] = wanted[0] + b"exit %d\n" % wanted[1]
    if run.is_told:
        files["found.case"] = run.text()
    else:
        files["found.words"], files["found.case"] = lines_of(run.words), run.stdin
        files.update({f"found.files/{name}": held for name, held in run.files.items()})
        if pipes:
            files["found.pipes"] = lines_of(pipes)
    for name, held in files.items():
        os.makedirs(os.path.dirname(f"{folder}/{name}"), exist_ok=True)
        with open(f"{folder}/{name}", "wb") as file:
            file.write(held)


# ---- tests ----

# What is tested: a name, what is found, and what is wanted.
Tests = Iterator[Tuple[str, object, object]]


def tests() -> Tests:
    """Yields what is tested of this script."""
    yield from tests_of_formats()
    yield from tests_of_case_texts()
    yield from tests_of_stored_files()
    yield from tests_of_endings()
    yield from tests_of_objects()
    yield from tests_of_names()
    yield from tests_of_tolerances()
    yield from tests_of_input()
    yield from tests_of_second()
    yield from tests_of_pipes()
    yield from tests_of_places()
    yield from tests_of_table()
    yield from tests_of_record()
    yield from tests_of_listings()
    yield from tests_of_numbers()
    yield from tests_of_groupings()
    yield from tests_of_districts()
    yield from tests_of_wrong_districts()
    yield from tests_of_assignments()
    yield from tests_of_asking()
    yield from tests_of_changes()
    yield from tests_of_errors()


def tests_of_formats() -> Tests:
    """Yields tests of texts that a command writes, and of others."""
    of = is_of_format
    report = "people 400\nchamber 4\nseats left 4\ncounties 4\nanswer best\ncounts 2 1\n"
    report += "group 1 seats 1 people 100 counties 37001\n"
    with_window = report.replace("seats left", "window 1 10\nseats left")
    yield "a report", of("check", report, 0), True
    yield "a report with a window", of("check", with_window, 0), True
    yield "a report with another status", of("check", report, 1), False
    yield "a report of another command", of("list", report, 0), False
    yield "a report that is cut", of("check", report[:-1], 0), False
    zero = report.replace("400", "0400")
    yield "a number with a leading zero", of("check", zero, 0), False
    yield "no leaf", of("list", "no NoLeaf line 8\n", 1), True
    yield "a refused file", of("size", "refused geo DoubleCounty line 3\n", 4), True
    yield "a kind that isn't there", of("size", "refused geo Memory line 3\n", 4), False
    replies = "piece 1 1\naccepted\nmemory\nleft 1\nopen 1 2\n"
    yield "replies", of("share", replies, 3), True
    yield "replies without an end", of("share", "accepted\n", 3), False
    yield "a piece", of("piece", "result 1 1\nbound 1\nweigh 2 37001:1\n", 0), True
    yield "a status that isn't named", of("size", "", 101), False


def storing_run() -> Given:
    """Returns a run of `solve` that stores two files."""
    words = ["solve", "--geo", "g", "--certificate", "c", "--out", "o"]
    return Given(words, {"g": b"x", "h": b"y\n"})


def tests_of_case_texts() -> Tests:
    """Yields tests of words and of the text of a case."""
    run = storing_run()
    found = named_words(["solve", "--geo", "a", "--out=b"])
    yield "options", found, [("--geo", "a"), ("--out", "b")]
    wanted = b"solve --geo g --certificate c --out o\nfile h\ny\nfile g\nx"
    yield "a case text", run.text(), wanted
    yield "options that name a file", run.named(), [(1, "--geo")]
    torn = {"g": b"x", "h": b"y", "i": b"", "j": b"z\n"}
    told = Given(["size"], as_told(torn)).text()
    wanted_files = {"i": b"", "j": b"z\n", "g": b"x\n", "h": b"y"}
    yield "files of a case text", as_told(torn), wanted_files
    yield "they are those of the text", compare_checkers.case_parts(told)[1], as_told(torn)
    kept = ["solve", "--certificate", "c", "--out", "o"]
    yield "words without an option", words_without(run.words, "--geo"), kept


def tests_of_stored_files() -> Tests:
    """Yields tests of the files after a run."""
    run = storing_run()
    certificate = b"county-groups certificate 1\norder\nlimit 0\ntarget none\nseats\nend\n"
    wrote = b"answer best\nfile c\n" + certificate + b"file o\n1|37001\n"
    stored = {"c": certificate, "o": b"1|37001\n"}
    found = parted(wrote, outputs_of(run.words).values())
    yield "stored files", found, (b"answer best\n", stored)
    found = parted(b"file g\nx\n", ["c"])
    yield "a file that isn't stored", found, (b"file g\nx\n", {})
    made = Made(b"", 0, b"", stored)
    yield "whole files", wrong_files(run, made), None
    made.files["c"] = certificate[:-1]
    wanted = f"stored: c is neither as it was nor whole: `{shown(made.files['c'])}`"
    yield "a torn certificate", wrong_files(run, made), wanted
    folder = dataclasses.replace(run, is_told=False)
    made.files = {"g": b"x", "h": b"y\n", "c.part": b""}
    wanted = "stored: c.part is neither as it was nor whole: ``"
    yield "a file that was left", wrong_files(folder, made), wanted
    made.files = {"g": b"x"}
    yield "a file that is gone", wrong_files(folder, made), "stored: h is gone"


def tests_of_endings() -> Tests:
    """Yields tests of how runs end, and of standard error."""
    limits = argparse.Namespace(limit=20, memory=1024)
    run = storing_run()

    def ended(text: bytes, status: int, told: bytes) -> Optional[str]:
        """Returns what is wrong with such an end."""
        return wrong_ending(run, Made(text, status, told, {}), limits)

    yield "a signal", ended(b"", 134, b""), "signal 6: ``"
    yield "a hang", ended(b"", 152, b""), "hang: more than 20 seconds"
    yield "too much memory", ended(b"", 137, b""), "memory: more than 1024 megabytes"
    found = ended(b"memory\n", 5, b"ERROR: x\n")
    yield "a report of a bad access", found, "report: status 5, `ERROR: x\\n`"
    found = ended(b"memory\n", 5, b"countygroups: \x07\n")
    yield "a byte that isn't escaped", (found or "")[:6], "report"
    yield "an ordinary end", ended(b"memory\n", 5, b"countygroups: x\n"), None
    behind = "countygroups: --record r could not be stored: x\ncountygroups: the answer is:\n"
    answer = behind + "findings 1\nUnassigned 370010001001000\n"
    yield "the answer behind a failed store", is_told("audit", answer), True
    other = behind + "findings 0\n"
    yield "the answer of another command behind a failed store", is_told("size", other), False
    other = "countygroups: x\nfindings 0\n"
    yield "an answer without its line", is_told("audit", other), False


def sized_run() -> Tuple[Given, bytes]:
    """Returns a run of `size` that asks for an object, and the object."""
    words = "size --people p --chamber 2 --json".split()
    line = b'{"answer":"sizes","people":1,"chamber":2,"tolerance":[1,20],"district":null,'
    line += b'"sizes":[{"county":"37001","people":1,"seats":{"least":2,"greatest":2}}],'
    return Given(words, {"p": '37001,1,"Do\u00f1a, A"\n'.encode()}), line + (
        '"names":{"37001":"Do\u00f1a, A"}}\n'.encode()
    )


def wrong_objects(line: bytes) -> Dict[str, bytes]:
    """Returns lines that aren't this object, each by what it has."""
    first, swapped = b'"people":1,"chamber":2', b'"chamber":2,"people":1'
    return {
        "a blank": line.replace(b",", b", ", 1),
        "another name": line.replace(b"A", b"B"),
        "another tolerance": line.replace(b"[1,20]", b"[2,40]"),
        "members in another order": line.replace(first, swapped),
        "no line feed": line[:-1],
        "a further member": line.replace(b'{"answer"', b'{"kind":1,"answer"'),
        "bytes that aren't UTF-8": line.replace(b"\xc3\xb1", b"\xf1"),
        "no brace": b"people 1\nchamber 2\ndistrict none\n37001|1|2|2\n",
    }


def tests_of_objects() -> Tests:
    """Yields tests of runs that ask for an object."""
    run, line = sized_run()
    limits = argparse.Namespace(limit=20, memory=1024)

    def of(text: bytes, status: int, told: bytes = b"") -> Tuple[bytes, Optional[str]]:
        """Returns the text of what a run printed, and how what is wrong with it begins."""
        made = with_text(run, Made(text, status, told, {}))
        why = wrong_ending(run, made, limits)
        return made.text, why and why[:7]

    text = b"people 1\nchamber 2\ndistrict none\n37001|1|2|2\n"
    yield "an object", of(line, 0), (text, None)
    for name, other in wrong_objects(line).items():
        yield f"an object with {name}", of(other, 0)[1], "object:"
    yield "an object of another status", of(line, 1)[1], "format:"
    message = b'{"message":"refused people BadName line 3"}\n'
    yield "a message", of(message, 4), (b"refused people BadName line 3\n", None)
    yield "a refusal that is no object", of(b"refused people BadName line 3\n", 4)[1], "object:"
    for alone, status in ((b"memory\n", 5), (b"error: x\n", 2), (b"x\nUsage: countygroups\n", 0)):
        yield f"what stays a text, {alone!r}", of(alone, status), (alone, None)
    failed = b"countygroups: x\n" + ANSWER_IS + line
    yield "an object behind a failed store", of(b'{"message":"device r Device"}\n', 5, failed)[
        1
    ], None
    found = answer_in(with_text(run, Made(b'{"message":"device r Device"}\n', 5, failed, {})))
    yield "its text", found, text
    yield from tests_of_asked_objects(run, line)


def tests_of_asked_objects(run: Given, line: bytes) -> Tests:
    """Yields tests of the record and the second checker of runs that ask for an object."""
    made = with_text(run, Made(line, 0, b"", {}))
    found = begun(wrong_pipes(run, made, dataclasses.replace(made, line=line.replace(b"A", b"B"))))
    yield "another name of pipes", found, 'pipes: status 0, `{"ans'
    lines = b"countygroups record 1\nversion 1\n" + b"".join(
        b"word %s\n" % it.encode() for it in run.words
    )
    lines += b"read people %s p\nstatus 0\nanswer " % sum_of(run.files["p"])
    for printed, answer in ((line, b"sizes\n"), (b'{"message":"x"}\n', b'{"message":"x"}\n')):
        wrong = wrong_record(run.words, run.files, (), printed, 0, lines + answer)
        yield f"a record of {answer!r}", wrong, None
    words = words_of_check(["list", "--geo", "g", "--json", "--which", "w"])
    yield "the words of a check", words, ["check", "--geo", "g", "--json"]
    best = (
        b'{"answer":"best","people":1,"chamber":1,"tolerance":[1,20],"seats_left":1,"counties":0,'
    )
    best += b'"counts":[],"groups":[],"names":{}}\n'
    judged = Given(["judge", "--json"], {})
    said = dataclasses.replace(made, line=best, text=json_answers.text_of(best).encode())
    yield "an object of both", has_agreed(judged, said, (best, 0)), True
    other = (best.replace(b'"people":1', b'"people":2'), 0)
    yield "another object", has_agreed(judged, said, other), False
    renamed = (best.replace(b'"names":{}', b'"names":{"37001":""}'), 0)
    checked = Given(["check", "--json"], {})
    yield "other names of a check", has_agreed(checked, said, renamed), False
    asked = [Given("size --geo g".split(), {}) for _ in range(100)]
    for turn, one in enumerate(asked):
        add_flag(one, "--json", json_answers.COMMANDS, random.Random(turn))
    yield "some runs ask", {it.words.count("--json") for it in asked}, {0, 1}


# A people file, and a text with its names.
NAMED_PEOPLE = '37001,1,"Ash, 37003 B"\n37003,2,B\tC\x7f\n37005,3,\n37007,4,Do\u00f1a\n'.encode()
WITH_NAMES = (
    "people 10\nchamber 1\nseats left 1\ncounties 4\nanswer best\ncounts 1 0 1\n"
    "group 1 seats 1 people 4 counties 37007 Do\u00f1a\n"
    "group 2 seats 1 people 6 counties 37001 Ash, 37003 B, 37003 B C , 37005\n"
).encode()


def tests_of_names() -> Tests:
    """Yields tests of texts with names."""
    run = Given("solve --people p --names --certificate c".split(), {"p": NAMED_PEOPLE})
    limits = argparse.Namespace(limit=20, memory=1024)

    def of(text: bytes, status: int = 0, told: bytes = b"") -> Tuple[bytes, Optional[str]]:
        """Returns the text without names of a run, and how what is wrong with it begins."""
        made = with_text(run, Made(text, status, told, {}))
        why = wrong_ending(run, made, limits)
        return made.text, why and why[:6]

    head, _, _ = WITH_NAMES.partition(b"group 1")
    text = head + b"group 1 seats 1 people 4 counties 37007\n"
    text += b"group 2 seats 1 people 6 counties 37001 37003 37005\n"
    yield "a text with names", of(WITH_NAMES), (text, None)
    failed = b"countygroups: x\n" + ANSWER_IS + WITH_NAMES
    yield "names behind a failed store", of(b"device c Device\n", 5, failed)[1], None
    wrong_ones = {
        "without them": text,
        "no name of the last county": WITH_NAMES.replace(b" Do\xc3\xb1a", b""),
        "another name": WITH_NAMES.replace(b"B C ", b"Ashe"),
        "a control character": WITH_NAMES.replace(b"B C", b"B\tC"),
        "a name of a nameless county": WITH_NAMES.replace(b"37005\n", b"37005 A\n"),
        "a blank behind a nameless county": WITH_NAMES.replace(b"37005\n", b"37005 \n"),
        "no comma": WITH_NAMES.replace(b"C , 37005", b"C  37005"),
        "a comma behind the last county": WITH_NAMES.replace(b"37005\n", b"37005, \n"),
    }
    for name, wrong in wrong_ones.items():
        yield f"names with {name}", of(wrong)[1], "names:"
    for other in (b"budget\n", b"refused people BadName line 1\n", b"memory\n", b""):
        made = with_text(run, Made(other, 3, b"", {}))
        yield f"what has no names, {other!r}", (made.text, made.fault), (other, None)
    made = with_text(run, Made(WITH_NAMES, 0, b"", {}))
    yield "the second checker has the names", has_agreed(run, made, (WITH_NAMES, 0)), True
    yield "other names of the second checker", has_agreed(run, made, (text, 0)), False
    words = words_of_check(run.words)
    yield "the words of a check", words, "check --people p --certificate c --names".split()
    both = Given([*run.words, "--json"], run.files)
    yield "no names beside an object", asks_for_names(both.words), False
    yield "no names of a size table", asks_for_names(["size", "--names"]), False


def tests_of_tolerances() -> Tests:
    """Yields tests of tolerances as texts, and of runs in other words."""
    for part, whole in ((1, 20), (2, 40), (0, 1), (9, 200), (1, 3), (500, 1), (1, 1000)):
        texts = texts_of_tolerance(part, whole)
        common = check.tolerance(f"{part}/{whole}")
        yield f"texts of {part}/{whole}", {check.tolerance(it) for it in texts}, {common}
    found = {"1/20", "0.05", "5%", "5.0%", "0.050"} - {*texts_of_tolerance(1, 20)}
    yield "the forms of a twentieth", found, set()
    made = [Given("size --geo g --part 1 --of 10".split(), {}) for _ in range(300)]
    for turn, run in enumerate(made):
        add_tolerance(run, random.Random(turn))
    said = {named_by(it.words, "--tolerance") for it in made}
    yield "some runs say theirs", {None, "10%", "0.1", "1/10"} - said, set()
    yield "some beside a part", any({"--part", "--tolerance"} <= {*it.words} for it in made), True
    yield from tests_of_other_words()


def tests_of_other_words() -> Tests:
    """Yields tests of runs in other words."""

    def of(words: str) -> Optional[str]:
        """Returns the other words of a run."""
        other = in_other_words(Given(words.split(), {}))
        return None if other is None else " ".join(other.words)

    wanted = "size --geo g --part 1 --of 20"
    yield "a tolerance", of("size --tolerance 5% --geo g"), wanted
    yield "it in one word", of("size --tolerance=0.05 --geo g"), wanted
    yield "names", of("list --geo g --names --which w"), "list --geo g --which w"
    both = "solve --names --tolerance 4.5% --json"
    yield "an object keeps the flag", of(both), "solve --names --json --part 9 --of 200"
    for words in ("size --geo g --part 1", "size --names", "list --tolerance 5%%"):
        yield f"no other words, {words}", of(words), None
    run = Given("list --tolerance 10% --record r --out o".split(), {})
    one, other = Made(b"a\n", 0, b"", {"r": b"x"}), Made(b"a\n", 0, b"", {"r": b"y"})
    yield "the same in other words", wrong_words(run, one, other), None
    wanted = "words: o is `z`; in other words not there"
    one.files["o"] = b"z"
    yield "another file in other words", wrong_words(run, one, other), wanted
    other = Made(b"b\n", 0, b"", {})
    wanted = "words: status 0, `a\\n`; in other words status 0, `b\\n`"
    yield "another answer in other words", wrong_words(run, one, other), wanted
    refused = Made(b"error: x\n", 2, b"", {})
    yield "words that are none", wrong_words(run, refused, other), None


def tests_of_input() -> Tests:
    """Yields tests of runs that read a file from standard input."""
    words, files = "check --geo g --segment s --table g --links l".split(), {"g": b"x", "s": b"y"}
    made = [Given([*words], {**files}, b"", turn % 2 == 0) for turn in range(100)]
    for turn, run in enumerate(made):
        add_input(run, random.Random(turn))
    others = [it for it in made if INPUT in it.words]
    yield "some runs read it", 0 < len(others) < 50, True
    wanted = "check --geo g --segment - --table g --links l"
    yield "a file that is read once", {" ".join(it.words) for it in others}, {wanted}
    told = [it for it in others if it.is_told]
    yield "it is a file of a case", {it.files.get(INPUT) for it in told}, {b"y"}
    in_folder = [it for it in others if not it.is_told]
    found = {(it.stdin, *it.files, it.all_files()[INPUT]) for it in in_folder}
    yield "it is standard input in a folder", found, {(b"y", "g", b"y")}
    audit = [Given(["audit", *words[1:]], {**files}, b"", False) for _ in range(50)]
    for turn, run in enumerate(audit):
        add_input(run, random.Random(turn))
    yield "none of an audit", any(INPUT in it.words for it in audit), False


def tests_of_second() -> Tests:
    """Yields tests of what the second checker is asked, and of what it says."""
    over = Given(["solve", "--geo", "g", "--certificate", "g"], {"g": b"x"})
    found = asked_of_second(over, Made(b"answer best\n", 0, b"", {"g": b"y"}))
    yield "a certificate over an input", found, None
    beside = Given(["solve", "--geo", "g", "--certificate", "c"], {"g": b"x"})
    found = asked_of_second(beside, Made(b"answer best\n", 0, b"", {"c": b"y"}))
    yield "a certificate beside it", found is not None, True
    found = asked_of_second(beside, Made(b"refused case TooLarge line 0\n", 4, b"", {}))
    yield "a case that is too large", found, None
    of = agrees
    says_best: Answer = b"answer best\n", 0
    yield "both say best", of("check", b"answer best\n", 0, says_best), True
    yield "a No that is denied", of("check", b"no NoLeaf line 6\n", 1, says_best), False
    says_no: Answer = b"no NotStuck line 6\n", 1
    yield "a joined board that is denied", of("share", b"joined\n", 0, says_no), False
    best = b"answer best\ncounts 0 2\ngroup 1 seats 1\n"
    lesser = b"answer best\ncounts 0 1\ngroup 1 seats 2\n"
    other = best.replace(b"seats 1", b"seats 3")
    yield "another grouping that is best", of("judge", best, 0, (other, 0)), True
    yield "a lesser grouping called best", of("judge", lesser, 0, (best, 0)), False
    listing = b"people 1\nanswer all\nnumber none\n"
    one, two = b"people 1\nanswer best\n", b"people 2\nanswer best\n"
    yield "a list behind a best one", of("list", listing, 0, (one, 0)), True
    yield "a list without the grouping asked for", of("list", listing, 1, (one, 0)), True
    yield "a list of other people", of("list", listing, 1, (two, 0)), False
    found_open = of("list", b"open SeatsOff line 6\n", 3, says_no)
    yield "an open list of no certificate", found_open, False


def tests_of_pipes() -> Tests:
    """Yields tests of which files may be pipes, and of what is wrong with a run of them."""
    files = {"g": b"x", "h": b"y", "o": b"z", "w": b""}
    words = "solve --geo g --segment=g --adjacency h --out o --links ./w --withdrawn w".split()
    audit = Given(["audit", *words[1:]], files, b"", False)
    yield "files that are read once", pipes_of(Given(words, files, b"", False)), ["h"]
    yield "none of a case text", pipes_of(Given(words, files)), []
    yield "none of an audit", pipes_of(audit), []
    run = Given(words, files, b"", False)
    plain, other = Made(b"a\n", 0, b"", {"t": b""}), Made(b"b\n", 1, b"", {"t": b""})
    yield "the same of pipes", wrong_pipes(run, plain, Made(b"a\n", 0, b"x", {"t": b""})), None
    wanted = "pipes: status 1, `b\\n`; of plain files status 0, `a\\n`"
    yield "another answer of pipes", wrong_pipes(run, plain, other), wanted
    found = wrong_pipes(run, plain, Made(b"a\n", 0, b"", {}))
    yield "a file less of pipes", found, "pipes: t is not there; of plain files ``"
    found = wrong_pipes(run, plain, Made(b"a\n", 0, b"", {"t": b"u"}))
    yield "another file of pipes", found, "pipes: t is `u`; of plain files ``"
    yield from tests_of_records_of_pipes()


def tests_of_records_of_pipes() -> Tests:
    """Yields tests of runs whose records differ in how much they read of a file that was left."""
    run = Given(["check", "--certificate", "c", "--record", "r"], {"c": b"a\nb\n"}, b"", False)
    text = b"no Text BadWord line 1\n"

    def made(read: bytes) -> Made:
        """Returns what a run made that read so much of the certificate."""
        lines = [b"countygroups record 1", b"version 1"]
        lines += [b"word " + os.fsencode(it) for it in run.words]
        lines += [b"read certificate %s c left" % sum_of(read), b"status 1"]
        record = b"\n".join([*lines, b"answer " + text])
        return Made(text, 1, b"", {"r": record})

    found = wrong_pipes(run, made(b"a\nb\n"), made(b"a\n"))
    yield "less of a file through a pipe", found, None
    found = wrong_pipes(run, made(b"a\nb\n"), made(b"x\n"))
    yield "other bytes of a pipe", found is not None and found.startswith("pipes: record: "), True


def tests_of_places() -> Tests:
    """Yields tests of which runs might store a file outside of their folder."""

    def of(words: str, is_told: bool = False) -> bool:
        """Returns whether a run of these words might."""
        return stores_outside(Given(words.split(), {"g": b"x"}, b"", is_told))

    yield "a table outside of the folder", of("judge --geo g --table /dev/stdin"), True
    joined = "solve --geo g --out=/dev/stdin"
    yield "a name in one word with its option", of(joined), True
    yield "the second of two names", of("solve --out o --out /dev/stdin"), True
    yield "a name that leads out of the folder", of("size --geo g --record ../r"), True
    told = "judge --geo g --table /dev/stdin"
    yield "nothing outside of a told run", of(told, True), False
    inner = "check --certificate /dev/stdin --table t"
    yield "an input outside of the folder", of(inner), False


def county_line(record: int, county: bytes, name: bytes) -> bytes:
    """Returns the line of the geographic header that a county has."""
    return b"||050||00|||%d|||||37||%s" % (record, county) + b"|" * 73 + name + b"\n"


def tests_of_table() -> Tests:
    """Yields tests of the table that docs/formats.md shows, and of changes to it."""
    geo = county_line(1, b"001", b"Alamance County")
    geo += county_line(2, b"003", b'Alexander, the "first"')
    geo += county_line(3, b"005", b"").replace(b"|\n", b"\n")
    segment = b"||||1|100\n||||2|200\n||||3|300\n"
    files = {"g": geo, "s": segment, "w": b"3|37005\n"}
    words = "judge --geo g --segment s --chamber 6 --adjacency a --withdrawn w".split()
    words += ["--grouping", "o", "--table", "t"]
    report = b"people 600\nchamber 6\nseats left 3\ncounties 2\nanswer lawful\ncounts 2\n"
    report += b"group 1 seats 2 people 200 counties 37003\n"
    report += b"group 2 seats 1 people 100 counties 37001\n"
    table = b'''GEOID,NAME,POPULATION,GROUP,SEATS,GROUP_POPULATION
37001,Alamance County,100,2,1,100
37003,"Alexander, the ""first""",200,1,2,200
37005,,300,W1,3,300
'''
    yield "a table", table_of(words, files, report), table
    run, made = Given(words, files), Made(report, 0, b"", {"t": table})
    yield "a table that is stored", wrong_files(run, made), None
    made.files["t"] = table.replace(b"W1", b"3")
    yield "a table with another label", begun(wrong_files(run, made)), "stored: t is neither as"
    made.files = {}
    yield "a table that isn't there", wrong_files(run, made), "stored: t isn't there"
    fault = Made(b"fault EmptyGroup group 1\n", 1, b"", {})
    yield "no grouping and no table", wrong_files(run, fault), None


def begun(why: Optional[str]) -> str:
    """Returns how a reason begins, or nothing if there is none."""
    return (why or "")[:23]


def tests_of_record() -> Tests:
    """Yields tests of a record by docs/formats.md, and of changes to it."""
    words, files = ["check", "--geo", "my geo.pl"], {"my geo.pl": b"abc"}
    record = b"countygroups record 1\nversion 1.2.3\nword check\nword --geo\nword my geo.pl\n"
    record += b"read geo 3 ba7816bf8f01cfea414140de5dae2223b00361a396177a9cb410ff61f20015ad"
    record += b" my geo.pl\nstatus 0\nanswer best\n"

    def of(changed: bytes, stored: Sequence[Tuple[str, str, bytes]] = ()) -> Optional[str]:
        """Returns what is wrong with a record of this run."""
        text = b"people 1\nanswer best\n"
        return wrong_record(words, files, stored, text, 0, changed)

    yield "a record", (is_record(record), of(record)), (True, None)
    left = record.replace(b"my geo.pl\nstatus", b"my geo.pl left\nstatus")
    yield "a record with a left file", of(left), None
    other = record.replace(b"ba78", b"ba79")
    yield "a record of other bytes", of(other) is not None, True
    fewer = record.replace(b"word check\n", b"")
    yield "a record without a word", of(fewer) is not None, True
    found = of(record, [("table", "t", b"")])
    yield "a record without a stored file", found is not None, True
    nameless = record.replace(b"my geo.pl\nread", b"\nread").replace(b" my geo.pl\n", b" \n")
    bare = ["check", "--geo", ""]
    found = wrong_record(bare, {"": b"abc"}, (), b"answer best\n", 0, nameless)
    yield "a record of a file whose name is empty", found, None
    yield "a record that is cut", is_record(record[:-1]), False
    unescaped = record.replace(b"best", b"b\xffst")
    yield "a record with a byte that isn't escaped", is_record(unescaped), False


EVERY, COUPLED = sample_listings.SIX.encode(), sample_listings.COUPLED.encode()
NO_GROUPS = b"answer all\ncounts none\nbest groupings 1\nshared groups 0\nevery choice\n"


def codes_in(listing: bytes) -> List[List[str]]:
    """Returns the last two digits of the codes of each group, for each grouping of a listing."""
    return [
        ["".join(code[3:] for code in group.codes) for group in groups]
        for groups in groupings_in(listing)
    ]


def tests_of_listings() -> Tests:
    """Yields tests of what a listing tells."""
    wanted = [["01", "11", "0305", "0709"], ["05", "11", "0103", "0709"]]
    yield "the groupings of a listing", codes_in(EVERY), wanted
    wanted = [["01", "11", "0305", "0709"], ["05", "07", "0103", "0911"]]
    yield "the groupings of two regions", codes_in(COUPLED), wanted
    yield "a listing without groups", groupings_in(NO_GROUPS), [[]]

    def is_one(text: bytes, status: int) -> bool:
        """Returns whether `list` writes the text with this status."""
        return is_of_format("list", text.decode(), status)

    yield "a listing with a number", is_one(EVERY + b"number 2\n", 0), True
    yield "a number with another status", is_one(EVERY + b"number 2\n", 1), False
    yield "a listing without a number", is_one(COUPLED + b"number none\n", 1), True
    yield "no number with another status", is_one(COUPLED + b"number none\n", 0), False
    yield "the number 0", is_one(EVERY + b"number 0\n", 0), False
    yield "two numbers", is_one(EVERY + b"number 1\nnumber 1\n", 0), False

    def of(text: bytes) -> Optional[str]:
        """Returns what is wrong with a listing, if no number is asked for."""
        return wrong_listing(["list"], {}, text)

    yield "no number that nobody asked for", (of(EVERY), of(COUPLED)), (None, None)
    yield "a number that nobody asked for", of(EVERY + b"number 1\n") is not None, True
    wrong = EVERY.replace(b"groupings 2", b"groupings 3")
    yield "a wrong count", of(wrong), "listing: it tells 2 groupings, and counts 3"
    wrong = COUPLED.replace(b"es 1 1", b"es 2 2", 1)
    yield "a grouping twice", of(wrong), "listing: its groupings don't ascend"
    yield "an answer without a listing", of(b"people 1\nanswer impossible\n"), None


def tests_of_numbers() -> Tests:
    """Yields tests of the number of a grouping in a listing."""
    second = b"0|37009|37007\n1|37011\n7|37003|37001|37003\n1|37005\n"
    further, lesser = second + b"1|37001\n", second.replace(b"1|37005\n", b"")
    number, none = EVERY + b"number 2\n", EVERY + b"number none\n"

    def of(which: bytes, text: bytes) -> Optional[str]:
        """Returns what is wrong with a listing, if the number of this grouping is asked for."""
        return wrong_listing(["list", "--which", "w"], {"w": which}, text)

    yield "the number of a grouping", of(second, number), None
    yield "a set that is said twice", of(second + b"1|37011\n", number), None
    wanted = "listing: behind it stands b'number 1\\n', wanted b'number 2\\n'"
    yield "another number", of(second, EVERY + b"number 1\n"), wanted
    yield "no number of one that is listed", of(second, none) is not None, True
    yield "a number that isn't told", of(second, EVERY) is not None, True
    yield "one with a further set", of(further, none), None
    yield "the number of one with a further set", of(further, number) is not None, True
    yield "one without a set", of(lesser, none), None
    yield "the number of one without a set", of(lesser, number) is not None, True
    other = COUPLED + b"number none\n"
    yield "one of a combination that isn't listed", of(second, other), None
    yield "a grouping without groups", of(b"", NO_GROUPS + b"number 1\n"), None


# The table of all groupings of `COUPLED`, with a withdrawn county.
GROUPINGS_TABLE = b'''GROUPING,GEOID,NAME,GROUP,SEATS
1,37001,Alamance County,1,1
1,37003,"Alexander, the ""first""",3,3
1,37005,,3,3
1,37007,,4,2
1,37009,,4,2
1,37011,Avery,2,1
1,37013,Bertie,W1,3
2,37001,Alamance County,3,2
2,37003,"Alexander, the ""first""",3,2
2,37005,,1,1
2,37007,,2,1
2,37009,,4,2
2,37011,Avery,4,2
2,37013,Bertie,W1,3
'''


def wrong_groupings_tables() -> Dict[str, bytes]:
    """Returns tables that aren't that of all groupings, each by what it has."""
    table = GROUPINGS_TABLE
    return {
        "seats that don't suit": table.replace(b",3,3\n", b",3,4\n"),
        "a group of two numbers of seats": table.replace(b"37005,,3,3", b"37005,,3,2"),
        "another label": table.replace(b"2,37005,,1,1", b"2,37005,,2,1"),
        "a withdrawn set of other seats": table.replace(b"W1,3", b"W1,2"),
        "another name": table.replace(b"Avery", b"Ashe"),
        "a name that isn't quoted": table.replace(b'"Alexander, the ""first"""', b"Alexander"),
        "one grouping": table[: table.index(b"2,37001")],
        "the groupings twice": table + table[table.index(b"1,") :],
        "another header": table.replace(b"GROUPING", b"NUMBER"),
        "no line": b"",
    }


def tests_of_groupings() -> Tests:
    """Yields tests of the table of all groupings."""
    names = {b"001": b"Alamance County", b"003": b'Alexander, the "first"', b"005": b""}
    names.update({b"007": b"", b"009": b"", b"011": b"Avery", b"013": b"Bertie"})
    lines = [county_line(at, *it) for at, it in enumerate(names.items())]
    files = {"g": b"".join(reversed(lines)), "w": b"3|37013\n"}
    run = Given("list --geo g --withdrawn w --certificate c --groupings t".split(), files)

    def of(held: bytes) -> Optional[str]:
        """Returns what is wrong with a run that stores these bytes."""
        return wrong_files(run, Made(COUPLED, 0, b"", {"t": held}))

    yield "a table of all groupings", of(GROUPINGS_TABLE), None
    fewer = GROUPINGS_TABLE.replace(b",3,3\n", b",3,2\n")
    yield "the other number of seats that suits", of(fewer), None
    for name, wrong in wrong_groupings_tables().items():
        yield f"a table with {name}", begun(of(wrong)), "stored: t is neither as"
    missing = "stored: t isn't there"
    yield "no table", wrong_files(run, Made(COUPLED, 0, b"", {})), missing
    made = Made(COUPLED + b"number none\n", 1, b"", {})
    yield "no table beside no number", wrong_files(run, made), missing
    made = Made(b"open SeatsOff line 6\n", 3, b"", {})
    yield "no table of an open list", wrong_files(run, made), None
    made.files["t"] = GROUPINGS_TABLE
    yield "a table of an open list", begun(wrong_files(run, made)), "stored: t is neither as"
    failed = Made(b"device r Device\n", 5, b"", {"t": GROUPINGS_TABLE})
    found = begun(wrong_files(run, failed))
    yield "a table before a failed store of nothing", found, "stored: t is neither as"
    failed.told = b"countygroups: x\ncountygroups: the answer is:\n" + COUPLED
    yield "a table before a failed store", wrong_files(run, failed), None


# Three counties of four blocks, of which lines give one twice.
BLOCKS = {b"001000": (b"001", 60), b"001001": (b"001", 40)}
BLOCKS.update({b"003000": (b"003", 100), b"005000": (b"005", 200)})
ASSIGNMENTS = b"""BLOCK,DISTRICT
370010001001000,10
370010001001001,9
370010001001001,9
370030001001000,10
370050001001000,"a"
370990001001000,8
370030001001000,ZZZ
370050001001000,
"""
DISTRICTS_TABLE = b'''DISTRICT,POPULATION,LEAST,GREATEST,SETS,COUNTIES
"""a""",200,95,105,W1,37005
10,160,95,105,1 2,37001 37003
9,40,95,105,2,37001
'''
FINDINGS = b"findings 1\nGrouping Twice county 37003\n"


def audited_run(*more: str) -> Given:
    """Returns a run of `audit` that stores the districts, with more words behind the others.

    Its grouping has a county in two groups.
    """
    geo, segment = b"", b""
    people = {b"001": 100, b"003": 100, b"005": 200}
    for record, (county, count) in enumerate(people.items()):
        geo += b"||050||00|||%d||x|||37||%s\n" % (record, county)
        segment += b"||||%d|%d\n" % (record, count)
    for record, (block, (county, count)) in enumerate(BLOCKS.items(), 10):
        code = b"37" + block[:3] + b"0001001" + block[3:]
        geo += b"||750||00|||%d||%s|||37||x\n" % (record, code)
        segment += b"||||%d|%d\n" % (record, count)
    files = {"g": geo, "s": segment, "b": ASSIGNMENTS, "w": b"2|37005\n"}
    files["o"] = b"1|37003\n1|37001|37003\n"
    words = "audit --geo g --segment s --chamber 4 --assignments b --grouping o --districts d"
    return Given([*words.split(), *more], files)


def tests_of_districts() -> Tests:
    """Yields tests of the table of the districts."""
    withdrawing, bare = audited_run("--withdrawn", "w"), audited_run()

    def of(run: Given, held: bytes) -> Optional[str]:
        """Returns what is wrong with a run that stores these bytes."""
        return wrong_files(run, Made(FINDINGS, 1, b"", {"d": held}))

    yield "a table of districts", of(withdrawing, DISTRICTS_TABLE), None
    found = begun(of(bare, DISTRICTS_TABLE))
    yield "a district of a county in no set", found, "stored: d is neither as"
    fewer = DISTRICTS_TABLE.replace(b'"""a""",200,95,105,W1,37005\n', b"")
    yield "no district of a county in no set", of(bare, fewer), None
    exact = audited_run("--withdrawn", "w", "--part", "0")
    narrow = DISTRICTS_TABLE.replace(b"95,105", b"100,100")
    yield "another tolerance", of(exact, narrow), None
    missing = "stored: d isn't there"
    yield "no districts", wrong_files(bare, Made(FINDINGS, 1, b"", {})), missing
    made = Made(b"findings 0\n", 0, b"", {})
    yield "no districts without findings", wrong_files(bare, made), missing
    made = Made(b"refused geo NoBlocks line 0\n", 4, b"", {"d": fewer})
    found = begun(wrong_files(bare, made))
    yield "districts of a refused file", found, "stored: d is neither as"


def tests_of_wrong_districts() -> Tests:
    """Yields tests of tables that aren't that of the districts."""
    run, table = audited_run("--withdrawn", "w"), DISTRICTS_TABLE
    wrong_ones = {
        "a block that counts for each line": table.replace(b"9,40", b"9,80"),
        "a district of an unknown block": table.replace(b"9,40", b"8,0,95,105,,\n9,40"),
        "labels in another order": b"".join(sorted(table.splitlines(True), reverse=True)),
        "sets in another order": table.replace(b"1 2", b"2 1"),
        "the second set of a county": table.replace(b"1 2", b"2"),
        "counties in another order": table.replace(b"37001 37003", b"37003 37001"),
        "other bounds": table.replace(b"95,105", b"94,105"),
        "a label that isn't quoted": table.replace(b'"""a"""', b'"a"'),
        "another header": table.replace(b"DISTRICT", b"LABEL"),
    }
    for name, wrong in wrong_ones.items():
        found = begun(wrong_files(run, Made(FINDINGS, 1, b"", {"d": wrong})))
        yield f"districts with {name}", found, "stored: d is neither as"


def tests_of_assignments() -> Tests:
    """Yields tests of how assignments are read."""
    text = b"\xef\xbb\xbf\r\n370010001001000|A,1|x\r\n\n370010001001001|\n370030001001000|2"
    wanted = [("370010001001000", b"A,1"), ("370010001001001", b""), ("370030001001000", b"2")]
    yield "assignments at pipes", assignments_in(text), wanted
    text = b"370010001001000,A|1\n"
    yield "a header with a pipe", assignments_in(text), []
    wanted = [("370010001001000", b"A|1")]
    yield "assignments at commas with a pipe", assignments_in(b"B,D\n" + text), wanted
    yield "no assignments", (assignments_in(b""), assignments_in(b"B,D\n")), ([], [])


def tests_of_asking() -> Tests:
    """Yields tests of what a run with the options of lists is asked, stores and records."""
    words = "list --record r --groupings t --out o --geo g --certificate c --which w".split()
    certificate = b"group 1 37001 37003\ngroup 2 37005\n"
    files = {"g": b"x", "c": certificate, "w": b"1|37001\n"}
    yield "the order of storing", [*outputs_of(words)], ["out", "groupings", "record"]
    yield "districts of an audit alone", outputs_of(["list", "--districts", "d"]), {}
    read = [it.split(b" ")[1] for it in read_lines(words, files, b"")]
    yield "the order of reading", read, [b"geo", b"grouping", b"certificate"]
    record = b"countygroups record 1\nversion 1\nstored %s 0 " + b"0" * 64
    record += b" t\nstatus 0\nanswer x\n"
    yield "a record of groupings", is_record(record % b"groupings"), True
    yield "a record of districts", is_record(record % b"districts"), True
    yield "a record of what isn't stored", is_record(record % b"which"), False
    asked = asked_of_second(Given(words, files), Made(b"answer all\n", 0, b"", {}))
    yield "a list whose table has names", asked and asked[0][-2:], ["--table", "t"]
    refused = Made(b"refused grouping BadCode line 1\n", 4, b"", {})
    found = asked_of_second(Given(words, files), refused)
    yield "a grouping before the certificate", found, None
    made = []
    for turn in range(200):
        run = Given(words[:-2], {"g": b"x", "c": certificate})
        add_which(run, True, random.Random(turn))
        made.append(run.files.get("which"))
    yield "a grouping of the certificate", b"1|37001|37003\n2|37005\n" in made, True
    yield "it in another order", b"2|37005\n1|37001|37003\n" in made, True
    yield "no grouping", None in made, True


def tests_of_changes() -> Tests:
    """Yields tests of what is changed at random."""
    sources = Sources()
    yield "each command has runs", {it.words[0] for it in sources.runs}, {*TEXTS}
    turns = [sources.changed(random.Random(f"1 {turn}")) for turn in range(300)]
    again = sources.changed(random.Random("1 7"))
    yield "the same seed and turn", turns[7], again
    told = [it for it in turns if it.is_told and it.whole is None]
    others = [it for it in told if it.files != as_told(it.files)]
    yield "a told run has the files of its text", others, []
    yield "few runs are as they were", sum(it in sources.runs for it in turns) < 30, True
    nameless = Given(["size", "--geo", ""], {"": b"x"}, b"", True)
    yield "a file without a name is in no folder", fits_folder(nameless), False
    are_inside = all(it.is_told or is_plain(it.words) for it in turns)
    yield "a folder's words stay in it", are_inside, True
    yield "both kinds of run", {it.is_told for it in turns}, {True, False}
    bare = ["check", "--geo", "g", "--certificate"]
    made = [changed_words(bare, random.Random(turn)) for turn in range(300)]
    yield "words that end with an option", [*bare, "--links", ""] in made, True
    yield "they get the words of other options", [*bare, "--links", "g"] in made, True
    texts = (b"", b"\n", b"take 37001 37003\nmark\n")
    for change in dict.fromkeys(CHANGES):
        changed = {change(text, random.Random(turn)) for turn in range(200) for text in texts}
        name = getattr(change, "__name__", "")
        yield f"{name} gives bytes", all(isinstance(it, bytes) for it in changed), True
        yield f"{name} changes something", len(changed) > 3, True


class Stand:
    """Stands for the sources of a turn: it gives one run, or ends by an error."""

    def __init__(self, run: Optional[Given] = None) -> None:
        self.run = run

    def changed(self, _: random.Random) -> Given:
        """Returns the run."""
        if self.run is None:
            raise IndexError("no word")
        return self.run


def turn_of(sources: Stand, programs: Sequence[str], keep_folder: str) -> Tuple[int, List[str]]:
    """Returns the status of one turn, and the lines that it printed."""
    asked = argparse.Namespace(seed=5, limit=20, memory=1024, keep=keep_folder)
    tally, said = Tally(), io.StringIO()
    with tempfile.TemporaryDirectory(prefix="fuzz-") as room:
        with contextlib.redirect_stdout(said), contextlib.redirect_stderr(io.StringIO()):
            tally.turn(asked, sources, programs, [], os.path.realpath(room), 7)
            tally.told()
    return tally.status(), said.getvalue().splitlines()


def tests_of_errors() -> Tests:
    """Yields tests of errors of this script and of finds, which never pass for one another.

    The program of these turns is `false`, whose text is none of a command.
    """
    run, program = Given(["size", "--geo", "g"], {"g": b"x"}, b"", False), "/bin/false"
    found = "FOUND seed 5 turn 7: format: status 1, ``"
    error = "ERROR seed 5 turn 7: IndexError: no word"
    wanted = [error, "0 runs, 0 finds, 1 error of this script"]
    yield "an error is no find", turn_of(Stand(), [], ""), (3, wanted)
    with tempfile.TemporaryDirectory(prefix="fuzz-") as room:
        wanted = [found, "status 1: 1 runs", "1 runs, 1 finds, 0 errors of this script"]
        yield "a find is no error", turn_of(Stand(run), [program], room), (1, wanted)
        names = [f"found.{it}" for it in ("case", "files", "out", "txt", "words")]
        yield "it is kept", sorted(os.listdir(f"{room}/5-7")), names
        yield "it is kept again", turn_of(Stand(run), [program], room)[0], 1
        keep(f"{room}/8", run, ["checker: x"], (b"KeyError()", None), "seed 5 turn 8")
        kept = "found.out" in os.listdir(f"{room}/8")
        yield "an error of the second checker is kept", kept, True
    status, lines = turn_of(Stand(run), [program], "/dev/null")
    yield "a find that can't be kept is told", (status, lines[0]), (4, found)
    last = "1 runs, 1 finds, 1 error of this script"
    yield "and so is the error", (lines[1][:27], lines[-1]), ("ERROR seed 5 turn 7: NotADi", last)


def test() -> int:
    """Runs the tests, and returns the exit status."""
    passed = failed = 0
    for name, found, wanted in tests():
        passed, failed = passed + (found == wanted), failed + (found != wanted)
        if found != wanted:
            print(f"FAILED {name}: wanted {wanted}, found {found}")
    print(f"{passed} passed, {failed} failed")
    return 1 if failed else 0


# ---- the command ----


def programs_of(asked: argparse.Namespace) -> List[str]:
    """Returns the programs that are asked for. Stops if one isn't there."""
    given = asked.program or [cases.built_program("countygroups")]
    programs = [os.path.realpath(it) for it in given]
    for program in programs:
        if not os.access(program, os.X_OK):
            program_runs.stop(f"{program} isn't there: `rt run` or `rt ci` builds it")
    return programs


def has_option(program: str, command: str, option: str) -> bool:
    """Returns whether a program's command has an option, by what it says of itself."""
    asked = [program, command, "--help"]
    ran = subprocess.run(asked, stdout=subprocess.PIPE, stderr=subprocess.DEVNULL)
    return re.search(rb" --%s\s" % option.encode(), ran.stdout) is not None


def reads_input(program: str) -> bool:
    """Returns whether a program reads standard input as the file `-`."""
    asked = [program, "size", "--people", INPUT, "--chamber", "1"]
    held = b"37001,1\n"
    return subprocess.run(asked, input=held, capture_output=True, check=False).returncode == 0


def chance_of(asked: argparse.Namespace, turn: int, what: str = "") -> random.Random:
    """Returns what picks at random in a turn: the change, the outputs or the pipes."""
    return random.Random(f"{asked.seed} {turn}{what}")


class Tally:
    """How many runs ended with each status, and how many finds and errors there were."""

    def __init__(self) -> None:
        self.statuses: Dict[int, int] = collections.Counter()
        self.finds = self.errors = 0

    def turn(
        self,
        asked: argparse.Namespace,
        sources: Union[Sources, Stand],
        programs: Sequence[str],
        options: Iterable[str],
        room: str,
        turn: int,
    ) -> None:
        """Runs one turn. If this script itself ends by an error, the error is told and counted."""
        try:
            run = sources.changed(chance_of(asked, turn))
            add_outputs(run, options, chance_of(asked, turn, " outputs"))
            self.tried_turn(asked, run, programs, room, turn)
        except Exception as error:
            self.errors += 1
            what = f"{type(error).__name__}: {error}"
            print(f"ERROR seed {asked.seed} turn {turn}: {what}", flush=True)
            traceback.print_exc()

    def tried_turn(
        self,
        asked: argparse.Namespace,
        run: Given,
        programs: Sequence[str],
        room: str,
        turn: int,
    ) -> None:
        """Runs the programs over the run of a turn. What was found is told before it is kept."""
        if stores_outside(run):
            # (a told run stores nothing on the machine)
            run.is_told, run.files = True, as_told(run.files)
        runs = [made_by(program, run, room, asked) for program in programs]
        faults, wanted = faults_of(run, runs, asked)
        may_be_pipes = chance_of(asked, turn, " pipes").random() < 0.3 and not faults
        pipes = pipes_of(run) if may_be_pipes else []
        if pipes:
            why = wrong_pipes(run, runs[0], made_by(programs[0], run, room, asked, pipes))
            if why is not None:
                faults, wanted = [why], (runs[0].printed(), runs[0].status)
        other = None if faults else in_other_words(run)
        if other is not None:
            why = wrong_words(run, runs[0], made_by(programs[0], other, room, asked))
            faults = [why] if why is not None else []
        for made in runs:
            self.statuses[made.status] += 1
        self.finds += bool(faults)
        how = f"seed {asked.seed} turn {turn}"
        for why in faults:
            print(f"FOUND {how}: {why}", flush=True)
        if faults:
            keep(f"{asked.keep}/{asked.seed}-{turn}", run, faults, wanted, how, pipes)

    def told(self) -> None:
        """Prints how many runs ended with each status, and how many finds and errors there were."""
        for status, count in sorted(self.statuses.items()):
            print(f"status {status}: {count} runs")
        errors = f"{self.errors} error{'' if self.errors == 1 else 's'} of this script"
        print(f"{sum(self.statuses.values())} runs, {self.finds} finds, {errors}")

    def status(self) -> int:
        """Returns the exit status: 0 nothing, 1 finds, 3 errors of this script, 4 both."""
        return (1 if self.finds else 0) + (3 if self.errors else 0)


def interrupt(*_: Any) -> NoReturn:
    """Ends the turns."""
    raise KeyboardInterrupt


def fuzz(asked: argparse.Namespace, room: str) -> int:
    """Runs turns until their time or number is over, or until this program is asked to end."""
    programs, sources, tally = programs_of(asked), Sources(), Tally()
    options = []
    for option, command in MORE.items():
        if all(has_option(program, command, option) for program in programs):
            options.append(option)
    options += [INPUT] if all(map(reads_input, programs)) else []
    # (a machine that is busy gives a run little of its time)
    program_runs.SECONDS = 100 * asked.limit
    began, turn = time.time(), asked.turn or 0
    last = asked.turn + 1 if asked.turn is not None else asked.runs
    signal.signal(signal.SIGTERM, interrupt)
    try:
        while turn < last if last is not None else time.time() - began < asked.seconds:
            tally.turn(asked, sources, programs, options, room, turn)
            turn += 1
    except KeyboardInterrupt:
        print(f"ended before turn {turn} was over")
    tally.told()
    return tally.status()


def words_given() -> argparse.Namespace:
    """Returns what the words of this script ask for."""
    parser = ScriptWords(__doc__)
    parser.add_argument("--program", action="append")
    parser.add_argument("--seconds", type=float, default=60)
    parser.add_argument("--runs", type=int)
    parser.add_argument("--seed", type=int, default=1)
    parser.add_argument("--turn", type=int)
    parser.add_argument("--limit", type=int, default=20)
    parser.add_argument("--memory", type=int, default=1024)
    parser.add_argument("--keep", default="fuzz-finds")
    parser.add_argument("--test", action="store_true")
    return parser.parse_args()


def main() -> int:
    """Runs what the words ask for, and returns the exit status."""
    asked = words_given()
    if asked.test:
        return test()
    try:
        with tempfile.TemporaryDirectory(prefix="fuzz-", dir=program_runs.ROOMS) as room:
            return fuzz(asked, os.path.realpath(room))
    except Exception:
        traceback.print_exc()
        return 3


if __name__ == "__main__":
    sys.exit(main())
