#!/usr/bin/env python3
"""Compares the second checker, tools/check.py, with the worked cases and with a program.

usage: compare_checkers.py [--all] [--program FILE [--chamber SEATS ..] [--mutations N] [--seed N]
                           [--states]] [FOLDER or FILE.case or FILE.words ..]

Without --program: each run of `check` among the cases whose wanted answer isn't `budget`. The
second checker has to write what the case wants, and to end with its status. If the words are no
command or ask for help, the text is that of `clap`: then the status alone is compared, and help
isn't run. A run over a file that an earlier run of the case makes takes it from what the case has
stored. If the case hasn't it, the run is left out, since that needs a program. Of a run with
`--table` or `--record` the text and the status alone are compared, because the second checker
stores no file, and a run whose file can't be stored is left out.
Of each run of another command with `--people`, the second checker reads the people file. It has to
refuse the file for the fault that the case wants, or find the people that the case wants: those of
all counties, and in a size table those of each.
--all takes the cases of millions of lines too, which take minutes, but for those that bound the
memory: the second checker holds a whole text.
--program FILE makes certificates of North Carolina's two chambers (data/nc2020; --chamber: of
these) too. Both checkers check them, once more with --json and once with --names, and each of them
with one line changed at random, N times (--mutations, 20 unless said otherwise; --seed, 1). Then
they check those by the counts of 2010 and of 2000.
--states beside it makes certificates of the chambers of ten states (data/states) too, if the
program answers best within its default steps. Both checkers check them as they are, and a line has
the seconds of processor time of each. The second checker takes minutes for the longest.

Statuses: 0 all agree, 1 some differ or nothing was compared, 2 these words can't be run. The last
line is `N agree, M differ`.
"""
from __future__ import annotations

import argparse
import itertools
import os
import random
import re
import subprocess
import sys
import tempfile
import time
from typing import Dict, Iterable, Iterator, List, Optional, Tuple

TOP = os.path.dirname(os.path.dirname(os.path.realpath(__file__)))
sys.path[:0] = [f"{TOP}/cases", f"{TOP}/tools", f"{TOP}/bench"]
import cases  # noqa: E402
import check  # noqa: E402
import formats  # noqa: E402
import json_answers  # noqa: E402
import program_runs  # noqa: E402
import states  # noqa: E402
import sweeps  # noqa: E402
from program_runs import Followed  # noqa: E402
from script_words import ScriptWords  # noqa: E402

# Cases that take long in Python, by their folder or the beginnings of their names.
LONG = re.compile(r"/huge/|/long/(a_plain_text_of_a_million_marks|a_wide_text_of_a_million_raises)")
SECONDS = 3600
BUDGET = 1_000_000_000
WAYS = (*["number"] * 4, *["like"] * 2, "leaf", "left out", "doubled", "elsewhere")
# Words by which a run writes help, so that the second checker isn't compared.
HELP = {"-h", "--help"}
# Options of `check` that the second checker doesn't take.
NOT_TAKEN = ("--budget", "--table", "--record")

Words = List[str]
Files = Dict[str, bytes]


def case_parts(text: bytes) -> Tuple[Words, Files]:
    """Returns the words of a case text and its files, by `docs/reference/commands.md`, "Cases"."""
    pieces = text.split(b"\n")
    words = pieces[0].decode().split(" ")
    files: Files = {}
    name: Optional[str] = None
    for place, piece in enumerate(pieces[1:], 1):
        if piece.startswith(b"file "):
            name = piece[5:].decode()
            files[name] = b""
        elif name is not None:
            files[name] += piece + (b"\n" if place + 1 < len(pieces) else b"")
    return words, files


def words_of_second(words: Words) -> Tuple[Words, bool]:
    """Returns the words of a check for the second checker, and whether names are read.

    It takes no budget, and no file to store. The counties' names are read for a table. A word that
    the program refuses is kept, so that the second checker refuses it too.
    """
    kept, dropped, left = words[:1], {""}, iter(words[1:])
    for word in left:
        option, equals, value = word.partition("=")
        has_value = not equals and word not in check.FLAGS
        pair = [word, *itertools.islice(left, 1)] if has_value else [word]
        value = value if equals else "".join(pair[1:])
        is_whole = bool(equals) or len(pair) == 2
        if option in NOT_TAKEN and is_whole and (option != "--budget" or is_budget(value)):
            kept += pair if option in dropped else []
            dropped.add(option)
        else:
            kept += pair
    return kept, "--table" in dropped


def is_budget(word: str) -> bool:
    """Returns whether a word is a number of steps that the program takes."""
    return re.fullmatch(r"\+?[0-9]+", word) is not None and int(word) < 2**64


def second_checker(words: Words, files: Files) -> Followed:
    """Runs the second checker over `files`, the bytes of each by its name."""

    def load(name: str) -> bytes:
        """Returns the bytes of a file. Ends the run if there is no such file."""
        if name not in files:
            raise check.End(f"device {name} Missing", 5)
        return files[name]

    kept, has_names = words_of_second(words)
    text, status = check.answer(kept[1:], load, has_names)
    return Followed(os.fsencode(text), status=status)


def people_said(words: Words, files: Files) -> List[bytes]:
    """Returns the lines that a run has by what the second checker reads of its people file.

    These are the fault of the file, or else the people of all counties, and for `size` the
    beginning of the line of each county.
    """
    name = sweeps.named_by(words, "--people") or ""
    if name not in files:
        return [b"device %s Missing" % os.fsencode(name)]
    try:
        people = check.read_people(files[name], formats.number_by(words, "--state", 37))
    except check.End as end:
        return [end.text.encode()]
    counties = [f"{code}|{people[code]}|".encode() for code in sorted(people)]
    return [b"people %d" % sum(people.values()), *(counties if words[0] == "size" else [])]


def people_wanted(wanted: bytes) -> List[bytes]:
    """Returns the lines of a wanted text that `people_said` has, cut behind the people."""
    first, *others = wanted.split(b"\n")
    counties = (re.match(rb"[0-9]{5}\|[0-9]+\|", line) for line in others)
    return [first, *(found[0] for found in counties if found)]


def is_of_people(words: Words, wanted: bytes) -> bool:
    """Returns whether a run isn't of `check`, and its wanted text tells of its people file."""
    beginnings = (b"refused people ", b"people ", b"device ")
    has_people = sweeps.named_by(words, "--people") is not None
    return has_people and words[0] != "check" and wanted.startswith(beginnings)


def runs_of(case: cases.Case) -> Iterator[Tuple[Words, Files, bytes]]:
    """Yields the runs of a case that need no program and ask for no help.

    Of each: its words, its files, and the wanted text with its exit line, without what it stores.
    Of a run over files of a folder, standard input is the file `-`.
    """
    for given, wanted in case.cut():
        wanted_lines = wanted.splitlines(keepends=True)
        runs, files = case.runs, case.whole_files()
        if runs == [[]]:
            words, files = case_parts(given)
            runs = [words]
        else:
            files[check.INPUT] = given
        has_stored = False
        for words in runs:
            lasts = (i for i, it in enumerate(wanted_lines) if it.startswith(b"exit "))
            end = next(lasts) + 1
            is_lost = has_stored and certificate_of(words) not in files
            if not (HELP & {*words} or is_lost):
                yield words, files, without_stored(wanted_lines[:end])
            if may_store(words, wanted_lines[end - 1]):
                has_stored, files = True, {**files, **case.stored}
            del wanted_lines[:end]


def without_stored(lines: List[bytes]) -> bytes:
    """Returns the text of a run with its exit line, without the files that it stores behind it."""
    text = itertools.takewhile(lambda line: not line.startswith(b"file "), lines[:-1])
    return b"".join([*text, lines[-1]])


def may_store(words: Words, ending: bytes) -> bool:
    """Returns whether a run of these words that ends so may have stored a file."""
    return ending == b"exit 0\n" if words[:1] == ["share"] else words[:1] in (["solve"], ["list"])


def certificate_of(words: Words) -> Optional[str]:
    """Returns the name of the certificate that the words name, or None."""
    return words[words.index("--certificate") + 1] if "--certificate" in words[:-1] else None


class Tally:
    """How many comparisons agreed, and how many differed."""

    def __init__(self) -> None:
        self.agree = self.differ = 0

    def add(self, name: str, why: Optional[str]) -> None:
        """Counts a comparison, and prints what differs if anything does."""
        if why:
            print(f"DIFFERS {name}: {why}", flush=True)
        self.agree, self.differ = self.agree + (not why), self.differ + bool(why)


def as_text(wanted: bytes) -> bytes:
    """Returns a wanted text with the text of an object in its place, if it begins with one."""
    line, _, rest = wanted.partition(b"\n")
    return json_answers.text_of(line).encode() + rest if line.startswith(b"{") else wanted


def needs_program(words: Words, wanted: bytes) -> bool:
    """Returns whether a check ends for its budget, or for a file that it can't store."""
    outs = (sweeps.named_by(words, option) for option in ("--table", "--record"))
    faults = {b"device %s Device" % os.fsencode(name) for name in outs if name is not None}
    text = as_text(wanted)
    return text == b"budget\nexit 3\n" or text.split(b"\n")[0] in faults


def wrong_check(case: cases.Case, words: Words, files: Files, wanted: bytes) -> Optional[str]:
    """Returns in what the second checker differs from the text that a check wants, or None."""
    found = second_checker(words, files)
    said = case.said([found])
    if wanted.endswith(b"exit 2\n"):
        wanted, said = b"exit 2\n", b"exit %d\n" % found.status
    return cases.first_difference(wanted, said) if said != wanted else None


def compare_cases(stems: Iterable[str], tally: Tally) -> None:
    """Compares the second checker with what the cases want."""
    for stem in stems:
        case = cases.Case(stem)
        if case.program or case.memory or case.forms.sizes:
            continue
        began = time.time()
        for words, files, wanted in runs_of(case):
            if words[:1] == ["check"] and not needs_program(words, wanted):
                tally.add(os.path.relpath(stem), wrong_check(case, words, files, wanted))
            elif is_of_people(words, as_text(wanted)):
                one, other = people_wanted(as_text(wanted)), people_said(words, files)
                why = f"wanted {one}, found {other}" if one != other else None
                tally.add(os.path.relpath(stem), why)
        took = time.time() - began
        if took > 10:
            print(f"note: {os.path.relpath(stem)} took {took:.0f} seconds", flush=True)


def with_changed_number(line: bytes, codes: List[bytes], chance: random.Random) -> bytes:
    """Returns the line with one number a little greater or less, or one code another."""
    found = chance.choice(list(re.finditer(rb"[0-9]+", line)))
    number = found[0]
    if len(number) == 5 and chance.random() < 0.8:
        new = chance.choice(codes)
    else:
        new = b"%d" % max(0, int(number) + chance.choice((-2, -1, 1, 2)))
    return line[: found.start()] + new + line[found.end() :]


def mutated(text: bytes, chance: random.Random) -> Tuple[bytes, str]:
    """Returns the text with one line changed, and what was done.

    Most ways keep it the text of some certificate. An empty order gives no code to change to, so
    37001 is taken.
    """
    lines = text.split(b"\n")[:-1]
    codes = lines[1].split(b" ")[1:] or [b"37001"]
    place = chance.randrange(1, len(lines) - 1)
    like = [it for it in lines if it.split(b" ")[0] == lines[place].split(b" ")[0]]
    way = chance.choice(WAYS)
    if way == "number" and re.search(rb"[0-9]", lines[place]):
        lines[place] = with_changed_number(lines[place], codes, chance)
    elif way == "leaf" and lines[place].startswith((b"stuck", b"seats")):
        lines[place] = chance.choice((b"seats", b"stuck " + chance.choice(codes)))
    elif way == "left out":
        del lines[place]
    elif way == "doubled":
        lines.insert(place, lines[place])
    elif way == "elsewhere":
        lines.insert(chance.randrange(1, len(lines)), lines.pop(place))
    else:
        lines[place], way = chance.choice(like), "like"
    return b"\n".join(lines) + b"\n", f"line {place + 1} {way}"


def ran(program: str, words: Words, folder: str) -> Tuple[bytes, int]:
    """Runs a program in a folder. Returns what it wrote to standard output, and its status."""
    made = subprocess.run(
        [program, *words],
        cwd=folder,
        stdin=subprocess.DEVNULL,
        stdout=subprocess.PIPE,
        stderr=subprocess.DEVNULL,
        timeout=SECONDS,
    )
    return made.stdout, made.returncode


def with_exit_line(run: Tuple[bytes, int]) -> bytes:
    """Returns what a run wrote, with its exit line."""
    return run[0] + b"exit %d\n" % run[1]


def children_seconds() -> float:
    """Returns the seconds of processor time of all runs so far."""
    return sum(os.times()[2:4])


def both_checkers(
    program: str, words: Words, folder: str
) -> Tuple[Optional[str], Tuple[float, float]]:
    """Runs both checkers. Returns what differs, if anything does, and the seconds of each.

    A budget that ran out says nothing.
    """
    began = children_seconds()
    wanted = ran(program, words, folder)
    between = children_seconds()
    if wanted == (b"budget\n", 3):
        return None, (between - began, 0)
    kept, _ = words_of_second(words)
    found = ran(sys.executable, [f"{TOP}/tools/check.py", *kept[1:]], folder)
    why: Optional[str] = None
    if found != wanted:
        why = cases.first_difference(with_exit_line(wanted), with_exit_line(found))
    return why, (between - began, children_seconds() - between)


def problem(year: int, chamber: int) -> list[str]:
    """Returns the words of a chamber of North Carolina by the census of a year."""
    counts = f"{TOP}/data/nc{year}"
    words = ["--geo", f"{counts}/nc{year}geo.pl", "--segment", f"{counts}/nc00001{year}.pl"]
    words += ["--adjacency", f"{TOP}/data/nc2020/county_borders.txt"]
    return [*words, "--chamber", str(chamber)]


def compare_censuses(program: str, chamber: int, tally: Tally) -> None:
    """Compares both checkers over a chamber's certificates by the censuses of 2010 and 2000."""
    for year in (2010, 2000):
        words = [*problem(year, chamber), "--certificate", "certificate"]
        with tempfile.TemporaryDirectory(prefix="compare-") as room:
            _, status = ran(program, ["solve", *words], room)
            if status != 0:
                program_runs.stop(f"{program} didn't solve chamber {chamber} of {year}: {status}")
            why, (first, second) = both_checkers(program, ["check", *words], room)
            tally.add(f"chamber {chamber} of {year}", why)
            told = f"the program took {first:.2f} seconds, the second checker {second:.2f}"
            print(f"chamber {chamber} of {year}: {told}", flush=True)


def compare_chamber(program: str, chamber: int, asked: argparse.Namespace, tally: Tally) -> None:
    """Compares both checkers over a chamber's certificate, as it is and changed at random."""
    common = [*problem(2020, chamber), "--certificate", "certificate"]
    with tempfile.TemporaryDirectory(prefix="compare-") as room:
        _, status = ran(program, ["solve", *common], room)
        if status != 0:
            program_runs.stop(f"{program} didn't solve chamber {chamber}: status {status}")
        began = time.time()
        tally.add(f"chamber {chamber}", both_checkers(program, ["check", *common], room)[0])
        took = time.time() - began
        for how, flag in (("as an object", check.OBJECT), ("with names", check.NAMES)):
            words = ["check", *common, flag]
            tally.add(f"chamber {chamber} {how}", both_checkers(program, words, room)[0])
        print(f"chamber {chamber}: both checkers took {took:.0f} seconds", flush=True)
        with open(f"{room}/certificate", "rb") as file:
            whole = file.read()
        for turn in range(asked.mutations):
            text, what = mutated(whole, random.Random(f"{asked.seed} {chamber} {turn}"))
            with open(f"{room}/certificate", "wb") as file:
                file.write(text)
            name = f"chamber {chamber}, seed {asked.seed}, mutation {turn}, {what}"
            tally.add(name, both_checkers(program, ["check", *common], room)[0])


def compare_states(program: str, tally: Tally) -> None:
    """Compares both checkers over the chambers of the ten states that the program answers best."""
    for name, chamber, words in states.problems():
        with tempfile.TemporaryDirectory(prefix="compare-") as room:
            words = [*words, "--certificate", "certificate"]
            if name == "North Carolina" or ran(program, ["solve", *words], room)[1] != 0:
                continue
            checked = ["check", *words, "--budget", str(BUDGET)]
            why, (first, second) = both_checkers(program, checked, room)
            tally.add(f"{name} {chamber}", why)
            told = f"the program took {first:.2f} seconds, the second checker {second:.2f}"
            print(f"{name} {chamber}: {told}", flush=True)


def words_asked() -> argparse.Namespace:
    """Returns the words of the command. Ends with status 2 if they can't be run."""
    parser = ScriptWords(__doc__)
    parser.add_argument("--all", action="store_true")
    parser.add_argument("--program")
    parser.add_argument("--chamber", type=int, action="append")
    parser.add_argument("--mutations", type=int, default=20)
    parser.add_argument("--seed", type=int, default=1)
    parser.add_argument("--states", action="store_true")
    parser.add_argument("folders", nargs="*")
    asked = parser.parse_args()
    if asked.states and not asked.program:
        parser.error("--states needs --program")
    return asked


def main() -> int:
    """Compares what is asked for, prints how many agree, and returns the status."""
    asked = words_asked()
    tally = Tally()
    stems = cases.stems(asked.folders)
    wanted = [it for it in stems if asked.all or not LONG.search(os.path.realpath(it))]
    compare_cases(wanted, tally)
    if asked.program:
        for chamber in asked.chamber or (120, 50):
            compare_chamber(os.path.realpath(asked.program), chamber, asked, tally)
            compare_censuses(os.path.realpath(asked.program), chamber, tally)
    if asked.states:
        compare_states(os.path.realpath(asked.program), tally)
    if not tally.agree + tally.differ:
        print("nothing was compared: no run of `check` was found")
    print(f"{tally.agree} agree, {tally.differ} differ")
    return 0 if tally.agree and not tally.differ else 1


if __name__ == "__main__":
    sys.exit(main())
