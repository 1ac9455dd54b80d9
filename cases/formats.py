"""What the command writes, by docs/reference/formats.md: texts with their status, and files.

Each table is made anew here from the files of a run, and from its report where it has one. The
number behind a listing is found anew too. Of a record everything is compared but the version. The
object of a run with `--json` is compared with that of its text (`json_answers.py`). A text with
`--names` becomes one without names, if these are the names of the run's files.
"""
from __future__ import annotations

import hashlib
import itertools
import json
import os
import re
import sys
from typing import Dict, Iterable, List, Mapping, NamedTuple, Optional, Sequence, Set, Tuple

sys.path.append(f"{os.path.dirname(os.path.realpath(__file__))}/../tools")
import check  # noqa: E402
import json_answers  # noqa: E402
from sweeps import named_by  # noqa: E402

NUMBER, CODE, SET = r"(?:0|[1-9][0-9]*)", r"[0-9]{5}", r"(?:group|withdrawn) [1-9][0-9]*"
CODES = rf"{CODE}(?: {CODE})*"
FIRST = rf"people {NUMBER}\nchamber {NUMBER}\n(?:window {NUMBER} {NUMBER}\n)?"
HEAD = rf"{FIRST}seats left {NUMBER}\ncounties {NUMBER}\n"
COUNTS = rf"counts (?:none|{NUMBER}(?: {NUMBER})*)\n"
GROUP = rf"group {NUMBER} seats {NUMBER} people {NUMBER} counties {CODES}\n"
GROUPS = rf"{COUNTS}(?:{GROUP})*"
LIST_GROUP = rf"group seats {NUMBER}(?: to {NUMBER})? people {NUMBER} counties {CODES}\n"
REGION = (
    rf"region {NUMBER} counties {NUMBER} alternatives {NUMBER}\n"
    rf"(?:alternative {NUMBER}\n(?:{LIST_GROUP})+)+"
)
LISTED = (
    rf"answer all\n{COUNTS}best groupings {NUMBER}\nshared groups {NUMBER}\n"
    rf"(?:{LIST_GROUP})*(?:{REGION})*"
)
CHOICE = rf"grouping {NUMBER} alternatives {NUMBER}(?: {NUMBER})*\n"
LISTING = rf"{HEAD}{LISTED}(?:every choice\n|(?:{CHOICE})+)"
FAULT = (
    rf"(?:EmptyGroup group {NUMBER}|UnknownCounty group {NUMBER} county {CODE}"
    rf"|Twice county {CODE}|Missing county {CODE}|NotConnected group {NUMBER}"
    rf"|OutOfWindow group {NUMBER}|SeatsTotal seats {NUMBER} left {NUMBER})"
)
LABEL = r"[ -~]{1,32}"
FINDING = (
    rf"(?:Grouping {FAULT}|(?:UnknownBlock|BlockTwice|Unassigned) [0-9]{{15}}"
    rf"|Crosses {LABEL} {SET} {SET}|WrongNumber {SET} seats {NUMBER} districts {NUMBER}"
    rf"|DistrictSize {LABEL} people {NUMBER})\n"
)
WORD_KIND = r"(?:BadHead|BadWord|BadNumber|NotCanonical|CutShort|AfterEnd|TooDeep)"
TREE_KIND = (
    r"(?:WrongWindow|WrongOrder|LimitTooSmall|WrongCounty|MissingGroup|StrayGroup|LightGroup"
    r"|BoundOver|BoundLength|NotStuck|SeatsOpen|BoundWithoutTarget|NoLeaf)"
)
TARGET_KIND = r"TargetFault (?:UnknownCounty|Twice|Missing|NotConnected|OutOfWindow|SeatsTotal)"
FILE_KIND = (
    r"(?:TooFewFields|BadCode|BadNumber|DoubleRecord|NoRecord|DoubleCounty|DoubleBlock"
    r"|NoCounties|NoBlocks|TooMany|BadSign|BadSeats|BadLabel|BadLine|LineTooLong|TooManyLines)"
)
PROBLEM_KIND = (
    rf"(?:BadWindow|TooManyCounties|NoPeople|UnknownWithdrawn {CODE}|WithdrawnTwice {CODE}"
    rf"|WithdrawnSeats|EmptyWithdrawn {NUMBER}|UnknownPair {CODE} {CODE})"
)
BOARD_KIND = r"(?:DepthOutOfRange|Target|LimitTooSmall|LimitTooLarge|TooManyPieces)"
REFUSED_FILE = r"(?:geo|segment1|people|adjacency|links|withdrawn|grouping|assignments)"
REFUSED = [
    (4, rf"refused {REFUSED_FILE} {FILE_KIND} line {NUMBER}\n"),
    (4, rf"refused events {WORD_KIND} line {NUMBER}\n"),
    (4, rf"refused (?:geo|people) BadName line {NUMBER}\n"),
    (4, rf"refused problem {PROBLEM_KIND}\n"),
    (4, r"refused case TooLarge line 0\n"),
    (5, r"device [^\n]* (?:Missing|TooLarge|Device)\n"),
    (5, r"memory\n"),
    (2, r""),
    (2, r"(?:error: |.*Usage: countygroups).*"),
    (0, r".*Usage: countygroups.*|countygroups [^\n]*\nlogic [0-9a-f]{16}\n"),
]
NO = (1, rf"no (?:Text {WORD_KIND}|{TREE_KIND}|{TARGET_KIND}) line {NUMBER}\n")
BUDGET, BOARD = (3, r"budget\n"), (4, rf"refused board {BOARD_KIND}\n")
REPLY = (
    rf"(?:piece {NUMBER} {NUMBER}|nothing left|accepted|split into {NUMBER} to {NUMBER}"
    rf"|new round {NUMBER}|old round|no such piece|already done|already split|cant split"
    r"|not a proof|not a part|not better|cant widen|too many pieces|budget|memory)\n"
)
WEIGHED = rf"weigh {NUMBER}(?: {CODE}:{NUMBER})*"
BRANCH = rf"branch {CODE}(?: {NUMBER})?|take {CODES}|mark"
TREE = rf"(?:(?:{BRANCH}|stuck {CODE}|seats|bound {NUMBER}|room|{WEIGHED})\n)+"
PART = rf"(?:(?:{BRANCH}|stuck {CODE}|seats|bound {NUMBER}|room|open|{WEIGHED})\n)+"
CERTIFICATE = (
    rf"county-groups (?:wide )?certificate (?:1\n|2\nwindow {NUMBER} {NUMBER}\n)"
    rf"order(?: {CODE})*\nlimit {NUMBER}\ntarget (?:none|{NUMBER})\n"
    rf"(?:group {NUMBER} {CODES}\n)*{TREE}end\n"
)
GROUPING = rf"(?:{NUMBER}\|{CODE}(?:\|{CODE})*\n)*"
SEAT_RANGE = rf"(?:none|{NUMBER}\|{NUMBER})"
BEST = rf"{HEAD}answer best\n{GROUPS}"
IMPOSSIBLE = rf"{HEAD}answer impossible\n"
# What a worker has written when it ends.
ANSWERED = (
    rf"(?:(?:result {NUMBER} {NUMBER}\n{TREE}|part {NUMBER} {NUMBER}\n{PART}|open\n"
    rf"|no such piece\n|better {NUMBER} {NUMBER}\n(?:group {NUMBER} {CODES}\n)*"
    rf"|wider {NUMBER}\n)end\n)*"
)
# The texts of each command, each with the status that it ends with.
TEXTS = {
    "size": [
        (
            0,
            rf"{FIRST}district (?:none|{NUMBER} to {NUMBER})\n"
            rf"(?:{CODE}\|{NUMBER}\|{SEAT_RANGE}\n)+",
        )
    ],
    "judge": [
        (0, rf"{HEAD}answer (?:lawful|best)\n{GROUPS}"),
        (1, rf"{HEAD}answer lawful\n{GROUPS}greater counts(?: {NUMBER})+\n"),
        (1, rf"fault {FAULT}\n"),
    ],
    "solve": [
        (0, BEST),
        (1, IMPOSSIBLE),
        (3, rf"{HEAD}answer open after {NUMBER} steps\n(?:grouping none\n|{GROUPS})"),
    ],
    "check": [(0, BEST), (1, IMPOSSIBLE), NO, BUDGET],
    "list": [
        (0, rf"{LISTING}(?:number [1-9][0-9]*\n)?"),
        (1, rf"{LISTING}number none\n"),
        (1, IMPOSSIBLE),
        NO,
        BUDGET,
        (3, rf"open (?:CountiesLeft|SeatsOff) line {NUMBER}\n"),
        (4, r"no such grouping\n"),
    ],
    "share": [
        (0, rf"(?:{REPLY})*joined\n"),
        (3, rf"(?:{REPLY})*left {NUMBER}\n(?:open {NUMBER} {NUMBER}\n)*"),
        BUDGET,
        BOARD,
    ],
    "piece": [
        (
            0,
            rf"result {NUMBER} {NUMBER}\n{TREE}"
            rf"|better {NUMBER} {NUMBER}\n(?:group {NUMBER} {CODES}\n)*|wider {NUMBER}\n",
        ),
        (3, rf"part {NUMBER} {NUMBER}\n{PART}|open\n"),
        (4, r"no such piece\n"),
        BUDGET,
        BOARD,
    ],
    "worker": [
        (0, ANSWERED),
        (4, rf"{ANSWERED}refused pieces {WORD_KIND} line {NUMBER}\n"),
        (5, rf"{ANSWERED}memory\n"),
    ],
    "audit": [(0, r"findings 0\n"), (1, rf"findings [1-9][0-9]*\n(?:{FINDING})+")],
}
LINES = r"(?:countygroups: [^\n]*\n)*"
UNESCAPED = r"[\0-\x09\x0b-\x1f\x7f\ufffd]"


def is_of_format(command: str, text: str, status: int) -> bool:
    """Returns whether a command writes the text with this status."""
    ways = REFUSED + TEXTS.get(command, [])
    return any(
        status == with_status and re.fullmatch(way, text, re.DOTALL) is not None
        for with_status, way in ways
    )


def is_told(command: str, told: str) -> bool:
    """Returns whether standard error has lines for a person alone.

    Behind a failed store it may have the answer of the command.
    """
    answers = "|".join(way for status, way in TEXTS.get(command, []) if status in (0, 1, 3))
    shape = rf"{LINES}(?:countygroups: the answer is:\n(?:{answers}){LINES})?"
    is_shaped = re.fullmatch(shape, told, re.DOTALL) is not None
    return is_shaped and re.search(UNESCAPED, told) is None


def is_certificate(text: bytes) -> bool:
    """Returns whether a text spells a certificate."""
    try:
        check.read_certificate(text)
    except check.Fault:
        return False
    return re.fullmatch(CERTIFICATE, text.decode("latin-1")) is not None


def are_resuming(text: bytes) -> bool:
    """Returns whether a text is of the events by which a board goes on: a part, or none."""
    return re.fullmatch(rf"(?:part 1 1\n{PART})?", text.decode("latin-1")) is not None


def is_grouping(text: bytes) -> bool:
    """Returns whether a text spells a grouping."""
    return re.fullmatch(GROUPING, text.decode("latin-1")) is not None


# ---- the files that the words name ----

Words = Sequence[str]
Files = Mapping[str, bytes]
SetOfCounties = Tuple[int, List[str]]  # its seats and its codes


def held_by(words: Words, files: Files, option: str) -> bytes:
    """Returns the bytes of the file that an option names, or none if the words lack the option."""
    name = named_by(words, option)
    return b"" if name is None else files.get(name, files.get(os.path.normpath(name), b""))


def number_by(words: Words, option: str, otherwise: int) -> int:
    """Returns the number that an option is given, or the other one if the words lack the option."""
    word = named_by(words, option)
    return otherwise if word is None else int(word)


def tolerance_by(words: Words) -> Tuple[int, int]:
    """Returns the part and the whole of the tolerance of a run.

    Those of `--tolerance` are in lowest terms, and those of `--part` and `--of` as they are given.
    """
    text = named_by(words, "--tolerance")
    if text is not None:
        return check.tolerance(text)
    return number_by(words, "--part", 1), number_by(words, "--of", 20)


def read_group(fields: List[bytes]) -> SetOfCounties:
    """Reads the seats and the codes of a group."""
    return check.number(fields[0], 0, 65535, "BadSeats"), [check.code(it) for it in fields[1:]]


def grouping_by(words: Words, files: Files, option: str) -> List[SetOfCounties]:
    """Returns the groups of the file that an option names."""
    return check.read_file("grouping", held_by(words, files, option), 2, read_group)


def withdrawn_by(words: Words, files: Files) -> List[SetOfCounties]:
    """Returns the withdrawn sets of a run."""
    text = held_by(words, files, "--withdrawn")
    return check.read_file("withdrawn", text, 2, check.read_withdrawn)


def people_by(words: Words, files: Files) -> Dict[str, int]:
    """Returns the people of each listed county of a run, by its code."""
    state = number_by(words, "--state", 37)
    if named_by(words, "--people") is not None:
        return check.read_people(held_by(words, files, "--people"), state)
    geo, segment = (held_by(words, files, it) for it in ("--geo", "--segment"))
    return check.read_counties(geo, segment, state)


def names_by(words: Words, files: Files) -> Dict[str, bytes]:
    """Returns the NAME of each listed county of a run, by its code.

    It is field 88 of the county's line, or nothing if the line has fewer fields. In a people file
    it is the third field.
    """
    if named_by(words, "--people") is not None:
        table = held_by(words, files, "--people")
        listed = check.read_named_people(table, number_by(words, "--state", 37))
        return {code: name for code, (_, name) in listed.items()}
    state = b"%02d" % number_by(words, "--state", 37)
    names: Dict[str, bytes] = {}

    def read_name(fields: List[bytes]) -> None:
        """Notes the NAME of a line, if it is that of a county."""
        if (fields[2], fields[4], fields[12]) == (b"050", b"00", state):
            names[(fields[12] + fields[14]).decode()] = b"".join(fields[87:88])

    check.read_file("geo", held_by(words, files, "--geo"), 15, read_name)
    return names


# ---- the text of a run with names ----

# The commands that take `--names`.
NAMED = ("solve", "check", "judge", "list")
COUNTIES = b" counties "


def takes_names(words: Words) -> bool:
    """Returns whether the words ask for names, if they are words of a command."""
    return bool(words) and words[0] in NAMED and check.NAMES in words[1:]


def asks_for_names(words: Words) -> bool:
    """Returns whether the words ask for a text with names, if they are words of a command."""
    return takes_names(words) and not json_answers.asks_for_object(words)


def codes_before(named: bytes, names: Mapping[str, bytes]) -> bytes:
    """Returns the codes of counties that stand with their names, as a line has them without.

    Raises `NoAnswer` if the names are others.
    """
    codes: List[bytes] = []
    left = b", " + named
    while left:
        code = left[2:7]
        name = re.sub(rb"[\0-\x1f\x7f]", b" ", names.get(code.decode("latin-1"), b""))
        county = b", " + code + b" " * bool(name) + name
        codes.append(code)
        left, before = left[len(county) :], left[: len(county)]
        is_right = check.is_code(code) and before == county
        if not is_right or left and not left.startswith(b", "):
            raise json_answers.NoAnswer(f"{(before + left)[:120]!r} isn't {county!r}")
    return b" ".join(codes)


def without_names(words: Words, files: Files, text: bytes) -> bytes:
    """Returns the text of a run with `--names` as it is without them.

    Raises `NoAnswer` if the names are others than those of the run's files.
    """
    lines = text.split(b"\n")
    if not any(it.startswith(b"group ") for it in lines):
        return text
    names = names_by(words, files)
    for place, line in enumerate(lines):
        head, mark, named = line.partition(COUNTIES)
        if head.startswith(b"group ") and mark:
            lines[place] = head + mark + codes_before(named, names)
    return b"\n".join(lines)


# ---- the object of a run ----


def object_line(words: Words, files: Files, text: str) -> bytes:
    """Returns the line that a run with `--json` prints, by the text that it prints without.

    That text has names if the words ask for them, and for no object.
    """
    if asks_for_names(words):
        text = os.fsdecode(without_names(words, files, os.fsencode(text)))
    names: Optional[Dict[str, str]] = None
    if words[0] in json_answers.WITH_NAMES and text.startswith("people "):
        names = {code: name.decode() for code, name in names_by(words, files).items()}
    made = json_answers.object_of(words[0], text, tolerance_by(words), names)
    return json_answers.compact(made)


def wrong_object(words: Words, files: Files, line: bytes) -> Optional[str]:
    """Returns what is wrong with the object of a run, or None.

    It is to be that of its own text, whose form is judged as that of any text.
    """
    try:
        wanted = object_line(words, files, json_answers.text_of(line))
    except (json_answers.NoAnswer, check.End, check.Fault, ValueError, KeyError) as error:
        return f"object: {line[:160]!r} is none of a run: {error!r}"
    if line != wanted:
        same = len(os.path.commonprefix([line, wanted]))
        one, other = line[same:][:80], wanted[same:][:80]
        return f"object: behind {same} bytes it has {one!r}, wanted {other!r}"
    return None


# ---- the listing ----


class ListedGroup(NamedTuple):
    """A group of a listing."""

    least: int  # the least number of seats that its people suit
    greatest: int  # the greatest one
    codes: List[str]  # its counties


def groups_in(text: str) -> List[ListedGroup]:
    """Returns the groups that lines of a listing tell."""
    line = r"^group seats ([0-9]+)(?: to ([0-9]+))? people [0-9]+ counties (.*)$"
    found = re.findall(line, text, re.MULTILINE)
    return [ListedGroup(int(k), int(m or k), codes.split(" ")) for k, m, codes in found]


def order_of_group(group: ListedGroup) -> Tuple[int, List[str]]:
    """Returns what groups are ordered by: how many counties they have, and then their codes."""
    return len(group.codes), group.codes


def order_of_grouping(groups: Sequence[ListedGroup]) -> List[Tuple[int, List[str]]]:
    """Returns what groupings are ordered by: their groups, one after the other."""
    return [order_of_group(it) for it in groups]


def groupings_in(listing: bytes) -> List[List[ListedGroup]]:
    """Returns the groupings of a listing by their numbers, each with its groups in order.

    A grouping has the shared groups, and those of one alternative of each region. If each
    combination is listed, the numbers are those of the ascending groupings.
    """
    head, *regions = re.split(r"^region .*\n", listing.decode(), flags=re.MULTILINE)
    parts = [re.split(r"^alternative .*\n", it, flags=re.MULTILINE)[1:] for it in regions]
    alternatives = [[groups_in(it) for it in of_region] for of_region in parts]
    told = re.findall(rb"^grouping [0-9]+ alternatives (.*)$", listing, re.MULTILINE)
    if told:
        chosen = [[int(it) - 1 for it in line.split(b" ")] for line in told]
        choices = [[a[i] for a, i in zip(alternatives, it)] for it in chosen]
    else:
        choices = [[*it] for it in itertools.product(*alternatives)]
    groupings = []
    for choice in choices:
        groups = groups_in(head) + [group for alternative in choice for group in alternative]
        groupings.append(sorted(groups, key=order_of_group))
    return groupings if told else sorted(groupings, key=order_of_grouping)


def number_line(words: Words, files: Files, listing: bytes) -> bytes:
    """Returns the line that is to stand behind a listing, which `--which` asks for, or nothing."""
    if named_by(words, "--which") is None:
        return b""
    wanted = {frozenset(codes) for _, codes in grouping_by(words, files, "--which")}
    for number, groups in enumerate(groupings_in(listing), 1):
        if {frozenset(it.codes) for it in groups} == wanted:
            return b"number %d\n" % number
    return b"number none\n"


def wrong_listing(words: Words, files: Files, text: bytes) -> Optional[str]:
    """Returns what is wrong with a listing, or None.

    As many groupings are to be listed as it says, ascending. Behind it stands the number line.
    """
    counted = re.search(rb"^best groupings ([0-9]+)$", text, re.MULTILINE)
    if counted is None:
        return None
    groupings = [order_of_grouping(it) for it in groupings_in(text)]
    if len(groupings) != int(counted[1]):
        return f"listing: it tells {len(groupings)} groupings, and counts {int(counted[1])}"
    if any(one >= other for one, other in zip(groupings, groupings[1:])):
        return "listing: its groupings don't ascend"
    wanted = number_line(words, files, text)
    found = b"".join(re.findall(rb"^number .*\n", text, re.MULTILINE))
    if found != wanted:
        return f"listing: behind it stands {found!r}, wanted {wanted!r}"
    return None


# ---- the table of the counties ----

HEADER = b"GEOID,NAME,POPULATION,GROUP,SEATS,GROUP_POPULATION\n"


class LabelledSet(NamedTuple):
    """A set of counties, as a table tells it."""

    label: bytes
    seats: int
    codes: List[str]


def labelled_withdrawn(words: Words, files: Files) -> List[LabelledSet]:
    """Returns the withdrawn sets of a run with their labels."""
    sets = enumerate(withdrawn_by(words, files), 1)
    return [LabelledSet(b"W%d" % place, seats, codes) for place, (seats, codes) in sets]


def labelled_groups(report: bytes) -> List[LabelledSet]:
    """Returns the groups of a report with their labels."""
    line = rb"^group ([0-9]+) seats ([0-9]+) people [0-9]+ counties (.*)$"
    found = re.findall(line, report, re.MULTILINE)
    return [LabelledSet(label, int(k), codes.decode().split(" ")) for label, k, codes in found]


def quoted(field: bytes) -> bytes:
    """Returns a field as a line of a table has it."""
    if re.search(rb'[,"\r\n]', field) is None:
        return field
    return b'"' + field.replace(b'"', b'""') + b'"'


def table_line(fields: Sequence[bytes]) -> bytes:
    """Returns the line of a table with these fields."""
    return b",".join(map(quoted, fields)) + b"\n"


def table_of(words: Words, files: Files, report: bytes) -> bytes:
    """Returns the table that a run of these words over these files stores beside its report."""
    people, names = people_by(words, files), names_by(words, files)
    sets, lines = labelled_withdrawn(words, files) + labelled_groups(report), [HEADER]
    for county in sorted(people):
        fields = [county.encode(), names[county], b"%d" % people[county], b"", b"", b""]
        for its_set in [it for it in sets if county in it.codes][:1]:
            inside = sum(people.get(code, 0) for code in {*its_set.codes})
            fields[3:] = its_set.label, b"%d" % its_set.seats, b"%d" % inside
        lines.append(table_line(fields))
    return b"".join(lines)


# ---- the table of all groupings ----

GROUPINGS_HEADER = b"GROUPING,GEOID,NAME,GROUP,SEATS\n"


def labelled_listed(groups: Sequence[ListedGroup], seats: Mapping[int, int]) -> List[LabelledSet]:
    """Returns the groups of a listed grouping with their labels.

    A group has the seats that are told of its number, as far as they suit.
    """
    sets = []
    for number, group in enumerate(groups, 1):
        its_seats = min(max(seats.get(number, 0), group.least), group.greatest)
        sets.append(LabelledSet(b"%d" % number, its_seats, group.codes))
    return sets


def groupings_table_of(words: Words, files: Files, listing: bytes, held: bytes) -> bytes:
    """Returns the table of all groupings that a run stores beside its listing.

    If several numbers of seats suit a group, it has the one that the stored table `held` tells of
    it. A number that doesn't suit becomes one that does, and so the tables differ.
    """
    told: Dict[int, Dict[int, int]] = {}
    for grouping, label, seats in re.findall(rb"(?m)^([0-9]+),.*,([0-9]+),([0-9]+)$", held):
        told.setdefault(int(grouping), {})[int(label)] = int(seats)
    names, withdrawn = names_by(words, files), labelled_withdrawn(words, files)
    lines = [GROUPINGS_HEADER]
    for number, groups in enumerate(groupings_in(listing), 1):
        sets = withdrawn + labelled_listed(groups, told.get(number, {}))
        for county in sorted(names):
            fields = [b"%d" % number, county.encode(), names[county], b"", b""]
            for its_set in [it for it in sets if county in it.codes][:1]:
                fields[3:] = its_set.label, b"%d" % its_set.seats
            lines.append(table_line(fields))
    return b"".join(lines)


# ---- the table of the districts ----

DISTRICTS_HEADER = b"DISTRICT,POPULATION,LEAST,GREATEST,SETS,COUNTIES\n"


def blocks_by(words: Words, files: Files) -> Dict[str, int]:
    """Returns the people of each block of a run's census files, by its code."""
    state = b"%02d" % number_by(words, "--state", 37)
    people_of: Dict[int, int] = {}
    blocks: Dict[str, int] = {}

    def read_record(fields: List[bytes]) -> None:
        """Notes the people of a record of segment 1."""
        people_of[check.number(fields[4])] = check.number(fields[5])

    def read_block(fields: List[bytes]) -> None:
        """Notes the people of a line, if it is that of a block."""
        if (fields[2], fields[4], fields[12]) == (b"750", b"00", state):
            blocks[fields[9].decode()] = people_of[check.number(fields[7])]

    check.read_file("segment1", held_by(words, files, "--segment"), 6, read_record)
    check.read_file("geo", held_by(words, files, "--geo"), 15, read_block)
    return blocks


def assignments_in(text: bytes) -> List[Tuple[str, bytes]]:
    """Returns the block and the label of each line of assignments, but for a header."""
    text = text[3:] if text.startswith(b"\xef\xbb\xbf") else text
    lines = [it[:-1] if it.endswith(b"\r") else it for it in text.split(b"\n")]
    lines = [it for it in lines if it]
    delimiter = b"|" if lines and b"|" in lines[0] else b","
    rows = [it.split(delimiter) for it in lines]
    if rows and re.fullmatch(rb"[0-9]{15}", rows[0][0]) is None:
        rows = rows[1:]
    return [(row[0].decode(), row[1]) for row in rows]


def district_bounds(words: Words, files: Files) -> Tuple[int, int]:
    """Returns the least and the greatest people of one seat."""
    total, chamber = sum(people_by(words, files).values()), number_by(words, "--chamber", 0)
    part, whole = tolerance_by(words)
    least = -(-(whole - part) * total // (whole * chamber))
    return least, (whole + part) * total // (whole * chamber)


def districts_by(words: Words, files: Files, counties: Set[str]) -> Dict[bytes, List[str]]:
    """Returns the listed blocks of each district, by its label.

    Each block stands once. Only those in these counties, which have a set, are listed.
    """
    districts: Dict[bytes, List[str]] = {}
    blocks = {it for it in blocks_by(words, files) if it[:5] in counties}
    for block, label in {*assignments_in(held_by(words, files, "--assignments"))}:
        if block in blocks and label not in (b"", b"ZZZ"):
            districts.setdefault(label, []).append(block)
    return districts


def label_field(label: bytes) -> bytes:
    """Returns the field of a district's label, after a single quote if it would be a formula."""
    return b"'" + label if label[:1] in (b"=", b"+", b"-", b"@") else label


def districts_table_of(words: Words, files: Files) -> bytes:
    """Returns the table of the districts that an audit stores beside its findings."""
    groups = enumerate(grouping_by(words, files, "--grouping"), 1)
    sets = [LabelledSet(b"%d" % place, seats, codes) for place, (seats, codes) in groups]
    sets += labelled_withdrawn(words, files)
    label_of = {code: its.label for its in reversed(sets) for code in its.codes}
    districts, people = districts_by(words, files, {*label_of}), blocks_by(words, files)
    least, greatest = district_bounds(words, files)
    lines = [DISTRICTS_HEADER]
    for label in sorted(districts):
        counties = sorted({it[:5] for it in districts[label]})
        its_sets = {label_of[it] for it in counties}
        numbers = (sum(people[it] for it in districts[label]), least, greatest)
        fields = [label_field(label), *(b"%d" % it for it in numbers)]
        fields.append(b" ".join(it.label for it in sets if it.label in its_sets))
        fields.append(" ".join(counties).encode())
        lines.append(table_line(fields))
    return b"".join(lines)


# ---- the record of a run ----

# The words of a record for files which are read, each with the option that names the file, in the
# order in which the files are read.
CENSUS = [("geo", "--geo"), ("segment1", "--segment")]
MAP = [("adjacency", "--adjacency"), ("links", "--links"), ("withdrawn", "--withdrawn")]
PLAN = [
    ("grouping", "--grouping"),
    ("grouping", "--which"),
    ("certificate", "--certificate"),
    ("events", "--events"),
    ("assignments", "--assignments"),
]
INPUTS = [*CENSUS, ("people", "--people"), *MAP, *PLAN]
INPUT = "|".join(dict.fromkeys(file for file, _ in INPUTS))
# The words of files whose option names a file to store, by the commands where it does.
STORED = {"certificate": ("solve", "share"), "events": ("solve",)}
ESCAPED, SUM = r"(?:[ -\[\]-~]|\\x[0-9A-F]{2})*", rf"{NUMBER} [0-9a-f]{{64}}"
RECORD = (
    rf"countygroups record 1\nversion {ESCAPED}\n(?:word {ESCAPED}\n)*"
    rf"(?:read (?:{INPUT}) {SUM} {ESCAPED}\n)*"
    rf"(?:stored (?:certificate|out|table|groupings|districts|events) {SUM} {ESCAPED}\n)*"
    rf"status {NUMBER}\nanswer {ESCAPED}\n"
)


def is_record(text: bytes) -> bool:
    """Returns whether a text is one of a record's form."""
    return re.fullmatch(RECORD, text.decode("latin-1")) is not None


def escaped(text: bytes) -> bytes:
    """Returns the bytes of a text as a record has them."""
    return re.sub(rb"[^ -\[\]-~]", lambda it: b"\\x%02X" % ord(it[0]), text)


def answer_of(text: bytes) -> bytes:
    """Returns the answer that a text gives.

    Of an object it is the member `answer`. Of another text it is the first line that begins with
    `answer `, without this word, and else the first line.
    """
    lines = text.split(b"\n")
    if text.startswith(b'{"answer":'):
        return str(json.loads(lines[0])["answer"]).encode()
    answers = [it[len(b"answer ") :] for it in lines if it.startswith(b"answer ")]
    return (answers or lines)[0]


def sum_of(held: bytes) -> bytes:
    """Returns how many bytes these are, and their sum."""
    return b"%d %s" % (len(held), hashlib.sha256(held).hexdigest().encode())


def read_lines(words: Words, files: Files, record: bytes) -> List[bytes]:
    """Returns the lines that a record has for the files that the words name, in order of reading.

    A file that was left is taken as far as the record says.
    """
    lines = []
    has_people = named_by(words, "--people") is not None
    inputs = [("people", "--people"), *MAP, *CENSUS, *PLAN] if has_people else INPUTS
    for file, option in inputs:
        name = named_by(words, option)
        if name is None or words[0] in STORED.get(file, ()):
            continue
        lines.append(read_line(file, name, held_by(words, files, option), record))
    if words[0] == "worker":
        name = "/dev/stdin"
        lines.append(read_line("events", name, files.get(name, b""), record))
    return lines


def read_line(file: str, name: str, held: bytes, record: bytes) -> bytes:
    """Returns the line that a record has for a file of these bytes."""
    is_left = False
    head, shown = f"read {file} ".encode(), escaped(os.fsencode(name))
    left_line = rb"^%s([0-9]+) [0-9a-f]{64} %s left$" % (head, re.escape(shown))
    left = re.search(left_line, record, re.MULTILINE)
    if left is not None:
        held, is_left = held[: int(left[1])], True
    return head + sum_of(held) + b" " + shown + b" left" * is_left


def wrong_record(
    words: Words,
    files: Files,
    stored: Iterable[Tuple[str, str, bytes]],
    text: bytes,
    status: int,
    record: bytes,
) -> Optional[str]:
    """Returns what is wrong with the record of a run of these words over these files, or None.

    `stored` has the option, the name and the bytes of each file that the run stored besides.
    """
    lines = record.split(b"\n")
    wanted = [*lines[:2], *(b"word " + escaped(os.fsencode(word)) for word in words)]
    wanted += read_lines(words, files, record)
    for option, name, held in stored:
        shown = escaped(os.fsencode(name))
        wanted.append(b"stored %s %s %s" % (option.encode(), sum_of(held), shown))
    wanted += [b"status %d" % status, b"answer " + escaped(answer_of(text)), b""]
    for one, other in zip(wanted, lines):
        if one != other:
            return f"record: it has {other[:160]!r}, wanted {one[:160]!r}"
    if len(wanted) != len(lines):
        return f"record: it has {len(lines)} lines, wanted {len(wanted)}"
    return None
