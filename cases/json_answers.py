"""The object that `--json` prints, made of the text of the same run, and the text of an object.

Both are those of `docs/reference/formats.md`. Nothing here is the program's own code. An object has
more than its text: the tolerance as the words give it, and the names of the counties.
"""
from __future__ import annotations

import json
import re
from typing import Any, Dict, List, Mapping, Optional, Sequence

# The commands that take `--json`.
COMMANDS = ("size", "judge", "solve", "check", "list", "audit")
# The commands whose object has the names of the counties.
WITH_NAMES = ("size", "judge", "solve", "check", "list")
Object = Dict[str, Any]


class NoAnswer(Exception):
    """A text that isn't an answer of the command, or an object that isn't one."""


def compact(value: object) -> bytes:
    """Returns a value as the program prints it: without blanks, on one line, in UTF-8."""
    return json.dumps(value, separators=(",", ":"), ensure_ascii=False).encode() + b"\n"


def asks_for_object(words: Sequence[str]) -> bool:
    """Returns whether the words ask for an object, if they are words of a command."""
    return bool(words) and words[0] in COMMANDS and "--json" in words[1:]


# ---- from the text to the object ----


class Lines:
    """The lines of a text, which are taken one after the other."""

    def __init__(self, text: str) -> None:
        if not text.endswith("\n"):
            raise NoAnswer(f"no line feed ends {text[-80:]!r}")
        self.left = text[:-1].split("\n")

    def after(self, beginning: str) -> Optional[str]:
        """Takes the next line if it begins with these words. Returns what is behind them."""
        if not self.left or not f"{self.left[0]} ".startswith(f"{beginning} "):
            return None
        return self.left.pop(0)[len(beginning) + 1 :]

    def needed(self, beginning: str) -> str:
        """Takes the next line, which has to begin with these words, as `after` does."""
        behind = self.after(beginning)
        if behind is None:
            raise NoAnswer(f"a line `{beginning}` is missing before {self.left[:1]}")
        return behind

    def number(self, beginning: str) -> int:
        """Takes the next line, which has these words and a number."""
        return int(self.needed(beginning))

    def all_after(self, beginning: str) -> List[str]:
        """Takes all next lines that begin with these words, as `after` does."""
        found: List[str] = []
        while self.left and self.left[0].startswith(f"{beginning} "):
            found.append(self.needed(beginning))
        return found


def matched(pattern: str, text: str) -> Sequence[str]:
    """Returns the groups of a pattern that the whole text matches."""
    found = re.fullmatch(pattern, text)
    if found is None:
        raise NoAnswer(f"{text!r} doesn't have the form {pattern}")
    return found.groups("")


def run_of(least: str, greatest: str) -> Optional[Dict[str, int]]:
    """Returns the member of two bounds, or None if the first one is `none`."""
    if least == "none":
        return None
    return {"least": int(least), "greatest": int(greatest or least)}


def numbers_of(words: str) -> List[int]:
    """Returns the numbers of a line of counts."""
    return [] if words == "none" else [int(it) for it in words.split(" ")]


def size_object(lines: Lines, first: Object) -> Object:
    """Returns the members of a size table behind the first ones."""
    district = matched(r"(none|\d+)(?: to (\d+))?", lines.needed("district"))
    sizes = []
    for line in lines.left:
        code, people, least, most = matched(r"(\d{5})\|(\d+)\|(none|\d+)(?:\|(\d+))?", line)
        sizes.append({"county": code, "people": int(people), "seats": run_of(least, most)})
    lines.left = []
    return {"answer": "sizes", **first, "district": run_of(*district), "sizes": sizes}


def group_object(line: str) -> Object:
    """Returns the group of a report that a line has behind `group`."""
    pattern = r"(\d+) seats (\d+) people (\d+) counties (.*)"
    number, seats, people, counties = matched(pattern, line)
    numbers = {"group": int(number), "seats": int(seats), "people": int(people)}
    return {**numbers, "counties": counties.split(" ")}


def grouping_members(lines: Lines) -> Object:
    """Takes the counts and the groups of a report, if it has them."""
    if lines.after("grouping none") is not None:
        return {"groups": None}
    counts = lines.after("counts")
    if counts is None:
        return {}
    groups = [group_object(it) for it in lines.all_after("group")]
    return {"counts": numbers_of(counts), "groups": groups}


def report_object(lines: Lines, answer: str, head: Object) -> Object:
    """Returns the members of a report whose answer is this one."""
    steps = re.fullmatch(r"open after (\d+) steps", answer)
    made: Object = {"answer": "open", "steps": int(steps[1])} if steps else {"answer": answer}
    made = {**made, **head, **grouping_members(lines)}
    greater = lines.after("greater counts")
    return made if greater is None else {**made, "greater_counts": numbers_of(greater)}


def set_object(line: str) -> Object:
    """Returns the group of a list that a line has behind `group`."""
    pattern = r"seats (\d+)(?: to (\d+))? people (\d+) counties (.*)"
    least, greatest, people, counties = matched(pattern, line)
    seats = run_of(least, greatest)
    return {"seats": seats, "people": int(people), "counties": counties.split(" ")}


def region_object(lines: Lines, line: str) -> Object:
    """Takes the alternatives of a region, whose line has this behind `region`.

    Each of them has all its counties.
    """
    number, count = matched(r"(\d+) counties \d+ alternatives (\d+)", line)
    alternatives: List[Object] = []
    for _ in range(int(count)):
        place = lines.number("alternative")
        groups = [set_object(it) for it in lines.all_after("group")]
        alternatives.append({"alternative": place, "groups": groups})
    groups = alternatives[0]["groups"] if alternatives else []
    counties = sorted(code for group in groups for code in group["counties"])
    return {"region": int(number), "counties": counties, "alternatives": alternatives}


def choice_members(lines: Lines) -> Object:
    """Takes what stands behind the regions of a list, up to the number."""
    if lines.after("every choice") is not None:
        return {"every_choice": True}
    choices = []
    for line in lines.all_after("grouping"):
        number, alternatives = matched(r"(\d+) alternatives (.*)", line)
        choices.append({"grouping": int(number), "alternatives": numbers_of(alternatives)})
    return {"every_choice": False, "groupings": choices}


def listing_object(lines: Lines, head: Object) -> Object:
    """Returns the members of a list."""
    made: Object = {"answer": "all", **head, "counts": numbers_of(lines.needed("counts"))}
    made["best_groupings"] = lines.number("best groupings")
    lines.needed("shared groups")
    made["shared_groups"] = [set_object(it) for it in lines.all_after("group")]
    made["regions"] = []
    while lines.left and lines.left[0].startswith("region "):
        made["regions"].append(region_object(lines, lines.needed("region")))
    made.update(choice_members(lines))
    number = lines.after("number")
    if number is not None:
        made["number"] = None if number == "none" else int(number)
    return made


def finding_object(line: str) -> Object:
    """Returns the finding of a line. A label may have blanks."""
    kind, _, rest = line.partition(" ")
    a_set = r"(group|withdrawn) (\d+)"
    if kind == "Grouping":
        return {"finding": kind, "fault": rest}
    if kind in ("UnknownBlock", "BlockTwice", "Unassigned"):
        return {"finding": kind, "block": matched(r"(\d{15})", rest)[0]}
    if kind == "Crosses":
        label, one, first, other, second = matched(rf"(.*) {a_set} {a_set}", rest)
        return {
            "finding": kind,
            "district": label,
            "sets": [{one: int(first)}, {other: int(second)}],
        }
    if kind == "WrongNumber":
        one, first, seats, districts = matched(rf"{a_set} seats (\d+) districts (\d+)", rest)
        numbers = {"seats": int(seats), "districts": int(districts)}
        return {"finding": kind, "set": {one: int(first)}, **numbers}
    label, people = matched(r"(.*) people (\d+)", rest)
    return {"finding": kind, "district": label, "people": int(people)}


def object_of(
    command: str, text: str, tolerance: Sequence[int], names: Optional[Mapping[str, str]]
) -> Object:
    """Returns the object of a text that a command writes.

    `tolerance` has the two numbers of the words. `names` has the name of each listed county by its
    code. A line that stands in place of an answer becomes a message.
    """
    lines = Lines(text)
    if command == "audit" and text.startswith("findings "):
        findings = [finding_object(it) for it in lines.left[1:]]
        return {"answer": "findings", "findings": findings}
    if not text.startswith("people "):
        if len(lines.left) > 1:
            raise NoAnswer(f"more than a line: {lines.left[:3]}")
        return {"message": lines.left[0]}
    first = {"people": lines.number("people"), "chamber": lines.number("chamber")}
    lines.after("window")
    made = with_answer(lines, {**first, "tolerance": [*tolerance]})
    if lines.left:
        raise NoAnswer(f"lines behind the answer: {lines.left[:3]}")
    return made if names is None else {**made, "names": {it: names[it] for it in sorted(names)}}


def with_answer(lines: Lines, first: Object) -> Object:
    """Returns the members of a size table, a report or a list, whose first ones are given."""
    if lines.left[:1] and lines.left[0].startswith("district "):
        return size_object(lines, first)
    seats_left, counties = lines.number("seats left"), lines.number("counties")
    head = {**first, "seats_left": seats_left, "counties": counties}
    answer = lines.needed("answer")
    return listing_object(lines, head) if answer == "all" else report_object(lines, answer, head)


# ---- from the object to the text ----


def run_text(run: Optional[Mapping[str, int]], between: str) -> str:
    """Returns two bounds with a word between them, or `none`."""
    return "none" if run is None else f"{run['least']}{between}{run['greatest']}"


def counts_text(counts: Sequence[int]) -> str:
    """Returns counts, or `none` if there are none."""
    return " ".join(map(str, counts)) or "none"


def first_lines(made: Object) -> List[str]:
    """Returns the first lines of an answer."""
    part, whole = made["tolerance"]
    window = [f"window {part} {whole}"] if 20 * part != whole else []
    return [f"people {made['people']}", f"chamber {made['chamber']}", *window]


def report_lines(made: Object) -> List[str]:
    """Returns the lines of a report behind the number of its counties."""
    steps = f" after {made['steps']} steps" if made["answer"] == "open" else ""
    lines = [f"answer {made['answer']}{steps}"]
    if made.get("groups", ()) is None:
        lines.append("grouping none")
    elif "groups" in made:
        lines.append(f"counts {counts_text(made['counts'])}")
        for it in made["groups"]:
            numbers = f"group {it['group']} seats {it['seats']} people {it['people']}"
            lines.append(f"{numbers} counties {' '.join(it['counties'])}")
    if "greater_counts" in made:
        lines.append(f"greater counts {counts_text(made['greater_counts'])}")
    return lines


def set_line(it: Object) -> str:
    """Returns the line of a group of a list."""
    seats = it["seats"]
    is_one = seats["least"] == seats["greatest"]
    told = str(seats["least"]) if is_one else run_text(seats, " to ")
    return f"group seats {told} people {it['people']} counties {' '.join(it['counties'])}"


def listing_lines(made: Object) -> List[str]:
    """Returns the lines of a list behind the number of its counties."""
    lines = ["answer all", f"counts {counts_text(made['counts'])}"]
    lines.append(f"best groupings {made['best_groupings']}")
    lines.append(f"shared groups {len(made['shared_groups'])}")
    lines += map(set_line, made["shared_groups"])
    for it in made["regions"]:
        alternatives = it["alternatives"]
        counted = f"counties {len(it['counties'])} alternatives {len(alternatives)}"
        lines.append(f"region {it['region']} {counted}")
        for one in alternatives:
            lines += [f"alternative {one['alternative']}", *map(set_line, one["groups"])]
    lines += ["every choice"] if made["every_choice"] else []
    for it in made.get("groupings", ()):
        lines.append(f"grouping {it['grouping']} alternatives {counts_text(it['alternatives'])}")
    if "number" in made:
        lines.append("number none" if made["number"] is None else f"number {made['number']}")
    return lines


def set_text(it: Mapping[str, int]) -> str:
    """Returns the kind and the number of a set."""
    ((kind, number),) = it.items()
    return f"{kind} {number}"


def finding_line(it: Object) -> str:
    """Returns the line of a finding."""
    kind = it["finding"]
    if kind == "Grouping":
        return f"{kind} {it['fault']}"
    if "block" in it:
        return f"{kind} {it['block']}"
    if kind == "Crosses":
        return f"{kind} {it['district']} {' '.join(map(set_text, it['sets']))}"
    if kind == "WrongNumber":
        return f"{kind} {set_text(it['set'])} seats {it['seats']} districts {it['districts']}"
    return f"{kind} {it['district']} people {it['people']}"


def lines_of(made: Object) -> List[str]:
    """Returns the lines of the text of an object."""
    if "message" in made:
        return [made["message"]]
    if made["answer"] == "findings":
        return [f"findings {len(made['findings'])}", *map(finding_line, made["findings"])]
    lines = first_lines(made)
    if made["answer"] == "sizes":
        lines.append(f"district {run_text(made['district'], ' to ')}")
        for it in made["sizes"]:
            lines.append(f"{it['county']}|{it['people']}|{run_text(it['seats'], '|')}")
        return lines
    lines += [f"seats left {made['seats_left']}", f"counties {made['counties']}"]
    return lines + (listing_lines(made) if made["answer"] == "all" else report_lines(made))


def text_of(line: bytes) -> str:
    """Returns the text of the object that a line has. Raises `NoAnswer` if it has none."""
    try:
        return "".join(f"{it}\n" for it in lines_of(json.loads(line.decode())))
    except (ValueError, KeyError, TypeError, AttributeError) as error:
        raise NoAnswer(f"no object of an answer: {error!r}") from None
