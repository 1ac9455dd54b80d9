"""The sweeps over a case: each run again with one allocation or one call refused.

`cases.py --help` says what is promised then.
"""
from __future__ import annotations

import hashlib
import os
import random
import re
from typing import Collection, Dict, Iterable, Iterator, List, Optional, Protocol, Sequence, Tuple
from typing import Union

from given_files import Forms, as_given
from json_answers import NoAnswer, asks_for_object, text_of
from program_runs import EIO, EINTR, Followed, Refusal, files_below, fresh_folder, run

# ---- events that `share` was refused memory for ----

EVENT = rb"(?:hand|result|part|split|better|wider) "
# the command whose answers are written while it runs
AT_ONCE = "worker"


def events_in(text: bytes) -> List[bytes]:
    """Returns the events of a text, each with all its lines."""
    found: List[bytes] = re.findall(rb"(?m)^" + EVENT + rb".*\n(?:(?!" + EVENT + rb").*\n)*", text)
    return found


def named_by(words: Sequence[str], option: str) -> Optional[str]:
    """Returns the word that an option is given, or None."""
    for i, word in enumerate(words):
        if word == option and i + 1 < len(words):
            return words[i + 1]
        if word.startswith(f"{option}="):
            return word[len(option) + 1 :]
    return None


def file_in_case(given: bytes, name: str) -> Optional[Tuple[int, int]]:
    """Returns where the bytes of a file begin and end in a case, or None.

    A later file of the name replaces an earlier one.
    """
    found = None
    for head in re.finditer(rb"(?m)^file (.*)\n", given):
        if head[1] == name.encode():
            following = given.find(b"\nfile ", head.end() - 1)
            found = head.end(), len(given) if following < 0 else following + 1
    return found


def refused_places(wrote: bytes, count: int) -> List[int]:
    """Returns which of the first `count` replies say that memory was refused, from 0."""
    replies = wrote.splitlines(keepends=True)[:count]
    return [i for i, reply in enumerate(replies) if reply == b"memory\n"]


def with_refusals(text: bytes, places: Iterable[int]) -> bytes:
    """Returns the text with a reply `memory` at each of these places."""
    replies = text.splitlines(keepends=True)
    for place in places:
        replies.insert(place, b"memory\n")
    return b"".join(replies)


def with_record_of(text: bytes, given: bytes, first: bytes) -> bytes:
    """Returns the text with its record, if it has one, of a run with other events.

    The events file has the bytes `given`, and `first` is the first line of the run.
    """
    head, mark, record = text.rpartition(b"countygroups record 1\n")
    if not mark:
        return text
    sums = f"read events {len(given)} {hashlib.sha256(given).hexdigest()} ".encode()
    record = re.sub(rb"(?m)^read events \d+ [0-9a-f]{64} ", sums, record)
    return head + mark + re.sub(rb"(?m)^answer .*$", b"answer " + first, record)


def without_places(events: Sequence[bytes], places: Collection[int]) -> bytes:
    """Returns the text of the events, without those at these places."""
    return b"".join(it for i, it in enumerate(events) if i not in places)


# ---- which calls are refused ----

# Of a run that is sampled, how many calls at either end are refused, and how many between them.
AT_AN_END, BETWEEN = 20, 60
Files = Dict[str, bytes]
# The names of files beside outputs, which a run opens before it searches.
PART_FILE = re.compile(r"\.countygroups[2-9]?\.part$")


def sampled(numbers: Sequence[int], seed: str) -> List[int]:
    """Returns the first and the last of these numbers, and some between them that the seed picks.

    If there are no more of them, all are returned.
    """
    if len(numbers) <= 2 * AT_AN_END + BETWEEN:
        return [*numbers]
    picked = random.Random(seed).sample(numbers[AT_AN_END:-AT_AN_END], BETWEEN)
    return [*numbers[:AT_AN_END], *sorted(picked), *numbers[-AT_AN_END:]]


class Swept(Protocol):
    """What a sweep asks of a case, as `cases.Case` has it."""

    stem: str
    program: str
    runs: List[List[str]]
    given: bytes
    files: Files
    forms: Forms
    most: int


class Sweep:
    """What the runs of one case with refusals gave."""

    def __init__(
        self, case: Swept, program: str, room: str, most: int, sample: Optional[str] = None
    ) -> None:
        self.case, self.program, self.room, self.sample = case, program, room, sample
        self.most = min(it for it in (most, case.most, 1 << 60) if it)
        self.faults: List[str] = []
        self.tried = self.met = self.cut = 0
        # the files that lie there before each run
        self.earlier: Dict[int, Files] = {}
        # the ordinary runs of `share` without some events: by the run, and the places of these
        self.shorter: Dict[Tuple[int, Tuple[int, ...]], Tuple[Followed, Files]] = {}

    def refused_of(self, numbers: Sequence[int], upto: int, how: str) -> List[int]:
        """Returns which of the calls or allocations of a run, by these numbers, are refused so.

        The others are counted.
        """
        chosen = [it for it in numbers if it <= self.most]
        if self.sample is not None:
            folder, name = os.path.split(self.case.stem)
            seed = f"{self.sample} {os.path.basename(folder)}/{name} {upto} {how}"
            chosen = sampled(chosen, seed)
        self.cut += len(numbers) - len(chosen)
        return chosen

    def run_once(
        self,
        words: List[str],
        folder: str,
        given: bytes,
        follow: str = "",
        refuse: Optional[Refusal] = None,
    ) -> Followed:
        """Runs the program once: the one place that says how, and how something is refused."""
        with as_given(folder, self.case.files, self.case.forms):
            return run(self.program, words, folder, given, follow=follow, refuse=refuse)

    def left_behind(
        self,
        found: Files,
        before: Files,
        after: Files,
        plain: Followed,
        calls: int = 0,
        allocations: int = 0,
    ) -> Optional[str]:
        """Returns what is wrong with the files that were found.

        Each is as `before` or as `after`, or as the ordinary run `plain` stored it first. Each that
        was there is there, and so is each that was stored before this call or allocation.
        """
        for name, held in found.items():
            if held not in (before.get(name), after.get(name), *plain.stored.get(name, ())):
                return f"the file {name} is neither whole nor absent ({len(held)} bytes)"
        for name, put_calls, put_allocations in plain.puts:
            is_put = put_calls < calls or calls == 0 and put_allocations < allocations
            if is_put and name not in found:
                return f"the file {name}, which was stored before, is gone"
        gone = [it for it in before if it not in found]
        return f"the file {gone[0]} is gone" if gone else None

    def prepare(self, upto: int) -> str:
        """Returns the folder as it is before a run.

        The earlier runs are made once, and leave their files.
        """
        if upto not in self.earlier:
            folder = fresh_folder(self.room, self.case.files)
            for words in self.case.runs[:upto]:
                self.run_once(words, folder, self.case.given)
            self.earlier[upto] = files_below(folder)
        return fresh_folder(self.room, self.earlier[upto])

    def fault(self, upto: int, what: str, why: str, made: Followed) -> None:
        """Notes what is wrong with a run."""
        words = " ".join(self.case.runs[upto])
        by = f" in run {upto + 1}" if len(self.case.runs) > 1 else ""
        wrote = made.wrote[:160].decode(errors="replace")
        told = made.told[:300].decode(errors="replace")
        ending = f"status {made.status}, wrote `{wrote}`, told `{told}`"
        self.faults.append(f"{what}{by}: {why}; {ending}{f', words {words}' if words else ''}")

    def reference(self, upto: int) -> Tuple[Files, Files, Followed]:
        """Returns the files before and after an ordinary run, and the run."""
        folder = self.prepare(upto)
        before = files_below(folder)
        plain = self.run_once(self.case.runs[upto], folder, self.case.given, follow="calls memory")
        return before, files_below(folder), plain

    def words_of(self, upto: int) -> List[str]:
        """Returns the words of a run."""
        in_case = self.case.given.split(b"\n")[0].decode(errors="replace").split(" ")
        return self.case.runs[upto] or in_case

    def events_of(self, upto: int) -> Tuple[Optional[str], List[bytes]]:
        """Returns the name of the events file of a run of `share`, and its events.

        Of any other run there is no name.
        """
        words = self.words_of(upto)
        name = named_by(words, "--events") if words[0] == "share" else None
        if name is None:
            return None, []
        return name, events_in(self.events_text(upto, name))

    def events_text(self, upto: int, name: str) -> bytes:
        """Returns the bytes of the events file of a run of `share`, or none if it isn't there.

        An earlier run may have stored it.
        """
        if self.case.runs[upto]:
            self.prepare(upto)
            return self.earlier[upto].get(name, b"")
        return self.case.given[slice(*file_in_case(self.case.given, name) or (0, 0))]

    def run_with_events(self, upto: int, name: str, text: bytes) -> Tuple[Followed, Files]:
        """Returns the ordinary run where the events file has this text, and the files after it."""
        folder, given = self.prepare(upto), self.case.given
        if self.case.runs[upto]:
            with open(f"{folder}/{name}", "wb") as it:
                it.write(text)
        else:
            begin, end = file_in_case(given, name) or (0, 0)
            given = given[:begin] + text + given[end:]
        made = self.run_once(self.case.runs[upto], folder, given, follow="calls memory")
        left = files_below(folder)
        if self.case.runs[upto] and left.get(name) == text:
            left[name] = self.earlier[upto][name]
        return made, left

    def where_refused(self, upto: int, made: Followed) -> Optional[Tuple[Followed, Files]]:
        """Returns what an ordinary run without refused events gives, with their lines.

        The events are those for whose lines a run of `share` says that memory was refused. If there
        are none, it is None. The files are those that lie there afterwards.
        """
        name, events = self.events_of(upto)
        places = tuple(refused_places(made.wrote, len(events)))
        if name is None or not places:
            return None
        if (upto, places) not in self.shorter:
            text = without_places(events, places)
            other, left = self.run_with_events(upto, name, text)
            wrote = with_refusals(other.wrote, places)
            whole, first = self.events_text(upto, name), wrote.partition(b"\n")[0]
            other.wrote = with_record_of(wrote, whole, first)
            left = {at: with_record_of(held, whole, first) for at, held in left.items()}
            self.shorter[upto, places] = other, left
        return self.shorter[upto, places]

    def is_memory(self, upto: int, plain: Followed, made: Followed) -> bool:
        """Returns whether a run answered that memory was refused.

        `worker` may say so behind what it has answered until then.
        """
        if self.case.program:
            return made.status == 1 and made.told != b"" and plain.wrote.startswith(made.wrote)
        first, mark, rest = made.wrote.rpartition(b"memory\n")
        is_at_once = self.words_of(upto)[0] == AT_ONCE
        is_behind = is_at_once and plain.wrote.startswith(first) and first.endswith(b"\n")
        return mark != b"" and rest == b"" and made.status == 5 and (not first or is_behind)

    def memory(self) -> None:
        """Refuses each allocation of each run in turn."""
        for upto in range(len(self.case.runs)):
            before, after, plain = self.reference(upto)
            for number in self.refused_of(range(1, plain.allocations + 1), upto, "memory"):
                self.refuse_memory(upto, number, before, after, plain)

    def refuse_memory(
        self, upto: int, number: int, before: Files, after: Files, plain: Followed
    ) -> None:
        """Refuses one allocation of a run."""
        folder, words = self.prepare(upto), self.case.runs[upto]
        refuse = (number, "memory")
        made = self.run_once(words, folder, self.case.given, follow="memory", refuse=refuse)
        # (what is asked of `share` below runs in the same folder)
        found = files_below(folder)
        self.tried += 1
        is_memory = self.is_memory(upto, plain, made)
        self.met += is_memory
        what = f"allocation {number} of {plain.allocations} refused"
        of_events = None if is_memory else self.where_refused(upto, made)
        wanted, files = of_events or (plain, after)
        self.met += wanted is not plain
        if not is_memory and (made.wrote, made.status) != (wanted.wrote, wanted.status):
            why = "neither the answer for refused memory nor the ordinary one"
            self.fault(upto, what, why, made)
        wrong = None
        if not self.case.program:
            wrong = self.left_behind(found, before, files, wanted, allocations=number)
        if wrong:
            self.fault(upto, what, wrong, made)
        elif not is_memory and found != files:
            self.fault(upto, what, "the ordinary answer without its files", made)

    def io(self) -> None:
        """Refuses each call of each run in turn, interrupts it, and has it move one byte."""
        ways: List[Tuple[Union[int, str], str]] = [(EIO, "refused")]
        ways += [(EINTR, "interrupted"), ("short", "of one byte")]
        for upto in range(len(self.case.runs)):
            before, after, plain = self.reference(upto)
            for how, said in ways:
                calls = [i for i, (_, moves) in enumerate(plain.calls, 1) if moves or how == EIO]
                for number in self.refused_of(calls, upto, said):
                    self.refuse_call(upto, (number, how), said, before, after, plain)

    def refuse_call(
        self,
        upto: int,
        refuse: Refusal,
        said: str,
        before: Files,
        after: Files,
        plain: Followed,
    ) -> None:
        """Refuses one call of a run."""
        number, how = refuse
        call = plain.calls[number - 1][0]
        folder, words = self.prepare(upto), self.case.runs[upto]
        made = self.run_once(words, folder, self.case.given, follow="calls", refuse=refuse)
        self.tried += 1
        what = f"call {number} of {len(plain.calls)}, `{call}`, {said}"
        ordinary = (made.wrote, made.status) == (plain.wrote, plain.status)
        self.met += not ordinary
        has_object = asks_for_object(self.words_of(upto))
        if how == EIO and not ordinary and not is_device(made, plain, call, has_object):
            why = "neither status 5 with its line nor the ordinary answer"
            self.fault(upto, what, why, made)
        if how != EIO and not ordinary:
            self.fault(upto, what, "not the ordinary answer", made)
        found = files_below(folder)
        if how == EIO and call.startswith("unlink"):
            # (the file beside an output stays, and a later run takes it over)
            found = {name: held for name, held in found.items() if not PART_FILE.search(name)}
        wrong = self.left_behind(found, before, after, plain, calls=number)
        if wrong:
            self.fault(upto, what, wrong, made)
        elif ordinary and found != after:
            self.fault(upto, what, "the ordinary answer without its files", made)


def is_device(made: Followed, plain: Followed, call: str, has_object: bool) -> bool:
    """Returns whether a run says with status 5 that a device failed.

    If its words ask for an object (`has_object`), the line is the message of one, unless the case
    couldn't be read. If a write to standard output was refused, the run may end in the midst of its
    answer.
    """
    said = made.wrote
    if has_object and not said.startswith(b"device case "):
        try:
            said = text_of(said).encode()
        except NoAnswer:
            said = b""
    is_line = re.fullmatch(rb"device [^\n]* Device\n", said) is not None
    is_output = plain.wrote.startswith(made.wrote) and call.split()[-1] == "stdout"
    return made.status == 5 and (is_line or is_output)


# ---- tests ----


class ToyCase:
    """Stands for a case of `share` whose events file has this text."""

    def __init__(self, events: bytes) -> None:
        self.stem, self.program, self.most = "cases/toy", "", 0
        self.runs: List[List[str]] = [[]]
        self.given = b"share --events e\nfile e\n" + events
        self.files: Files = {}
        self.forms = Forms()


class ToyShare(Sweep):
    """Stands for `share` in a test.

    The line of each event says how many lines have come so far, and so does the last line.
    """

    def __init__(self, events: bytes) -> None:
        super().__init__(ToyCase(events), "", "", 0)

    def prepare(self, upto: int) -> str:
        """Returns no folder: what the earlier runs left stands in `earlier`."""
        return ""

    def run_with_events(self, upto: int, name: str, text: bytes) -> Tuple[Followed, Files]:
        """Returns what stands for an ordinary run."""
        made, total = Followed(), 0
        for event in events_in(text):
            total += event.count(b"\n")
            made.wrote += b"sum %d\n" % total
        made.wrote += b"left %d\n" % total
        return made, {name: text}

    def wanted(self, wrote: bytes) -> Optional[bytes]:
        """Returns the text that is wanted where the program wrote this one."""
        wanted = self.where_refused(0, Followed(wrote))
        return wanted and wanted[0].wrote


Test = Tuple[str, object, object]
TEXT = (
    b"hand 1\nresult 1 2\nbound 1\nroom\nbetter 1 1\ngroup 1 37001\nwider 2\nsplit 1 1 37001 2\n"
    b"result 1 1\nseats\n"
)


def tests() -> Iterator[Test]:
    """Yields what is tested of sweeps: a name, what is found, and what is wanted."""
    events = events_in(TEXT)
    yield "each event has its lines", [it.count(b"\n") for it in events], [1, 3, 2, 1, 1, 2]
    yield "no line is lost", b"".join(events), TEXT
    parts = events_in(b"part 1 3\nbranch 37001\ngroup\nopen\npart 1 4\nopen\n")
    yield "each part has its lines", [it.count(b"\n") for it in parts], [4, 2]
    yield "no event", events_in(b""), []
    yield "an option and its word", named_by(["share", "--events", "e"], "--events"), "e"
    yield "an option and its word in one", named_by(["share", "--events=e f"], "--events"), "e f"
    yield "no such option", named_by(["share", "--eventsfile", "e"], "--events"), None
    yield "an option without its word", named_by(["share", "--events"], "--events"), None
    case = b"share --events e --geo=x\nfile e\nhand 1\nfile f\nhand 2\nfile e\nhand 3\nhand 4"
    later, before = file_in_case(case, "e"), file_in_case(case, "f")
    yield "the later file of a name", case[slice(*later or ())], b"hand 3\nhand 4"
    yield "a file before another", case[slice(*before or ())], b"hand 2\n"
    yield "no such file", file_in_case(case, "g"), None
    yield "a file without bytes", file_in_case(b"share\nfile e\nfile f\nx", "e"), (13, 13)
    yield from tests_of_refused_events(events)
    yield from tests_of_devices()
    yield from tests_of_samples()


def tests_of_refused_events(events: List[bytes]) -> Iterator[Test]:
    """Yields what is tested of the rule for refused events."""
    lines = b"memory\naccepted\nmemory\nmemory\n"
    yield "lines of refused events", refused_places(lines, 3), [0, 2]
    yield "no refused event", refused_places(b"accepted\njoined\nfile memory\nmemory\n", 1), []
    among = with_refusals(b"accepted\nleft 1\n", [1])
    yield "a refused event among others", among, b"accepted\nmemory\nleft 1\n"
    yield "all events refused", with_refusals(b"left 1\n", [0, 1]), b"memory\nmemory\nleft 1\n"
    record = b"joined\nfile r\ncountygroups record 1\nread events 9 " + b"0" * 64
    record += b" e\nstatus 0\nanswer accepted\n"
    told = with_record_of(record, b"", b"memory").split(b"\n")[3:6]
    read = b"read events 0 " + hashlib.sha256().hexdigest().encode() + b" e"
    yield "a record of all events", told, [read, b"status 0", b"answer memory"]
    yield "a text without a record", with_record_of(b"joined\n", b"", b"memory"), b"joined\n"
    fewer = without_places(events, (1, 2, 5))
    yield "a text of fewer events", fewer, b"hand 1\nwider 2\nsplit 1 1 37001 2\n"
    toy = ToyShare(TEXT)
    wanted = b"sum 1\nmemory\nsum 3\nsum 4\nsum 5\nsum 7\nleft 7\n"
    yield "later lines follow", toy.wanted(b"sum 1\nmemory\nsum 9\n"), wanted
    wanted = b"memory\nsum 3\nsum 5\nsum 6\nmemory\nsum 8\nleft 8\n"
    found = toy.wanted(b"memory\nsum 3\nsum 5\nsum 6\nmemory\n")
    yield "two events are refused", found, wanted
    yield "none is refused", toy.wanted(b"sum 1\nsum 4\n"), None
    yield "an events file without events", ToyShare(b"").events_of(0), ("e", [])
    stored = ToyShare(b"")
    stored.case.runs = [["solve"], ["share", "--events", "f"]]
    stored.earlier[1] = {"f": b"hand 1\nhand 2\n"}
    found_events = ("f", [b"hand 1\n", b"hand 2\n"])
    yield "an events file of an earlier run", stored.events_of(1), found_events


def tests_of_devices() -> Iterator[Test]:
    """Yields what is tested of the answer to a device that failed."""

    def of(wrote: bytes, has_object: bool, call: str = "read g") -> bool:
        """Returns whether a run says that a device failed, in place of its answer."""
        return is_device(Followed(wrote, status=5), Followed(b"people 1\n"), call, has_object)

    line, message = b"device g Device\n", b'{"message":"device g Device"}\n'
    yield "a device that failed", (of(line, False), of(message, True)), (True, True)
    yield "a device in the other form", (of(line, True), of(message, False)), (False, False)
    yield "a case that can't be read", of(b"device case Device\n", True), True
    yield "an answer in part", (of(b"peo", False), of(b"peo", True)), (False, False)
    yield "an answer in part to standard output", of(b"peo", True, "write stdout"), True


def tests_of_samples() -> Iterator[Test]:
    """Yields what is tested of samples."""
    yield "a sample of a short run", sampled([*range(100)], "1"), [*range(100)]
    sample = sampled([*range(1000)], "1")
    ends = ([*range(20)], [*range(980, 1000)])
    yield "the ends of a sample", (sample[:20], sample[-20:]), ends
    in_order = (100, sorted(sample))
    yield "a sample is in order, with no call twice", (len({*sample}), sample), in_order
    yield "a seed picks the same again", sampled([*range(1000)], "1"), sample
    yield "another seed picks others", sampled([*range(1000)], "2") != sample, True
