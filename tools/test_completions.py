#!/usr/bin/env python3
"""Tests the completions of `completions/` in bash, zsh and fish.

usage: python3 tools/test_completions.py [--program FILE]

--program FILE: a build of the program; by default that of `dist/`.

The files have to be those that `tools/completions.py` makes of what the program says. Then each
shell that is installed is asked what it offers: the commands, the options of each command, and
names of files behind the options that take one. A shell that isn't installed is passed over, and
that is said.
"""
from __future__ import annotations

import os
import pty
import select
import shutil
import signal
import subprocess
import tempfile
import time

import completions
from installed import program_there
from tested_program import OverHelp, run_tests

FILES = ("nc2020geo.pl", "north.txt", "senate.csv")
ANSWER_SECONDS = 120.0
BASH_ASKS = """
source "$1"
while IFS= read -r line; do
    read -r -a COMP_WORDS <<<"${line//=/ = }"
    case $line in *' ' | *=) COMP_WORDS+=("") ;; esac
    COMP_CWORD=$((${#COMP_WORDS[@]} - 1))
    _countygroups
    printf '%s\\n' "${COMPREPLY[@]}" .
done
"""
FISH_ASKS = """
source $argv[1]
while read --line line
    complete -C $line
    echo .
end
"""
# The widget asks for a completion, and keeps what would be offered in place of offering it.
ZSH_STARTUP = """
PROMPT= RPROMPT= LISTMAX=1000
unsetopt zle_bracketed_paste 2>/dev/null
fpath=($FOLDER $fpath)
autoload -Uz compinit && compinit -u -D
compadd() {
    case " ${@[1,(i)(-|--)]} " in *\\ -[OAD]\\ *) builtin compadd "$@"; return ;; esac
    local -a hits
    builtin compadd -A hits "$@"
    found+=("${hits[@]}")
    (( $#hits ))
}
report() {
    found=()
    zle complete-word
    print -rl -- $found > $ANSWER.part
    mv $ANSWER.part $ANSWER
    BUFFER=
}
zle -N report
bindkey '^T' report
touch $ANSWER.ready
"""


def offered_in(text: str) -> list[set[str]]:
    """Returns the words of each answer in `text`, which a line `.` ends, without descriptions."""
    answers: list[set[str]] = [set()]
    for line in text.splitlines():
        if line == ".":
            answers.append(set())
        elif line:
            answers[-1].add(line.partition("\t")[0])
    return answers[:-1]


def ask_bash(room: str, lines: list[str]) -> list[set[str]]:
    """Returns what bash offers behind each of `lines`, in the folder `room`."""
    words = ["bash", "--norc", "-c", BASH_ASKS, "bash", f"{completions.FOLDER}/countygroups.bash"]
    text = "".join(f"{line}\n" for line in lines)
    ran = subprocess.run(words, cwd=room, input=text, capture_output=True, text=True, check=True)
    return offered_in(ran.stdout)


def ask_fish(room: str, lines: list[str]) -> list[set[str]]:
    """Returns what fish offers behind each of `lines`, in the folder `room`."""
    words = ["fish", "--no-config", "-c", FISH_ASKS, f"{completions.FOLDER}/countygroups.fish"]
    text = "".join(f"{line}\n" for line in lines)
    how = {**os.environ, "HOME": room}
    ran = subprocess.run(
        words, cwd=room, env=how, input=text, capture_output=True, text=True, check=True
    )
    return offered_in(ran.stdout)


class Zsh:
    """A zsh at a terminal of its own, in the folder `room`."""

    def __init__(self, room: str) -> None:
        self.answer = os.path.join(room, ".answer")
        with open(os.path.join(room, ".zshrc"), "w", encoding="utf-8") as file:
            file.write(ZSH_STARTUP)
        how = {"ZDOTDIR": room, "HOME": room, "FOLDER": completions.FOLDER, "ANSWER": self.answer}
        self.process, self.terminal = pty.fork()
        if self.process == 0:
            os.chdir(room)
            os.execvpe("zsh", ["zsh", "-i"], {**os.environ, **how, "TERM": "vt100"})
        self.wait_for(f"{self.answer}.ready")

    def wait_for(self, path: str) -> str:
        """Returns the text of the file at `path` once it is there, and takes it away."""
        end = time.monotonic() + ANSWER_SECONDS
        said = b""
        while not os.path.exists(path):
            if select.select([self.terminal], [], [], 0.01)[0]:
                said += os.read(self.terminal, 65536)
            if time.monotonic() > end:
                raise TimeoutError(f"zsh gives no answer; it says {said[-500:]!r}")
        with open(path, encoding="utf-8") as file:
            text = file.read()
        os.unlink(path)
        return text

    def ask(self, line: str) -> set[str]:
        """Returns what zsh offers behind `line`."""
        os.write(self.terminal, line.encode() + b"\x14")
        return {word.strip() for word in self.wait_for(self.answer).splitlines()} - {""}

    def close(self) -> None:
        """Ends the shell."""
        os.kill(self.process, signal.SIGHUP)
        os.close(self.terminal)
        os.waitpid(self.process, 0)


def ask_zsh(room: str, lines: list[str]) -> list[set[str]]:
    """Returns what zsh offers behind each of `lines`, in the folder `room`."""
    shell = Zsh(room)
    try:
        return [shell.ask(line) for line in lines]
    finally:
        shell.close()


SHELLS = {"bash": ask_bash, "zsh": ask_zsh, "fish": ask_fish}


class TestFiles(OverHelp):
    """The files of completions."""

    def test_they_are_those_of_the_program(self) -> None:
        """They are made of what the program says."""
        for name, text in completions.texts_of(self.help).items():
            with open(os.path.join(completions.FOLDER, name), encoding="utf-8") as file:
                self.assertEqual(file.read(), text, f"run tools/completions.py: {name} differs")


class TestShells(OverHelp):
    """What the shells offer, in a folder with some files."""

    def setUp(self) -> None:
        self.room = tempfile.mkdtemp(prefix="test-completions-")
        self.addCleanup(shutil.rmtree, self.room)
        for name in FILES:
            with open(os.path.join(self.room, name), "w", encoding="utf-8"):
                pass

    def compare(self, wanted: dict[str, set[str]]) -> None:
        """Compares what each installed shell offers behind the lines with what is `wanted`."""
        for shell in SHELLS:
            with self.subTest(shell=shell):
                program_there(shell)
                self.compare_shell(shell, wanted)

    def compare_shell(self, shell: str, wanted: dict[str, set[str]]) -> None:
        """Compares what `shell` offers behind the lines with what is `wanted`."""
        lines = list(wanted)
        answers = SHELLS[shell](self.room, lines)
        self.assertEqual(len(answers), len(lines))
        for line, offered in zip(lines, answers):
            with self.subTest(line=line):
                # (fish offers `--geo=FILE` whole)
                words = {word.removeprefix("--geo=") for word in offered}
                self.assertEqual(words, wanted[line])

    def test_commands(self) -> None:
        """The first word is a command, or an option of the program."""
        options = {f"--{option.long}" for option in self.help.top.options}
        wanted: dict[str, set[str]] = {
            "countygroups s": {"size", "solve", "share"},
            "countygroups p": {"piece"},
            "countygroups --": options,
            "countygroups x": set(),
        }
        self.compare(wanted)

    def test_options(self) -> None:
        """Each command has its options, of which none is offered twice."""
        wanted = {
            f"countygroups {name} --": {f"--{option.long}" for option in of.options}
            for name, of in self.help.commands
        }
        self.assertEqual(len(wanted), len(self.help.top.commands))
        self.compare(wanted)

    def test_values(self) -> None:
        """Files are offered behind the options that take one, and nothing behind the others."""
        wanted: dict[str, set[str]] = {
            f"countygroups {name} --{option.long} n": set(FILES[:2]) if option.takes_file else set()
            for name, of in self.help.commands
            for option in of.options
            if option.value
        }
        wanted["countygroups size --geo=se"] = {"senate.csv"}
        wanted["countygroups solve --geo nc2020geo.pl --out s"] = {"senate.csv"}
        self.compare(wanted)


if __name__ == "__main__":
    run_tests(__doc__)
