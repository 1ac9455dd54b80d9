"""A small repository in a folder of its own, for the tests of what works on repositories."""
from __future__ import annotations

import os
import shutil
import subprocess
import tempfile
import unittest

from installed import program_there

# Who commits, in the environment of git.
WHO = {
    f"GIT_{role}_{part}": "tester" for role in ("AUTHOR", "COMMITTER") for part in ("NAME", "EMAIL")
}


def write(path: str, text: str, is_program: bool = False) -> None:
    """Writes `text` to the file at `path`, and makes the folders above it."""
    os.makedirs(os.path.dirname(path), exist_ok=True)
    with open(path, "w", encoding="utf-8") as file:
        file.write(text)
    if is_program:
        os.chmod(path, 0o755)


class InRepository(unittest.TestCase):
    """Tests over a repository that `setUp` makes at `top`, a folder of the folder `room`."""

    def setUp(self) -> None:
        program_there("git")
        self.room = tempfile.mkdtemp(prefix="trial-repository-")
        self.addCleanup(shutil.rmtree, self.room)
        self.top = f"{self.room}/top"

    def git(self, *words: str, **more: str) -> None:
        """Runs git in the repository, with `more` in its environment."""
        how = {**os.environ, **WHO, **more}
        subprocess.run(["git", *words], cwd=self.top, check=True, env=how)

    def commit(self, what: str, **more: str) -> None:
        """Commits all files by a message, with `more` in the environment of git."""
        self.git("add", ".")
        self.git("commit", "-q", "--allow-empty", "-m", what, **more)
