"""The heap of web/heap.c by itself, compiled for WebAssembly by the kit's clang."""
import re
import shutil
import subprocess
import tempfile
import unittest
from pathlib import Path

from web_setting import SETTING, TOP, WEB, run_node

from installed import NotThere, program_there

TEST = WEB / "test"
EXPORTS = TEST / "heap_exports.c"
FLAGS = ["--target=wasm64-unknown-unknown", "-mbulk-memory", "--no-default-config"]
FLAGS += ["-O1", "-fno-builtin", "-nostdlib", "-Wall", "-Werror"]
MOST_MEMORY = 64 << 20


def clang() -> str:
    """Returns the path of the kit's clang."""
    rt = shutil.which("rt")
    if rt is None:
        raise NotThere("there is no `rt`, whose kit has the clang that compiles the heap")
    done = subprocess.run([rt, "doc"], capture_output=True, text=True, check=True)
    return str(Path(done.stdout.strip()).parent / "toolchain" / "bin" / "clang")


def compile_heap(heap: Path, room: Path) -> Path:
    """Returns a lowered module of the functions of `heap`, whose memory has at most 64 MB."""
    compiled, linker, module = room / "heap.o", room / "wasm-ld", room / "heap.wasm"
    words = [clang(), *FLAGS, f'-DHEAP="{heap}"', "-c", str(EXPORTS), "-o", str(compiled)]
    subprocess.run(words, check=True)
    linker.symlink_to(clang())
    names = sorted(set(re.findall(r"\b(test_\w+)\(", EXPORTS.read_text(encoding="ascii"))))
    words = [str(linker), "-mwasm64", "--no-entry", *(f"--export={name}" for name in names)]
    words += [f"--max-memory={MOST_MEMORY}", "-z", "stack-size=65536"]
    linked = room / "linked.wasm"
    subprocess.run([*words, "-o", str(linked), str(compiled)], check=True)
    program_there("wasm-opt")
    subprocess.run([TOP / "tools" / "lowered_wasm.sh", linked, module], check=True)
    return module


class Heap(unittest.TestCase):
    """What the heap does, and whether the test finds a heap that does it wrong."""

    def tried(self, text: str) -> "subprocess.CompletedProcess[str]":
        """Returns what the test of the heap says of a heap with this text."""
        with tempfile.TemporaryDirectory() as name:
            room = Path(name)
            heap = room / "heap.c"
            heap.write_text(text, encoding="ascii")
            return run_node(TEST / "heap_test.mjs", compile_heap(heap, room), str(SETTING.seed))

    def text(self) -> str:
        """Returns the text of the heap."""
        return (WEB / "heap.c").read_text(encoding="ascii")

    def test_heap(self) -> None:
        done = self.tried(self.text())
        self.assertRegex(done.stdout, r"\A\d+ passed\n\Z", done.stderr)
        self.assertEqual(done.returncode, 0)

    def test_planted_faults_are_found(self) -> None:
        for name, (good, bad) in FAULTS.items():
            with self.subTest(name):
                self.assertEqual(self.text().count(good), 1)
                done = self.tried(self.text().replace(good, bad))
                self.assertNotEqual(done.returncode, 0)
                self.assertRegex(done.stdout + done.stderr, "FAILED: |RangeError|RuntimeError")


FAULTS = {
    "a block is handed out twice": (
        "if (block) free_blocks[shift] = block->next;\n",
        "if (block) free_blocks[shift] = block;\n",
    ),
    "blocks are one head too close": (
        "heap_end + sizeof(struct head) + (1ul << shift)",
        "heap_end + (1ul << shift)",
    ),
    "blocks aren't aligned": ("heap_end = ((word)&__heap_base + 15) & ~15ul", "heap_end = 1001"),
    "a block that moves loses its end": (
        "old_size < size ? old_size : size",
        "(old_size < size ? old_size : size) / 2",
    ),
    "no block is used again": (
        "free_blocks[block->shift] = block;\n",
        "free_blocks[block->shift] = 0;\n",
    ),
    "a memory that can't grow counts as grown": (
        "== ~0u) return 0;",
        "== ~0u) return 1;",
    ),
    "a block that is refused is lost": (
        "    if (!moved) return answer(0);\n",
        "    if (!moved) { *at = 0; return answer(0); }\n",
    ),
    "a product without its middle": ("a1 * b0 + (a0 * b0 >> 32)", "a1 * b0"),
    "a shift by 64 places": (
        "if (places >= 64) *result = (struct wide){0, low << (places - 64)};",
        "if (places > 64) *result = (struct wide){0, low << (places - 64)};",
    ),
    "a quotient by the high words alone": (
        "rest_high < by_high || (rest_high == by_high && rest_low < by_low)",
        "rest_high < by_high",
    ),
}
