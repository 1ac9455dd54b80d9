"""Stands in for the Python module wasmtime, with the calls that `wasm_host.py` uses.

It is no wasmtime: Node runs the WebAssembly (`engine.mjs`), and asks this process for each call of
the host. As wasmtime does, it refuses a call whose type isn't the one that the module imports.
STAND_IN_NODE in the environment names a Node that isn't on the path.
"""
from __future__ import annotations

import base64
import json
import os
import subprocess
from pathlib import Path
from typing import IO, Any, Callable, Mapping, Sequence, Union

ENGINE = Path(__file__).resolve().parent / "engine.mjs"


class WasmtimeError(Exception):
    """Says that a module can't be used."""


class Trap(Exception):
    """Says that the program stopped."""


class ValType:
    """Is a type of a value."""

    def __init__(self, name: str) -> None:
        self.name = name

    @staticmethod
    def i32() -> ValType:
        """Returns the type of 32 bits."""
        return ValType("i32")

    @staticmethod
    def i64() -> ValType:
        """Returns the type of 64 bits."""
        return ValType("i64")


class FuncType:
    """Is the type of a call."""

    def __init__(self, params: Sequence[ValType], results: Sequence[ValType]) -> None:
        self.words = [[one.name for one in params], [one.name for one in results]]


class Engine:
    """Is asked for nothing."""


class Store:
    """Has the process that runs the WebAssembly."""

    def __init__(self, engine: Engine) -> None:
        self.engine = engine
        self.calls: Mapping[str, Callable[..., Any]] = {}

    def start(self, path: str, calls: Mapping[str, Callable[..., Any]], types: Any) -> None:
        """Starts Node. Its two pipes are none of the standard streams."""
        self.calls = calls
        from_engine, to_us = os.pipe()
        from_us, to_engine = os.pipe()
        node = os.environ.get("STAND_IN_NODE", "node")
        words = [node, str(ENGINE), path, str(to_us), str(from_us), json.dumps(types)]
        subprocess.Popen(words, pass_fds=(to_us, from_us))
        os.close(to_us)
        os.close(from_us)
        self.asked: IO[str] = os.fdopen(from_engine, encoding="ascii")
        self.answers: IO[str] = os.fdopen(to_engine, "w", encoding="ascii")

    def ask(self, message: Any) -> Any:
        """Sends a message, and follows the calls until its answer comes."""
        self.send(message)
        while True:
            line = self.asked.readline()
            if not line:
                raise Trap("the engine ended")
            told = json.loads(line)
            if "refused" in told:
                raise WasmtimeError(told["refused"])
            if "trap" in told:
                raise Trap(told["trap"])
            if "answer" in told:
                return told["answer"]
            result = self.calls[told["call"]](*map(int, told["words"]))
            self.send({"result": None if result is None else str(result)})

    def send(self, message: Any) -> None:
        """Sends a message."""
        self.answers.write(json.dumps(message) + "\n")
        self.answers.flush()


class Module:
    """Is a module, by its path."""

    def __init__(self, path: str) -> None:
        self.path = path

    @staticmethod
    def from_file(engine: Engine, path: str) -> Module:
        """Returns the module of a file."""
        return Module(path)


class Memory:
    """Is the memory of an instance."""

    def read(self, store: Store, start: int = 0, stop: int | None = None) -> bytearray:
        """Returns the bytes from a place to another."""
        return bytearray(base64.b64decode(store.ask({"read": [start, stop]})))

    def write(self, store: Store, value: Union[bytearray, bytes], start: int | None = None) -> int:
        """Puts bytes at a place, and returns how many."""
        store.ask({"write": [start or 0, base64.b64encode(value).decode()]})
        return len(value)


class Instance:
    """Is an instance."""

    def exports(self, store: Store) -> Mapping[str, Any]:
        """Returns what the module exports."""

        def run(_: Store, *words: int) -> Any:
            """Runs `main`."""
            return store.ask({"main": [str(word) for word in words]})

        return {"memory": Memory(), "main": run}


class Linker:
    """Has the calls of a host."""

    def __init__(self, engine: Engine) -> None:
        self.engine = engine
        self.calls: dict[str, Callable[..., Any]] = {}
        self.types: dict[str, Any] = {}

    def define_func(self, module: str, name: str, ty: FuncType, func: Callable[..., Any]) -> None:
        """Adds a call."""
        self.calls[f"{module}.{name}"] = func
        self.types[f"{module}.{name}"] = ty.words

    def instantiate(self, store: Store, module: Module) -> Instance:
        """Makes an instance of a module. Raises `WasmtimeError` if it imports other calls."""
        store.start(module.path, self.calls, self.types)
        store.ask({"instantiate": None})
        return Instance()
