"""A server of one session for many processes, and its clients, for tests."""

from __future__ import annotations

import json
import os
import re
import signal
import socket
import subprocess
import sys
import tempfile
import time
import unittest
from collections.abc import Callable, Sequence
from pathlib import Path
from typing import Any

from tests.support.client_package import PACKAGE, session_command
from tests.support.fixtures import program, temporary_folder

BOUND = 30.0    # seconds for whatever is to happen at once
TABLES: list[dict[str, Any]] = [{"name": "acct", "columns": [
    {"name": "id", "kind": "int"}, {"name": "owner", "kind": "text", "partition": True},
    {"name": "bal", "kind": "int"}]}]
OPENING: dict[str, Any] = {"version": 2, "tables": TABLES}
EMPTY: dict[str, Any] = {"time": 0, "generation": 0, "oldest": 0, "entries": 0, "repair": None}
STATUS = {"status": True}
ALL = {"select": "acct", "where": []}
LOST = {"lost": "the session has ended"}

# Starts a module of the package with a socket that is handed over, as systemd does.
LAUNCHER = """
import os, runpy, sys
given = int(sys.argv[1])
if given == 3:
    os.set_inheritable(3, True)
else:
    os.dup2(given, 3)
os.environ.update(LISTEN_FDS="1", LISTEN_PID=str(os.getpid()))
if "WATCHDOG_USEC" in os.environ:
    os.environ["WATCHDOG_PID"] = str(os.getpid())
sys.argv[1:2] = []
runpy.run_module("timetravel", run_name="__main__", alter_sys=True)
"""


def insert(key: int, owner: str = "ann") -> dict[str, Any]:
    return {"insert": "acct", "row": [key, owner, 10]}


def until(condition: Callable[[], object], what: str) -> None:
    end = time.monotonic() + BOUND
    while not condition():
        if time.monotonic() > end:
            raise AssertionError(f"not within {BOUND} seconds: {what}")
        time.sleep(0.005)


class Client:
    """A connection of a test."""

    def __init__(self, path: str, opening: Any = None) -> None:
        self.socket = socket.socket(socket.AF_UNIX)
        self.socket.settimeout(BOUND)
        self.socket.connect(path)
        self._file = self.socket.makefile("rb")
        if opening is not None:
            self.opened = self.ask(opening)

    def send(self, *requests: Any) -> None:
        lines = [value if isinstance(value, bytes) else json.dumps(value).encode() for value in requests]
        self.socket.sendall(b"".join(line + b"\n" for line in lines))

    def line(self) -> bytes:
        return self._file.readline()

    def answer(self) -> Any:
        line = self.line()
        if not line.endswith(b"\n"):
            raise AssertionError(f"no answer, but {line!r} and the end")
        return json.loads(line)

    def ask(self, value: Any) -> Any:
        self.send(value)
        return self.answer()

    def rest(self) -> list[bytes]:
        """All lines up to the end."""
        lines = []
        try:
            while line := self.line():
                lines.append(line)
        except ConnectionResetError:
            pass
        return lines

    def end(self) -> None:
        self.socket.shutdown(socket.SHUT_WR)

    def close(self) -> None:
        self._file.close()
        self.socket.close()

    def __enter__(self) -> Client:
        return self

    def __exit__(self, *_: object) -> None:
        self.close()


def connects(path: str) -> bool:
    with socket.socket(socket.AF_UNIX) as probe:
        return probe.connect_ex(path) == 0


class Server:
    """A server of a test, in a folder of its own."""

    def __init__(self, folder: str, *options: str, command: Sequence[str] = (),
                 environment: dict[str, str] | None = None, path: str | None = None,
                 handed: int | None = None, ready: bool = True) -> None:
        self.path = path or f"{folder}/socket"
        started = ["-m", "timetravel", "serve", self.path] if handed is None \
            else ["-c", LAUNCHER, str(handed), "serve"]
        words = [sys.executable, *started, *options, "--", *(command or session_command())]
        self._said = tempfile.TemporaryFile()
        self.process = subprocess.Popen(
            words, cwd=PACKAGE, stderr=self._said, env={**os.environ, **(environment or {})},
            pass_fds=() if handed is None else (handed,))
        self._clients: list[Client] = []
        if ready:
            until(self._connects, "a connection")

    def _connects(self) -> bool:
        if self.process.poll() is not None:
            raise AssertionError(f"the server has ended: {self.said()}")
        return connects(self.path)

    def client(self, opening: Any = OPENING) -> Client:
        client = Client(self.path, opening)
        self._clients.append(client)
        return client

    def session(self) -> int:
        """The number of the session's process."""
        children = Path(f"/proc/{self.process.pid}/task/{self.process.pid}/children").read_text().split()
        if len(children) != 1:
            raise AssertionError(f"the children are {children}")
        return int(children[0])

    def said(self) -> str:
        self._said.seek(0)
        return self._said.read().decode()

    def stop(self) -> int:
        self.process.send_signal(signal.SIGTERM)
        return self.process.wait(BOUND)

    def __enter__(self) -> Server:
        return self

    def __exit__(self, *_: object) -> None:
        for client in self._clients:
            client.close()
        if self.process.poll() is None:
            self.process.terminate()
            try:
                self.process.wait(BOUND)
            except subprocess.TimeoutExpired:
                self.process.kill()
                self.process.wait()
                raise
        self._said.close()


class ServingCase(unittest.TestCase):
    """A test with servers in a folder of its own."""

    def setUp(self) -> None:
        self.folder = str(temporary_folder(self))
        self.log = f"{self.folder}/log"

    def serving(self, *options: str, **more: Any) -> Server:
        server = Server(self.folder, *options, **more)
        self.addCleanup(server.__exit__)
        return server

    def with_log(self, *options: str, **more: Any) -> Server:
        return self.serving(*options, command=session_command("--log", self.log), **more)


def logged(log: str) -> list[dict[str, Any]]:
    done = subprocess.run([str(program()), "log", log], capture_output=True, check=True, timeout=BOUND)
    return [json.loads(line) for line in done.stdout.splitlines()]


def command(*words: str, given: bytes = b"") -> subprocess.CompletedProcess[bytes]:
    return subprocess.run([sys.executable, "-m", "timetravel", *words], cwd=PACKAGE, input=given,
                          capture_output=True, timeout=BOUND)


def metrics(path: str) -> str:
    with Client(path) as client:
        return str(client.ask({"metrics": True})["metrics"])


def samples(text: str) -> dict[str, float]:
    """The samples of a text in Prometheus's format, which is checked."""
    kinds: dict[str, str] = {}
    found: dict[str, float] = {}
    for line in text.splitlines():
        told = re.fullmatch(r"# (HELP|TYPE) ([a-z_]+) (.+)", line)
        if told:
            if told[1] == "TYPE":
                assert told[2] not in kinds and told[3] in ("gauge", "counter", "histogram"), line
                kinds[told[2]] = told[3]
            continue
        sample = re.fullmatch(r'([a-z_]+)(\{[a-z]+="[^"]*"(?:,[a-z]+="[^"]*")*\})? ([0-9.e+-]+)', line)
        assert sample, line
        base = re.sub(r"_(bucket|sum|count)$", "", sample[1])
        assert sample[1] in kinds or kinds.get(base) == "histogram", line
        name = sample[1] + (sample[2] or "")
        assert name not in found, line
        found[name] = float(sample[3])
    return found
