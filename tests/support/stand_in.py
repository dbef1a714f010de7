"""A stand-in for the program, and one for a server on a socket, for tests."""

from __future__ import annotations

import contextlib
import json
import socket
import sys
import threading
import unittest
from collections.abc import Sequence
from pathlib import Path
from typing import Any

from tests.support.fixtures import temporary_folder
from timetravel import Column, Error, Session, Table

ACCT = Table("acct", [
    Column("id", "int"), Column("owner", "text", partition=True), Column("bal", "int")])
ACCT_LINE = ('{"name":"acct","columns":[{"name":"id","kind":"int","partition":false},'
             '{"name":"owner","kind":"text","partition":true},'
             '{"name":"bal","kind":"int","partition":false}]}')
OPENING = '{"version":4,"tables":[' + ACCT_LINE + ']}'
OPENED = '{"time":0,"generation":0,"oldest":0,"entries":0,"repair":null}'
INSERTED = '{"call":%d,"slot":%d,"replies":["inserted"]}'

Steps = Sequence[Sequence[Any]]    # of a program or a server: each a word and its value

# It carries its steps out one after another, then reads on to the end of its input, and ends there. At
# "wait" it waits for `go_on`.
STAND_IN = '''
import json, os, sys, time
steps, log = json.load(open(sys.argv[1])), open(sys.argv[2], "wb", buffering=0)
for word, value in steps:
    if word == "read":
        for _ in range(value):
            line = sys.stdin.buffer.readline()
            if not line:
                sys.exit(0)
            log.write(line)
    elif word == "write":
        sys.stdout.buffer.write(value.encode())
        sys.stdout.buffer.flush()
    elif word == "say":
        sys.stderr.write(value)
        sys.stderr.flush()
    elif word == "sleep":
        time.sleep(value)
    elif word == "wait":
        while not os.path.exists(sys.argv[1] + ".go_on"):
            time.sleep(0.01)
    elif word == "close":
        os.close(1)
    else:
        sys.exit(value)
for line in sys.stdin.buffer:
    log.write(line)
'''


def told(*answers: str) -> list[list[Any]]:
    """The steps of a program that is opened, and then answers each line with the next answer."""
    steps: list[list[Any]] = []
    for answer in (OPENED, *answers):
        steps += [["read", 1], ["write", answer + "\n"]]
    return steps


class ClientCase(unittest.TestCase):
    """A test that looks at what is raised."""

    maxDiff = None

    def assert_raises(self, ask: Any, kind: type[Error], attributes: dict[str, Any]) -> None:
        with self.assertRaises(kind) as caught:
            ask()
        for name, value in attributes.items():
            self.assertEqual(getattr(caught.exception, name), value, name)


class StandInCase(ClientCase):
    """A test with a stand-in for the program."""

    def setUp(self) -> None:
        self.folder = temporary_folder(self)
        (self.folder / "program.py").write_text(STAND_IN)

    def command(self, steps: Steps) -> list[str]:
        """The command that runs these steps."""
        (self.folder / "steps").write_text(json.dumps(steps))
        return [sys.executable, str(self.folder / "program.py"), str(self.folder / "steps"),
                str(self.folder / "log")]

    def open(self, steps: Steps, **options: Any) -> Session:
        session = Session(options.pop("tables", [ACCT]), command=self.command(steps), **options)
        self.addCleanup(session.close)
        return session

    def go_on(self) -> None:
        """Ends the "wait" of the stand-in."""
        (self.folder / "steps.go_on").touch()

    def lines(self) -> list[str]:
        return (self.folder / "log").read_text().splitlines()


class Server:
    """A server on a Unix socket, which gives each connection the next of its scripts: the same steps as
    those of the program, but for "close", after which it reads nothing more, and "wait", for `go_on`.
    After its steps it reads on to the end of what it is sent, and closes."""

    def __init__(self, path: Path, *scripts: Steps) -> None:
        self.lines: list[list[str]] = [[] for _ in scripts]    # what each connection has sent
        self.ended = [threading.Event() for _ in scripts]    # set once its sending has ended
        self.go_on = threading.Event()
        self._listener = socket.socket(socket.AF_UNIX)
        self._listener.bind(str(path))
        self._listener.listen()
        self._thread = threading.Thread(target=self._accept, args=(scripts,), daemon=True)
        self._thread.start()

    def close(self) -> None:
        self._thread.join(30)
        self._listener.close()

    def _accept(self, scripts: tuple[Steps, ...]) -> None:
        threads = []
        for number, script in enumerate(scripts):
            connection, _ = self._listener.accept()
            threads.append(threading.Thread(target=self._serve, args=(number, script, connection)))
            threads[-1].start()
        for each in threads:
            each.join()

    def _serve(self, number: int, script: Steps, connection: socket.socket) -> None:
        with connection, connection.makefile("rb") as lines, contextlib.suppress(ConnectionError):
            for word, value in script:
                if word == "read":
                    for _ in range(value):
                        self.lines[number].append(lines.readline().decode().rstrip("\n"))
                elif word == "write":
                    connection.sendall(value.encode())
                elif word == "wait":
                    self.go_on.wait(30)
                else:
                    return
            self.lines[number] += [line.decode().rstrip("\n") for line in lines]
        self.ended[number].set()


class ServerCase(ClientCase):
    """A test with a server."""

    def setUp(self) -> None:
        self.path = temporary_folder(self) / "socket"

    def serve(self, *scripts: Steps) -> Server:
        server = Server(self.path, *scripts)
        self.addCleanup(server.close)
        return server

    def connect(self, **options: Any) -> Session:
        session = Session.connect(self.path, [ACCT], **options)
        self.addCleanup(session.close)
        return session
