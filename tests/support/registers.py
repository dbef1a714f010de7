"""Clients that read and write registers of replicas and note all that they ask; and a model of the
registers."""

from __future__ import annotations

import json
import random
import threading
import time
from collections.abc import Callable, Hashable
from dataclasses import dataclass, field
from typing import Any

from tests.support.clusters import Client

REGISTERS = 4
STORE = {"version": 2, "tables": [
    {"name": "register", "columns": [{"name": "id", "kind": "int"}, {"name": "value", "kind": "int"}]},
    {"name": "note", "columns": [{"name": "id", "kind": "int"}]}]}


@dataclass
class Asked:
    """A request of a client, and what came of it."""
    kind: str    # "read", "write", "note" or "repair", which may be another request
    line: bytes    # with a number of a worker that no other has
    called: float
    key: int = 0
    value: int = 0
    if_time: int = 0
    here: bool = False    # read at the replica
    floor: int = 0    # the latest time that its connection had been answered
    answer: dict[str, Any] | None = None
    answered: float | None = None


@dataclass
class Caller:
    """A client that reads and writes registers, and goes to another replica where one fails it."""

    sockets: list[str]
    dice: random.Random
    workers: Callable[[], int]
    asked: list[Asked] = field(default_factory=list)
    connection: Client | None = None
    here: bool = False    # its connection reads at the replica
    time: int = 0    # the latest time that its connection was answered

    def act(self) -> None:
        kind = self.dice.choice(["read", "read", "write", "write", "note", "choose"])
        if kind == "choose":
            self.choose()
        elif kind == "note":
            worker = self.workers()
            self.ask("note", {"worker": worker, "insert": "note", "row": [worker]})
        else:
            key = self.dice.randrange(REGISTERS)
            read = self.ask("read", {"worker": self.workers(), "select": "register", "where": [["id", key]]},
                            key=key)
            if kind == "write" and read is not None and "time" in read:
                worker, time_then = self.workers(), read["time"]
                self.ask("write", {"worker": worker, "if": time_then, "update": "register",
                                   "change": [["set", "value", worker]], "where": [["id", key]]},
                         key=key, value=worker, if_time=time_then)

    def choose(self) -> None:
        connection = self.connected()
        if connection is None:
            return
        here = self.dice.random() < 0.5
        try:
            answer = connection.ask({"read": "replica" if here else "log"})
            assert answer == {"reads": "replica" if here else "log"}, answer
            self.here = here
        except OSError:
            self.forget()

    def ask(self, kind: str, request: dict[str, Any], **members: Any) -> dict[str, Any] | None:
        connection = self.connected()
        if connection is None:
            return None
        line = json.dumps(request).encode()
        asked = Asked(kind, line, time.monotonic(), here=self.here and kind == "read", floor=self.time,
                      **members)
        self.asked.append(asked)
        try:
            answer = connection.ask(line)
        except OSError:
            self.forget()
            return None
        if "lost" in answer:
            return None
        asked.answer, asked.answered = answer, time.monotonic()
        self.time = max(self.time, answer.get("time", answer.get("slot", answer.get("now", 0))))
        return dict(answer)

    def connected(self) -> Client | None:
        if self.connection is None:
            try:
                connection = Client(self.dice.choice(self.sockets), bound=5.0)
                self.connection = connection
                opened = connection.ask(STORE)
                self.here, self.time = False, opened["time"]
            except (OSError, KeyError):
                self.forget()
        return self.connection

    def forget(self) -> None:
        if self.connection is not None:
            self.connection.close()
        self.connection = None

    def repair(self, stop: threading.Event) -> None:
        """Takes back a note, as often as it takes."""
        while not stop.is_set():
            time.sleep(0.1)
            status = self.ask("repair", {"worker": self.workers(), "status": True})
            if status is None or "time" not in status or status["time"] < 20:
                continue
            if status["generation"]:
                return
            worker = self.workers()
            if status["repair"] is None:
                self.ask("repair", {"worker": worker, "begin": [{"cancel": self.note(status["time"])}]})
            elif status["repair"]["left"] > 3:
                self.ask("repair", {"worker": worker, "step": 7})
            else:
                self.ask("repair", {"worker": worker, "finish": True})

    def forget_old(self, stop: threading.Event) -> None:
        """Forgets all but the last slots, now and then."""
        while not stop.is_set():
            time.sleep(0.1)
            status = self.ask("repair", {"worker": self.workers(), "status": True})
            if status is not None and "time" in status:
                self.ask("repair", {"worker": self.workers(), "forget": max(0, status["time"] - 40)})

    def note(self, now: int) -> int:
        told = self.ask("repair", {"worker": self.workers(), "slots": [1, now]})
        slots = [] if told is None else told["slots"]
        return next((int(slot["slot"]) for slot in slots if "note" in str(slot["do"])), now)


def model(state: Any, call: Any, answer: Any) -> Hashable | None:
    """A database of registers with a time: `state` is the time and the values."""
    now, values = state
    kind, key, value, if_time = call
    if kind == "read":
        return state if answer == (now, values[key]) else None
    if kind == "write" and answer == ("moved", now):
        return state if if_time != now else None
    if answer != ("slot", now + 1) or (kind == "write" and if_time != now):
        return None
    if kind == "write":
        values = values[:key] + (value,) + values[key + 1:]
    return now + 1, values


def short(kind: str, answer: dict[str, Any]) -> Any:
    """What the model knows of an answer."""
    if "refused" in answer:
        return answer["refused"], answer["now"]
    if "slot" in answer:
        return "slot", answer["slot"]
    return answer["time"], answer["rows"][0][1]


def without_call(answer: dict[str, Any]) -> dict[str, Any]:
    return {name: value for name, value in answer.items() if name != "call"}
