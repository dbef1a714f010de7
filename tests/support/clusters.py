"""Members of etcd, replicas and their clients on the loopback address, for tests."""

from __future__ import annotations

import base64
import contextlib
import http.client
import http.server
import json
import os
import signal
import socket
import subprocess
import sys
import tempfile
import threading
import time
import unittest
from collections.abc import Callable, Sequence
from typing import Any

from tests.support.client_package import ETCD, PACKAGE, needs_etcd
from tests.support.fixtures import program, temporary_folder
from timetravel.etcd import Access, Entries, Etcd, EtcdError
from timetravel.following import decoded

BOUND = 30.0    # seconds for whatever is to happen soon
OPENING: dict[str, Any] = {"version": 2, "tables": [{"name": "acct", "columns": [
    {"name": "id", "kind": "int"}, {"name": "bal", "kind": "int"}]}]}
ALL = {"select": "acct", "where": []}

# A command that notes its number where its input is a pipe: so a session does, and none that judges.
NOTING = ["sh", "-c", '[ -p /dev/stdin ] && echo $$ > "$0.new" && mv "$0.new" "$0"; exec "$@"']


def insert(key: int, balance: int = 10) -> dict[str, Any]:
    return {"insert": "acct", "row": [key, balance]}


def until(condition: Callable[[], object], what: str, bound: float = BOUND) -> None:
    end = time.monotonic() + bound
    while not condition():
        if time.monotonic() > end:
            raise AssertionError(f"not within {bound} seconds: {what}")
        time.sleep(0.01)


def free_port() -> int:
    with socket.socket() as probe:
        probe.bind(("127.0.0.1", 0))
        return int(probe.getsockname()[1])


class Process:
    """A process of a test that can be killed, stopped and let go on."""

    process: subprocess.Popen[bytes] | None = None

    def begin(self, command: Sequence[str], **options: Any) -> None:
        self.process = subprocess.Popen(command, **options)

    def send(self, number: int) -> None:
        assert self.process is not None
        self.process.send_signal(number)

    def kill(self) -> None:
        if self.process is not None:
            self.process.kill()
            self.process.wait()

    def pause(self) -> None:
        self.send(signal.SIGSTOP)

    def go_on(self) -> None:
        self.send(signal.SIGCONT)


class Member(Process):
    """A member of etcd."""

    def __init__(self, folder: str, name: str, port: int, peer: int, cluster: str,
                 options: Sequence[str] = (), scheme: str = "http") -> None:
        self.url = f"{scheme}://127.0.0.1:{port}"
        self.port = port
        peer_url = f"http://127.0.0.1:{peer}"
        self._command = [
            str(ETCD), "--name", name, "--data-dir", os.path.join(folder, name), "--log-level", "panic",
            "--listen-client-urls", self.url, "--advertise-client-urls", self.url,
            "--listen-peer-urls", peer_url, "--initial-advertise-peer-urls", peer_url,
            "--initial-cluster", cluster, *options]

    def start(self) -> None:
        self.begin(self._command, stdout=subprocess.DEVNULL, stderr=subprocess.DEVNULL)


class Cluster:
    """Members of etcd."""

    def __init__(self, folder: str, number: int, options: Sequence[str] = (), scheme: str = "http",
                 name: str = "m") -> None:
        peers = [free_port() for _ in range(number)]
        cluster = ",".join(f"{name}{place}=http://127.0.0.1:{peer}" for place, peer in enumerate(peers))
        self.members = [Member(folder, f"{name}{place}", free_port(), peer, cluster, options, scheme)
                        for place, peer in enumerate(peers)]
        self.access = Access(self.urls)
        for member in self.members:
            member.start()

    @property
    def urls(self) -> list[str]:
        return [member.url for member in self.members]

    def entries(self, prefix: str = "bank") -> Entries:
        return Entries(Etcd(self.access), prefix)

    def wait(self) -> None:
        until(self._answers, "etcd answers")

    def _answers(self) -> bool:
        entries = self.entries("none")
        try:
            entries.fetch(0)
            return True
        except EtcdError:
            return False
        finally:
            entries.close()

    def lines(self, prefix: str = "bank") -> list[bytes]:
        """The lines of all entries."""
        entries, found, number = self.entries(prefix), [], 0
        while values := entries.fetch(number):
            number += len(values)
            found += [line for value in values for _, line in decoded(value)]
        entries.close()
        return found

    def kill(self) -> None:
        for member in self.members:
            member.kill()


class ReplicaProcess(Process):
    """A replica, whose session's number is noted."""

    def __init__(self, folder: str, name: str, urls: Sequence[str], *, log: bool = False, bound: float = 10.0,
                 options: Sequence[str] = (), session: Sequence[str] = (),
                 package: Sequence[str] = ("-m", "timetravel")) -> None:
        self.socket = os.path.join(folder, f"{name}.socket")
        self.log = os.path.join(folder, f"{name}.log")
        self._noted = os.path.join(folder, f"{name}.session")
        self.said = os.path.join(folder, f"{name}.said")
        command = [*(session or [str(program())]), "session", *(["--log", self.log] if log else [])]
        self._command = [
            sys.executable, *package, "replica", "--etcd", ",".join(urls), "--prefix", "bank",
            "--bound", str(bound), *options, self.socket, "--", *NOTING, self._noted, *command]

    def start(self) -> ReplicaProcess:
        with contextlib.suppress(FileNotFoundError):
            os.unlink(self._noted)
        with open(self.said, "ab") as said:
            self.begin(self._command, stdout=said, stderr=said, cwd=PACKAGE)
        return self

    def hand_over(self, listener: int) -> None:
        """Starts it with this socket, as systemd does."""
        handing = 'exec 3<&"$0"; export LISTEN_PID=$$ LISTEN_FDS=1; exec "$@"'
        self.begin(["sh", "-c", handing, str(listener), *self._command], pass_fds=(listener,), cwd=PACKAGE)

    def signal_session(self, number: int) -> bool:
        """Sends the session a signal; whether there is one."""
        try:
            with open(self._noted) as file:
                os.kill(int(file.read()), number)
            return True
        except (OSError, ValueError):
            return False

    def complaints(self) -> str:
        with open(self.said, encoding="utf-8", errors="replace") as file:
            return file.read()


class Client:
    """A connection to a replica."""

    def __init__(self, path: str, opening: Any = None, bound: float = BOUND) -> None:
        end = time.monotonic() + bound
        while True:
            self.socket = socket.socket(socket.AF_UNIX)
            self.socket.settimeout(bound)
            try:
                self.socket.connect(path)
                break
            except OSError:
                self.socket.close()
                if time.monotonic() > end:
                    raise
                time.sleep(0.02)
        self._file = self.socket.makefile("rb")
        if opening is not None:
            self.opened = self.ask(opening)

    def send(self, *requests: Any) -> None:
        lines = [value if isinstance(value, bytes) else json.dumps(value).encode() for value in requests]
        self.socket.sendall(b"".join(line + b"\n" for line in lines))

    def answer(self) -> Any:
        line = self._file.readline()
        if not line.endswith(b"\n"):
            raise ConnectionError(f"no answer, but {line!r} and the end")
        return json.loads(line)

    def ask(self, request: Any) -> Any:
        self.send(request)
        return self.answer()

    def ask_all(self, *requests: Any) -> list[Any]:
        self.send(*requests)
        return [self.answer() for _ in requests]

    def close(self) -> None:
        self._file.close()
        self.socket.close()


class Relay:
    """A stand-in of a member that hands calls on, and may drop answers: what is appended through it is
    there, and who appended it isn't told. Where it `is_cut`, it drops calls, and where it `tells_below` an
    entry, those that ask for this entry or later ones."""

    def __init__(self, port: int) -> None:
        self.dropped = 0
        self.to_drop = 0    # answers to appends that are to be dropped
        self.is_cut = False
        self.tells_below: int | None = None
        relay = self

        class Handler(http.server.BaseHTTPRequestHandler):
            protocol_version = "HTTP/1.1"

            def do_POST(self) -> None:
                body = self.rfile.read(int(self.headers["Content-Length"]))
                if relay.is_cut or relay.drops(self.path, body):
                    self.close_connection = True
                    return
                connection = http.client.HTTPConnection("127.0.0.1", port, timeout=10)
                connection.request("POST", self.path, body, {"Content-Type": "application/json"})
                response = connection.getresponse()
                answer = response.read()
                connection.close()
                if relay.to_drop and self.path.endswith("/txn"):
                    relay.to_drop -= 1
                    relay.dropped += 1
                    self.close_connection = True
                    return
                self.send_response(response.status)
                self.send_header("Content-Length", str(len(answer)))
                self.end_headers()
                self.wfile.write(answer)

            def log_message(self, *_: Any) -> None:
                pass

        self._server = http.server.ThreadingHTTPServer(("127.0.0.1", 0), Handler)
        self._server.daemon_threads = True
        self.url = f"http://127.0.0.1:{self._server.server_address[1]}"
        threading.Thread(target=self._server.serve_forever, daemon=True).start()

    def drops(self, path: str, body: bytes) -> bool:
        """Whether a call asks for an entry that isn't to be told."""
        if self.tells_below is None or not path.endswith("/range"):
            return False
        key = base64.b64decode(json.loads(body)["key"])
        return int(key.rpartition(b"/")[2]) >= self.tells_below

    def close(self) -> None:
        self._server.shutdown()
        self._server.server_close()


def answers_of_one_session(lines: Sequence[bytes], named: str | None = None) -> list[bytes]:
    """What one session answers to these lines, of this program or of the one that is tested."""
    with tempfile.TemporaryFile() as file:
        file.write(b"".join(line + b"\n" for line in lines))
        file.seek(0)
        done = subprocess.run([named or str(program()), "session"], stdin=file, stdout=subprocess.PIPE,
                              check=True)
    return done.stdout.splitlines()


class WithEtcd(unittest.TestCase):
    """Tests with a cluster and replicas that end with the test."""

    members = 1

    def setUp(self) -> None:
        needs_etcd()
        self.folder = str(temporary_folder(self))
        self.cluster = Cluster(self.folder, self.members)
        self.addCleanup(self.cluster.kill)
        self.cluster.wait()

    def replica(self, name: str = "a", urls: list[str] | None = None, **options: Any) -> ReplicaProcess:
        replica = ReplicaProcess(self.folder, name, urls or self.cluster.urls, **options).start()
        self.addCleanup(self.end, replica)
        return replica

    def end(self, replica: ReplicaProcess) -> None:
        replica.signal_session(signal.SIGCONT)
        replica.kill()

    def client(self, replica: ReplicaProcess, opening: Any = OPENING) -> Client:
        client = Client(replica.socket, opening)
        self.addCleanup(client.close)
        return client

    def ended(self, replica: ReplicaProcess) -> int:
        assert replica.process is not None
        return replica.process.wait(20)

    def assert_same_rows(self, *clients: Client) -> None:
        """All have the rows that one session has that is fed with the entries."""
        rows = [client.ask(ALL)["rows"] for client in clients]
        lines = [*self.cluster.lines(), json.dumps(ALL).encode()]
        self.assertEqual(rows, [json.loads(answers_of_one_session(lines)[-1])["rows"]] * len(clients))
