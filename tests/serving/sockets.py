"""The socket's path, sockets that systemd hands over, and what systemd is told."""

from __future__ import annotations

import os
import socket
import tempfile
from pathlib import Path

from tests.support.served import BOUND, EMPTY, Server, ServingCase, until


class Sockets(ServingCase):

    def test_a_socket_in_use(self) -> None:
        server = self.serving()
        with Server(self.folder, ready=False) as second:
            self.assertEqual(second.process.wait(BOUND), 1)
            self.assertEqual(second.said(), "timetravel: the socket is in use\n")
        self.assertEqual(server.client().opened, EMPTY)

    def test_a_socket_left_behind(self) -> None:
        with Server(self.folder) as server:
            server.client()
            server.process.kill()
            server.process.wait(BOUND)
        self.assertTrue(os.path.exists(server.path))
        self.assertEqual(self.serving().client().opened, EMPTY)

    def test_servers_that_start_at_once(self) -> None:
        path = f"{self.folder}/socket"
        with socket.socket(socket.AF_UNIX) as left_behind:
            left_behind.bind(path)
        servers = [self.serving(ready=False) for _ in range(5)]
        until(lambda: sum(server.process.poll() == 1 for server in servers) == 4, "the end of all but one")
        left = [server for server in servers if server.process.poll() is None]
        self.assertEqual(len(left), 1)
        self.assertEqual(left[0].client().opened, EMPTY)

    def test_another_file(self) -> None:
        path = Path(f"{self.folder}/socket")
        path.write_text("kept")
        with Server(self.folder, ready=False) as server:
            self.assertEqual(server.process.wait(BOUND), 1)
            self.assertEqual(server.said(), f"timetravel: {path} is there, and is no socket\n")
        self.assertEqual(path.read_text(), "kept")

    def test_a_path_that_is_another_server_s_by_now(self) -> None:
        first = self.serving()
        os.unlink(first.path)
        second = self.serving()
        self.assertEqual(first.stop(), 0)
        self.assertEqual(second.client().opened, EMPTY)

    def test_a_program_that_is_not_there(self) -> None:
        with Server(self.folder, command=(f"{self.folder}/none", "session"), ready=False) as server:
            self.assertEqual(server.process.wait(BOUND), 1)
            self.assertIn("cannot start", server.said())
        self.assertFalse(os.path.exists(server.path))

    def test_a_socket_handed_over_and_notifications(self) -> None:
        path = f"{self.folder}/handed"
        with socket.socket(socket.AF_UNIX) as listener, \
                socket.socket(socket.AF_UNIX, socket.SOCK_DGRAM) as told:
            listener.bind(path)
            listener.listen(10)
            told.bind(f"{self.folder}/notify")
            told.settimeout(BOUND)
            with Server(self.folder, path=path, handed=listener.fileno(), environment={
                    "NOTIFY_SOCKET": f"{self.folder}/notify", "WATCHDOG_USEC": "200000"}) as server:
                listener.close()
                self.assertTrue(told.recv(4096).startswith(b"READY=1\nSTATUS="))
                client = server.client()
                self.assertEqual(client.opened, EMPTY)
                seen = {told.recv(4096) for _ in range(6)}
                self.assertIn(b"WATCHDOG=1", seen)
                self.assertIn(b"STATUS=open", seen)
                self.assertEqual(server.stop(), 0)
                until(lambda: told.recv(4096).startswith(b"STOPPING=1"), "the last message")
            self.assertTrue(os.path.exists(path))    # it is systemd's

    def test_something_else_handed_over(self) -> None:
        with tempfile.TemporaryFile() as file:
            with Server(self.folder, handed=file.fileno(), ready=False) as server:
                self.assertEqual(server.process.wait(BOUND), 1)
                self.assertIn("handed over", server.said())
