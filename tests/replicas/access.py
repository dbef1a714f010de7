"""etcd's TLS and passwords, with openssl."""

from __future__ import annotations

import os
import shutil
import subprocess
import unittest
from pathlib import Path

from tests.support.client_package import needs_etcd
from tests.support.clusters import BOUND, Client, Cluster, ReplicaProcess
from tests.support.fixtures import left_out, temporary_folder
from timetravel.etcd import Access, Entries, Etcd, EtcdError, read_user

setUpModule = needs_etcd
OPENING = {"version": 2, "tables": [{"name": "acct", "columns": [{"name": "id", "kind": "int"}]}]}


class WithAccess(unittest.TestCase):
    def setUp(self) -> None:
        self.folder = str(temporary_folder(self))

    def file(self, name: str) -> str:
        return os.path.join(self.folder, name)

    def access(self, access: Access) -> Entries:
        entries = Entries(Etcd(access), "bank")
        self.addCleanup(entries.close)
        return entries

    def answer(self, cluster: Cluster, *options: str) -> object:
        """What a replica with these options answers to a write."""
        replica = ReplicaProcess(self.folder, "a", cluster.urls, bound=5.0, options=options).start()
        self.addCleanup(replica.kill)
        client = Client(replica.socket, OPENING)
        self.addCleanup(client.close)
        return client.ask({"insert": "acct", "row": [1]}).get("replies")

    def test_a_user_and_a_password(self) -> None:
        cluster = Cluster(self.folder, 1)
        self.addCleanup(cluster.kill)
        cluster.wait()
        etcd = Etcd(cluster.access)
        self.addCleanup(etcd.close)
        etcd.call("/v3/auth/user/add", {"name": "root", "password": "secret"})
        etcd.call("/v3/auth/role/add", {"name": "root"})
        etcd.call("/v3/auth/user/grant", {"user": "root", "role": "root"})
        etcd.call("/v3/auth/enable", {})
        with self.assertRaises(EtcdError):
            self.access(cluster.access).fetch(0)
        with self.assertRaisesRegex(EtcdError, "authentication failed"):
            self.access(Access(cluster.urls, user=("root", "wrong"))).fetch(0)
        users = self.file("user")
        Path(users).write_text("root:secret\n")
        entries = self.access(Access(cluster.urls, user=read_user(users)))
        self.assertEqual(entries.fetch(0), [])
        entries._etcd._token = "none.1"    # as if its time had run out
        self.assertEqual(entries.fetch(0), [])
        self.assertEqual(self.answer(cluster, "--user", users), ["inserted"])

    def test_a_file_without_a_user(self) -> None:
        for text in ("", "root", ":secret"):
            Path(self.file("user")).write_text(text)
            with self.subTest(text), self.assertRaises(ValueError):
                read_user(self.file("user"))

    def test_certificates(self) -> None:
        if shutil.which("openssl") is None:
            left_out("openssl")
        self.make_certificates()
        cluster = Cluster(self.folder, 1, [
            "--cert-file", self.file("server.pem"), "--key-file", self.file("server.key"),
            "--trusted-ca-file", self.file("ca.pem"), "--client-cert-auth"], scheme="https")
        self.addCleanup(cluster.kill)
        good = Access(cluster.urls, self.file("ca.pem"), self.file("server.pem"), self.file("server.key"))
        cluster.access = good
        cluster.wait()
        self.assertEqual(self.access(good).append(0, b"a"), [b"a"])
        self.access(good).drop(0, 1)
        for bad in (Access(cluster.urls), Access(cluster.urls, self.file("ca.pem"))):
            with self.assertRaises(EtcdError):
                self.access(bad).fetch(0)
        files = ["--cacert", self.file("ca.pem"), "--cert", self.file("server.pem"),
                 "--key", self.file("server.key")]
        self.assertEqual(self.answer(cluster, *files), ["inserted"])

    def make_certificates(self) -> None:
        self.openssl("req", "-x509", "-newkey", "rsa:2048", "-nodes", "-subj", "/CN=authority", "-days", "2",
                     "-keyout", "ca.key", "-out", "ca.pem")
        self.openssl("req", "-newkey", "rsa:2048", "-nodes", "-subj", "/CN=etcd", "-keyout", "server.key",
                     "-out", "server.request")
        Path(self.file("names")).write_text(
            "subjectAltName=IP:127.0.0.1\nextendedKeyUsage=serverAuth,clientAuth\n")
        self.openssl("x509", "-req", "-in", "server.request", "-CA", "ca.pem", "-CAkey", "ca.key",
                     "-CAcreateserial", "-days", "2", "-extfile", "names", "-out", "server.pem")

    def openssl(self, *arguments: str) -> None:
        subprocess.run(["openssl", *arguments], cwd=self.folder, check=True, capture_output=True,
                       timeout=BOUND)
