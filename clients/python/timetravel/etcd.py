"""A client of etcd's JSON gateway, with what a log of numbered entries needs of it.

A call is tried at one member after the other, each time with a bounded wait. Where a member's answer is
lost, the call may have been carried out, and may even be carried out later: what is called here can be
called again without harm, since an entry is put only where its key is absent.
"""

from __future__ import annotations

import base64
import http.client
import json
import ssl
from collections.abc import Iterable, Mapping, Sequence
from dataclasses import dataclass
from typing import Any
from urllib.parse import urlsplit

ATTEMPT = 2.0    # seconds that one member has to answer
PAGE = 16    # entries that are asked for at once

_UNAUTHENTICATED = 16    # gRPC's code where a token isn't valid any more
_DIGITS = 20
_BEHIND_DIGITS = b":"    # the character behind "9"


class EtcdError(Exception):
    """No member has carried out a call, as far as is known. Its text says why."""


class EntriesGone(Exception):
    """Entries that were there, or have to be there, aren't, or are others. Its text says which, and what is
    to be done."""


COPY = 'copy the log and the position of another replica here (docs/REPLICAS.md, "A new machine")'
SET_BACK = 'etcd was set back or emptied (docs/REPLICAS.md, "etcd set back")'


@dataclass(frozen=True)
class Access:
    """How etcd's members are reached: their URLs, the files of TLS, and a user with a password."""
    urls: Sequence[str]
    authority: str | None = None
    certificate: str | None = None
    key: str | None = None
    user: tuple[str, str] | None = None


def read_user(path: str) -> tuple[str, str]:
    """The user and the password of a file with one line `USER:PASSWORD`."""
    with open(path, encoding="utf-8") as file:
        user, colon, password = file.readline().rstrip("\r\n").partition(":")
    if not (user and colon):
        raise ValueError(f"{path} has no line USER:PASSWORD")
    return user, password


class Etcd:
    """Calls of etcd, for one thread."""

    def __init__(self, access: Access) -> None:
        """Raises `ValueError` for a URL that isn't one of a member, and `OSError` for files of TLS."""
        self._members = [_address(url) for url in access.urls]
        if not self._members:
            raise ValueError("no URL of etcd is given")
        self._context = _tls(access) if any(secure for secure, _, _ in self._members) else None
        self._user = access.user
        self._token = ""
        self._member = 0    # the one that is asked
        self._connection: http.client.HTTPConnection | None = None
        self._sent: tuple[str, bytes] | None = None    # a call that was sent ahead, on this connection

    def close(self) -> None:
        self._sent = None
        if self._connection is not None:
            self._connection.close()
            self._connection = None

    def call(self, path: str, body: Mapping[str, Any],
             following: Mapping[str, Any] | None = None) -> dict[str, Any]:
        """What a member answers. Each is tried once, that which answered last first. With `following`
        this call, which has to be harmless, is sent as soon as the answer has come: it is probably the
        next one, and takes that answer."""
        data = _body(body)
        ahead = None if following is None else _body(following)
        causes = []
        for _ in self._members:
            try:
                return self._asked(path, data, ahead)
            except (OSError, http.client.HTTPException, EtcdError, ValueError) as error:
                _, host, port = self._members[self._member]
                causes.append(f"{host}:{port}: {str(error) or type(error).__name__}")
                self.close()
                self._member = (self._member + 1) % len(self._members)
        raise EtcdError("; ".join(causes))

    def _asked(self, path: str, data: bytes, ahead: bytes | None) -> dict[str, Any]:
        if self._user is not None and not self._token:
            self._authenticate()
        try:
            return self._post(path, data, ahead)
        except _Unauthenticated:
            if self._user is None:
                raise
        self._authenticate()
        return self._post(path, data, ahead)

    def _authenticate(self) -> None:
        assert self._user is not None
        name, password = self._user
        self._token = ""
        said = self._post("/v3/auth/authenticate", _body({"name": name, "password": password}))
        self._token = str(said.get("token", ""))

    def _post(self, path: str, data: bytes, ahead: bytes | None = None) -> dict[str, Any]:
        if self._sent != (path, data):
            self._send(path, data)
        assert self._connection is not None
        self._sent = None
        response = self._connection.getresponse()
        said = response.read()
        if ahead is not None:
            self._send(path, ahead)
            self._sent = path, ahead
        answer = json.loads(said)
        if not isinstance(answer, dict):
            raise EtcdError("an answer that is no object")
        if response.status != 200 or "error" in answer:
            cause = str(answer.get("message") or answer.get("error") or response.status)
            invalid = answer.get("code") == _UNAUTHENTICATED or "invalid auth token" in cause
            raise (_Unauthenticated if invalid else EtcdError)(cause)
        return answer

    def _send(self, path: str, data: bytes) -> None:
        if self._sent is not None:    # nobody wants its answer
            self.close()
        headers = {"Content-Type": "application/json"}
        if self._token:
            headers["Authorization"] = self._token
        if self._connection is None:
            self._connection = self._connect()
        self._connection.request("POST", path, data, headers)

    def _connect(self) -> http.client.HTTPConnection:
        secure, host, port = self._members[self._member]
        if secure:
            return http.client.HTTPSConnection(host, port, timeout=ATTEMPT, context=self._context)
        return http.client.HTTPConnection(host, port, timeout=ATTEMPT)


class _Unauthenticated(EtcdError):
    pass


def _address(url: str) -> tuple[bool, str, int]:
    parts = urlsplit(url)
    if parts.scheme not in ("http", "https") or not parts.hostname or parts.path not in ("", "/"):
        raise ValueError(f"{url} is no URL of a member, such as http://127.0.0.1:2379")
    return parts.scheme == "https", parts.hostname, parts.port or 2379


def _tls(access: Access) -> ssl.SSLContext:
    context = ssl.create_default_context(cafile=access.authority)
    if access.certificate is not None:
        context.load_cert_chain(access.certificate, access.key)
    return context


def _body(members: Mapping[str, Any]) -> bytes:
    return json.dumps(members, separators=(",", ":")).encode()


def _coded(data: bytes) -> str:
    return base64.b64encode(data).decode()


class Entries:
    """Numbered entries under a prefix. Each is put where it is the last one, and never changed."""

    def __init__(self, etcd: Etcd, prefix: str) -> None:
        self._etcd = etcd
        self._prefix = prefix.rstrip("/").encode() + b"/"
        self._end = _coded(self._prefix + _BEHIND_DIGITS)
        self._seen = (-1, "0")    # the entry that was read or put last, and the revision that made it

    def close(self) -> None:
        self._etcd.close()

    def append(self, number: int, value: bytes) -> list[bytes]:
        """Puts an entry behind the one before it, where nothing is in its place or behind it. Returns the
        entries that are there from this number on: this one alone, or those of others.

        Raises `EntriesGone` where there are later entries and this one was dropped, and where the one before
        it isn't there, or isn't the one that was read. Then nothing was put.
        """
        compare = [{**self._compare(number, "EQUAL", "0"), "range_end": self._end}]
        before: list[dict[str, Any]] = []
        if number:
            made = self._seen[1] if self._seen[0] == number - 1 else None
            compare.append(self._compare(number - 1, "GREATER" if made is None else "EQUAL", made or "0"))
            before = [{"request_range": {"key": self._key(number - 1), "keys_only": True}}]
        answer = self._etcd.call("/v3/kv/txn", {
            "compare": compare,
            "success": [{"request_put": {"key": self._key(number), "value": _coded(value)}}],
            "failure": [{"request_range": self._range(number)}, *before]})
        if answer.get("succeeded"):
            self._seen = number, str(answer["header"]["revision"])
            return [value]
        told = [each["response_range"] for each in answer["responses"]]
        found = self._found(number, told[0])
        if not found:
            raise EntriesGone(self._without_one_before(number - 1, bool(told[1].get("kvs"))))
        return found

    def _without_one_before(self, number: int, is_there: bool) -> str:
        if is_there:
            return f"entry {number} in etcd isn't the one that this replica has read: {SET_BACK}"
        return f"entry {number} is gone from etcd: {SET_BACK}"

    def fetch(self, number: int, most: int = PAGE, goes_on: bool = False) -> list[bytes]:
        """The first entries from this number on. With `goes_on` as many behind them are asked for
        meanwhile. Raises `EntriesGone` where there are later ones alone."""
        following = self._range(number + most, most) if goes_on else None
        return self._found(number, self._etcd.call("/v3/kv/range", self._range(number, most), following))

    def drop(self, first: int, end: int) -> int:
        """Drops the entries from `first` on that are below `end`, and tells how many these were."""
        answer = self._etcd.call("/v3/kv/deleterange", {"key": self._key(first), "range_end": self._key(end)})
        return int(answer.get("deleted", 0))

    def _compare(self, number: int, result: str, revision: str) -> dict[str, str]:
        return {"key": self._key(number), "target": "CREATE", "result": result, "create_revision": revision}

    def _key(self, number: int) -> str:
        return _coded(self._prefix + b"%0*d" % (_DIGITS, number))

    def _range(self, number: int, most: int = PAGE) -> dict[str, str]:
        return {"key": self._key(number), "range_end": self._end, "limit": str(most)}

    def _found(self, number: int, answer: Mapping[str, Any]) -> list[bytes]:
        found: Iterable[Mapping[str, str]] = answer.get("kvs", ())
        values = []
        for place, pair in enumerate(found, number):
            key = base64.b64decode(pair["key"])
            if key != self._prefix + b"%0*d" % (_DIGITS, place):
                raise EntriesGone(f"entry {place} was dropped from etcd, whose next one is "
                                  f"{key.decode(errors='replace')}, and this replica hasn't read it: {COPY}")
            values.append(base64.b64decode(pair.get("value", "")))
            self._seen = place, str(pair["create_revision"])
        return values
