"""The command line: `python3 -m timetravel serve`, `replica`, `compact`, `call`, `status` and `metrics`."""

from __future__ import annotations

import argparse
import json
import sys
import threading
from collections.abc import Sequence
from typing import Any

from .etcd import Access, EtcdError, read_user
from .front import PATIENCE
from .lines import BLANK, Conversation, SocketError
from .metrics import ENTRIES, SLOTS, command_log, of_rows
from .positions import PositionError
from .replicas import BOUND, compact, replicate
from .serving import serve

_JOIN = b'{"join":true}'
_PAGE = 1000    # rows that are asked for at once where they are counted


def main(arguments: Sequence[str] | None = None) -> int:
    given = list(sys.argv[1:] if arguments is None else arguments)
    command: list[str] | None = None
    if given[:1] in (["serve"], ["replica"]) and "--" in given:
        place = given.index("--")
        given, command = given[:place], given[place + 1:]
    parser = _parser()
    options = parser.parse_args(given)
    if options.what == "serve":
        return _serve(parser, options, command)
    if options.what == "replica":
        return _replica(parser, options, command)
    try:
        return int(options.run(options))
    except (SocketError, EtcdError, PositionError, ValueError, OSError) as error:
        print(f"timetravel: {error}", file=sys.stderr)
        return 1


def _parser() -> argparse.ArgumentParser:
    parser = argparse.ArgumentParser(prog="python3 -m timetravel", description="One session for many.")
    kinds = parser.add_subparsers(dest="what", required=True,
                                  metavar="serve|replica|compact|call|status|metrics")
    _add_servers(kinds)
    _add_questions(kinds)
    return parser


def _add_servers(kinds: argparse._SubParsersAction[argparse.ArgumentParser]) -> None:
    """What serves a session, and `compact` beside it."""
    serving = kinds.add_parser(
        "serve", help="serve a session on a Unix socket",
        usage="%(prog)s [SOCKET] [--restart] [--timeout SECONDS] -- timetravel session [--log FILE]")
    serving.add_argument("socket", nargs="?", help="its path; not needed where systemd hands the socket over")
    serving.add_argument("--restart", action="store_true", help="start a session with a log again")
    serving.add_argument("--timeout", type=float, default=PATIENCE, metavar="SECONDS",
                         help="close a connection whose answers wait this long (default: 60)")

    replicating = kinds.add_parser(
        "replica", help="serve a replica of a session, whose lines are ordered by etcd",
        usage="%(prog)s --etcd URL,.. --prefix NAME [--bound SECONDS] [SOCKET] "
              "-- timetravel session [--log FILE]")
    replicating.add_argument("socket", nargs="?", help="its path; not needed where systemd hands it over")
    _add_etcd(replicating)
    replicating.add_argument("--bound", type=float, default=BOUND, metavar="SECONDS",
                             help="give a request up that etcd hasn't taken in this time (default: 10)")
    replicating.add_argument("--timeout", type=float, default=PATIENCE, metavar="SECONDS",
                             help="close a connection whose answers wait this long (default: 60)")

    compacting = kinds.add_parser("compact", help="drop the entries that all replicas have logged")
    _add_etcd(compacting)
    compacting.add_argument("positions", nargs="+", metavar="POSITION",
                            help="a position of each replica: FILE.position, or a copy of it")
    compacting.set_defaults(run=_compact)


def _add_questions(kinds: argparse._SubParsersAction[argparse.ArgumentParser]) -> None:
    """What asks a session that is served."""
    calling = kinds.add_parser("call", help="send lines to a session that is served, and print the answers",
                               usage="%(prog)s [--opening LINE] SOCKET [LINE..]")
    calling.add_argument("socket")
    calling.add_argument("lines", nargs="*", metavar="LINE",
                         help="a request; where none is given, they are read from standard input")
    calling.add_argument("--opening", metavar="LINE", help="open the session by this line if it isn't open")
    calling.set_defaults(run=_call)

    telling = kinds.add_parser("status", help="print the status of a session that is served")
    telling.add_argument("socket")
    telling.set_defaults(run=_status)

    measuring = kinds.add_parser("metrics", help="print counts and times in Prometheus's text format")
    measuring.add_argument("socket")
    measuring.add_argument("--rows", action="store_true",
                           help="count the rows of each table, too, by reading them")
    measuring.set_defaults(run=_metrics)


def _serve(parser: argparse.ArgumentParser, options: argparse.Namespace, command: list[str] | None) -> int:
    if not command:
        parser.error("serve: the session's command is missing behind --")
    if options.restart and command_log(command) is None:
        parser.error("serve: --restart needs a session with --log")
    if not options.timeout > 0:
        parser.error("serve: --timeout must be above 0")
    return serve(options.socket, command, restart=options.restart, patience=options.timeout)


def _add_etcd(parser: argparse.ArgumentParser) -> None:
    parser.add_argument("--etcd", required=True, metavar="URL,..", help="the URLs of etcd's members")
    parser.add_argument("--prefix", required=True, metavar="NAME", help="what the keys of the log begin with")
    parser.add_argument("--cacert", metavar="FILE", help="the authority that etcd's certificates are of")
    parser.add_argument("--cert", metavar="FILE", help="a certificate to show to etcd")
    parser.add_argument("--key", metavar="FILE", help="its key")
    parser.add_argument("--user", metavar="FILE", help="a file with a line USER:PASSWORD")


def _access(options: argparse.Namespace) -> Access:
    user = read_user(options.user) if options.user is not None else None
    urls = [url for url in options.etcd.split(",") if url]
    return Access(urls, options.cacert, options.cert, options.key, user)


def _replica(parser: argparse.ArgumentParser, options: argparse.Namespace, command: list[str] | None) -> int:
    if not command:
        parser.error("replica: the session's command is missing behind --")
    if not (options.timeout > 0 and options.bound > 0):
        parser.error("replica: --timeout and --bound must be above 0")
    try:
        access = _access(options)
    except (OSError, ValueError) as error:
        print(f"timetravel: {error}", file=sys.stderr)
        return 1
    return replicate(options.socket, command, access, options.prefix, bound=options.bound,
                     patience=options.timeout)


def _compact(options: argparse.Namespace) -> int:
    number = compact(_access(options), options.prefix, options.positions)
    print(f"entries dropped: {number}")
    return 0


def _opened(conversation: Conversation, opening: bytes = _JOIN) -> dict[str, Any] | None:
    """The status of the session, or `None` and what it said on standard error."""
    answer = conversation.ask(opening)
    status = json.loads(answer)
    if "time" in status:
        return dict(status)
    print(f"timetravel: {answer.decode()}", file=sys.stderr)
    return None


def _call(options: argparse.Namespace) -> int:
    given = [line.encode(errors="surrogateescape") for line in options.lines] or [sys.stdin.buffer.read()]
    lines = [line for text in given for line in text.split(b"\n") if line.strip(BLANK)]
    opening = _JOIN
    if options.opening is not None:    # a line feed is white space of JSON, but would end the line
        opening = options.opening.replace("\n", " ").encode(errors="surrogateescape")
    if not opening.strip(BLANK):
        raise SocketError("the opening is blank, and wouldn't be answered")
    with Conversation(options.socket) as conversation:
        if _opened(conversation, opening) is None:
            return 1
        threading.Thread(target=_send, args=(conversation, lines), daemon=True).start()
        failed = False
        for _ in lines:
            answer = conversation.answer()
            sys.stdout.buffer.write(answer + b"\n")
            sys.stdout.buffer.flush()
            failed |= _failed(answer)
        return int(failed)


def _send(conversation: Conversation, lines: Sequence[bytes]) -> None:
    try:
        for line in lines:
            conversation.send(line + b"\n")
        conversation.end()
    except OSError:
        pass    # the connection has ended, and so do the answers


def _failed(answer: bytes) -> bool:
    """Whether an answer is a fault, a refusal, or none. These begin an answer, perhaps behind `call`."""
    begin = answer[:64]
    if begin.startswith(b'{"call":'):
        begin = b"{" + begin.partition(b",")[2]
    return begin.startswith((b'{"fault"', b'{"refused"', b'{"lost"', b'{"closed"'))


def _status(options: argparse.Namespace) -> int:
    with Conversation(options.socket) as conversation:
        status = _opened(conversation)
    if status is None:
        return 1
    horizon = status.get("horizon", 0)
    if horizon:
        print(f"time: {status['time']}")
        print(f"horizon: {horizon}, with {status['time'] - horizon} slots behind it, of {SLOTS}")
    else:
        print(f"time: {status['time']} of {SLOTS}")
    print(f"entries: {status['entries']} of {ENTRIES}")
    print(f"generation: {status['generation']}")
    print(f"oldest generation: {status['oldest']}")
    repair = status["repair"]
    if isinstance(repair, dict):
        print(f"repair of worker {repair['worker']}: {repair['done']} slots done, {repair['left']} left, "
              f"{repair['rerun']} re-executed")
    else:
        print("repair: none")
    return 0


def _metrics(options: argparse.Namespace) -> int:
    with Conversation(options.socket) as conversation:
        text = json.loads(conversation.ask(b'{"metrics":true}'))["metrics"]
        if options.rows and "timetravel_open 1\n" in text and _opened(conversation) is not None:
            text += "\n".join(of_rows(_rows(conversation))) + "\n"
    sys.stdout.write(text)
    return 0


def _rows(conversation: Conversation) -> dict[str, int]:
    """How many rows each table has, read by pages, so that nobody waits long."""
    tables = _answered(conversation, {"tables": True}, "tables")["tables"]
    return {table["name"]: _table_rows(conversation, table["name"]) for table in tables}


def _table_rows(conversation: Conversation, table: str) -> int:
    request: dict[str, object] = {"select": table, "where": [], "most": _PAGE}
    number = 0
    while True:
        page = _answered(conversation, request, "rows")
        number += len(page["rows"])
        if not page["more"]:
            return number
        request["after"] = page["rows"][-1][0]


def _answered(conversation: Conversation, request: dict[str, object], name: str) -> Any:
    """The answer to a request, which has this member unless it is refused."""
    answer = conversation.ask(json.dumps(request).encode())
    found = json.loads(answer)
    if name not in found:
        raise SocketError(answer.decode())
    return found


if __name__ == "__main__":
    sys.exit(main())
