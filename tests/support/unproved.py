"""Cases that an unproved build answers, which `rt try --cases` makes: `python3 -m tests --unproved`."""
import os
import re
import subprocess
import sys
import tempfile
from pathlib import Path
from typing import Optional, Sequence

from tests.support.cases import Answer, Case, failure
from tests.support.fixtures import ROOT, folder_of_run

MOST_PRINTED = 1_048_576  # bytes that such a build prints; cases with longer reports are left out
BUILDS = 3  # side by side
CASE = re.compile(rb'case=(\d{4}) (\S+)(?: (\S+))?')
OUTPUT = re.compile(rb'== (\d{4})')


def outputs_of(printed: bytes) -> dict[str, bytes]:
    """What was printed on standard output, by the names of cases: it comes under a line '== N'."""
    found: dict[str, list[bytes]] = {}
    lines: list[bytes] = []
    for line in lines_of(printed):
        named = OUTPUT.fullmatch(line)
        if named:
            lines = found[named[1].decode()] = []
        else:
            lines.append(line)
    return {name: joined(text) for name, text in found.items()}


def ends_of(said: bytes) -> dict[str, tuple[Optional[int], bytes]]:
    """The statuses and what was said on standard error, by the names of cases: a line 'case=N ..'
    comes behind it, and tells the status where the run has ended."""
    found: dict[str, tuple[Optional[int], bytes]] = {}
    lines: list[bytes] = []
    for line in lines_of(said):
        named = CASE.match(line)
        if named:
            has_ended = named[2] == b'run=ended' and named[3] is not None
            status = int(named[3].removeprefix(b'status=')) if has_ended else None
            found[named[1].decode()] = status, joined(lines)
            lines = []
        else:
            lines.append(line)
    return found


def lines_of(text: bytes) -> list[bytes]:
    lines = text.split(b'\n')
    return lines if lines[-1] else lines[:-1]


def joined(lines: Sequence[bytes]) -> bytes:
    return b''.join(line + b'\n' for line in lines)


def answers_of(printed: bytes, said: bytes) -> dict[str, Answer]:
    """What `rt try --cases` printed, by the names of cases."""
    outputs, ends = outputs_of(printed), ends_of(said)
    answers: dict[str, Answer] = {}
    for name in {*outputs, *ends}:
        status, error = ends.get(name, (None, b''))
        answers[name] = Answer(status, outputs.get(name, b''), error)
    return answers


def write_case(folder: Path, name: str, case: Case) -> None:
    """The files of a case: standard input, and the arguments, one a line."""
    (folder / name).write_bytes(case.given)
    words = (word.encode() if isinstance(word, str) else word for word in case.arguments)
    (folder / f'{name}.args').write_bytes(joined(list(words)))


def answer_all(cases: dict[str, Case]) -> tuple[dict[str, Answer], list[str]]:
    """The answers, by the names of cases, and the last lines that each build said. Three builds answer
    a third of the cases each, side by side."""
    answers: dict[str, Answer] = {}
    last: list[str] = []
    with tempfile.TemporaryDirectory(dir=folder_of_run()) as within:
        os.chmod(within, 0o755)
        builds = []
        try:
            for part in range(BUILDS):
                folder = Path(within) / f'part{part}'
                folder.mkdir()
                for name in list(cases)[part::BUILDS]:
                    write_case(folder, name, cases[name])
                with open(f'{folder}.out', 'wb') as printed, open(f'{folder}.err', 'wb') as said:
                    builds.append(subprocess.Popen(
                        ['rt', 'try', '--steps', '1', '--seconds', '120', '--cases', folder],
                        cwd=ROOT / 'crates/tt_cli', stdin=subprocess.DEVNULL, stdout=printed, stderr=said))
            for build in builds:
                build.wait()
        finally:
            for build in builds:
                if build.poll() is None:
                    build.terminate()
                    build.wait()
        for part in range(BUILDS):
            said_by_it = Path(f'{within}/part{part}.err').read_bytes()
            answers.update(answers_of(Path(f'{within}/part{part}.out').read_bytes(), said_by_it))
            last += said_by_it.decode(errors='backslashreplace').splitlines()[-5:]
    return answers, last


def run() -> int:
    """Answers the documents, sessions and command lines, and tells what differs."""
    from tests import command_lines, documents, sessions
    print('test: an unproved build answers the documents, sessions and command lines, which takes some five minutes '
          'on four cores', file=sys.stderr, flush=True)
    found = [*documents.cases(by_one_command=True), *sessions.cases(), *command_lines.cases(is_unproved=True)]
    cases = {f'{number:04}': case for number, case in enumerate(found, 1) if len(case.output) <= MOST_PRINTED}
    answers, last = answer_all(cases)
    failed = 0
    for name, case in cases.items():
        told = failure(case, answers.get(name, Answer(None, b'', b'')))
        if told:
            failed += 1
            print(f'\nFAILED: {told}', file=sys.stderr)
    if failed == len(cases):
        print('\n'.join(last), file=sys.stderr)
    print(f'{len(cases) - failed} passed, {failed} failed')
    print('An unproved build has answered these documents, sessions and command lines: nothing was proved. Left out '
          f'were {len(found) - len(cases)} whose answers are longer than 1 MiB, and all that ./test alone tries.')
    return 1 if failed else 0
