"""What runs and sessions may answer that meet a want of memory: as the model of tests/session_model.py tells
it."""
import json
from typing import Any, Iterator, NamedTuple, Sequence

from tests import session_model
from tests.support.cases import Answer
from tests.support.expected_logs import size_of
from tests.support.fixtures import ROOT

Session: Any = session_model.Session
text_of: Any = session_model.text_of
is_passed_over: Any = session_model.is_passed_over
WANT_OF_MEMORY = Answer(3, b'', b'timetravel: want of memory\n')


def is_file(path: str) -> bool:
    return (ROOT / path).is_file()


def read(path: str) -> bytes:
    return (ROOT / path).read_bytes()


# Sessions

class Judged(NamedTuple):
    """The lines of a session that are answered by `memory`; the session behind them; how many lines its log
    would have, but for those of a ground; and what is wanted in place of the first answer that may not come,
    or '' where all may."""
    lost: list[bytes]
    session: Any
    logged: int
    wanted: str = ''


def judged(lines: Sequence[bytes], answer: Answer) -> Judged:
    """What a session has answered that ends well, where lines that aren't answered by `memory` are as if those
    had changed nothing."""
    session, lost, logged = Session(), list[bytes](), 0
    *answers, rest = answer.output.split(b'\n')
    if answer.status != 0 or answer.error or rest:
        return Judged(lost, session, logged, 'status 0, whole lines, and nothing on standard error')
    left = iter(answers)
    for number, line in enumerate(lines, 1):
        if is_passed_over(line):
            continue
        found, size = next(left, None), size_of(session)
        without = [it for it in session.without_memory(line) if text_of(it).encode() == found]
        if without:
            session.lose(*without)
            lost.append(line)
            continue
        wanted = text_of(session.answer(line)).encode()
        if found != wanted:
            told = f'line {number}, {line[:200]!r}, answered by {wanted[:200]!r} or `memory`'
            return Judged(lost, session, logged, f'{told}, not by {(found or b"nothing")[:200]!r}')
        if size_of(session) != size:
            is_anew = b'"forget"' in line
            logged = 1 + len(session.asked) - session.ground if is_anew else logged + 1
    return Judged(lost, session, logged, '' if next(left, None) is None else 'no answer more than lines')


def wanted_of(lines: Sequence[bytes], answer: Answer, most: int) -> str:
    """What is wanted of a session with these lines, of which `most` may be answered by `memory`; or '' where it
    answers so."""
    found = judged(lines, answer)
    if found.wanted or len(found.lost) <= most:
        return found.wanted
    return f'{most} lines at most answered by `memory`, where {len(found.lost)} are'


def told_at_start(opening: bytes, session: Any, logged: int) -> bytes:
    """What a start on the log of a session answers to its opening and a request for the status."""
    if session.grammar is None:
        session, logged = Session(), 1
        session.answer(opening)
    status = session.status()
    answers = status, {'call': logged, **status}
    return ''.join(text_of(answer) + '\n' for answer in answers).encode()


# Runs

def options_of(name: str) -> list[str]:
    """The options that the document is run with."""
    return read(f'{name}.options').decode().split() if is_file(f'{name}.options') else []


def reports_in_threads(name: str) -> set[bytes]:
    """The reports that may come in threads: the stored one, where one worker makes all calls before
    the repair, and where NAME.run says that it is the same one in every schedule; and where several
    workers make calls and there is no repair, one for each order of these; none where it isn't
    known."""
    document = json.loads(read(f'{name}.json'))
    is_alone = document['workers'] == 1 and 'meanwhile' not in document.get('repair', {})
    if is_alone or is_file(f'{name}.run'):
        return {read(f'{name}.report')}
    if 'repair' in document:
        return set()
    workers = [call['worker'] for call in document['calls']]
    return {report_of_order(document, order) for order in orders(workers)}


def orders(workers: Sequence[int], made: tuple[int, ...] = ()) -> Iterator[tuple[int, ...]]:
    """The orders of calls in which those of each worker keep theirs, as positions; `made` are the
    first ones."""
    if len(made) == len(workers):
        yield made
    for worker in sorted(set(workers)):
        left = [at for at, it in enumerate(workers) if it == worker and at not in made]
        if left:
            yield from orders(workers, (*made, left[0]))


def report_of_order(document: Any, order: Sequence[int]) -> bytes:
    """The report of a document without a repair if its calls are made in this order, by the
    model."""
    session, lines = Session(), {}

    def answer(request: Any) -> Any:
        return session.answer(json.dumps(request).encode())
    answer({'version': 4, 'tables': document['tables']})
    for at in order:
        call = document['calls'][at]
        lines[at] = f'call {at + 1} worker {call["worker"]} {told(answer(call))}'
    tables = []
    for table in document['tables']:
        rows = answer({'select': table['name'], 'where': []})['rows']
        tables.append(f'table {table["name"]} {rows_told(rows)}')
    time = answer({'status': True})['time']
    whole = [*(lines[at] for at in sorted(lines)), *tables, f'end generation 0 time {time}', '']
    return '\n'.join(whole).encode()


def told(answer: Any) -> str:
    """An answer of the model to a write or a select, as a report has it."""
    if 'rows' in answer:
        return f'time {answer["time"]} {rows_told(answer["rows"])}'
    reply = answer['replies'][0]
    words = reply if isinstance(reply, str) else ' '.join(map(str, *reply.items()))
    return f'slot {answer["slot"]} {words}'


def rows_told(rows: Sequence[Any]) -> str:
    return ' '.join([f'rows {len(rows)}', *map(text_of, rows)])
