"""What a session that forgets answers, and what its log holds, which it makes anew then: as the model of
tests/session_model.py tells it.

Behind each of the lines that a session is given there is one log; after a crash the file has that of the
answered lines, or of some more.
"""
import copy
import functools
import json
from typing import Any, Optional, Sequence

from tests import session_model
from tests.support.log_files import OPENING, ROWS, STATUS

Session: Any = session_model.Session
json_of: Any = session_model.text_of
FORGETTING = [
    OPENING,
    json_of({'do': [{'insert': 'acct', 'row': [key, owner, 7]} for key, owner in
                    enumerate(['ann', 'b"ob\n', 'é'] * 5 + ['eve'], 1)]}),
    '{"insert":"acct","row":[17,"ann",100],"stamp":100}',
    '{"worker":2,"update":"acct","change":[["set","owner","dan"],["add","bal",-3]],"where":[["id",2]],'
    '"stamp":18446744073709551615}',
    '{"stamp":0,"worker":4294967295,"delete":"acct","where":[["owner","eve"]]}',
    '{"forget":2}',
    '{"forget":2}',
    '{"insert":"acct","row":[18,"bob",40]}',
    '{"worker":9,"begin":[{"cancel":4},{"replace":3,"by":{"insert":"acct","row":[30,"",0]}}]}',
    '{"forget":3}',
    '{"step":3}',
    '{"do":[],"whole":true,"stamp":7}',
    '{"finish":true}',
    '{"forget":2}',
    '{"forget":99}',
    '{"if":1,"forget":3}',
    '{ "worker" : 3, "forget" : 5 }',
    '{"forget":4}',
    '{"select":"acct","where":[],"at":4}',
    '{"begin":[]}',
    '{"abort":true}',
    '{"forget":5}',
    '{"if":6,"update":"acct","change":[["set","bal",0]],"where":[],"stamp":100}',
    '{"insert":"acct","row":[1,"ann",0]}',
]
QUESTIONS = [STATUS, '{"slots":[0,9999]}', '{"slots":[0,9999],"stamps":[1,100]}', ROWS, '{"tables":true}',
             *('{"select":"acct","where":[],"at":%d}' % time for time in range(1, 8))]


def size_of(session: Any) -> Optional[tuple[int, int]]:
    """What differs behind each line that is logged, and behind each that makes the log anew."""
    return None if session.grammar is None else (session.entries, session.horizon)


def made_anew(session: Any) -> list[str]:
    """The log that a session makes that has just forgotten."""
    ground = {'time': session.horizon, 'generation': session.before, 'slots': session.ground}
    slots = [action if place < session.ground else {'worker': worker, **action, **session.stamp(place)}
             for place, (worker, action) in enumerate(zip(session.workers, session.asked))]
    return [json_of(line) for line in [{**session.do_tables({}), 'ground': ground}, *slots]]


def ground_slots(log: Sequence[str]) -> int:
    """How many slots the ground of a log has."""
    return int(json.loads(log[0]).get('ground', {'slots': 0})['slots'])


class Expected:
    """What a session on a new log answers to some lines; and what its log holds, and the session, behind the
    number of them that is their place."""

    def __init__(self, lines: Sequence[str]) -> None:
        session, log = Session(), list[str]()
        self.answers: list[str] = []
        self.logs, self.sessions = [log], [session]
        for line in lines:
            session = copy.deepcopy(session)
            before = size_of(session)
            self.answers.append(json_of(session.answer(line.encode())))
            if size_of(session) != before:
                log = made_anew(session) if '"forget"' in line else [*log, line]
            self.logs.append(log)
            self.sessions.append(session)
        self.wanted: dict[int, list[str]] = {}

    def answers_behind(self, place: int) -> list[str]:
        """What a start answers to the opening and the questions where its log is that of this place."""
        if place not in self.wanted:
            session, log = copy.deepcopy(self.sessions[place]), self.logs[place]
            session.calls = len(log) - 1 - ground_slots(log)  # behind the ground
            self.wanted[place] = [json_of(session.status()),
                                  *(json_of(session.answer(line.encode())) for line in QUESTIONS)]
        return self.wanted[place]


@functools.lru_cache(maxsize=None)
def expected_without(*refused: int) -> Expected:
    """What is expected of a session that is given FORGETTING where the lines of these places are refused. It
    is as if the status had been asked for in their stead."""
    return Expected([STATUS if place in refused else line for place, line in enumerate(FORGETTING)])


def read_as_it_was_written(lines: Sequence[str]) -> Expected:
    """The session and its log at place 1, where the log has the lines that forget, too."""
    session, log, old = Session(), [], Expected([])
    for line in lines:
        before = size_of(session)
        session.answer(line.encode())
        if size_of(session) != before:
            log.append(line)
    old.sessions.append(session)
    old.logs.append(log)
    return old
