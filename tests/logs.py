"""Sessions with a log that are killed, whose file is torn or gets full, and whose calls fail: whatever was
answered is there at the next start.

What isn't synced is torn, and calls fail, by a shared object (tests/tear_unsynced.c), for which a C compiler
is needed. $LOG_TEARS says in how many ways the file is torn, where it isn't 2,000; one that is made anew is
torn in an eighth of these (tests/logs_anew.py). With 2,000 the two parts take two minutes.
"""
import json
import os
import random
import subprocess
from typing import Optional

from tests.support.crashes import FOR_GOOD, TEARS, CrashCase, Hold
from tests.support.held_session import PATIENCE, Ended
from tests.support.log_files import (
    CANNOT_ANSWER, CANNOT_READ, CANNOT_WRITE, IN_USE, OPENING, OPENINGS, ROWS, SLOTS, STATUS, WIDE, LogCase, cause_of,
    is_told, logged, text_of, write)
from tests.support.mounts import in_a_mount

LINES = [
    OPENING,
    '{"insert":"acct","row":[1,"ann",100]}',
    '{"do":[{"insert":"acct","row":[2,"bob",40]},{"update":"acct","change":[["add","bal",1]],'
    '"where":[["id",1]]}]}',
    '{"status":true}',
    '{"insert":"acct","row":[1,"ann"]}',
    '{"worker":2,"delete":"acct","where":[["owner","bob"]],"stamp":1000}',
    '{"select":"acct","where":[]}',
    '{"begin":[{"cancel":1}]}',
    '{"insert":"acct","row":[3,"eve",7]}',
    '{"step":2}',
    '{"begin":[]}',
    '{"finish":true}',
    '{"changes":"now"}',
    '{"insert":"acct","row":[4,"dan",7],"stamp":18446744073709551615}',
]
# Whether the line is logged.
IS_LOGGED = [1, 1, 1, 0, 0, 1, 0, 1, 1, 1, 0, 1, 0, 1]
COMPARED = '{"update":"acct","change":[["add","bal",-40]],"where":[["id",1],["bal",">=",40]]}'
# Texts that are no log, and the first line of each that is none of a log.
NO_LOGS = [('{"version":2}\n', 1), ('acct 3 rows\n', 1),
           *((text_of([OPENING.replace(':2', version), LINES[1]]), 1) for version in (':1', ':5', ':"2"')),
           (text_of([OPENING, LINES[1], COMPARED.replace('>=', '=>')]), 3),
           (text_of([OPENING, LINES[1], '{"do":[],"stamp":-1}']), 3),
           (text_of([OPENING, '{"status":true}']), 2),
           (text_of([OPENING, '', LINES[1]]), 2)]
FILL = """
mount -t tmpfs -o size=1m tmpfs "$2" && : >"$3/mounted" || exit 77
"$1" session --log "$2/log" <"$3/lines" >"$3/answers" 2>"$3/told"
echo $? >"$3/status"
mount -o remount,size=16m tmpfs "$2" &&
  "$1" log "$2/log" >"$3/logged" &&
  "$1" session --log "$2/log" <"$3/questions" >"$3/after"
"""
MANY = [OPENING, *(WIDE % number for number in range(2000))]  # more than a MiB


class Answered(LogCase):
    """Tests that know how many of LINES were answered."""

    def assert_has_answered(self, file: str, answered: int, what: str) -> None:
        """A file has the first of the logged lines, at least those that were answered."""
        all_logged = [line for line, is_logged in zip(LINES, IS_LOGGED) if is_logged]
        lines = logged(file)
        self.assert_lines(lines, all_logged[:len(lines)], f'{what}: the log')
        least = sum(IS_LOGGED[:answered])
        self.assertGreaterEqual(len(lines), least, f'{what}: of {answered} answered lines {least} are logged')


class Logs(Answered):
    def test_a_session_that_is_killed_loses_no_answered_line(self) -> None:
        for count in range(1, len(LINES) + 1):
            with self.subTest(f'killed behind answer {count}'):
                file = self.new_file()
                self.killed(file, LINES[:count])
                self.assert_has_answered(file, count, 'killed')
                self.assert_same(len(logged(file)), sum(IS_LOGGED[:count]), 'lines of the log')
                self.assert_room(file, logged(file), 'killed')
                self.assert_goes_on(file, 'killed')

    def test_stamps_are_there_after_a_start(self) -> None:
        lines = [OPENING, '{"insert":"acct","row":[1,"ann",100],"stamp":0}',
                 '{"stamp":18446744073709551615,"worker":2,"do":[],"whole":true}', '{"delete":"acct","where":[]}',
                 '{"begin":[{"cancel":1}]}', '{"if":3,"insert":"acct","row":[2,"bob",0],"stamp":7}',
                 '{"finish":true}']
        given = [OPENING, SLOTS, '{"slots":[1,9],"stamps":[0,7]}']
        for what, hold in {'at its end': self.whole, 'killed': self.killed}.items():
            with self.subTest(f'a session that is left {what}'):
                file = self.new_file()
                hold(file, lines)
                self.assert_lines(logged(file), lines, 'the log')
                told = [json.loads(answer)['slots'] for answer in self.whole(file, given).answers[1:]]
                self.assert_same([[(slot['slot'], slot.get('stamp')) for slot in slots] for slots in told],
                                 [[(1, 0), (2, 2 ** 64 - 1), (3, None), (4, 7)], [(1, 0), (4, 7)]], 'a start')

    def test_a_file_that_is_no_log_is_refused_and_stays(self) -> None:
        file = self.new_file()
        for text, number in NO_LOGS:
            for rest in ('', '\0', '{"insert":', '\0\0{}\n'):
                with self.subTest(f'{text[-80:]!r} and {rest!r} behind it'):
                    before = (text + rest).encode()
                    write(file, before)
                    number_of_file = os.stat(file).st_ino
                    self.assert_told_of_line(self.whole(file, [OPENING]), number, file, 'a start')
                    self.assert_unchanged(file, before, 'a start')
                    self.assert_same(os.stat(file).st_ino, number_of_file, 'the file has another number')
                    self.assert_shown(file, rest.strip('\0') != '', 'no log')

    def test_a_torn_last_line_counts_for_nothing(self) -> None:
        file = self.new_file()
        write(file, (text_of([OPENING, LINES[1]]) + '{"insert":"acct","ro').encode())
        self.assert_shown(file, True, 'a torn last line')
        given = [OPENING.replace('"bal"', '"sum"'), STATUS, OPENING]
        answers = self.whole(file, given).answers
        begins = ['{"refused":"another opening"}', '{"call":2,"time":1,', '{"time":1,']
        self.assert_answers(given, [answer[:len(begin)] for answer, begin in zip(answers, begins)], begins,
                            'a torn last line')
        self.assert_same(len(answers), len(given), answers)
        self.assert_goes_on(file, 'a torn last line')

    def test_a_log_that_cannot_be_made_is_told(self) -> None:
        for path in (f'{self.folder}/none/log', self.folder, f'{self.folder}/no\nlog\t"\u00e9/x'):
            with self.subTest(path):
                ended = self.whole(path, [OPENING])
                self.assert_same((ended.status, cause_of(ended.told), ended.told.count('\n')), (1, CANNOT_READ, 1),
                                 ended.told)
                if path.isprintable():
                    self.assert_that(is_told(ended.told, CANNOT_READ, path), ended.told)

    def test_no_file_to_look_at_is_told(self) -> None:
        for path in (f'{self.folder}/none', self.folder):
            with self.subTest(path):
                shown = subprocess.run([self.program, 'log', path], capture_output=True, timeout=PATIENCE)
                self.assert_same((shown.returncode, shown.stdout), (1, b''), shown.stderr)
                self.assert_that(is_told(shown.stderr.decode(), CANNOT_READ, path), shown.stderr)

    def test_a_log_goes_on_with_an_opening_of_any_version(self) -> None:
        """All lines are read as of the newest version, and each session answers the same."""
        for first in OPENINGS:
            file, lines = self.new_file(), [first, LINES[1], COMPARED]
            with self.subTest(f'a log that begins with {first[:12]}'):
                self.assert_answers(lines[1:], self.whole(file, lines).answers[1:],
                                    ['{"call":1,"slot":1,"replies":["inserted"]}',
                                     '{"call":2,"slot":2,"replies":[{"updated":1}]}'], 'a new log')
                for opening in OPENINGS:
                    with self.subTest(f'and a session that begins with {opening[:12]}'):
                        self.assert_opened_in(file, opening)
                        self.assert_lines(logged(file), lines, 'the log')
                self.assert_shown(file, False, 'a log of several versions')

    def assert_opened_in(self, file: str, opening: str) -> None:
        ended = self.whole(file, [opening, '{"select":"acct","where":[["bal","<",99]]}', '{"slots":[2,2]}',
                                  '{"tables":true}'])
        self.assert_ended_well(ended, 'a start')
        opened, selected, slots, tables = map(json.loads, ended.answers)
        self.assert_same((opened['time'], selected['rows']), (2, [[1, 'ann', 60]]), 'a comparison')
        self.assert_same([slot['do'] for slot in slots['slots']], [[json.loads(COMPARED)]], 'the slots')
        self.assert_same(tables['version'], 4, 'the version')

    def test_a_log_that_is_in_use_is_refused_to_others(self) -> None:
        file = self.new_file()
        with self.held(file) as held:
            held.ask(OPENING)
            self.assert_cannot(self.whole(file, [OPENING]), 1, IN_USE, file, 'a second session on a file')
            self.assert_shown(file, False, 'a file that is in use')
            held.end()
        self.assert_same(self.whole(file, [OPENING]).status, 0, 'a session after the other has ended')

    def test_a_file_that_may_not_grow_loses_no_answered_line(self) -> None:
        """It may have a MiB."""
        file = self.new_file()
        limited = ['bash', '-c', 'ulimit -f 1024; trap "" XFSZ; exec "$@"', 'bash', *self.words(file)]
        ended = subprocess.run(limited, input=text_of(MANY).encode(), capture_output=True, timeout=PATIENCE)
        told = ended.stderr.decode()
        self.assert_that(ended.returncode == 4 and is_told(told, CANNOT_WRITE, file), (ended.returncode, told))
        lines, answered = logged(file), ended.stdout.count(b'\n')
        self.assert_lines(lines, MANY[:len(lines)], 'the log')
        self.assertLessEqual(answered, len(lines), 'answered lines, and lines of the log')
        self.assert_holds(self.whole(file, [OPENING, STATUS]), len(lines) - 1)

    def assert_holds(self, ended: Ended, requests: int) -> None:
        self.assert_ended_well(ended, 'a start where there is room')
        self.assert_same(json.loads(ended.answers[1])['entries'], requests, 'a start where there is room')

    def test_a_disk_that_gets_full_loses_no_answered_line(self) -> None:
        """A file system of a MiB gets full, and is then made larger."""
        disk = self.new_folder()
        found = in_a_mount(FILL, self.program, disk, self.new_folder(),
                           {'lines': MANY, 'questions': [OPENING, STATUS]})
        self.assert_same((found['ended'], found['status']), ('0', '4\n'), found['told'])
        self.assert_that(is_told(found['told'], CANNOT_WRITE, f'{disk}/log'), found['told'])
        lines, answered = found['logged'].splitlines(), found['answers'].count('\n')
        self.assert_lines(lines, MANY[:len(lines)], 'the log')
        self.assertLessEqual(answered, len(lines), 'answered lines, and lines of the log')
        self.assert_holds(Ended(0, found['after'].splitlines(), ''), len(lines) - 1)


class LogsWithCrashes(CrashCase, Answered):
    def test_a_torn_session_loses_no_answered_line(self) -> None:
        chance = random.Random(1)
        torn = [(seed, chance.randrange(len(LINES)), chance.randrange(1, 40), chance.random() < 0.5)
                for seed in range(TEARS)]
        self.each_in_threads('sessions that are torn', self.tear_once, [
            (f'way {seed}: behind {before} lines, at call {call}, given lines {"at once" if at_once else "one by one"}',
             (seed, before, call, at_once)) for seed, before, call, at_once in torn])

    def tear_once(self, seed: int, before: int, call: int, at_once: bool) -> None:
        """A session on a file with the first lines is torn at a call, by a seed."""
        file = self.new_file()
        if before:
            self.whole(file, LINES[:before])
        settings = self.with_calls(file, TEAR_AT=call, TEAR_SEED=seed)
        given = [OPENING, *LINES[max(before, 1):]] if before else LINES
        holds: dict[bool, Hold] = {True: self.whole, False: self.one_by_one}
        answers = holds[at_once](file, given, settings).answers
        answered = max(before - 1, 0) + len(answers) if answers else before
        self.assert_has_answered(file, max(answered, before), 'torn')
        self.assert_goes_on(file, 'torn')
        os.remove(file)

    def test_what_a_start_has_told_stays_behind_a_power_failure(self) -> None:
        """A session is killed between a write and its sync; the next one tells what it finds; then all is lost
        that wasn't synced."""
        lengths = set()
        given = [OPENING, '{"slots":[1,9]}', STATUS, ROWS]
        for call in range(1, 40):
            with self.subTest(f'killed at call {call}'):
                file, synced = self.new_file(), self.new_file()
                self.one_by_one(file, LINES, self.with_calls(file, KILL_AT=call))
                told = self.whole(file, given, self.with_calls(file, KEEP_SYNCED=synced))
                found = self.whole(synced, given)
                self.assert_answers(given, found.answers, told.answers, 'behind the power failure')
                self.assert_same((found.status, found.told), (told.status, told.told))
                lengths.add(len(logged(synced)))
        self.assertGreater(len(lengths), 5, f'sessions that are killed have logs of {sorted(lengths)} lines alone')

    def test_calls_that_fail_are_told_and_lose_no_answered_line(self) -> None:
        """A call fails, or all from it on: of a session on a new file, on one that was left well, and on one
        that wasn't, which is made anew."""
        met: set[tuple[int, str]] = set()
        for last in (None, FOR_GOOD):
            for first in range(1, 60):
                with self.subTest(f'call {first} fails{" and all behind it" if last else ""}'):
                    met.add(self.fail_once(first, last))
        self.assert_same(met, {(0, ''), (1, CANNOT_READ), (4, CANNOT_WRITE), (4, CANNOT_ANSWER)}, 'all endings')

    def fail_once(self, first: int, last: Optional[int]) -> tuple[int, str]:
        """The status of a session and what it tells of its end."""
        file = self.new_file()
        before = [] if first % 3 == 0 else LINES[:3]
        if before:
            self.whole(file, before)
        if first % 3 == 1:
            self.leave_unclean(file)
        given = [OPENING, *LINES[3:]] if before else LINES
        status, answers, told = self.whole(file, given, self.with_calls(file, FAIL_FROM=first, FAIL_TO=last or first))
        cause = cause_of(told)
        self.assertIn((status, cause), [(0, ''), (1, CANNOT_READ), (4, CANNOT_WRITE), (4, CANNOT_ANSWER)], told)
        self.assert_same(told.count('\n'), int(status != 0), told)
        self.assert_that(cause in ('', CANNOT_ANSWER) or is_told(told, cause, file), f'{told!r} of {file}')
        answered = max(len(before) - 1, 0) + len(answers) if answers else len(before)
        self.assert_has_answered(file, max(answered, len(before)), 'a call fails')
        self.assert_goes_on(file, 'a call fails')
        return status, cause
