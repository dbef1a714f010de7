"""Sessions with a log that forget, and so make it anew: what they answer, and what their logs hold, is told by
the model (tests/support/expected_logs.py).

Calls fail by a shared object (tests/tear_unsynced.c), for which a C compiler is needed. $LOG_TEARS is as in
tests/logs.py.
"""
import json
import os
import random
import signal
from contextlib import contextmanager
from typing import Any, Callable, Iterator, Mapping, Sequence

from tests.support.crashes import FOR_GOOD, TEARS, CrashCase, Hold
from tests.support.expected_logs import (
    FORGETTING, QUESTIONS, Expected, expected_without, json_of, read_as_it_was_written)
from tests.support.held_session import Ended, Held
from tests.support.log_files import (
    CANNOT_ANSWER, CANNOT_READ, CANNOT_WRITE, IN_USE, OPENING, OPENINGS, ROWS, STATUS, WIDE, LogCase, Numbered,
    are_told_of, cause_of, data_of, is_told, lines_of_file, logged, text_of, write)
from tests.support.mounts import in_a_mount

FORGET = '{"forget":%d}'
SOME = 6  # lines of FORGETTING by the first that forgets, that one too
FIRST = FORGETTING[:SOME - 1]
REFUSAL = '{"call":%d,"refused":"log"}' % (SOME - 1)  # of the first that forgets
OTHER = text_of([OPENING, '{"insert":"acct","row":[99,"",0]}']).encode()  # another log
# Logs of tables `acct` that begin with a ground, and the first line of each that is none.
GROUND = OPENING[:-1] + ',"ground":%s}'
GROUND_ROWS = ['{"do":[{"insert":"acct","row":[1,"ann",0]},{"insert":"acct","row":[2,"bob",0]}]}',
               '{"do":[{"insert":"acct","row":[3,"eve",0]}]}']
ONE = '{"time":4,"generation":0,"slots":1}'
TWO = '{"time":4,"generation":0,"slots":2}'
LARGEST = '{"time":9223372036854775807,"generation":9223372036854775807,"slots":0}'
NO_GROUNDS: list[tuple[Sequence[str], int]] = [
    *(((GROUND % ground, *GROUND_ROWS), 1) for ground in (
        'null', '[]', '2', '{}', '{"time":4,"slots":2}', '{"time":4,"generation":0}',
        '{"generation":0,"slots":2}', '{"time":4,"generation":0,"slots":2,"x":0}',
        '{"time":-1,"generation":0,"slots":0}', '{"time":4.0,"generation":0,"slots":2}',
        '{"time":"4","generation":0,"slots":2}', '{"time":4,"generation":0,"slots":null}',
        '{"time":1,"generation":0,"slots":2}', '{"time":2000000,"generation":0,"slots":1000001}',
        '{"time":9223372036854775808,"generation":0,"slots":2}',
        '{"time":4,"generation":9223372036854775808,"slots":2}',
        '{"time":4,"time":4,"generation":0,"slots":2}')),
    ((OPENING[:-1] + ',"ground":%s,"ground":%s}' % (TWO, TWO), *GROUND_ROWS), 1),
    ((GROUND % TWO,), 2),
    ((GROUND % TWO, GROUND_ROWS[0]), 3),
    ((GROUND % TWO, GROUND_ROWS[0], GROUND_ROWS[0]), 3),
    *(((GROUND % TWO, GROUND_ROWS[0], '{"do":[{"insert":"acct","row":[3,"",0]},{"insert":"acct","row":[%d,"",0]}]}'
        % key), 3) for key in (1, 3)),
    ((GROUND % TWO, GROUND_ROWS[0], '{"worker":1,"do":[{"insert":"acct","row":[3,"eve",0]}]}'), 3),
    ((GROUND % ONE, '{"if":0,"do":[{"insert":"acct","row":[3,"eve",0]}]}'), 2),
    ((GROUND % ONE, '{"insert":"acct","row":[3,"eve",0]}'), 2),
    ((GROUND % ONE, '{"do":[]}'), 2),
    *(((GROUND % ONE, '{"do":[{"insert":"acct","row":[3,"eve",0]}],"whole":%s}' % whole), 2)
      for whole in ('true', 'false')),
    ((GROUND % ONE, '{"do":[{"insert":"acct","row":[3,"eve",0]}],"stamp":1}'), 2),
    ((GROUND % ONE, GROUND_ROWS[0], '{"do":[],"stamp":-1}'), 3),
    ((GROUND % ONE, '{"do":[{"insert":"acct","row":[3,"eve"]}]}'), 2),
    ((GROUND % ONE, '{"do":[{"update":"acct","change":[],"where":[]}]}'), 2),
    ((GROUND % ONE, '{"do":[{"insert":"acct","row":[1,"",0]},{"delete":"acct","where":[]}]}'), 2),
    ((GROUND % ONE, json_of({'do': [{'insert': 'acct', 'row': [key, '', 0]} for key in range(17)]})), 2),
    ((GROUND % ONE, '{"status":true}'), 2),
    ((GROUND % ONE, GROUND_ROWS[0], '{"status":true}'), 3),
    ((GROUND % ONE, GROUND_ROWS[0], '{"forget":3}'), 3),
    ((GROUND % ONE, GROUND % ONE), 2),
]
# With the program, a folder that gets a file system, and one for what is given and told.
FILL_WHILE_FORGETTING = """
mount -t tmpfs -o size=1m tmpfs "$2" && : >"$3/mounted" || exit 77
"$1" session --log "$2/log" <"$3/lines" >"$3/answers" 2>"$3/told"
echo $? >"$3/status"
ls "$2" >"$3/listed"
mount -o remount,size=16m tmpfs "$2" &&
  "$1" log "$2/log" >"$3/logged" &&
  "$1" session --log "$2/log" <"$3/again" >"$3/after" &&
  "$1" log "$2/log" >"$3/anew"
"""
IN_A_FOLDER_THAT_IS_NOT_WRITTEN = """
mount -t tmpfs tmpfs "$2" && : >"$2/log" && : >"$3/log" && mount --bind "$3/log" "$2/log" &&
  mount -o remount,ro tmpfs "$2" && ! touch "$2/other" && : >"$3/mounted" || exit 77
"$1" session --log "$2/log" <"$3/lines" >"$3/answers" 2>"$3/told"
echo $? >"$3/status"
ls "$2" >"$3/listed"
"""


class Behind(LogCase):
    """Tests that know behind which line of a session its log is."""

    def assert_goes_on_behind(self, file: str, expected: Expected, place: int, what: str) -> None:
        """A start on a file answers as the session behind the first lines, also before an opening, and
        leaves the lines of its log in it, and nothing else, and no other file beside it. `place` is their number."""
        log, (opened, first, *rest) = expected.logs[place], expected.answers_behind(place)
        given, wanted = [OPENING, *QUESTIONS], [opened, first, *rest]
        if logged(file):
            given, wanted = [QUESTIONS[0], OPENING, *QUESTIONS[1:]], [first, opened, *rest]
        ended = self.whole(file, given)
        self.assert_ended_well(ended, f'{what}: the next start')
        self.assert_answers(given, ended.answers, wanted, f'{what}: the next start')
        self.assert_no_new_log(file, what)
        self.assert_lines_alone(file, log, f'{what}: the next start')
        self.assert_shown(file, False, what)

    def assert_behind(self, file: str, expected: Expected, least: int, most: int, what: str) -> None:
        """A file has the log behind `least` to `most` lines, and a session goes on there."""
        lines = logged(file)
        place = next((it for it in range(least, most + 1) if expected.logs[it] == lines), None)
        if place is None:
            self.assert_lines(lines, expected.logs[least], f'{what}: the log behind {least} to {most} lines')
        else:
            self.assert_goes_on_behind(file, expected, max(place, 1), what)

    def assert_all_behind(self, file: str, what: str) -> None:
        """A file has the log behind all lines of FORGETTING."""
        self.assert_behind(file, expected_without(), len(FORGETTING), len(FORGETTING), what)


class Anew(Behind):
    def setUp(self) -> None:
        super().setUp()
        self.expected = expected_without()

    def test_a_session_that_forgets_is_answered_and_logged_as_the_model_says(self) -> None:
        holds: dict[str, Hold] = {'at once': self.whole, 'one by one': self.one_by_one}
        for name, hold in holds.items():
            with self.subTest(f'lines {name}'):
                file = self.new_file()
                ended = hold(file, FORGETTING)
                self.assert_ended_well(ended, 'a session that forgets')
                self.assert_answers(FORGETTING, ended.answers, self.expected.answers, 'a session that forgets')
                self.assert_all_behind(file, 'a session that forgets')

    def test_a_session_that_is_killed_behind_a_forgetting_has_made_its_log_anew(self) -> None:
        for place, line in enumerate(FORGETTING, 1):
            if '"forget"' in line and self.expected.logs[place] != self.expected.logs[place - 1]:
                with self.subTest(f'killed behind line {place}'):
                    file = self.new_file()
                    self.killed(file, FORGETTING[:place])
                    self.assert_room(file, self.expected.logs[place], 'a log that was made anew')
                    self.assert_behind(file, self.expected, place, place, 'killed behind a forgetting')

    def test_each_line_may_be_given_to_a_session_of_its_own(self) -> None:
        """Each start reads what the one before has left."""
        file = self.new_file()
        for place, line in enumerate(FORGETTING[1:], 2):
            with self.subTest(f'line {place}: {line}'):
                answer = self.whole(file, [OPENING, line] if place % 2 or place == 2 else [line]).answers[-1]
                wanted = json.loads(self.expected.answers[place - 1])
                self.assert_same(json.loads(answer), {**wanted, 'call': json.loads(answer)['call']}, line)
                self.assert_behind(file, self.expected, place, place, 'one line a start')

    def test_a_log_that_is_made_anew_tells_the_newest_version(self) -> None:
        """It does whatever the openings have told, and keeps comparisons and whole actions."""
        where = [['id', 1], ['bal', '>=', 8]]
        compared: dict[str, Any] = {'update': 'acct', 'change': [['add', 'bal', -8]], 'where': where}
        whole: dict[str, Any] = {'do': [compared], 'whole': True}
        slots = [json_of({'worker': 1, 'do': [compared]}), json_of({'worker': 1, **whole})]
        file = self.new_file()
        self.killed(file, [OPENINGS[0], '{"insert":"acct","row":[1,"ann",30]}', json_of(compared),
                           json_of(whole)])
        for time, (opening, balance) in enumerate(((OPENINGS[1], 30), (OPENINGS[0], 22)), 1):
            with self.subTest(f'forgets before {time}'):
                answers = self.killed(file, [opening, FORGET % time])
                self.assert_same(json.loads(answers[1]).get('horizon'), time, answers)
                first, *lines = logged(file)
                self.assert_same(json.loads(first)['version'], 4, first)
                insert = json_of({'do': [{'insert': 'acct', 'row': [1, 'ann', balance]}]})
                self.assert_lines(lines, [insert, *slots[time - 1:]], 'the log')
                for again in OPENINGS:
                    opened, selected = map(json.loads, self.whole(file, [again, ROWS]).answers)
                    self.assert_same((opened['time'], opened['horizon'], selected['rows']),
                                     (3, time, [[1, 'ann', 14]]), again)

    def test_a_log_that_is_made_anew_has_the_stamps_of_what_is_kept(self) -> None:
        file = self.new_file()
        lines = [OPENING, '{"insert":"acct","row":[1,"ann",30],"stamp":10}',
                 '{"stamp":20,"worker":2,"delete":"acct","where":[["bal","<",0]]}',
                 '{"insert":"acct","row":[2,"bob",0]}', '{"do":[],"whole":true,"stamp":18446744073709551615}',
                 '{"begin":[{"cancel":2}]}', '{"finish":true}', FORGET % 1]
        self.killed(file, lines)
        wanted = ['{"do":[{"insert":"acct","row":[1,"ann",30]}]}', '{"worker":2,"do":[],"stamp":20}',
                  '{"worker":1,"do":[{"insert":"acct","row":[2,"bob",0]}]}',
                  '{"worker":1,"do":[],"whole":true,"stamp":18446744073709551615}']
        for start in ('a first start', 'a second start'):
            self.assert_lines(logged(file)[1:], wanted, start)
            given = [OPENING, '{"slots":[0,9]}', '{"slots":[0,9],"stamps":[0,20]}']
            told = [json.loads(answer)['slots'] for answer in self.whole(file, given).answers[1:]]
            self.assert_same([[(slot['slot'], slot.get('stamp')) for slot in slots] for slots in told],
                             [[(2, 20), (3, None), (4, 2 ** 64 - 1)], [(2, 20)]], start)

    def test_a_log_behind_a_link_is_made_anew(self) -> None:
        """The link stays one, and the file keeps its permissions."""
        folder = self.new_folder()
        file, link = f'{folder}/file', f'{self.new_folder()}/link'
        write(file, b'')
        os.chmod(file, 0o640)
        os.symlink(file, link)
        os.mkdir(f'{link}.new')  # which is in nobody's way
        # While it is open, no new file has its number.
        with open(file) as old:
            before = Numbered.of(os.stat(old.fileno()))
            self.assert_answers(FORGETTING, self.whole(link, FORGETTING).answers, self.expected.answers, 'a link')
            self.assert_another(file, before, True, 'behind a link')
        self.assert_same((os.readlink(link), os.listdir(folder)), (file, ['file']), 'what the link is to')
        self.assert_all_behind(file, 'behind a link')

    def test_a_log_that_was_made_anew_has_what_is_kept_and_no_more(self) -> None:
        file, rows = self.new_file(), 3000
        lines = [OPENING, *(WIDE % key for key in range(rows)),
                 '{"delete":"acct","where":[]}', *(WIDE % key for key in range(1100))]
        self.assert_ended_well(self.whole(file, lines), 'a log of 4 MiB')
        self.assert_same(os.path.getsize(file), len(text_of(lines)), 'a log of 4 MiB')
        ended = self.whole(file, [OPENING, FORGET % (rows + 1000), '{"select":"acct","where":[],"most":1}'])
        self.assert_ended_well(ended, 'a log that is made smaller')
        self.assert_same(json.loads(ended.answers[1])['entries'], 63 + 101, ended.answers[1])
        self.assert_same(len(logged(file)), 1 + 63 + 101, 'lines of a log that was made smaller')
        self.assertLess(os.path.getsize(file), 2 << 20, 'bytes of a log that was made smaller')
        self.assert_lines_alone(file, logged(file), 'a log that was made smaller')
        kept = json.loads(self.whole(file, [OPENING, ROWS]).answers[1])['rows']
        self.assert_same(len(kept), 1100, 'rows of a log that was made smaller')

    # What has the name of the new log already, and what takes the name of the log

    def test_a_new_log_that_a_session_has_left_is_removed_by_a_start(self) -> None:
        file = self.new_file()
        write(f'{file}.new', OTHER)
        self.assert_answers(FORGETTING, self.whole(file, FORGETTING).answers, self.expected.answers, 'a start')
        self.assert_all_behind(file, 'a new log at a start')

    def test_a_session_forgets_nothing_while_something_is_in_the_way(self) -> None:
        ways: list[tuple[str, Callable[[str], None], Callable[[str], None]]] = [
            ('a folder', os.mkdir, os.rmdir), ('a file', lambda path: write(path, b''), os.unlink)]
        for name, make, remove in ways:
            with self.subTest(f'{name} is in the way'):
                file = self.new_file()
                with self.held(file) as held:
                    self.assert_answers(FIRST, held.asked(FIRST), self.expected.answers[:len(FIRST)], 'a session')
                    make(f'{file}.new')
                    self.assert_same(held.ask(FORGETTING[len(FIRST)]), REFUSAL)
                    self.assert_lines(logged(file), self.expected.logs[SOME - 1], 'a log that is not made anew')
                    if os.path.lexists(f'{file}.new'):
                        remove(f'{file}.new')
                    answer = held.ask_value(FORGETTING[len(FIRST)])
                    wanted = {**json.loads(self.expected.answers[SOME - 1]), 'call': SOME}
                    self.assert_same(answer, wanted, 'nothing is in the way')
                    told = held.end().told.splitlines()
                self.assert_that(len(told) == 1 and are_told_of(told, file), told)
                self.assert_behind(file, self.expected, SOME, SOME, 'what was in the way')

    def test_a_session_forgets_nothing_where_a_folder_was_in_the_way_of_its_start(self) -> None:
        file = self.new_file()
        os.mkdir(f'{file}.new')
        status, answers, told = self.whole(file, FORGETTING[:SOME])
        self.assert_same((status, answers[-1:]), (0, [REFUSAL]), told)
        self.assert_that(told.count('\n') == 1 and are_told_of(told.splitlines(), file), told)
        os.rmdir(f'{file}.new')
        self.assert_behind(file, self.expected, SOME - 1, SOME - 1, 'a folder in the way')

    def test_a_session_whose_file_has_lost_its_name_forgets_nothing_and_goes_on(self) -> None:
        """It doesn't take the name away from another file."""
        for other in (None, OTHER):
            with self.subTest('another file has the name' if other else 'nothing has the name'):
                file = self.new_file()
                moved = f'{file}.moved'
                with self.held(file) as held:
                    held.asked(FIRST)
                    os.link(file, moved)
                    os.unlink(file)
                    if other:
                        write(file, other)
                    self.assert_same(held.ask(FORGETTING[SOME - 1]), REFUSAL)
                    self.assertIn('time', held.ask_value(STATUS) or {}, 'a status')
                    self.assert_same(os.path.lexists(file), other is not None, 'whether the name is there')
                    self.assert_same(held.end().status, 0, 'the end')
                if other:
                    self.assert_data(file, other, 'the other file')
                self.assert_behind(moved, self.expected, SOME - 1, SOME - 1, 'the file that has lost its name')

    # Grounds

    def test_a_log_whose_ground_is_none_is_refused_and_stays(self) -> None:
        file = self.new_file()
        for lines, number in NO_GROUNDS:
            with self.subTest(str(lines)[len(OPENING):][:200]):
                before = text_of(lines).encode()
                write(file, before)
                self.assert_told_of_line(self.whole(file, [OPENING]), number, file, 'a ground that is none')
                self.assert_unchanged(file, before, 'a ground that is none')

    def test_a_log_with_a_ground_goes_on(self) -> None:
        file, given = self.new_file(), [OPENING, STATUS]
        write(file, text_of([GROUND % TWO, *GROUND_ROWS, '{"worker":7,"do":[]}',
                             '{"delete":"acct","where":[]}']).encode())
        self.assert_answers(given, self.whole(file, given).answers, [
            '{"time":6,"generation":0,"oldest":0,"entries":4,"repair":null,"horizon":4}',
            '{"call":3,"time":6,"generation":0,"oldest":0,"entries":4,"repair":null,"horizon":4}'], 'a ground')

    def test_a_ground_on_standard_input_is_a_fault(self) -> None:
        answers = self.whole(self.new_file(), [GROUND % TWO, OPENING]).answers
        self.assert_same(answers[0], '{"fault":{"path":"$","cause":"unknown member \\"ground\\""}}')

    def test_a_ground_may_have_the_largest_time_and_generation(self) -> None:
        file, most, given = self.new_file(), 9223372036854775807, [OPENING, STATUS]
        write(file, text_of([GROUND % LARGEST]).encode())
        status = (f'"time":{most},"generation":{most},"oldest":{most},"entries":0,"repair":null,'
                  f'"horizon":{most}}}')
        ended = self.whole(file, given)
        self.assert_ended_well(ended, 'the largest ground')
        self.assert_answers(given, ended.answers, ['{' + status, '{"call":1,' + status], 'the largest ground')
        self.assert_lines(logged(file), [GROUND % LARGEST], 'the log')

    def test_the_writes_behind_a_ground_leave_records(self) -> None:
        """The lines of a ground leave none: behind time 4 the first write has slot 5, and is call 1."""
        file = self.new_file()
        write(file, text_of([GROUND % ONE, GROUND_ROWS[0], '{"insert":"acct","row":[4,"",0]}']).encode())
        given = [OPENING, '{"begin":[{"cancel":5}]}', '{"finish":true}', '{"changes":"now"}']
        ended = self.whole(file, given)
        self.assert_ended_well(ended, 'records behind a ground')
        self.assert_answers(given[3:], ended.answers[3:], [
            '{"call":4,"from":1,"changed":[{"call":1,"slot":5,"before":["inserted"],"after":"cancelled"}]}'],
            'records behind a ground')

    def test_a_log_with_lines_that_forget_is_read(self) -> None:
        """It is carried out again, and made anew by the next forgetting."""
        old = read_as_it_was_written(FORGETTING)
        file = self.new_file()
        write(file, text_of(old.logs[1]).encode())
        self.assert_goes_on_behind(file, old, 1, 'a log with lines that forget')
        answer = self.whole(file, [OPENING, FORGET % 7]).answers[1]
        self.assert_same(json.loads(answer).get('horizon'), 7, answer)
        self.assert_same(json.loads(logged(file)[0])['ground']['time'], 7, 'a log that is made anew')

    # What a file system refuses

    def in_a_mount(self, script: str, given: Mapping[str, Sequence[str]]) -> tuple[dict[str, str], str]:
        """What a script has told in a mount, by names, and the folder that it had for files."""
        beside = self.new_folder()
        found = in_a_mount(script, self.program, self.new_folder(), beside, given)
        told = found['told']
        self.assert_same((found['ended'], found['status'], found['listed']), ('0', '0\n', 'log\n'), told)
        self.assert_that(told.count('\n') == 1 and are_told_of(told.splitlines(), '/log'), told)
        return found, beside

    def test_a_session_forgets_nothing_where_the_disk_has_no_room_for_two_logs(self) -> None:
        rows = 700
        lines = [OPENING, *(WIDE % key for key in range(rows)), FORGET % rows, WIDE % rows]
        given = {'lines': lines, 'again': [OPENING, STATUS, FORGET % rows, WIDE % -1]}
        found, _ = self.in_a_mount(FILL_WHILE_FORGETTING, given)
        self.assert_answers(lines[-2:], found['answers'].splitlines()[-2:],
                            ['{"call":%d,"refused":"log"}' % (rows + 1),
                             '{"call":%d,"slot":%d,"replies":["inserted"]}' % (rows + 2, rows + 1)], 'a full disk')
        self.assert_lines(found['logged'].splitlines(), [*lines[:-2], lines[-1]], 'the log')
        after = [json.loads(line) for line in found['after'].splitlines()]
        self.assert_same([it.get('entries', it.get('slot')) for it in after],
                         [rows + 1, rows + 1, (rows + 15) // 16 + 1, rows + 2], 'a disk with room')
        self.assert_same(len(found['anew'].splitlines()), 1 + (rows + 15) // 16 + 2, 'the log on a disk with room')

    def test_a_session_forgets_nothing_in_a_folder_that_is_not_written(self) -> None:
        found, beside = self.in_a_mount(IN_A_FOLDER_THAT_IS_NOT_WRITTEN, {'lines': [*FORGETTING[:SOME], STATUS]})
        self.assert_answers(FORGETTING[:SOME], found['answers'].splitlines()[:SOME],
                            [*self.expected.answers[:SOME - 1], REFUSAL], 'a folder that is not written')
        self.assert_behind(f'{beside}/log', self.expected, SOME - 1, SOME - 1, 'a folder that is not written')


class AnewWithCrashes(CrashCase, Behind):
    """Calls that are the last ones, that fail, and between which others come."""

    def setUp(self) -> None:
        super().setUp()
        self.expected = expected_without()
        self.holds: dict[str, Hold] = {'one by one': self.one_by_one, 'at once': self.whole}
        self.calls = {name: self.calls_of(hold, FORGETTING) for name, hold in self.holds.items()}
        for calls in self.calls.values():
            self.assertLessEqual({'open new', 'rename', 'fsync folder'}, {*calls}, 'calls that make a log anew')

    def most_behind(self, how: str, answered: int) -> int:
        """How many lines a session may have logged that has answered `answered`."""
        return len(FORGETTING) if how == 'at once' else min(answered + 1, len(FORGETTING))

    def test_a_session_that_is_killed_while_it_forgets_loses_no_answered_line(self) -> None:
        self.each_in_threads('sessions that are killed while they forget', self.kill_once, [
            (f'lines {how}, killed at call {call}: {name}', (how, call))
            for how, calls in self.calls.items() for call, name in enumerate(calls, 1)])

    def kill_once(self, how: str, call: int) -> None:
        file = self.new_file()
        status, answers, told = self.holds[how](file, FORGETTING, self.with_calls(file, KILL_AT=call))
        self.assert_same(status, -signal.SIGKILL, told)
        self.assert_answers(FORGETTING[:len(answers)], answers, self.expected.answers[:len(answers)], 'killed')
        self.assert_behind(file, self.expected, len(answers), self.most_behind(how, len(answers)), 'killed')

    def test_a_session_that_is_torn_while_it_forgets_loses_no_answered_line(self) -> None:
        chance = random.Random(2)
        given = []
        for seed in range(TEARS // 8):
            how = chance.choice([*self.holds])
            call = chance.randint(1, len(self.calls[how]))
            given.append((f'way {seed}: lines {how}, at call {call}', (how, call, seed)))
        self.each_in_threads('sessions that are torn while they forget', self.tear_once, given)

    def tear_once(self, how: str, call: int, seed: int) -> None:
        file = self.new_file()
        answers = self.holds[how](file, FORGETTING, self.with_calls(file, TEAR_AT=call, TEAR_SEED=seed)).answers
        self.assert_answers(FORGETTING[:len(answers)], answers, self.expected.answers[:len(answers)], 'torn')
        if os.path.exists(file):  # its name is synced before anything is answered
            self.assert_behind(file, self.expected, len(answers), self.most_behind(how, len(answers)), 'torn')
            os.remove(file)

    def test_what_a_start_behind_a_naming_has_told_stays(self) -> None:
        """A session is killed between the naming and the sync of the folder. The next one tells what it
        finds, goes on, and loses what it hasn't synced: what it has told and answered is there."""
        naming = self.calls_of(self.one_by_one, FORGETTING[:SOME]).index('rename') + 1
        calls = self.calls_of(self.one_by_one, [OPENING, *FORGETTING[SOME:8]], self.named(naming))
        self.each_in_threads('starts behind a naming', self.lose_a_name_once, [
            (f'torn at call {call}: {name}, in way {seed}', (naming, call, seed))
            for call, name in enumerate(calls, 1) for seed in range(3)])

    def named(self, naming: int) -> str:
        """A file of a session that was killed behind the naming of its log."""
        file = self.new_file()
        answers = self.one_by_one(file, FORGETTING[:SOME], self.with_calls(file, KILL_AT=naming)).answers
        self.assert_same(len(answers), len(FIRST), 'killed behind a naming')
        self.assert_lines(logged(file), self.expected.logs[SOME], 'killed behind a naming')
        return file

    def lose_a_name_once(self, naming: int, call: int, seed: int) -> None:
        file = self.named(naming)
        answers = self.one_by_one(file, [OPENING, *FORGETTING[SOME:8]],
                                  self.with_calls(file, TEAR_AT=call, TEAR_SEED=seed)).answers
        least, most = (5 + len(answers), min(6 + len(answers), 8)) if answers else (5, 6)
        self.assert_behind(file, self.expected, least, most, 'torn')

    # Calls that fail

    def test_calls_that_fail_while_a_session_forgets_are_told_and_lose_no_answered_line(self) -> None:
        met: set[tuple[str, str]] = set()
        calls = self.calls['one by one']
        self.each_in_threads('calls that fail while a session forgets', self.fail_once, [
            (f'call {first} fails{" and all behind it" if last else ""}: {name}', (first, last, met))
            for last in (0, FOR_GOOD) for first, name in enumerate(calls, 1)])
        for names in (['open new'], ['fchown new'], ['pwrite new', 'write new'], ['fsync new', 'fdatasync new'],
                      ['rename']):
            self.assert_that(any((name, 'refused') in met for name in names), f'no {names[0]} fails: {sorted(met)}')
        self.assertIn(('fsync folder', CANNOT_WRITE), met, 'no sync of a folder fails')

    def fail_once(self, first: int, last: int, met: set[tuple[str, str]]) -> None:
        """A call fails, and perhaps all from it on."""
        file, calls = self.new_file(), self.calls['one by one']
        name = calls[first - 1]
        ended = self.one_by_one(file, FORGETTING, self.with_calls(file, FAIL_FROM=first, FAIL_TO=max(first, last)))
        status, answers, told = ended
        refused = [place for place, answer in enumerate(answers) if answer.endswith(',"refused":"log"}')]
        self.assert_that(all('"forget"' in FORGETTING[it].replace(' ', '') for it in refused), refused)
        expected = expected_without(*refused)
        wanted = ['{"call":%d,"refused":"log"}' % place if place in refused else answer
                  for place, answer in enumerate(expected.answers)]
        self.assert_answers(FORGETTING[:len(answers)], answers, wanted[:len(answers)], 'a call fails')
        cause = self.assert_told(ended, len(refused), file)
        met.add((name, 'refused' if refused else cause))
        if not last and (name == 'rename' or name.endswith(' new')):
            self.assert_same((len(refused), status), (1, 0), told)
            self.assertFalse(os.path.exists(f'{file}.new'), 'a new log is left')
        if not last and 'open new' in calls[:first] and name == 'fsync folder':
            self.assertIn('rename', calls[:first - 1], 'calls before a sync of the folder')
            self.assert_same((status, cause, refused), (4, CANNOT_WRITE, []), told)
        self.assert_behind(file, expected, len(answers), min(len(answers) + 1, len(FORGETTING)), 'a call fails')

    def assert_told(self, ended: Ended, refused: int, file: str) -> str:
        """Each refusal of a session is told, before it is answered, which may fail; and its end, whose cause
        this returns."""
        status, answers, told = ended
        *refusals, end = [*told.splitlines(keepends=True), *([''] if status == 0 else [])]
        cause = cause_of(end)
        self.assertIn((status, cause), [(0, ''), (1, CANNOT_READ), (4, CANNOT_WRITE), (4, CANNOT_ANSWER)], told)
        self.assert_that(cause in ('', CANNOT_ANSWER) or is_told(end, cause, file), told)
        self.assert_that(status != 0 or len(answers) == len(FORGETTING), f'{len(answers)} answers')
        self.assert_that(are_told_of([line.rstrip('\n') for line in refusals], file), told)
        self.assertIn(len(refusals) - refused, [0, 1] if status == 4 else [0], f'{refused} refusals: {told}')
        return cause

    # Starts beside a session that forgets

    def calls_again(self, file: str) -> list[str]:
        """The calls of a start on a copy of a log, and of a forgetting that comes with the opening, up to
        the answers."""
        copied, trace = self.new_file(), self.new_file()
        write(copied, data_of(file))
        with self.held(copied, self.with_calls(copied, TRACE=trace)) as held:
            held.send(OPENING, FORGETTING[SOME - 1])
            for _ in range(2):
                held.answer()
            held.kill()
        return lines_of_file(trace)

    @contextmanager
    def stopped(self, file: str, lines: Sequence[str], call: int) -> Iterator[Held]:
        """A session that was given some lines, and is stopped by one of its calls."""
        with self.held(file, self.with_calls(file, STOP_AT=call)) as held:
            held.send(*lines)
            _, status = os.waitpid(held.process.pid, os.WUNTRACED)
            self.assert_that(os.WIFSTOPPED(status), f'status {status} of a session that is to be stopped')
            yield held

    def ended(self, held: Held, line: str) -> list[str]:
        """The answers of a session that was stopped, and goes on with a line to its end."""
        held.process.send_signal(signal.SIGCONT)
        held.send(line)
        ended = held.end()
        self.assert_ended_well(ended, 'a session that goes on')
        return ended.answers

    def test_a_start_beside_a_session_that_forgets_finds_the_log_in_use(self) -> None:
        """It does behind each call."""
        file = self.new_file()
        self.whole(file, FIRST)
        calls = self.calls_again(file)
        self.assert_same(calls[-1], 'write', f'the last call of a session that forgets, of {calls}')
        self.each_in_threads('starts beside a session that forgets', self.start_behind_a_call, [
            (f'behind call {call + 1}: {calls[call]}', (call + 1,))
            for call in range(calls.index('open new'), len(calls))])

    def start_behind_a_call(self, call: int) -> None:
        file = self.new_file()
        self.whole(file, FIRST)
        with self.stopped(file, [OPENING, FORGETTING[SOME - 1]], call) as held:
            before = os.path.lexists(f'{file}.new')
            self.assert_cannot(self.whole(file, [OPENING, STATUS]), 1, IN_USE, file, 'a second start')
            self.assert_same(os.path.lexists(f'{file}.new'), before, 'whether there is a new log')
            answers = self.ended(held, FORGETTING[SOME])
        self.assert_that(len(answers) == 3 and '"horizon":2' in answers[1], answers)
        self.assert_behind(file, self.expected, SOME, SOME, 'a session that was stopped')

    def test_a_start_that_has_opened_a_log_before_it_is_made_anew_goes_on_with_the_new_one(self) -> None:
        file = self.new_file()
        self.whole(file, FIRST)
        opens = self.calls_again(file).index('open log') + 1
        with self.held(file) as first:
            first.ask(OPENING)
            with self.stopped(file, [OPENING], opens) as second:
                self.assertIn('"horizon":2', first.ask(FORGETTING[SOME - 1]) or '')
                first.end()
                write(f'{file}.new', OPENING.encode())  # as if a third one had been killed
                answers = self.ended(second, FORGETTING[7])
        self.assert_that(len(answers) == 2 and '"horizon":2' in answers[0], answers)
        self.assert_behind(file, self.expected, 8, 8, 'a start before a naming')
