"""How sessions with a log leave it, and start on what was left.

A session that ends well leaves its lines alone. One that was killed, or couldn't write, leaves more: then
the next start doesn't trust the file, and makes a new one of its lines, before it tells anything. A start
is killed by a shared object (tests/tear_unsynced.c), for which a C compiler is needed.
"""
import os
from typing import Optional

from tests.support.crashes import CrashCase
from tests.support.log_files import (
    CANNOT_READ, CANNOT_WRITE, MEBIBYTE, NO_LOG, OPENING, OPENINGS, STATUS, WIDE, LogCase, Numbered, cause_of,
    data_of, is_told, logged, text_of, write)
from tests.support.mounts import in_a_mount

SOME = [OPENING, '{"insert":"acct","row":[1,"ann",100]}', '{"worker":2,"begin":[{"cancel":1}]}',
        '{"step":1,"of":2}', '{"insert":"acct","row":[2,"bob",40]}']
# What may stand behind the lines of a log that wasn't left well.
RESTS = [b'\0', b'\0' * 100, b'{"insert":"acct","ro', b'{"insert":"acct","row":[3,"eve",7]}\0',
         b'\0{"insert":"acct","row":[3,"eve",7]}\n', b'\0' * MEBIBYTE, b'x' * 2 * MEBIBYTE]
FILL_BEFORE_A_START = """
mount -t tmpfs -o size=3m tmpfs "$2" && : >"$3/mounted" || exit 77
"$1" session --log "$2/log" <"$3/lines" >"$3/answers" && printf '\\0' >>"$2/log" &&
  cp "$2/log" "$3/before" && ls -i "$2/log" >"$3/number" || exit 1
"$1" session --log "$2/log" <"$3/questions" >"$3/refused" 2>"$3/told"
echo $? >"$3/status"
cmp "$2/log" "$3/before" && [ "$(ls -i "$2/log")" = "$(cat "$3/number")" ] && ls "$2" >"$3/listed" &&
  mount -o remount,size=16m tmpfs "$2" &&
  "$1" session --log "$2/log" <"$3/questions" >"$3/after"
"""


def lines_of(size: int) -> list[str]:
    """Lines of a log that have `size` bytes together."""
    without = len(text_of([WIDE % MEBIBYTE])) - 1000
    left = size - len(text_of([OPENING]))
    number = -(-left // (without + 1000))
    texts, more = divmod(left - number * without, number)
    return [OPENING, *((WIDE % (MEBIBYTE + key)).replace('x' * 1000, 'x' * (texts + (key < more)))
                       for key in range(number))]


class AtRest(LogCase):
    def assert_four_entries(self, answer: Optional[str], what: str) -> None:
        """A status tells the four requests of SOME."""
        self.assertIn('"entries":4,', answer or 'no answer', what)

    def test_a_log_that_was_left_well_stays_the_same_file(self) -> None:
        """It is made longer while a session has it."""
        file, lines = self.new_file(), list(SOME)
        with self.held(file) as held:
            held.asked(SOME)
            self.assert_room(file, SOME, 'a new log')
            self.assert_same(held.end().status, 0, 'a session that ends well')
        before = Numbered.of(os.stat(file))
        for key in range(3, 6):
            self.assert_lines_alone(file, lines, 'a session that has ended well')
            with self.held(file) as held:
                held.ask(STATUS)
                self.assert_room(file, lines, 'a start on a log that was left well')
                held.end()
            lines.append('{"insert":"acct","row":[%d,"eve",7]}' % key)
            self.whole(file, lines[-1:])
            self.assert_another(file, before, False, 'a log that was left well')
        self.assert_lines_alone(file, lines, 'a session that has ended well')

    def test_a_start_makes_a_log_anew_that_was_not_left_well(self) -> None:
        """Another file takes the name, with the lines that count. What was torn is left with the old one."""
        for rest in [None, *RESTS]:
            with self.subTest('the session was killed' if rest is None else f'{rest[:40]!r} behind the lines'):
                file = self.new_file()
                if rest is None:
                    self.killed(file, SOME)
                else:
                    self.whole(file, SOME)
                    self.leave_unclean(file, rest)
                with open(file, 'rb') as old:
                    left = old.read()
                    self.start_and_kill(file)
                    old.seek(0)
                    self.assert_that(old.read() == left, 'the old file has changed')

    def start_and_kill(self, file: str) -> None:
        """A start makes a file anew. It is killed then, and so is the next one."""
        for which in ('a start', 'a start behind one that was killed'):
            before = Numbered.of(os.stat(file))
            with self.held(file) as held:
                self.assert_four_entries(held.ask(STATUS), which)
                self.assert_room(file, SOME, which)
                self.assert_no_new_log(file, which)
                with open(file, 'rb'):  # While it is open, no new file has its number.
                    self.assert_another(file, before, True, which)
                    made = Numbered.of(os.stat(file))
                    held.kill()
                    self.whole(file, [])
                    self.assert_another(file, made, True, f'{which}, killed')
                    self.assert_lines_alone(file, SOME, f'{which}, killed')
                    self.leave_unclean(file)

    def test_there_is_room_behind_lines_that_fill_a_mebibyte(self) -> None:
        """There is a byte 0 behind them."""
        for more in (-1, 0, 1):
            with self.subTest(f'{MEBIBYTE + more} bytes'):
                file, lines = self.new_file(), lines_of(MEBIBYTE + more)
                with self.held(file) as held:
                    held.send(*lines)
                    for _ in lines:
                        held.answer()
                    self.assert_room(file, lines, 'a new log')
                    held.end()
                self.assert_lines_alone(file, lines, 'ended')
                self.leave_unclean(file)
                with self.held(file) as held:
                    held.ask(STATUS)
                    self.assert_room(file, lines, 'made anew')
                    held.end()

    def test_a_session_without_lines_leaves_a_file_without_bytes(self) -> None:
        """It is as good as a new one."""
        file = self.new_file()
        for _ in range(2):
            self.assert_same(self.whole(file, ['{"version":9}']).status, 0, 'a session without lines')
            self.assert_data(file, b'', 'a session without lines')
        with self.held(file) as held:
            held.ask('{"version":9}')
            self.assert_room(file, [], 'a session without lines')
            held.end()
        for rest in (b'\0' * MEBIBYTE, b'{"version":', b'\0{}\n'):
            with self.subTest(f'a file of {rest[:20]!r}'):
                self.leave_unclean(file, rest)
                before = Numbered.of(os.stat(file))
                with open(file, 'rb'):
                    answers = self.whole(file, SOME).answers
                    self.assert_same([answer[:10] for answer in answers[:1]], ['{"time":0,'], answers)
                    self.assert_another(file, before, True, 'a start')
                self.assert_lines_alone(file, SOME, 'a start')
                os.truncate(file, 0)

    # The options and the first line

    def test_existing_makes_no_log_and_goes_on_with_none_that_has_no_line(self) -> None:
        file = self.new_file()
        for content in (None, b'', b'\0' * MEBIBYTE, b'{"version":2,"tables"'):
            with self.subTest('no file' if content is None else f'a file of {content[:9]!r}'):
                if content is not None:
                    write(file, content)
                self.assert_cannot(self.whole(file, SOME, options=['--existing']), 1, NO_LOG, file, 'no log')
                self.assert_same(os.path.lexists(file), content is not None, 'whether there is a file')
                self.assert_unchanged(file, content or b'', 'no log')
                self.assert_no_new_log(file, 'no log')

    def test_existing_goes_on_with_a_log_that_has_lines(self) -> None:
        file = self.new_file()
        self.whole(file, SOME)
        for name in ('left well', 'not left well'):
            with self.subTest(f'a log that was {name}'):
                ended = self.whole(file, [STATUS], options=['--existing'])
                self.assert_ended_well(ended, 'a log that is there')
                self.assert_four_entries(ended.answers[0], 'a log that is there')
                self.leave_unclean(file)

    def test_existing_tells_that_there_is_no_folder_of_the_log(self) -> None:
        for path in (f'{self.folder}/none/log', self.folder):
            with self.subTest(path):
                ended = self.whole(path, SOME, options=['--existing'])
                self.assert_same((ended.status, ended.answers, ended.told.count('\n')), (1, [], 1), ended.told)
                self.assertIn(cause_of(ended.told), (CANNOT_READ, NO_LOG), ended.told)

    def test_the_first_line_may_be_a_request_where_the_log_has_lines(self) -> None:
        """The session is open from its start."""
        file = self.new_file()
        self.whole(file, SOME)
        lines = ['{"insert":"acct","row":[3,"eve",7]}', '{"finish":true,"of":3}', STATUS, '{"x":1}',
                 OPENINGS[2], '{"version":1,"tables":[]}', '{"worker":3,"finish":true}', OPENINGS[0]]
        answers = self.whole(file, lines).answers
        self.assert_that(answers[3].startswith('{"call":8,"fault":'), answers)
        under_way = '"repair":{"done":1,"left":2,"rerun":1,"worker":2}}'
        self.assert_answers(lines, answers, [
            '{"call":5,"slot":3,"replies":["inserted"]}',
            '{"call":6,"refused":"repair of another","worker":2}',
            '{"call":7,"time":3,"generation":0,"oldest":0,"entries":5,' + under_way,
            answers[3],
            '{"time":3,"generation":0,"oldest":0,"entries":5,' + under_way,
            '{"fault":{"path":"$.version","cause":"out of range"}}',
            '{"call":9,"generation":1,"slots":3,"rerun":1}',
            '{"time":3,"generation":1,"oldest":0,"entries":8,"repair":null}'], 'a first line that is a request')
        self.assert_lines(logged(file), [*SOME, lines[0], lines[6]], 'the log')

    def test_records_count_in_the_first_opening_that_a_process_accepts(self) -> None:
        """They do in none behind it."""
        file, tables = self.new_file(), '{"tables":true}'
        given = [OPENING[:-1] + ',"records":%d}' % records for records in (7, 5, 3)]
        sessions = [
            ([given[0], tables, given[1], tables], [7, 7]), ([tables], [7]),
            ([tables, '{"version":9}', given[1].replace('"bal"', '"sum"'), tables, given[2], tables, given[0], tables],
             [7, 7, 3, 3]), ([tables], [7])]
        for number, (lines, wanted) in enumerate(sessions, 1):
            with self.subTest(f'session {number}'):
                answers = self.whole(file, lines).answers
                found = [int(it.rsplit(':', 1)[1][:-1]) for it in answers if '"records":' in it]
                self.assert_same(found, wanted, f'given {lines}, answered {answers}')

    # Other files

    def test_a_start_that_can_make_no_file_leaves_one_alone_that_was_not_left_well(self) -> None:
        """One that was left well is gone on with."""
        file = self.new_file()
        self.whole(file, SOME)
        os.mkdir(f'{file}.new')
        self.assert_same(self.whole(file, [STATUS]).status, 0, 'a log that was left well')
        self.leave_unclean(file, b'\0{"ins')
        before, numbered = data_of(file), Numbered.of(os.stat(file))
        self.assert_cannot(self.whole(file, [STATUS]), 4, CANNOT_WRITE, file, 'a folder in the way')
        self.assert_data(file, before, 'a folder in the way')
        self.assert_another(file, numbered, False, 'a folder in the way')
        os.rmdir(f'{file}.new')
        self.assert_four_entries(self.whole(file, [STATUS]).answers[0], 'the folder is removed')

    def test_a_start_behind_a_link_keeps_the_link_and_permissions(self) -> None:
        file, link = f'{self.new_folder()}/file', f'{self.new_folder()}/link'
        self.whole(file, SOME)
        os.chmod(file, 0o640)
        self.leave_unclean(file)
        os.symlink(file, link)
        with open(file, 'rb') as it:
            before = Numbered.of(os.fstat(it.fileno()))
            self.assert_four_entries(self.whole(link, [STATUS]).answers[0], 'a start behind a link')
            self.assert_another(file, before, True, 'a start behind a link')
        self.assert_same((os.readlink(link), os.listdir(os.path.dirname(file))), (file, ['file']))

    def test_a_start_on_a_disk_without_room_for_two_logs_leaves_the_log_alone(self) -> None:
        lines, disk = [OPENING, *(WIDE % number for number in range(1800))], self.new_folder()
        found = in_a_mount(FILL_BEFORE_A_START, self.program, disk, self.new_folder(),
                           {'lines': lines, 'questions': [STATUS]})
        left = [found.get(name) for name in ('ended', 'status', 'refused', 'listed')]
        self.assert_same(left, ['0', '4\n', '', 'log\n'], found.get('told'))
        self.assert_that(is_told(found['told'], CANNOT_WRITE, f'{disk}/log'), found['told'])
        self.assertIn('"entries":1800,', found['after'], 'a start on a disk with room')


class AtRestWithCrashes(CrashCase):
    def test_a_start_that_is_killed_loses_no_line(self) -> None:
        """At each of its calls, on a file that was left well and on one that wasn't."""
        for rest in (b'', b'\0', b'\0' * MEBIBYTE, b'{"ins'):
            self.each_in_threads(f'starts behind {rest[:9]!r} that are killed', self.kill_once, [
                (f'{len(rest)} bytes {rest[:9]!r} behind the lines, killed at call {call}: {name}', (rest, call))
                for call, name in enumerate(self.calls_of_start(rest), 1)])

    def left(self, rest: bytes) -> str:
        """A log with these bytes behind its lines."""
        file = self.new_file()
        self.whole(file, SOME)
        self.leave_unclean(file, rest)
        return file

    def calls_of_start(self, rest: bytes) -> list[str]:
        """The calls of a start on a file with these bytes behind its lines, and of the end behind it."""
        calls = self.calls_of(self.whole, [STATUS], self.left(rest))
        self.assert_same('rename' in calls, rest != b'', f'whether a start behind {rest[:9]!r} makes the log anew')
        return calls

    def kill_once(self, rest: bytes, call: int) -> None:
        file = self.left(rest)
        self.killed(file, [STATUS], self.with_calls(file, KILL_AT=call))
        self.assert_lines(logged(file), SOME, 'killed')
        self.assert_goes_on(file, 'killed')
