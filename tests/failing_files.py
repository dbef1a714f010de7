"""Files that a log can't be kept in, what stands in its way, and how a log is left and found.

What is refused to a user without rights is tried as nobody where this is root.
"""
import json
import os
import shutil
import socket
import stat
import subprocess
from typing import Any, Callable, Sequence

from tests.support import fixtures
from tests.support.held_session import Ended
from tests.support.log_files import (
    CANNOT_READ, CANNOT_WRITE, MEBIBYTE, OPENING, ROWS, STATUS, LogCase, Numbered, data_of, insert, logged,
    text_of, write)
from tests.support.mounts import in_a_mount

NOBODY = 65534
FIRST = [OPENING, insert(1), insert(2)]
LINE = f'{insert(9)}\n'.encode()
# What may stand behind the lines of a log that was killed.
RESTS = [b'\0', bytes(MEBIBYTE), LINE[:-1], LINE[:-1] + bytes(5000), bytes(5000) + LINE, b'\0\n',
         LINE[:9] + b'\0' + LINE]
# Lines that are no log, and the number of the first of each that is none of a log.
NO_LOGS = [(['acct 3 rows'], 1), (['{"version":2}'], 1), ([OPENING, STATUS], 2), ([*FIRST, ''], 4)]
# With the program, a folder that gets a file system, and one with a log that was killed.
FILL = """
mount -t tmpfs -o size=1m tmpfs "$2" && cp --sparse=always "$3/log" "$2/log" && : >"$3/mounted" || exit 77
"$1" session --log "$2/log" <"$3/lines" >"$3/answers" 2>"$3/told"
echo $? >"$3/status"
cmp "$3/log" "$2/log" >"$3/differs" 2>&1
ls "$2" >"$3/listed"
mount -o remount,size=16m tmpfs "$2" && "$1" session --log "$2/log" <"$3/lines" >"$3/after"
"""
MOUNT_THE_FILE = """
: >"$2/log" && mount --bind "$3/log" "$2/log" && : >"$3/mounted" || exit 77
cp "$3/log" "$3/copy"
"$1" session --log "$2/log" <"$3/lines" >"$3/answers" 2>"$3/told"
echo $? >"$3/status"
cmp "$3/copy" "$2/log" >"$3/differs" 2>&1
ls "$2" >"$3/listed"
"$1" log "$3/log" >"$3/logged" && cat "$3/logged" >"$3/log" &&
  "$1" session --log "$2/log" <"$3/lines" >"$3/after"
"""


class FilesCase(LogCase):
    def killed_log(self, lines: Sequence[str] = FIRST) -> str:
        """The file of a session that was killed once it had answered."""
        file = self.new_file()
        self.killed(file, lines)
        return file

    def started(self, file: str, **user: Any) -> Ended:
        """A start on a file, and a look at the rows."""
        return self.whole(file, [OPENING, ROWS], **user)

    def assert_has(self, file: str, requests: int, what: str) -> None:
        """A start on a file tells this number of requests, and ends."""
        ended = self.whole(file, [OPENING, STATUS])
        self.assert_ended_well(ended, what)
        self.assert_same(json.loads(ended.answers[0])['time'], requests, what)
        self.assert_clean(file, what)
        self.assert_no_new_log(file, what)

    def assert_refused(self, file: str, statuses: Sequence[int], what: str, **user: Any) -> None:
        """A start on a file ends with one of these statuses, tells why in a line, and answers nothing."""
        status, answers, told = self.started(file, **user)
        self.assertIn(status, statuses, f'{what}: {told}')
        self.assert_same(answers, [], what)
        begins = {1: CANNOT_READ, 4: CANNOT_WRITE}[status]
        self.assert_that(told.startswith(begins) and told.count('\n') == 1, f'{what}: {told!r} with status {status}')


class EndsAndStarts(FilesCase):
    def test_a_log_that_has_ended_is_its_lines(self) -> None:
        """A start makes it longer by room, before it tells anything. One on a log that was killed makes
        another file of the same lines, with the same permissions."""
        file = self.new_file()
        self.whole(file, FIRST)
        self.assert_lines_alone(file, FIRST, 'a log that has ended')
        os.chmod(file, 0o640)
        with open(file) as old:  # While it is open, no new file has its number.
            before = Numbered.of(os.fstat(old.fileno()))
            with self.held(file) as held:
                held.ask(OPENING)
                self.assert_room(file, FIRST, 'a start on a log that has ended')
                held.ask(insert(3))
                self.assert_room(file, [*FIRST, insert(3)], 'a start on a log that has ended')
            self.assert_another(file, before, False, 'a start on a log that has ended')
            with self.held(file) as held:
                opened = held.ask_value(OPENING)
                self.assert_another(file, before, True, 'a start on a log that was killed')
                self.assert_room(file, [*FIRST, insert(3)], 'a start on a log that was killed')
                held.ask(insert(4))
                self.assert_ended_well(held.end(), 'a start on a log that was killed')
        self.assert_same((opened or {}).get('time'), 3, f'a start on a log that was killed: {opened}')
        self.assert_lines_alone(file, [*FIRST, insert(3), insert(4)], 'a log that has ended once more')
        self.assert_has(file, 4, 'a log that has ended once more')

    def test_a_log_that_has_not_ended_is_made_anew(self) -> None:
        for lines in (FIRST, list[str]()):
            for rest in RESTS:
                with self.subTest(f'{len(lines)} lines and {len(rest)} bytes {rest[:20]!r} behind them'):
                    self.start_behind(lines, rest)

    def start_behind(self, lines: Sequence[str], rest: bytes) -> None:
        file = self.new_file()
        write(file, text_of(lines).encode() + rest)
        with open(file) as old, self.held(file) as held:
            opened = held.ask_value(OPENING)
            requests = max(len(lines) - 1, 0)
            self.assert_same((opened or {}).get('time'), requests, opened)
            self.assert_room(file, lines or [OPENING], 'a start')
            self.assertNotEqual(os.fstat(old.fileno()).st_ino, os.stat(file).st_ino, 'it is the same file')
            self.assert_no_new_log(file, 'a start')
            held.ask(insert(5))
        self.assert_has(file, requests + 1, 'the start behind it')

    def test_what_is_no_log_is_left_as_it_is(self) -> None:
        for lines, number in NO_LOGS:
            for rest in (b'', bytes(MEBIBYTE), b'{"insert'):
                with self.subTest(f'line {number} of {lines} with {len(rest)} bytes {rest[:20]!r} behind them'):
                    file = self.new_file()
                    before = text_of(lines).encode() + rest
                    write(file, before)
                    inode = os.stat(file).st_ino
                    status, answers, told = self.started(file)
                    self.assert_same((status, answers), (1, []), told)
                    self.assert_that(told.startswith('timetravel: log: ') and told.endswith(f'line {number}: {file}\n'),
                                    told)
                    self.assert_unchanged(file, before, 'a start')
                    self.assert_same(os.stat(file).st_ino, inode, 'it is another file')
                    self.assert_no_new_log(file, 'a start')

    # Lines that end where room ends

    def test_there_is_room_behind_lines_that_end_where_room_ends(self) -> None:
        for size in (MEBIBYTE - 1, MEBIBYTE, MEBIBYTE + 1):
            with self.subTest(f'lines of {size} bytes'):
                blanks = size - len(text_of([OPENING, insert(1)]))
                lines = [OPENING, insert(1, blanks=blanks)]
                file = self.killed_log(lines)
                self.assert_room(file, lines, 'killed')
                with self.held(file) as held:
                    held.ask(OPENING)
                    self.assert_room(file, lines, 'a start on a log that was killed')
                self.assert_has(file, 1, 'killed again')
                self.assert_lines_alone(file, lines, 'ended')
                with self.held(file) as held:
                    held.ask(OPENING)
                    self.assert_room(file, lines, 'a start on a log that has ended')
                    held.ask(insert(2))
                    self.assert_room(file, [*lines, insert(2)], 'and another line')
                self.assert_has(file, 2, 'killed once more')

    def test_there_is_room_behind_a_log_made_anew_whose_lines_end_where_room_ends(self) -> None:
        """It has a line for 16 rows, whose texts are as long as it takes."""
        many, least, most = 1088, 880, 1024
        usual = self.made_anew([least] * many)
        for size in (MEBIBYTE - 1, MEBIBYTE, MEBIBYTE + 1):
            with self.subTest(f'lines of {size} bytes'):
                missing, lengths = size - len(text_of(usual)), []
                for _ in range(many):
                    more = min(missing, most - least)
                    lengths.append(least + more)
                    missing -= more
                lines = self.made_anew(lengths)
                self.assert_same(len(text_of(lines)), size, f'{missing} bytes are missing')

    def made_anew(self, lengths: Sequence[int]) -> list[str]:
        """The lines of a log that has rows with texts so long, behind a forgetting."""
        file = self.new_file()
        rows = [{'insert': 'acct', 'row': [key, 'x' * length, 1]} for key, length in enumerate(lengths, 1)]
        lines = [json.dumps({'do': rows[at:at + 16]}) for at in range(0, len(rows), 16)]
        with self.held(file) as held:
            answers = [held.ask_value(line) for line in [OPENING, *lines, '{"forget":%d}' % len(lines)]]
            self.assert_same((answers[-1] or {}).get('horizon'), len(lines), answers[-1])
            made = logged(file)
            self.assert_room(file, made, 'a log that is made anew')
        self.assert_has(file, len(lines), 'a log that was made anew')
        self.assert_lines(logged(file), made, 'a log that was made anew, behind a start')
        return made


class OtherFiles(FilesCase):
    """What has the name of the new log, what is no file, and what changes while it is in use."""

    def test_a_start_leaves_what_stands_in_its_way(self) -> None:
        other = self.new_file()
        write(other, b'other')
        ways: dict[str, Callable[[str], None]] = {
            'a folder': os.mkdir, 'a FIFO': os.mkfifo, 'a link': lambda path: os.symlink(other, path),
            'a link to nothing': lambda path: os.symlink('nothing', path)}
        for name, make in ways.items():
            with self.subTest(f'{name} in the way of a start'):
                file = self.killed_log()
                before, inode = data_of(file), os.stat(file).st_ino
                make(f'{file}.new')
                self.assert_refused(file, (4,), name)
                self.assert_data(file, before, 'the log')
                self.assert_same(os.stat(file).st_ino, inode, 'the log is another file')
                self.assert_that(os.path.lexists(f'{file}.new'), 'it is gone')
                self.assert_data(other, b'other', 'what the link is to')
                (os.rmdir if name == 'a folder' else os.unlink)(f'{file}.new')
                self.assert_has(file, 2, 'nothing is in the way')

    def test_a_start_removes_a_new_log_that_a_session_has_left(self) -> None:
        file = self.killed_log()
        write(f'{file}.new', text_of([OPENING, insert(7)]).encode())
        self.assert_has(file, 2, 'a file in the way of a start')

    def test_a_start_leaves_a_new_log_that_another_session_holds(self) -> None:
        file = self.killed_log()
        before = data_of(file)
        with self.held(f'{file}.new') as held:
            held.ask(OPENING)
            self.assert_refused(file, (4,), 'another session in the way')
            self.assert_data(file, before, 'the log')
            held.ask(insert(8))
            self.assert_room(f'{file}.new', [OPENING, insert(8)], 'the other session')
            held.end()
        self.assert_has(file, 2, 'the other session has ended')

    def test_what_is_no_file_is_refused_and_stays(self) -> None:
        folder = self.new_folder()
        os.mkdir(f'{folder}/folder')
        os.mkfifo(f'{folder}/FIFO')
        with socket.socket(socket.AF_UNIX) as it:
            it.bind(f'{folder}/socket')
        try:
            os.mknod(f'{folder}/device', stat.S_IFCHR | 0o600, os.makedev(1, 3))
        except OSError:
            pass  # which root alone may do
        for name in os.listdir(folder):
            with self.subTest(f'a {name}'):
                before = os.stat(f'{folder}/{name}')
                self.assert_refused(f'{folder}/{name}', (1, 4), name)
                after = os.stat(f'{folder}/{name}')
                self.assert_same((after.st_ino, after.st_mode), (before.st_ino, before.st_mode), 'its number and mode')
                self.assert_no_new_log(f'{folder}/{name}', name)

    def test_a_log_behind_links_is_made_anew_and_links_stay(self) -> None:
        file, folder = self.killed_log(), self.new_folder()
        links = {'link': file, 'second': 'link', 'loop': 'loop', 'lost': 'target', 'up': '..'}
        for name, to in links.items():
            os.symlink(to, f'{folder}/{name}')
        with open(file) as old:
            self.assert_has(f'{folder}/second', 2, 'a link to a link to a log')
            self.assertNotEqual(os.fstat(old.fileno()).st_ino, os.stat(file).st_ino, 'a log behind links')
        for name in ('loop', 'up'):
            self.assert_refused(f'{folder}/{name}', (1,), f'the link {name}')
        self.assert_same(self.whole(f'{folder}/lost', FIRST).status, 0, 'a link to nothing')
        self.assert_has(f'{folder}/target', 2, 'a link to nothing')
        self.assert_same({name: os.readlink(f'{folder}/{name}') for name in links}, links, 'what links are to')
        self.assert_same(sorted(os.listdir(folder)), sorted([*links, 'target']), 'what is in the folder')

    def test_a_session_whose_file_has_lost_its_name_goes_on_and_forgets_nothing(self) -> None:
        moved, other = self.new_file(), self.new_file()

        def exchange(file: str) -> None:
            write(other, b'other')
            os.rename(other, file)

        def make_folder(file: str) -> None:
            os.unlink(file)
            os.mkdir(file)

        def make_link(file: str) -> None:
            os.unlink(file)
            os.symlink(moved, file)
        ways: dict[str, Callable[[str], None]] = {
            'another file': exchange, 'nothing': os.unlink, 'a folder': make_folder, 'a link': make_link}
        for name, change in ways.items():
            with self.subTest(f'{name} is in its place'):
                if os.path.exists(moved):
                    os.unlink(moved)
                file = self.new_file()
                self.lose_the_name(file, moved, change)
                left = 'folder' if os.path.isdir(file) else data_of(file) if os.path.isfile(file) else None
                self.assert_same(left, {'another file': b'other', 'nothing': None, 'a folder': 'folder',
                                        'a link': data_of(moved)}[name], 'what is in its place')
                self.assert_has(moved, 3, 'the file that has lost its name')

    def lose_the_name(self, file: str, moved: str, change: Callable[[str], None]) -> None:
        with self.held(file) as held:
            held.asked(FIRST)
            os.link(file, moved)
            change(file)
            self.assert_same(held.ask('{"forget":1}'), '{"call":3,"refused":"log"}')
            self.assert_same(held.ask(insert(3)), '{"call":4,"slot":3,"replies":["inserted"]}')
            self.assert_no_new_log(file, 'a session whose file has lost its name')
            status, _, told = held.end()
            self.assertIn(status, (0, 4), told)


class Rights(FilesCase):
    """Root may do everything, so these are tried as nobody."""

    def setUp(self) -> None:
        super().setUp()
        self.user: dict[str, Any] = {}
        if os.geteuid() == 0:
            self.user = {'user': NOBODY, 'group': NOBODY, 'extra_groups': []}
        for folder in (fixtures.folder_of_run(), self.folder):
            os.chmod(folder, 0o711)
        program, self.program = self.program, f'{self.folder}/program'
        shutil.copy(program, self.program)
        try:
            os.chmod(self.program, 0o755)
            subprocess.run([self.program, '--help'], capture_output=True, check=True, **self.user)
        except (OSError, subprocess.CalledProcessError) as error:
            fixtures.left_out(f'a folder where nobody may run the program: {error}')

    def give(self, folder: str, rights_of_file: int, rights_of_folder: int) -> None:
        """Rights, to nobody."""
        os.chmod(folder, 0o777)
        os.chmod(f'{folder}/log', rights_of_file)
        os.chmod(folder, rights_of_folder)
        if self.user:
            os.chown(f'{folder}/log', NOBODY, NOBODY)
            os.chown(folder, NOBODY, NOBODY)

    def test_a_start_without_rights_leaves_the_log_as_it_is(self) -> None:
        for rights_of_file, rights_of_folder, status, what in (
                (0o444, 0o777, 1, 'a log that is only read'),
                (0o222, 0o777, 1, 'a log that is only written'),
                (0o666, 0o666, 1, 'a folder that is not searched'),
                (0o666, 0o555, 4, 'a folder that is only read')):
            with self.subTest(what):
                folder = self.new_folder()
                shutil.copyfile(self.killed_log(), f'{folder}/log')
                before = data_of(f'{folder}/log')
                self.give(folder, rights_of_file, rights_of_folder)
                self.assert_refused(f'{folder}/log', (status,), what, **self.user)
                self.give(folder, 0o666, 0o777)
                self.assert_data(f'{folder}/log', before, what)
                self.assert_same(os.listdir(folder), ['log'], what)
                self.assert_same(self.started(f'{folder}/log', **self.user).status, 0, f'{what}, and then is written')
                self.assert_has(f'{folder}/log', 2, what)

    def test_a_log_that_has_ended_goes_on_in_a_folder_that_is_only_read(self) -> None:
        """It is not made anew there."""
        folder = self.new_folder()
        write(f'{folder}/log', text_of(FIRST).encode())
        self.give(folder, 0o666, 0o555)
        with self.held(f'{folder}/log', **self.user) as held:
            answers = [held.ask(line) for line in (OPENING, '{"forget":1}', insert(3))]
            ended = held.end()
        self.assert_same(answers[1:], ['{"call":3,"refused":"log"}', '{"call":4,"slot":3,"replies":["inserted"]}'])
        self.assert_same(ended.status, 0, ended.told)
        self.assert_lines_alone(f'{folder}/log', [*FIRST, insert(3)], 'a folder that is only read')
        os.chmod(folder, 0o777)


class Mounts(FilesCase):
    def assert_left(self, script: str, lines: Sequence[str]) -> None:
        """A start in a mount of a script leaves a log that was killed, and one behind it goes on."""
        beside = self.new_folder()
        os.rename(self.killed_log(lines), f'{beside}/log')
        found = in_a_mount(script, self.program, self.new_folder(), beside, {'lines': [OPENING, STATUS]})
        told = found['told']
        self.assert_same([found[name] for name in ('status', 'answers', 'listed')], ['4\n', '', 'log\n'], told)
        self.assert_that(told.startswith(CANNOT_WRITE), told)
        self.assert_same(found['differs'], '', 'the log has changed')
        answers = [json.loads(line) for line in found['after'].splitlines()]
        self.assert_that(len(answers) == 2 and answers[1]['time'] == 2, f'a start behind it: {answers}')

    def test_a_start_on_a_full_disk_leaves_a_log_that_was_killed(self) -> None:
        """It wants room for a second one."""
        self.assert_left(FILL, [OPENING, insert(1, blanks=700_000), insert(2)])

    def test_a_start_leaves_a_log_that_is_a_mount_by_itself(self) -> None:
        """It can't be made anew."""
        self.assert_left(MOUNT_THE_FILE, FIRST)
