"""The commands that pages name: each has to be there, with the options that it is given."""
import os
import re
import shlex
import subprocess
import sys
from functools import lru_cache
from typing import Iterator, Optional

from tests import MODULES
from tests.support.docs_names import codes_of
from tests.support.docs_pages import Code, Page
from tests.support.fixtures import ROOT

OPTION = re.compile(r'(?<![\w-])(--?[A-Za-z][\w-]*)')
GIVEN = re.compile(r'(--?[A-Za-z][\w-]*)(?:=.*)?')
OURS = re.compile(r'(?:\./)?(?:build|test|bench|timetravel)|(?:tests|docs)/\w+\.py|python3')
BETWEEN = re.compile(r'[;|&()]+')
PLACEHOLDER = re.compile(r'[A-Z.]+')
SECONDS = 60  # that a help text may take


def words_of(text: str) -> list[str]:
    """The words of a line of a shell, without its comment."""
    try:
        lexer = shlex.shlex(text, posix=True, punctuation_chars=True)
        lexer.whitespace_split = True
        return list(lexer)
    except ValueError:
        return text.split()


def commands_in(text: str) -> Iterator[list[str]]:
    """The commands of a line of a shell that are this repository's, each as its words."""
    command: list[str] = []
    redirected = False
    for word in [*words_of(text), ';']:
        if redirected or re.fullmatch('[<>]+', word):
            redirected = not redirected
        elif BETWEEN.fullmatch(word) or word == '--':
            if command and OURS.fullmatch(command[0]):
                yield command
            command = []
        elif command or '=' not in word:  # assignments may stand in front
            command.append(re.sub('^/usr(?:/local)?/bin/', '', word.strip('[]')))


def commands_of(page: Page) -> Iterator[tuple[Code, list[str]]]:
    """The commands in the spans of a page and in its blocks of shell commands."""
    for code in codes_of(page):
        if code in page.spans and not re.match(r'\./|(?:tests|docs)/\w+\.py|python3 |timetravel ', code.text):
            continue
        yield from ((code, command) for command in commands_in(code.text))


@lru_cache(maxsize=None)
def told_by(*command: str) -> str:
    """The help text that a command of Python prints."""
    environment = {**os.environ, 'PYTHONPATH': str(ROOT / 'clients/python'), 'PYTHONDONTWRITEBYTECODE': '1'}
    ran = subprocess.run([sys.executable, *command, '--help'], capture_output=True, text=True, timeout=SECONDS,
                         cwd=ROOT, env=environment, check=False)
    return ran.stdout if ran.returncode == 0 else ''


@lru_cache(maxsize=None)
def help_of_script(path: str) -> str:
    """What a script says of its options: its help text, or what begins its source."""
    text = (ROOT / path).read_text(encoding='utf-8')
    if 'python3' not in text.split('\n', 1)[0]:
        return text[:re.search(r'^[^#]', text, re.MULTILINE).start()]  # type: ignore[union-attr]
    return told_by(path) if 'argparse' in text else text


def help_of_program(words: list[str]) -> Optional[str]:
    """The help text of a command of the program, which the suite compares with what it prints."""
    command = next((word for word in words if not word.startswith('-')), 'timetravel')
    if PLACEHOLDER.fullmatch(command) or command == 'help':
        command = 'timetravel'
    path = ROOT / 'tests/help' / command
    return path.read_text(encoding='utf-8').partition('\nOptions:')[2] if path.exists() else None


def help_of_module(words: list[str]) -> Optional[str]:
    """The help text of a module of Python of this repository, or of unittest."""
    if words[0] == 'timetravel' and len(words) > 1 and re.fullmatch('[a-z]+', words[1]):
        return told_by('-m', 'timetravel', words[1]) or None
    if words[0] in ('tests', 'timetravel', 'unittest'):
        return told_by('-m', words[0]) or None
    return None


def has_tests(name: str) -> bool:
    """Whether `tests.NAME` is a part of the suite, or a module or a class of one."""
    parts = name.split('.')
    path = ROOT.joinpath('tests', *parts[1:])
    if path.is_dir() or path.with_suffix('.py').exists():
        return True
    text = path.parent.with_suffix('.py').read_text(encoding='utf-8') if path.parent.with_suffix('.py').exists() else ''
    return f'class {parts[-1]}(' in text


def fault_of_module(words: list[str]) -> Optional[str]:
    """What is wrong with the modules that a command of the suite names."""
    if words[0] == 'unittest':
        wrong = [word for word in words if word.startswith('tests.') and not has_tests(word)]
    elif words[0] == 'tests':
        given = [word for before, word in zip(words, words[1:])
                 if before != '-k' and re.fullmatch(r'[a-z][\w.]*', word)]
        wrong = [word for word in given if word.split('.')[0] not in MODULES or not has_tests(f'tests.{word}')]
    else:
        return None
    return f'there is no {wrong[0]}' if wrong else None


def fault_of_command(page: Page, words: list[str]) -> Optional[str]:
    """What is wrong with a command: what it runs isn't there, or has no such option."""
    name, rest = words[0].removeprefix('./'), words[1:]
    if name == 'timetravel':
        text = help_of_program(rest)
    elif name == 'python3' and rest[:1] == ['-m'] and len(rest) > 1:
        text = help_of_module(rest[1:])
        if text is None:
            return f'there is no {" ".join(rest[1:3])}' if rest[1] in ('tests', 'timetravel') else None
        if fault_of_module(rest[1:]):
            return fault_of_module(rest[1:])
    elif name == 'python3':
        at_work = [ROOT, page.folder(), ROOT / 'clients/python']
        is_ours = bool(rest) and rest[0].endswith('.py') and not rest[0].startswith('/')
        is_there = not is_ours or any((at / rest[0]).exists() for at in at_work)
        return None if is_there else f'there is no {rest[0]}'
    else:
        text = help_of_script(name) if (ROOT / name).is_file() else None
    if text is None:
        return f'there is no {" ".join(words[:2])}'
    known = {*OPTION.findall(text), '-m', '-h', '--help'}
    wrong = [found[1] for found in map(GIVEN.fullmatch, rest) if found and found[1] not in known]
    return f'there is no option {wrong[0]}' if wrong else None


def wrong_commands(page: Page) -> Iterator[str]:
    """Commands that aren't there, or haven't an option that they are given."""
    for code, words in commands_of(page):
        fault = fault_of_command(page, words)
        if fault:
            yield page.at(code, f'`{" ".join(words)}`: {fault}')
