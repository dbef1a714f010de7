#!/usr/bin/env python3
"""Prints docs/SPECIFICATION.md: the definitions that the headline promise rests on, and the contracts
that carry it, verbatim from crates/*/specs and crates/*/src.

  docs/specification.py > docs/SPECIFICATION.md

It fails where a name that it shows or explains isn't defined any more, where a definition or a clause
on the page uses a name of the repository that the page neither shows nor explains, and where the page
is longer than 400 lines.
"""
import re
import sys
from functools import lru_cache
from pathlib import Path
from typing import Iterator, NamedTuple, NoReturn, Optional, Union

ROOT = Path(__file__).resolve().parent.parent
MOST_LINES = 400
DECLARED = 'declared'  # stands for the module of a type that a source file of a crate declares

DEFINITION = re.compile(r'(?:pub (?:record|data)|\w+ pub) (\S+)')
TYPE = re.compile(r'pub(?:\(crate\))? (?:struct|enum|trait) (\w+)')
SPEC_USE = re.compile(r'\buse (\S+?)(?:\.\{([^}]*)\}| as (\w+))?;?$')
RUST_USE = re.compile(r'^use (?:crate::[\w:]+|tt_\w+)::(?:\{([^}]*)\}|(\w+));', re.MULTILINE)
CONSTRUCTOR = re.compile(r'  (\w+) : ')
WORD = re.compile(r'(?<![\w.])[A-Za-z_]\w*')
FIELD = re.compile(r'\bpub (\w+) :|[{;] (\w+) = |^ +(\w+) = ', re.MULTILINE)


class Name(NamedTuple):
    """What a word on the page stands for: a definition of a module of specs, or a declared type."""
    crate: str
    module: str
    name: str


class Place(NamedTuple):
    """Names of one module of specs, or of one source file, such as `src/row.rt`."""
    crate: str
    module: str
    names: str


class Meaning(NamedTuple):
    """Names that a chapter explains in words, in place of their text."""
    crate: str
    module: str
    names: str
    words: str

    def place(self) -> Place:
        return Place(self.crate, self.module, self.names)


class Row(NamedTuple):
    """What a row of a chapter's table is of, and what it explains."""
    subject: str
    meanings: list[Meaning]


class Shown(NamedTuple):
    """Definitions that stand on the page."""
    words: str
    places: list[Place]


class Promise(NamedTuple):
    """A function whose signature and clauses stand on the page."""
    words: str
    crate: str
    source: str
    function: str


class Chapter(NamedTuple):
    title: str
    rows: list[Row]
    parts: list[Union[Shown, Promise]]


HEAD = """# Specification

> In any schedule each worker's reply is what the sequential table of two generations gives at one point of one history, not before anything that the worker had seen or was told. The steps of a repair change no current answer. The switch is one step, after which every current answer is that of the repaired list of writes and of those caught up with. When all workers have ended, the history holds the writes of each one once.

This page has the definitions that this promise rests on, and the contracts that carry it, as they stand in `crates/*/specs/` and `crates/*/src/`: [docs/specification.py](specification.py) prints it, and the tests compare the two. All other definitions are printed, with their words, by [docs/definitions.py](definitions.py): `docs/definitions.py > /tmp/definitions.md`. [PROVED.md](PROVED.md) says in words what is proved, and its premises.

An `abbrev` is a function, and so is an `unfoldable`, which calls itself. A name with a capital is a type or a statement; a `record` of statements holds if each of its members does. `A × B` holds if both do, `A ⊎ B` if one does, `(x : T) → P` if P holds of each x, and `(x : T) × P` if P holds of some x. In a clause `x.old`, `x.new` and `x.now` are what the caller's `x` is before the call, after it, and where it doesn't change. `OnOk r P` says P where `r` is `Ok`, and `IfOk r P` says P of what it holds. Nearly everywhere `W` stands for slots, `X` for a content, `S` for a state, `E` for edits, `D` for what is dirty, and `n` for a number of slots. Slots, times and places of the history count from 1, and time 0 is before the first write; positions of tables, columns and items count from 0. What isn't explained here is of the standard library; the kit's page `ANTT.md` has the notation (`rt doc` says where)."""


WRITES = Chapter('What a write does', [
    Row('statements', [
        Meaning('tt_values', 'src/row.rt', 'Row', 'a row: its values, each an `Int` of 64 bits or a `Text`'),
        Meaning('tt_values', 'Row', 'key_of', 'the key of a row: its first value, an `Int`'),
        Meaning('tt_values', 'src/statement.rt', 'Write Select', 'an `Insert`, `Update` or `Delete`, or a `Select`,'
                ' of one table'),
        Meaning('tt_values', 'src/action.rt', 'Action', 'writes that are carried out in order, at one time, and'
                ' whether wholly or not at all (`whole`)'),
        Meaning('tt_values', 'src/reply.rt', 'Reply', 'what is answered to a write or a select'),
        Meaning('tt_values', 'Effect', 'matching_rows', 'the rows in which each condition holds. A condition'
                ' compares the value in its column with its own, by `Is`, `IsNot`, `Below`, `AtMost`, `Above` or'
                ' `AtLeast`: integers as numbers, texts by their bytes; between two kinds only `IsNot` holds'),
        Meaning('tt_values', 'Change', 'changed', 'a row after an update: a column that is set has the new value, a'
                ' sum stops at the bounds of 64 bits, and all other values stay')]),
    Row('contents', [
        Meaning('tt_values', 'Content', 'RowsByKey Content', 'the rows of a table with their keys, in ascending'
                ' order; the rows of each table'),
        Meaning('tt_values', 'Content', 'row_at', 'the row with a key'),
        Meaning('tt_values', 'Content', 'RowWrite', 'at a time the row of a key of a table was set, or removed'),
        Meaning('tt_values', 'Content', 'content_at', 'the content that the row writes up to a time leave, one after'
                ' another'),
        Meaning('tt_values', 'Action', 'with_rows_at', 'the content in which some keys of a table have these rows,'
                ' or none')]),
    Row('writes and actions', [
        Meaning('tt_values', 'Effect', 'table_of effect reply_of', 'the table of a write; its effect and its reply'
                ' on a content, which are those on the rows of this table'),
        Meaning('tt_values', 'Action', 'has_no_effect', 'the effect of a write is empty: it inserts a key that is'
                ' there, or matches no row'),
        Meaning('tt_values', 'Action', 'content_after_writes replies_of_writes',
                'the content after some writes, and their replies, each on the content that the writes before it'
                ' left'),
        Meaning('tt_values', 'Action', 'is_undone', 'an action is whole, and one of its writes has no effect in its'
                ' turn'),
        Meaning('tt_values', 'Action', 'action_writes', 'the effect of an action at a time: each row that its kept'
                ' writes write, once, as it is in the content after them. That these row writes leave'
                ' `content_after_action` is a law, `ActionLeavesItsLastContent`'),
        Meaning('tt_values', 'RowWrites', 'Slots slot_after', 'a list of slots, each an action, or none if it was'
                ' cancelled; slot n + 1, which stands at position n')]),
], [
    Shown('One write: the keys that it writes, each with its new row or none; its reply; the content after it. Last,'
          ' the answer to a select.', [
        Place('tt_values', 'Effect', 'effect_on reply_on'),
        Place('tt_values', 'Action', 'content_after_write'),
        Place('tt_values', 'Effect', 'answer_of')]),
    Shown('An action: each of its writes sees what the ones before it left. A whole one keeps none of them where one'
          ' has no effect, and those behind that one aren\'t carried out and have no reply. Slot n + 1 writes at'
          ' time n + 1, on the content that the slots before it left.', [
        Place('tt_values', 'Action', 'up_to_no_effect tried kept content_after_action replies_of'),
        Place('tt_values', 'RowWrites', 'slot_writes row_writes content_of')]),
])

TABLE = Chapter('The sequential table of two generations', [
    Row('events', [
        Meaning('tt_db', 'src/event.rt', 'Event', 'what a worker asks for: a `Write` of an action, or the `Begin` of'
                ' a repair with its edits, a `Step`, the `Switch`, or its `Abort`'),
        Meaning('tt_db', 'src/event.rt', 'Entry', 'an accepted event with its worker\'s number; the history is a'
                ' list of these'),
        Meaning('tt_db', 'src/outcome.rt', 'Outcome', 'what an accepted event answers'),
        Meaning('tt_db', 'src/errors.rt', 'DbError ReadError', 'why an event is refused, and why a read is'),
        Meaning('tt_db', 'src/limits.rt', 'Limits', 'how many slots, entries and edits there may be, and how many'
                ' closed generations are kept'),
        Meaning('tt_values', 'Tables', 'Tables', 'the tables of a catalog, in order of declaration: the schema'),
        Meaning('tt_values', 'Check', 'action_fault select_fault', 'the first fault of an action or a select on a'
                ' schema: what isn\'t there, is of the wrong kind, or is too long or too much'),
        Meaning('tt_db', 'State', 'edits_fault', 'that of the first edit whose action has one')]),
    Row('states', [
        Meaning('tt_db', 'State', 'start', 'the state before the first event: no slots, generation 0, nothing under'
                ' way'),
        Meaning('tt_db', 'State', 'now_of current_at', 'the time of the last slot; the content of the slots at a'
                ' time'),
        Meaning('tt_db', 'State', 'ClosedGeneration edits_of with_closed', 'a number, the slots at the switch, and the'
                ' edits of the repair; the edits of what is under way; the closed generations with one more, of which'
                ' the last `limits.keep` stay'),
        Meaning('tt_generations', 'TwoGenerations', 'is_repairing done_of phase_after_step',
                'whether a repair is under way; how many slots it has done; one more is done'),
        Meaning('tt_db', 'State', 'slots_left', 'how many slots it has left to do'),
        Meaning('tt_generations', 'TwoGenerations', 'is_due_in reexecuted_of',
                'whether its next slot is due (chapter 3), and how many of those done were'),
        Meaning('tt_db', 'State', 'next_at', 'the content at a time by the edited slots that it has done, or the'
                ' current one where none is under way')]),
    Row('edits', [
        Meaning('tt_repair_laws', 'src/edit.rt', 'Edit', 'a slot is to be cancelled, or to have another action'),
        Meaning('tt_repair_laws', 'Edits', 'edit_of slot_with_edit', 'the edit of slot t, if it has one; a slot with'
                ' its edit'),
        Meaning('tt_repair_laws', 'Edits', 'edited_slots', '`edited_slots_from` slot 1')]),
    Row('refusals', [
        Meaning('tt_db', 'State', 'first_refusal refused_if', 'the first refusal of a list, if it has one; a refusal'
                ' where something holds'),
        Meaning('tt_db', 'State', 'full_at unless_repairing unless_caught_up',
                'refused where a count has reached a limit; where no repair is under way; where slots are left'),
        Meaning('tt_db', 'State', 'missing_slot slot_edited_twice', 'the slot of the first edit whose slot isn\'t'
                ' there, or has an edit already'),
        Meaning('tt_db', 'RightAnswers', 'unless_fault unless_later unless_idle',
                'an answer, unless the select has a fault; unless the time is later than the last one; unless no'
                ' repair is under way')]),
    Row('databases', [
        Meaning('tt_db', 'src/database.rt', 'Db', 'a database; contracts see it as a `Database`'),
        Meaning('tt_db', 'Database', 'Database state_of', 'a catalog, limits and a history; the state `after` the'
                ' history'),
        Meaning('tt_db', 'Database', 'current_slots now_in current_of_db',
                'the slots, the time, and the content at a time'),
        Meaning('tt_db', 'Database', 'HasSlots', 'it has these slots, and so their content at each time'),
        Meaning('tt_db', 'Database', 'with_entry refusal_of outcome_for',
                'with one more entry; its `refusal` of an event; its `outcome_of` an event'),
        Meaning('tt_db', 'Errors', 'refusal_of_error', 'the refusal that an error stands for; `Memory` stands for'
                ' none')]),
], [
    Shown('A state: the slots, the number of the generation, how many events were accepted, what is under way (a'
          ' repair with its edits has done its first n slots), and the closed generations that are kept, the oldest'
          ' first. Then the repaired list of writes: a slot with an edit has what the edit says, and any other'
          ' stays, those written during the repair too.', [
        Place('tt_generations', 'TwoGenerations', 'Phase'),
        Place('tt_db', 'State', 'State'),
        Place('tt_repair_laws', 'Edits', 'edited_slots_from'),
        Place('tt_generations', 'TwoGenerations', 'slots_edited_by')]),
    Shown('The refusal of each event: the first in its list, if there is one. What an event makes of a state where'
          ' it isn\'t refused, what it answers, the state after a history, and a history of which no event is'
          ' refused.', [
        Place('tt_db', 'State', 'refusal switched_state changed_state next_state outcome_of after IsLegalFrom')]),
    Shown('The right answers to a select: on a content, at a time, and of the next generation. What becomes of the'
          ' current content: an action leaves that of each time up to now, the slots after a switch are the repaired'
          ' list, and any other event leaves all slots.', [
        Place('tt_db', 'RightAnswers', 'right_select right_select_at right_preview'),
        Place('tt_db', 'Database', 'ShowsCurrent')]),
    Promise('`Db::apply`: the next database and the outcome, or the refusal.',
            'tt_db', 'src/database.rt', 'apply'),
])

REPAIRS = Chapter('What a repair re-executes', [
    Row('rows', [
        Meaning('tt_values', 'src/row_id.rt', 'RowId', 'a row, by its table and its key'),
        Meaning('tt_repair_laws', 'Due', 'slot_rows_touched slot_rows_written',
                'the rows in the effects of the writes that a slot carries out; the same of those that it keeps'),
        Meaning('tt_repair_laws', 'Due', 'slot_rows_matched', 'the rows that the writes of a slot match, an insert'
                ' the row of its key'),
        Meaning('tt_values', 'RowWrites', 'slot_replies', 'the replies of a slot, none if it was cancelled'),
        Meaning('tt_repair_laws', 'Due', 'content_after', 'the content after the first n slots')]),
    Row('what is dirty', [
        Meaning('tt_parts', 'Dirty', 'DirtySet', 'rows, and partitions: values of the partition columns of a table,'
                ' among which is its key'),
        Meaning('tt_repair_laws', 'Due', 'with_row_of', 'with one more row, the partition of its key, and those of'
                ' its values before and after'),
        Meaning('tt_repair_laws', 'Due', 'is_slot_affected', 'the action of a slot touches a dirty row, or one of'
                ' its writes may read what is dirty: it inserts or equates the key of a dirty row, or all partitions'
                ' that its equalities or its insert name are dirty, or it names none and a row of its table is dirty'),
        Meaning('tt_repair_laws', 'Due', 'dirty_after is_due', '`dirty_after_slot` of the first n slots, one after'
                ' another, from nothing; `is_due_by` what is dirty then'),
        Meaning('tt_db', 'Database', 'MissesNoSlot', 'of a `Step`, that its slot is due, or `IsSameSlot` among the'
                ' edited slots; of any other event nothing')]),
], [
    Shown('Slot n + 1 is due if it has an edit, or what is dirty may affect it; then the rows that it touched get'
          ' dirty, and those that its edited action matches among the edited slots. No affected slot is missed: by'
          ' the last statement, a law, one that isn\'t due is the same among the edited slots, with the same row'
          ' writes and replies.', [
        Place('tt_repair_laws', 'Due', 'is_due_by rows_reexecuted dirty_after_slot'),
        Place('tt_repair_laws', 'Laws', 'IsSameSlot NoAffectedSlotIsMissed')]),
])

THREADS = Chapter('Threads', [
    Row('workers', [
        Meaning('tt_store', 'src/store.rt', 'Store', 'a database that threads share; by its name `L` it has its'
                ' tables, its limits and `L.parts` workers'),
        Meaning('tt_store', 'src/worker.rt', 'Worker', 'a worker of a store; contracts see it as a `WorkerState`'),
        Meaning('tt_store', 'Workers', 'own_entries', 'the entries that a worker has made: those at its places'),
        Meaning('tt_store', 'Workers', 'database_at', 'the database with this history'),
        Meaning('tt_db', 'Database', 'right_answer', '`right_select` on the current content'),
        Meaning('tt_store', 'src/answer.rt', 'Answer Written', 'a reply with the time that it is of; the place, the'
                ' slot and the replies of an action'),
        Meaning('tt_store', 'src/errors.rt', 'StoreError', 'why a call isn\'t carried out')]),
    Row('calls that publish', [
        Meaning('tt_store', 'src/call.rt', 'Call', 'one event, or steps of a repair, or all that are left and the'
                ' switch'),
        Meaning('tt_store', 'Calls', 'events_of', 'the events of a call in a state'),
        Meaning('tt_store', 'Calls', 'first_refused last_outcome', 'the first refusal that events meet, one after'
                ' another; the outcome of the last of them'),
        Meaning('tt_store', 'Calls', 'numbers_from', 'this many numbers from one on'),
        Meaning('tt_store', 'History', 'entries_by', 'the entries that a worker makes of events'),
        Meaning('tt_store', 'Store', 'PublishesOne', '`Publishes` of one event, at this front and this place'),
        Meaning('tt_store', 'Store', 'Placed Stepped HasFinished', 'what `Store::begin` and `abort`, `step`, and'
                ' `finish` promise: their events are published likewise; all current contents stay, and after'
                ' `finish` the slots are the edited ones')]),
    Row('the end', [
        Meaning('tt_store', 'Closing', 'bearers', 'how many workers bear a number'),
        Meaning('tt_store', 'History', 'places_of', 'the places of the entries of a history that bear a number'),
        Meaning('tt_store', 'Closing', 'places_by_worker lists_of', 'these for each worker; the lists in lists'),
        Meaning('tt_store', 'src/closing.rt', 'Closed CloseFault', 'the database of a closed store, with each'
                ' worker\'s places; why a store isn\'t closed'),
        Meaning('tt_store', 'Closed', 'HandsBack', 'the workers are handed back, with `Missing` exactly where they'
                ' aren\'t `EachOnce`')]),
], [
    Shown('A worker: its number, the front of the one history that it has seen, and the places of its own entries.'
          ' What it has seen only grows, and all that it is told is of a front that it has then seen. A read is'
          ' answered rightly, with the time that it is of.', [
        Place('tt_store', 'Workers', 'WorkerState Looks AnswersRightly')]),
    Promise('`Worker::read`: the answer is right at a front that begins with what the worker had seen, and which it'
            ' has seen then.',
            'tt_store', 'src/worker.rt', 'read'),
    Shown('A call publishes: at a front that begins with what the worker had seen, none of its events is refused,'
          ' and their entries stand right behind this front, with no other between them. Or it is refused, and this'
          ' is why.', [
        Place('tt_store', 'Workers', 'Publishes IsCause IsRefused'),
        Place('tt_store', 'Store', 'Wrote')]),
    Promise('`Store::write`: an action takes a slot, and its replies are those at the front before it.',
            'tt_store', 'src/store.rt', 'write'),
    Shown('A store is closed with all of its workers, each once: what each has seen is a beginning of the one'
          ' history, each has made all entries that bear its number there, and there are no others.', [
        Place('tt_store', 'Closing', 'EachOnce IsPartOf IsOfWorker'),
        Place('tt_store', 'Closed', 'Closes')]),
    Promise('`Store::close`: the database with the whole history, and each worker\'s places in it.',
            'tt_store', 'src/store.rt', 'close'),
])

SESSIONS = Chapter('Sessions and logs', [
    Row('lines', [
        Meaning('tt_requests', 'Lines', 'lines_of', 'the lines of some bytes, without their line feeds'),
        Meaning('tt_session', 'src/session.rt', 'Session', 'not open yet, or the database that a line has opened'),
        Meaning('tt_session', 'Run', 'Turn', 'what is printed for a line, and the session after it'),
        Meaning('tt_session', 'Run', 'Losses', 'the numbers of the lines for which there was no memory'),
        Meaning('tt_session', 'Run', 'turn_of_line', 'a blank line has no answer, and one that opens the session the'
                ' status; any other asks for something, and where that is an event or a read, its answer is what'
                ' chapter 2 says; a fault, a refusal or want of memory is told, and leaves the database as it was'),
        Meaning('tt_session', 'Answering', 'LineRead turn_of_read turns_of',
                'a line that was read, and whether it was refused for want of memory or of a new log; its turn; that'
                ' of several lines, one after another')]),
    Row('ends', [
        Meaning('tt_lines', 'src/run.rt', 'SessionEnd SessionFault',
                'what a session leaves in memory; why it ends early'),
        Meaning('tt_lines', 'Ends', 'EndsEarly', 'a failed reader leaves the answers to the whole lines that were'
                ' read, a failed writer a prefix of the answers, and want of memory at the start nothing read and'
                ' nothing written'),
        Meaning('tt_lines', 'Ends', 'HandsOverAll', 'all that the reader had was read, and its lines were handled'
                ' so'),
        Meaning('tt_durable', 'src/logged_session.rt', 'LoggedFault', 'why a session with a log ends early'),
        Meaning('tt_durable', 'LoggedSession', 'FailsOnLog', 'it has gone on for its first lines, and a crash leaves'
                ' the log after the first of these; or it hasn\'t begun, nothing was read, and a crash leaves lines'
                ' that it might have left before, or those of the file'),
        Meaning('tt_durable', 'LoggedSession', 'IsEnded', 'the file is lines and nothing else, all on the disk')]),
    Row('devices', [
        Meaning('tt_log', 'src/device.rt', 'Device', 'a file, and an output to which answers are handed over'),
        Meaning('tt_durable', 'OnLog', 'Telling', 'what it tells of itself: the bytes of the file and of a new one, what was handed over, the moment,'
                ' what a crash may leave, and how often it has failed'),
        Meaning('tt_log', 'Device', 'Left LeavesOnly', 'the file and the output that a crash leaves; a crash at any'
                ' moment, from one device on up to another, leaves what has a property'),
        Meaning('tt_log', 'Device', 'Only', 'a crash leaves this file and no other'),
        Meaning('tt_log', 'Device', 'LeavesNoNewFile', 'no new file is left that wasn\'t there, or the device has failed'
                ' more often than this many times')]),
    Row('logs', [
        Meaning('tt_log', 'Lines', 'logged IsJoined', 'the lines of a file that end before its first byte 0; it has'
                ' these lines and nothing else'),
        Meaning('tt_session', 'Logged', 'logged_by makes_log_anew', 'the line, if it changes the database; whether'
                ' the session forgets by it what lies before a time'),
        Meaning('tt_session', 'LogLines', 'lines_of_log', 'the lines of a log that is made anew'),
        Meaning('tt_durable', 'Restoring', 'NewLogsAreRead', 'each log that is made anew on the way is one of the'
                ' session then'),
        Meaning('tt_durable', 'Restoring', 'Restores IsLogOf', 'the lines of a log make this session; they make one'
                ' with the same database, which tells its numbers alike'),
        Meaning('tt_session', 'Answering', 'unlogged_count', 'how many lines were refused since no new log could be'
                ' made'),
        Meaning('tt_durable', 'LoggedSession', 'GoesOnLog', 'a session was read back from the lines of the file,'
                ' which are then on the disk, and `HandedOnLog` holds from there on')]),
], [
    Shown('The lines of a session are answered one after another, each by the session that those before it left.', [
        Place('tt_session', 'Run', 'turn_of_lines session_text'),
        Place('tt_lines', 'Ends', 'AnswersLines AnswersAll')]),
    Promise('`run_session`: the bytes of the reader are its lines, and what is written is their answers.'
            ' `R.remaining` and `W.contents` are what the reader has left and the writer holds, where their own'
            ' contracts tell it.',
            'tt_lines', 'src/run.rt', 'run_session'),
    Shown('The log after lines: one that changes the database stands behind those before it, and one by which the'
          ' session forgets has a new log made. A crash leaves the log after the first lines that were read, and all'
          ' that had been handed over answers lines among these. By the law `LogsAreReadBack` the next start reads'
          ' this log back as the session after these lines. Last, what it takes for granted of the file that the'
          ' process before has left.', [
        Place('tt_session', 'Logged', 'log_next log_after'),
        Place('tt_durable', 'OnLog', 'LeavesAnswered HandedOnLog'),
        Place('tt_durable', 'Restoring', 'LogsAreReadBack'),
        Place('tt_log', 'Log', 'IsAsLeft')]),
    Promise('`run_logged_session`: the same on a device that tells what a crash leaves. A real disk tells nothing;'
            ' that it keeps what was synced is trusted.',
            'tt_durable', 'src/logged_session.rt', 'run_logged_session'),
])

CHAPTERS = [WRITES, TABLE, REPAIRS, THREADS, SESSIONS]


def fail(message: str) -> NoReturn:
    """Ends without a page."""
    raise SystemExit(f'docs/specification.py: {message}')


@lru_cache(maxsize=None)
def text_of(path: str) -> str:
    """The text of a file of the repository."""
    try:
        return (ROOT / path).read_text(encoding='utf-8')
    except OSError:
        fail(f'there is no {path}')


def path_of(place: Place) -> str:
    """The file that declares the names of a place."""
    if place.module.startswith('src/'):
        return f'crates/{place.crate}/{place.module}'
    return f'crates/{place.crate}/specs/{place.module}.antt'


@lru_cache(maxsize=None)
def definitions_in(path: str) -> dict[str, list[str]]:
    """The lines of each definition of a module of specs, without its comments."""
    found: dict[str, list[str]] = {}
    lines: Optional[list[str]] = None
    for line in text_of(path).split('\n'):
        begins = DEFINITION.match(line)
        if begins:
            lines = found.setdefault(begins[1], [])
        if not line:
            lines = None
        elif lines is not None and not line.lstrip().startswith('-- '):
            lines.append(line)
    return found


def constructors_in(path: str) -> dict[str, str]:
    """The constructors of each `data` of a module of specs, with its name."""
    return {found[1]: name for name, lines in definitions_in(path).items() if lines[0].startswith('pub data ')
            for found in map(CONSTRUCTOR.match, lines) if found}


def names_in(place: Place) -> Iterator[Name]:
    """What the names of a place stand for; it fails where one isn't declared there."""
    path = path_of(place)
    is_source = place.module.startswith('src/')
    declared = set(TYPE.findall(text_of(path))) if is_source else set(definitions_in(path))
    for name in place.names.split():
        if name not in declared:
            fail(f'{path} doesn\'t define {name}, which the page shows or explains')
        yield Name(place.crate, DECLARED if is_source else place.module, name)


def name_of_import(path: list[str], name: str) -> Optional[Name]:
    """What a name stands for that is imported from a module of specs; None for one of the kit."""
    crate = path[1] if len(path) > 1 and path[0] == 'Rattle' else ''
    if not (ROOT / f'crates/{crate}/specs').is_dir() or not crate:
        return None
    if DECLARED not in path:
        return Name(crate, path[-1], constructors_in(f'crates/{crate}/specs/{path[-1]}.antt').get(name, name))
    return Name(crate, DECLARED, path[-2] if path[-1] == 'TheVariants' else name)


def spec_imports(text: str) -> dict[str, Optional[Name]]:
    """What the words stand for that a module of specs, or the ghost code of a source file, imports."""
    found: dict[str, Optional[Name]] = {}
    for line in text.split('\n'):
        used = SPEC_USE.search(line) if line.lstrip().startswith(('use Rattle.', 'ghost use ')) else None
        if used:
            path = used[1].split('.')
            for name in (used[2] or used[3] or '').split(', '):
                found[name] = name_of_import(path, name)
    return found


def type_words(text: str) -> set[str]:
    """The types of the repository that a source file declares or uses."""
    used = {name.strip() for names in RUST_USE.findall(text) for name in ','.join(names).split(',')}
    return used | set(TYPE.findall(text))


def code_of(function: Promise) -> list[str]:
    """The signature and the clauses of a public function, without its comments."""
    path = f'crates/{function.crate}/{function.source}'
    lines = text_of(path).split('\n')
    begin = next((at for at, line in enumerate(lines) if re.match(rf' *pub fn {function.function}\b', line)), None)
    if begin is None:
        fail(f'{path} has no public function {function.function}, which the page shows')
    indent = len(lines[begin]) - len(lines[begin].lstrip())
    end = next(at for at in range(begin, len(lines)) if lines[at] == ' ' * indent + '{')
    if not any(re.match(' *(?:requires|ensures)', line) for line in lines[begin:end]):
        fail(f'{path}: {function.function}, which the page shows, has no clauses')
    return [line[indent:] for line in lines[begin:end]]


class Checks:
    """The names that the page has, and those that it uses and hasn't."""

    def __init__(self) -> None:
        self.names = {name for chapter in CHAPTERS for place in places_of(chapter) for name in names_in(place)}
        self.missing: list[str] = []

    def has_type(self, word: str) -> bool:
        return any(name.name == word and name.module == DECLARED for name in self.names)

    def look_at(self, code: str, known: dict[str, Optional[Name]], where: str) -> None:
        """Each word of some code that stands for a name of the repository has to be on the page."""
        fields = {word for words in FIELD.findall(code) for word in words if word}
        for word in sorted(set(WORD.findall(code)) - fields):
            name = known.get(word)
            if name and name not in self.names:
                self.missing.append(f'{where} uses {word} ({name.crate}, {name.module})')

    def look_at_types(self, code: str, words: set[str], where: str) -> None:
        """The same of types in the signature and the clauses of a function."""
        for word in sorted(set(WORD.findall(code)) & words):
            if word[0].isupper() and not self.has_type(word):
                self.missing.append(f'{where} uses the type {word}')


def places_of(chapter: Chapter) -> Iterator[Place]:
    """The places whose names a chapter shows or explains."""
    for row in chapter.rows:
        yield from (meaning.place() for meaning in row.meanings)
    for part in chapter.parts:
        if isinstance(part, Shown):
            yield from part.places


def links(places: list[Place]) -> str:
    """The files of some places as links, each once."""
    files: dict[str, str] = {}
    for place in places:
        files.setdefault(path_of(place), place.module.removeprefix('src/'))
    return ', '.join(f'[{name}](../{path})' for path, name in files.items())


def shown_lines(part: Shown, checks: Checks) -> Iterator[str]:
    """Definitions as they stand, under a sentence."""
    yield f'{part.words} ({links(part.places)})'
    yield '```'
    for place in part.places:
        path = path_of(place)
        text, own = text_of(path), definitions_in(path)
        known = spec_imports(text)
        known.update({name: Name(place.crate, place.module, name) for name in own})
        for name in place.names.split():
            checks.look_at('\n'.join(own[name]), known, name)
            yield from own[name]
    yield '```'


def promise_lines(part: Promise, checks: Checks) -> Iterator[str]:
    """A function with its clauses, under a sentence."""
    path = f'crates/{part.crate}/{part.source}'
    lines, text = code_of(part), text_of(path)
    code = '\n'.join(lines)
    clauses = code[re.search(r'\n *(?:requires|ensures)', code).start():]  # type: ignore[union-attr]
    checks.look_at(clauses, spec_imports(text), part.function)
    checks.look_at_types(code, type_words(text), part.function)
    yield f'{part.words} ([{part.source.removeprefix("src/")}](../{path}))'
    yield from ['```', *lines, '```']


def explained(meaning: Meaning) -> str:
    """Names, which link to their file, with what they mean."""
    path = path_of(meaning.place())
    names = ', '.join(f'[`{name}`](../{path})' for name in meaning.names.split())
    return f'{names}: {meaning.words}'


def chapter_lines(number: int, chapter: Chapter, checks: Checks) -> Iterator[str]:
    yield from ['', f'## {number}. {chapter.title}', '', '| | Names and what they mean |', '|---|---|']
    for row in chapter.rows:
        yield f'| {row.subject} | {"<br>".join(map(explained, row.meanings))} |'
    for part in chapter.parts:
        yield ''
        yield from shown_lines(part, checks) if isinstance(part, Shown) else promise_lines(part, checks)


def page_lines() -> list[str]:
    """The lines of the page. It fails where a name isn't there, or the page is too long."""
    checks = Checks()
    lines = HEAD.split('\n')
    for number, chapter in enumerate(CHAPTERS, 1):
        lines += chapter_lines(number, chapter, checks)
    if checks.missing:
        fail('the page neither shows nor explains:\n  ' + '\n  '.join(checks.missing))
    if len(lines) > MOST_LINES:
        fail(f'the page has {len(lines)} lines, and may have {MOST_LINES}')
    return lines


if __name__ == '__main__':
    sys.stdout.write('\n'.join(page_lines()) + '\n')
