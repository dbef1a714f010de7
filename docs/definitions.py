#!/usr/bin/env python3
"""Prints a long page of all definitions of crates/*/specs, with the comments above them. No copy of it
is kept; docs/SPECIFICATION.md is the short page of those that the headline promise rests on.

  docs/definitions.py > /tmp/definitions.md
"""
import os
import re
from typing import Iterable

ROOT = os.path.dirname(os.path.dirname(os.path.realpath(__file__)))
DEFINITION = re.compile(r'(?:pub (?:record|data)|\w+ pub) (\S+)')
LAW = re.compile(r'pub fn (\w+)\(\)\n +ensures \{ (\w+) \}')

HEAD = """# Definitions

Contracts speak of plain lists, numbers and functions. Their definitions are short enough to read, \
and they compute. This page lists them in words, crate by crate, lowest first, with links to the \
files that state them. The words are the comments of these files, from which `docs/definitions.py` \
prints this page. A definition without a comment of its own is named below its table. \
`docs/SPECIFICATION.md` has the text of those that the headline promise rests on.

One rule of counting holds everywhere: slots, times and places of the history count from 1, and \
time 0 is the time before the first write; positions of tables, columns and items count from 0.

Where a definition is a law, the function is named whose contract it is: that it holds is proved \
for all tables, slots, edits and histories.

None of these definitions refers to versions, copies or pages, except those of `tt_pages` and \
`tt_versions`, those of the module `Sets` of `tt_parts`, and those of the modules `ActionRun`, \
`EditsByNumber`, `Generations`, `Reexecution`, `Repair` and `Rows` of `tt_generations`, which say \
what the code stores and how that is tied to the rest."""

READING = """
## Reading the promises

What the database promises stands in a few hundred lines of these files. Here they are in the order \
to read them. In the first four tables a row needs only the rows above it, the types of `src/` \
(`Write`, `Reply`, `Event` and so on), and the faults of statements (the module `Check`), which may be \
left for later. In the last table a row names what to begin with. The kit's page `ANTT.md` has the \
notation (`rt doc` says where). An `abbrev` is a function. A name with a capital is a type or a \
statement, and a `record` of statements holds if each of its members does. One letter stands for the \
same thing nearly everywhere: `W` for slots, `X` for a content, `S` for a state, `E` for edits, `D` \
for what is dirty, `n` for a number of slots. Each number of lines counts comments too."""

# In order: what is promised and by which functions, and then the crate, the module, the
# definitions, and what they say.
PARTS = [
    ('What a write does, and what the writes so far leave.', [
        ('tt_values', 'Tables', 'Tables columns_at', 'A catalog: tables, each with its name'),
        ('tt_values', 'Row', 'first_int key_of', 'The key of a row'),
        ('tt_values', 'Content', 'RowsByKey Content empty_content row_at with_row_at RowWrite'
         ' with_row_write up_to content_at',
         'The rows of all tables at a time are what the row writes up to it leave, one after another'),
        ('tt_values', 'Value', 'is_same is_less', 'When two values are the same, and when one is less'),
        ('tt_values', 'Comparison', 'compares is_equality',
         'How the value of a row compares with that of a condition'),
        ('tt_values', 'Matches', 'is_compared holds equates matches',
         'Which rows conditions match, and which conditions are equalities'),
        ('tt_values', 'Change', 'column_of value_plus value_after changed_value changed_values changed',
         'What an update makes of a row'),
        ('tt_values', 'Effect', 'matching_rows table_of effect_on effect reply_on reply_of answer_of',
         'What one write changes and answers, and what a select answers'),
        ('tt_values', 'Action', 'with_rows_at content_after_write content_after_writes replies_of_writes has_no_effect'
         ' up_to_no_effect tried is_undone kept content_after_action replies_of'
         ' rows_of_write rows_touched row_id_cmp with_row_once each_row_once effect_of_action'
         ' action_writes',
         'The same of several writes in order, at one time'),
        ('tt_values', 'RowWrites', 'Slots slot_after slot_writes slot_replies row_writes content_of',
         'Slot after slot, each on what those before it left: the content at every time'),
    ]),
    ('One database. `Db::apply`, `advanced` and `advance` of `tt_db` make these states, and '
     '`select`, `select_at`, `select_in`, `preview` and `preview_at` give these answers.', [
        ('tt_repair_laws', 'Edits', 'slot_number replacement_of edit_of slot_with_edit'
         ' edited_slots_from edited_slots', 'The slots as the edits of a repair leave them'),
        ('tt_generations', 'TwoGenerations', 'Phase phase_after_step slots_edited_by is_repairing'
         ' done_of left_of reexecuted_of is_due_in next_content_at',
         'Whether a repair is under way, how far it is, and the content that it leaves.'
         ' Which slots are due comes in the next table'),
        ('tt_db', 'State', 'ClosedGeneration State start edits_of now_of current_at next_at oldest_of'
         ' slots_in slots_left',
         'A state of the sequential table, and the contents that it has'),
        ('tt_db', 'State', 'edits_fault missing_slot slot_edited_twice first_refusal refused_if'
         ' full_at unless_repairing unless_caught_up refusal',
         'Which events are refused, and for which of several reasons'),
        ('tt_db', 'State', 'last_items with_closed switched_state changed_state next_state outcome_of'
         ' after', 'What an event makes of a state, and what it answers'),
        ('tt_db', 'State', 'IsLegalFrom IsLegal', 'A history of which no event is refused'),
        ('tt_db', 'RightAnswers', 'unless_fault unless_later right_select right_select_at'
         ' unless_no_generation right_select_in unless_idle right_preview right_preview_at Answers',
         'The right answer to each kind of read'),
        ('tt_db', 'Errors', 'refusal_of_error', 'Out of memory is no refusal'),
        ('tt_db', 'Database', 'Database state_of with_entry refusal_of outcome_for',
         'A database as contracts see it: tables, limits and a history'),
        ('tt_db', 'Database', 'current_slots now_in current_of_db HasSlots ShowsCurrent',
         'A repair changes no current answer before its switch'),
        ('tt_db', 'History', 'is_write write_places', 'At which places of the history the slots were made'),
    ]),
    ('What a repair re-executes. `Db::apply` and `advance` carry the law, and tell of each step '
     'whether its slot was due; `cause` and `cause_in` tell why, `diff` and `diff_in` what differs.', [
        ('tt_parts', 'Partitions', 'is_partition_column parts_from parts_of key_partition'
         ' is_partition_position partition_of equates_partition equated_partitions partitions_read'
         ' is_same_partition'
         ' is_partition_in',
         'The partitions that a row lies in, and those that a write reads'),
        ('tt_parts', 'Dirty', 'DirtySet nothing_dirty is_row_in is_table_in has_row has_row_of'
         ' columns_in parts_if with_row has_other_partition is_clear',
         'What is dirty, and when a write is clear of it'),
        ('tt_repair_laws', 'Due', 'content_after rows_matched is_dirty_key has_dirty_key names_dirty_row'
         ' is_write_clear is_write_affected rows_matched_by is_affected slot_rows_written'
         ' slot_rows_matched is_slot_affected with_row_of is_due_by rows_reexecuted dirty_after_slot'
         ' dirty_after is_due reexecuted_count',
         'Which slots are due, and what gets dirty with them'),
        ('tt_repair_laws', 'Laws', 'IsSameSlot NoAffectedSlotIsMissed',
         'A slot that isn\'t due does the same in both generations'),
        ('tt_db', 'Database', 'IsDueOrSame MissesNoSlot', 'The same, as the contract of a step says it'),
        ('tt_causes', 'Causes', 'Cause slot_action_writes write_reads is_affected_after affected_since'
         ' first_dirty_row row_of_key row_named_by first_row_named reads_dirty_partitions'
         ' first_partition_read scans_dirty_table first_table_scanned cause_by cause_since cause',
         'Why a slot is re-executed'),
        ('tt_generations', 'SlotCauses', 'cause_told cause_at', 'The same of the slots that a repair has done'),
        ('tt_db', 'Causes', 'cause_of cause_of_closed cause_in_of',
         'The same of the repair under way, and of one that closed a generation'),
        ('tt_causes', 'Differences', 'RowChange is_unchanged keys_of_both row_change_at row_changes differences',
         'Which rows differ'),
        ('tt_generations', 'RowChanges', 'change_told differences_in changes_after',
         'The same after the slots that a repair has done'),
        ('tt_db', 'Differences', 'unless_no_table unless_none_under_way right_diff no_generation_in'
         ' diff_of_closed right_diff_in TellsDiff ArePage TellsDiffPage',
         'The same of the repair under way, and of one that closed a generation'),
    ]),
    ('Threads. `Worker::read` and the other reads of `tt_store` answer as `AnswersRightly` says, '
     '`Store::write`, `begin`, `abort`, `step` and `finish` as `Wrote`, `Placed`, `Stepped` and '
     '`HasFinished` do, and `close` as the rest.', [
        ('tt_store', 'History', 'entries_by places_from places_of',
         'The entries of one worker, and their places in the one history'),
        ('tt_store', 'Calls', 'steps planned steps_wanted events_of first_refused last_outcome'
         ' numbers_from',
         'The events that a call stands for'),
        ('tt_db', 'Database', 'nth_item', 'A number counts from 1'),
        ('tt_store', 'Own', 'entries_at', 'Entries by their places'),
        ('tt_store', 'Workers', 'WorkerState own_entries Looks database_at AnswersRightly Publishes'
         ' IsCause IsRefused',
         'What a worker has seen only grows, and each reply is right at a front of the one history'),
        ('tt_generations', 'TwoGenerations', 'TwoGenerations progress_in progress_of',
         'How far a repair is'),
        ('tt_db', 'Database', 'generations_in repair_of', 'The same of a database'),
        ('tt_store', 'Store', 'ShowsTheSame PublishesOne Wrote Placed Stepped HasFinished',
         'The same for each call that publishes, in its own words'),
        ('tt_store', 'Closing', 'bearers EachOnce IsUnclosed IsPartOf IsOfWorker',
         'At the end the history has the entries of each worker, and no others'),
    ]),
    ('A whole repair, and the program: `repair` of `tt_repair`, `changes` and `changes_next` of `tt_records`, '
     '`run_alone` of `tt_workload`, `run_workers` of `tt_workers`, `carry_out_words` of `tt_cli`; and what the '
     'versions of documents and sessions mean, by laws of `tt_grammar` and `tt_requests`.', [
        ('tt_repair', 'Growth', 'GrewBy IsMergedAt IsWrite',
         'A worker\'s entries, merged with those of others'),
        ('tt_repair', 'Repairing', 'entry_by begun_steps HasRepaired',
         'A repair adds its beginning, its steps and its switch to the history, and nothing else'),
        ('tt_records', 'Changes', 'answered_now is_still change_to changes_of answered_next'
         ' next_changes_of', 'The replies that are answered differently now, or in the next generation'),
        ('tt_workload', 'Report', 'report_of', 'The report of a run in one thread'),
        ('tt_workers', 'Report', 'IsAnswered AreAnswered IsRepaired IsReportOf text_of_report',
         'What holds of the report of a run in threads, and its text'),
        ('tt_cli', 'CarryingOut', 'AskFor EndsBy RunsWords PrintsUsage CarriesOut',
         'What the program has done when it ends'),
        ('tt_grammar', 'Conditions', 'has_comparisons parts_of_condition condition_on condition',
         'A condition, as a version reads it'),
        ('tt_grammar', 'NewestVersion', 'ReadsTheSame NewestVersionReadsTheSame',
         'What has no fault in a version is read as the same by the newest one'),
        ('tt_requests', 'NewestVersion', 'RequestsReadTheSame', 'The same of the requests of a session'),
        ('tt_requests', 'SessionLine', 'is_opening session_line_of RequestsAreNoOpenings',
         'A line of an open session is an opening if it has a version, and else a request'),
        ('tt_durable', 'Restoring', 'repeated repeated_all',
         'How the lines of a log are carried out again'),
    ]),
]


def lines_of(path: str) -> list[str]:
    """The lines of a file of the repository; none where there is no such file."""
    if not os.path.exists(f'{ROOT}/{path}'):
        return []
    with open(f'{ROOT}/{path}') as file:
        return file.read().split('\n')


def crates() -> list[str]:
    """The crates that have definitions, lowest first."""
    found = [re.match(r'[a-z]\w*', line) for line in lines_of('crates.txt')]
    return [it[0] for it in found if it and os.path.exists(f'{ROOT}/crates/{it[0]}/specs/Lib.antt')]


def sentences(words: Iterable[str]) -> str:
    """Words of a comment as sentences: with a capital and a full stop."""
    text = ' '.join(words)
    return text[:1].upper() + text[1:] + ('' if text.endswith('.') else '.')


def subject(crate: str) -> str:
    """What the root file says of the crate."""
    for root in ('lib', 'main'):
        told = [line[4:] for line in lines_of(f'crates/{crate}/src/{root}.rt')
                if line.startswith('//! ')]
        if told:
            return sentences(told)
    return ''


def laws(crate: str) -> dict[str, str]:
    """The function of each law."""
    text = '\n'.join(lines_of(f'crates/{crate}/src/laws.rt'))
    return {law: function for function, law in LAW.findall(text)}


def comment_above(lines: list[str], at: int) -> list[str]:
    """The words of the comment that ends right above a line."""
    words: list[str] = []
    while at > 0 and lines[at - 1].startswith('infix'):
        at -= 1
    while at > 0 and lines[at - 1].startswith('-- '):
        at -= 1
        words.insert(0, lines[at][3:])
    return words


def print_module(crate: str, module: str, law_of: dict[str, str]) -> None:
    """The definitions of a module, with their words."""
    path = f'crates/{crate}/specs/{module}.antt'
    lines = [line.lstrip() for line in lines_of(path)]
    head = next(at for at, line in enumerate(lines) if not line.startswith('-- '))
    print(f'\n### [`{module}`]({ROOT}/{path})\n\n{sentences(comment_above(lines, head))}')
    rows, bare = [], []
    for at, line in enumerate(lines):
        if not (found := DEFINITION.match(line)):
            continue
        words, law = comment_above(lines, at), law_of.get(found[1])
        if law:
            words.append(f'(law: `{law}`)')
        if words:
            rows.append(f'| `{found[1]}` | {" ".join(words)} |'.replace('||', '\\|\\|'))
        else:
            bare.append(f'`{found[1]}`')
    if rows:
        print('\n| Name | In words |\n|---|---|\n' + '\n'.join(rows))
    if bare:
        print(f'\nWithout a comment: {", ".join(bare)}.')


def length_of(lines: list[str], name: str) -> int:
    """How many lines a definition has, with the comment above it."""
    lines = [line.lstrip() for line in lines]
    at = next((at for at, line in enumerate(lines)
               if (found := DEFINITION.match(line)) and found[1] == name), None)
    if at is None:
        raise SystemExit(f'docs/definitions.py: to be read, and not defined: {name}')
    while lines[at - 1]:
        at -= 1
    return lines[at:].index('')


def print_reading() -> None:
    """What to read, and in which order."""
    print(READING)
    for promise, rows in PARTS:
        print(f'\n{promise}\n\n| Module | Definitions | Lines | What they say |\n|---|---|---|---|')
        in_all = 0
        for crate, module, names, words in rows:
            path = f'crates/{crate}/specs/{module}.antt'
            length = sum(length_of(lines_of(path), name) for name in names.split())
            listed = ', '.join(f'`{name}`' for name in names.split())
            print(f'| [`{module}`]({ROOT}/{path}) of `{crate}` | {listed} | {length} | {words} |')
            in_all += length
        print(f'| in all | | {in_all} | |')


def main() -> None:
    print(HEAD)
    links = ', '.join(f'[`{crate}`](#{crate})' for crate in crates())
    print(f'\nThe crates: {links}.')
    print_reading()
    for crate in crates():
        print(f'\n## `{crate}`\n\n{subject(crate)}')
        law_of = laws(crate)
        for line in lines_of(f'crates/{crate}/specs/Lib.antt'):
            if line.startswith('pub mod '):
                print_module(crate, line.removeprefix('pub mod '), law_of)


if __name__ == '__main__':
    main()
