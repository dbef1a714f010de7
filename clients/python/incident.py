"""A service books payments between accounts; an intruder takes over an account and empties it. The
operator finds the bad writes, and takes them back while the service goes on booking.

    python3 incident.py                     runs the program `timetravel`
    python3 incident.py DIR/timetravel      runs this one

Each run prints incident.out. docs/SESSION.md explains it step by step.
"""

from __future__ import annotations

import sys
from typing import Literal

from timetravel import (
    ChangedSelect, Column, Moved, Redone, Reply, Row, Session, Slot, Table, Trial, cancel, insert, milliseconds,
    update)

ACCOUNTS = Table("acct", [
    Column("id", "int"), Column("owner", "text", partition=True), Column("bal", "int")])
PAYMENTS = Table("payment", [
    Column("slot", "int"), Column("payer", "int"), Column("payee", "int"), Column("amount", "int")])

DESK = 1    # the worker in whose name the bank's own desk writes
WEB = 2    # and the one of its web pages
OPERATOR = 9

HOUR = 3_600_000    # milliseconds


def pay(session: Session, worker: int, owner: str, payer: int, payee: int, amount: int) -> None:
    """Books a payment from an account of this owner, if the balance is high enough."""
    what = f"{owner} pays {amount} from account {payer} to account {payee}"
    while True:
        found = session.select("acct", {"id": payer, "owner": owner}, worker=worker)
        if not found.rows:
            print(f"  {what}: turned away, {owner} has no account {payer}")
            return
        balance = int(found.rows[0][2])
        if balance < amount:
            print(f"  {what}: turned away, the balance is {balance}")
            return
        try:
            # A payment has the number of its slot, which is the next one at this time.
            written = session.do(
                [update("acct", [("add", "bal", -amount)], {"id": payer}),
                 update("acct", [("add", "bal", amount)], {"id": payee}),
                 insert("payment", [found.time + 1, payer, payee, amount])],
                worker=worker, if_time=found.time)
        except Moved:
            continue    # Somebody has written since the select: look at the balance again.
        print(f"  {what}: slot {written.slot}")
        return


def print_rows(session: Session, table: str, generation: int | None = None) -> None:
    """All rows of a table. Pages leave no records, so they don't show among the changes."""
    for page in session.pages(table, generation=generation, most=2, worker=OPERATOR):
        for row in page.rows:
            print(f"  {row_text(row)}")


def print_slot(slot: Slot) -> None:
    replies = replies_text(slot.replies)
    print(f"  slot {slot.slot} by worker {slot.worker}: {replies}")
    for write in slot.do or []:
        if "insert" in write:
            print(f"    insert into {write['insert']}: {row_text(write['row'])}")
        else:
            changes = "; ".join(f"{word} {column} {value}" for word, column, value in write["change"])
            where = " and ".join(f"{column} is {value}" for column, value in write["where"])
            print(f"    update {write['update']}: {changes} where {where}")


def print_changes(session: Session, which: Literal["now", "next"]) -> None:
    for change in session.changes(which, worker=OPERATOR).changed:
        if isinstance(change, ChangedSelect):
            before, after = rows_text(change.before), rows_text(change.after)
            print(f"  call {change.call} read, at time {change.time}: {before} -> {after}")
        else:
            before, after = replies_text(change.before), replies_text(change.after)
            print(f"  call {change.call} wrote, in slot {change.slot}: {before} -> {after}")


def print_trial(trial: Trial) -> None:
    for redone in trial.redone:
        print(f"  slot {redone.slot}: {cause_text(redone)}")
    for row in trial.diff:
        before, after = (rows_text([] if found is None else [found]) for found in (row.before, row.after))
        print(f"  {row.table} {row.key}: {before} -> {after}")


def cause_text(redone: Redone) -> str:
    if redone.because == "edited":
        return redone.because
    named = [redone.table, redone.key, redone.column, redone.value]
    return f"{redone.because} {' '.join(str(name) for name in named if name is not None)} since slot {redone.since}"


def row_text(row: Row) -> str:
    return ", ".join(str(value) for value in row)


def rows_text(rows: list[Row]) -> str:
    return "; ".join(row_text(row) for row in rows) or "no rows"


def replies_text(replies: list[Reply] | None) -> str:
    return "cancelled" if replies is None else ", ".join(str(reply) for reply in replies) or "nothing"


def run(session: Session) -> None:
    print("The service opens four accounts and books two payments.")
    session.do([insert("acct", [1, "ann", 100]), insert("acct", [2, "bob", 40]),
                insert("acct", [3, "eve", 0]), insert("acct", [4, "dan", 50])], worker=DESK)
    pay(session, DESK, "ann", 1, 2, 30)
    pay(session, WEB, "dan", 4, 1, 20)

    print("Through a hole in the web pages Eve makes Ann's account hers, and empties it.")
    taken = session.update("acct", [("set", "owner", "eve")], {"id": 1}, worker=WEB)
    print(f"  {replies_text(taken.replies)}, slot {taken.slot}")
    pay(session, WEB, "eve", 1, 3, 90)

    print("Nobody knows yet. Ann's wages of 60 find no account of hers, and she can't pay.")
    wages = session.update("acct", [("add", "bal", 60)], {"owner": "ann"}, worker=DESK)
    print(f"  wages: {replies_text(wages.replies)}, slot {wages.slot}")
    pay(session, DESK, "bob", 2, 4, 10)
    pay(session, DESK, "ann", 1, 4, 40)

    print("Ann complains. What have the web pages written to her account in the last hour?")
    now = milliseconds()
    suspects = list(session.find(of=WEB, row=("acct", 1), stamps=(now - HOUR, now), worker=OPERATOR))
    for slot in suspects:
        print_slot(slot)
    bad = [slot.slot for slot in suspects if slot.slot >= taken.slot]
    print(f"Dan's payment was right. What if slots {bad[0]} and {bad[1]} were cancelled?")
    edits = [cancel(slot) for slot in bad]
    print_trial(session.repair(edits, dry=True, worker=OPERATOR))

    print("Nothing else differs, so the operator cancels them.")
    progress = session.begin(edits, worker=OPERATOR)
    print(f"  {progress.done} slots done, {progress.left} left, {progress.rerun} re-executed")
    while progress.left > 0:
        progress = session.step(3, worker=OPERATOR)
        print(f"  {progress.done} slots done, {progress.left} left, {progress.rerun} re-executed")
        if progress.done == 3:
            print("Meanwhile the service goes on, with the data as they are.")
            pay(session, DESK, "bob", 2, 1, 5)

    print("What will have changed, if the repair ends here?")
    print_changes(session, "next")
    print("The accounts as they are, and as the repair has rebuilt them:")
    print_rows(session, "acct")
    print("  --")
    for row in session.preview("acct", worker=OPERATOR).rows:
        print(f"  {row_text(row)}")

    print("That is as it should be. The repaired data become the current ones.")
    switched = session.finish(worker=OPERATOR)
    print(f"  generation {switched.generation}, {switched.slots} slots, {switched.rerun} re-executed")

    print("Ann was turned away, so her payment is booked now. Eve tries again.")
    pay(session, DESK, "ann", 1, 4, 40)
    pay(session, WEB, "eve", 1, 3, 10)

    print("The answers that would be others now:")
    print_changes(session, "now")
    print("Accounts:")
    print_rows(session, "acct")
    print("Payments:")
    print_rows(session, "payment")
    print("Accounts in generation 0, as they were shown until the switch:")
    print_rows(session, "acct", generation=0)
    status = session.status(worker=OPERATOR)
    print(f"The end: generation {status.generation}, time {status.time}, {status.entries} entries.")


def main() -> None:
    program = sys.argv[1] if len(sys.argv) > 1 else "timetravel"
    with Session([ACCOUNTS, PAYMENTS], clock=milliseconds, command=[program, "session"]) as session:
        run(session)


if __name__ == "__main__":
    main()
