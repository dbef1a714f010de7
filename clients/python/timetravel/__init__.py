"""A client of `timetravel session`: a database that keeps every version of every row, and whose past
writes can be taken back while a service goes on.

    from timetravel import Column, Session, Table, cancel

    accounts = Table("acct", [
        Column("id", "int"), Column("owner", "text", partition=True), Column("bal", "int")])
    with Session([accounts]) as session:
        session.insert("acct", {"id": 1, "owner": "ann", "bal": 10})
        bad = session.update("acct", {"owner": "ann"}, set={"bal": 0})
        session.repair([cancel(bad.slot)])
        print(session.select("acct").rows[0]["bal"])    # 10

A session starts the program and holds it through pipes. The database lives in the program, and ends
with it, unless it is kept in a file:

    with Session([accounts], log="bank.log") as session:
        print(session.opened.time)    # what is there already

Where a server forwards the lines of many to one session, each connects to its socket:

    with Session.connect("bank.sock", [accounts]) as session:
        print(session.status().time)

All methods may be called from several threads. `timetravel.aio.Session` has the same methods for
asyncio. docs/SESSION.md is the manual.
"""

from . import aio
from .answers import (
    Answer, Causes, ChangedSelect, ChangedWrite, Changes, Difference, Differences, Previewed, Progress, Redone,
    Repair, Reply, Selected, Slot, Slots, Status, Stepped, Switched, Tables, Trial, Written)
from .errors import (
    AnotherOpening, Closed, Disconnected, EditedTwice, Ended, Error, Fault, Forgotten, Forked, Full, Later,
    LogFailed, Lost, Moved, NoAnswer, NoGeneration, NoSlot, NotConnected, NotRepairing, NotStarted,
    OutOfMemory, Refused, RepairOfAnother, Repairing, Vanished)
from .requests import (
    Change, Compared, Edit, NewRow, Where, Write, above, at_least, at_most, below, cancel, delete, do, insert,
    is_not, preview, replace, select, update)
from .session import Session
from .stamps import Clock, milliseconds
from .tables import Column, Row, Table, Value

__version__ = "0.1.0"

__all__ = [
    "AnotherOpening", "Answer", "Causes", "Change", "ChangedSelect", "ChangedWrite", "Changes", "Clock",
    "Closed", "Column", "Compared", "Difference", "Differences", "Disconnected", "Edit", "EditedTwice",
    "Ended", "Error", "Fault", "Forgotten", "Forked", "Full", "Later", "LogFailed", "Lost", "Moved",
    "NewRow", "NoAnswer", "NoGeneration", "NoSlot", "NotConnected", "NotRepairing", "NotStarted",
    "OutOfMemory", "Previewed", "Progress", "Redone", "Refused", "Repair", "RepairOfAnother",
    "Repairing", "Reply", "Row", "Selected", "Session", "Slot", "Slots", "Status", "Stepped", "Switched",
    "Table", "Tables", "Trial", "Value", "Vanished", "Where", "Write", "Written", "above", "aio",
    "at_least", "at_most", "below", "cancel", "delete", "do", "insert", "is_not", "milliseconds",
    "preview", "replace", "select", "update"]
