"""Rows by the names of their columns, and what reads and writes them: pages, updates, comparisons and
whole actions."""

from __future__ import annotations

import copy
import json
import pickle
from collections.abc import Callable
from typing import Any

from tests.support.client_package import session_command
from tests.support.stand_in import ACCT, ClientCase, StandInCase, told
from timetravel import (
    ChangedSelect, ChangedWrite, Column, NewRow, NotRepairing, Row, Session, Table, Value, above, at_least,
    at_most, below, cancel, delete, do, insert, is_not, preview, replace, select, update)

ANSWER = '{"call":%d,"time":1,"rows":[[1,"ann",10],[2,"bob",-5]]}'
WRITTEN = '{"call":%d,"slot":%d,"replies":["inserted"]}'


class Rows(StandInCase):

    def test_values_by_their_columns(self) -> None:
        with self.open(told(ANSWER % 1, '{"call":2,"done":1,"rows":[[1,"ann",10]]}')) as session:
            rows = session.select("acct").rows
            self.assertEqual([row["bal"] for row in rows], [10, -5])
            self.assertEqual(session.preview("acct").rows[0]["owner"], "ann")
        row = rows[0]
        self.assertEqual(row, [1, "ann", 10])
        self.assertEqual([1, "ann", 10], row)
        self.assertIsInstance(row, list)
        self.assertIsInstance(row, Row)
        self.assertEqual((row[0], row[-1], row[1:], len(row)), (1, 10, ["ann", 10], 3))
        self.assertEqual(list(row), [1, "ann", 10])
        self.assertEqual(dict(row), {"id": 1, "owner": "ann", "bal": 10})
        self.assertEqual(row.keys(), ["id", "owner", "bal"])
        self.assertEqual((repr(row), json.dumps(row)), ("[1, 'ann', 10]", '[1, "ann", 10]'))
        with self.assertRaises(KeyError) as caught:
            row["name"]
        self.assertIn("name", str(caught.exception))
        self.assertRaises(IndexError, lambda: row[3])

    def test_copies_of_a_row(self) -> None:
        with self.open(told(ANSWER % 1)) as session:
            selected = session.select("acct")
        for copied in (pickle.loads(pickle.dumps(selected)), copy.deepcopy(selected), copy.copy(selected)):
            self.assertEqual(copied, selected)
            self.assertEqual(copied.rows[1]["owner"], "bob")
        self.assertEqual(copy.copy(selected.rows[0])["bal"], 10)

    def test_tables_that_are_given_as_json_has_them(self) -> None:
        tables = [{"name": "note", "columns": [{"name": "k", "kind": "int"}]}, Table("acct", [
            Column("key", "int"), Column("name", "text"), Column("sum", "int")])]
        odd: list[Any] = [{"name": [], "columns": 7}, {"name": [], "columns": []}, {"name": "x"}]
        with self.open(told(ANSWER % 1), tables=[*odd, *tables]) as session:    # The program refuses these.
            self.assertEqual(session.send({"select": "acct", "where": []}).result().rows[0]["sum"], 10)

    def test_rows_that_slots_have_written(self) -> None:
        with self.open(told('{"call":1,"time":4,"slots":[{"slot":1,"worker":1,"do":[{"insert":"acct","row":'
                            '[1,"ann",10]}],"replies":["inserted"],"asked":[{"insert":"acct","row":'
                            '[1,"ann",7]},{"delete":"acct","where":[]}]}]}')) as session:
            slot = session.slots(1, 9).slots[0]
        assert slot.do is not None and slot.asked is not None
        self.assertEqual((slot.do[0]["row"]["bal"], slot.asked[0]["row"]["bal"]), (10, 7))
        self.assertEqual(slot.do, [insert("acct", [1, "ann", 10])])

    def test_rows_that_differ(self) -> None:
        found = '[{"table":"acct","key":1,"before":[1,"ann",5],"after":null},' \
            '{"table":"acct","key":2,"before":null,"after":[2,"bob",6]}]'
        with self.open(told('{"call":1,"done":4,"diff":' + found + '}',
                            '{"call":2,"slots":4,"rerun":0,"redone":[],"changed":[],"diff":' + found + '}')) as session:
            for gone, come in (session.diff().diff, session.would([]).diff):
                assert gone.before is not None and come.after is not None
                self.assertEqual((gone.before["owner"], gone.after), ("ann", None))
                self.assertEqual((come.before, dict(come.after)), (None, {"id": 2, "owner": "bob", "bal": 6}))

    def test_rows_of_changes_have_no_names(self) -> None:
        with self.open(told('{"call":1,"from":1,"changed":[{"call":1,"time":2,"before":[[1,"ann",0]],'
                            '"after":[]}]}')) as session:
            change = session.changes().changed[0]
        self.assertEqual(change, ChangedSelect(1, 2, [Row([1, "ann", 0])], []))
        assert isinstance(change, ChangedSelect)
        with self.assertRaises(KeyError):
            change.before[0]["id"]

    def test_rows_of_changes_that_tell_what_was_asked_for(self) -> None:
        with self.open(told(
                '{"call":1,"from":1,"changed":[{"call":1,"worker":2,"time":2,"before":[[1,"ann",0]],"after":[],'
                '"select":"acct","where":[["id",1]]},{"call":2,"worker":3,"slot":3,"before":["inserted"],"after":[],'
                '"do":[{"insert":"acct","row":[1,"ann",10]}]}]}')) as session:
            read, write = session.changes(asked=True).changed
        self.assertEqual(read, ChangedSelect(1, 2, [Row([1, "ann", 0])], [], 2, "acct", [["id", 1]]))
        self.assertEqual(read.before[0]["owner"], "ann")    # type: ignore[call-overload]
        assert isinstance(write, ChangedWrite) and write.do is not None
        self.assertEqual((write.worker, write.whole, write.do[0]["row"]["bal"]), (3, False, 10))

    def test_changes_by_pages(self) -> None:
        change = '{"call":%d,"slot":1,"before":["inserted"],"after":"cancelled"}'
        with self.open(told('{"call":1,"from":1,"changed":[' + change % 4 + ',' + change % 7 + '],"more":true}',
                            '{"call":2,"from":1,"changed":[' + change % 9 + '],"more":false}',
                            '{"call":3,"refused":"not repairing"}')) as session:
            pages = session.change_pages(of=2, only="writes", asked=True, most=2, worker=9)
            self.assertEqual([[each.call for each in page.changed] for page in pages], [[4, 7], [9]])
            self.assertRaises(NotRepairing, next, session.change_pages("next"))
        self.assertEqual(self.lines()[1:], [
            '{"worker":9,"changes":"now","of":2,"only":"writes","most":2,"asked":true}',
            '{"worker":9,"changes":"now","of":2,"only":"writes","after":7,"most":2,"asked":true}',
            '{"changes":"next","most":1000}'])

    def test_inserting_by_names(self) -> None:
        row: dict[str, Value] = {"bal": 10, "owner": "ann", "id": 1}
        with self.open(told(*(WRITTEN % (call, call) for call in range(1, 5)),
                            '{"call":5,"done":0,"left":4,"rerun":0}')) as session:
            session.insert("acct", row)
            session.do([insert("acct", row), delete("acct", {}), insert("acct", [2, "bob", 0])])
            session.send(insert("acct", row)).result()
            session.send({"insert": "acct", "row": row}).result()
            session.begin([replace(1, insert("acct", row)), replace(2, do([insert("acct", row)])), cancel(3)])
        written = '{"insert":"acct","row":[1,"ann",10]}'
        self.assertEqual(self.lines()[1:], [
            written,
            '{"do":[' + written + ',{"delete":"acct","where":[]},{"insert":"acct","row":[2,"bob",0]}]}',
            written, written,
            '{"begin":[{"replace":1,"by":' + written + '},{"replace":2,"by":{"do":[' + written + ']}},'
            '{"cancel":3}]}'])

    def test_a_row_whose_columns_are_not_those_of_the_table(self) -> None:
        short: dict[str, Value] = {"id": 1, "owner": "ann"}
        long: dict[str, Value] = {**short, "bal": 0, "name": "x"}
        with self.open(told(WRITTEN % (1, 1))) as session:
            asking: list[Callable[[NewRow], object]] = [
                lambda row: session.insert("acct", row), lambda row: session.do([insert("acct", row)]),
                lambda row: session.send(insert("acct", row)),
                lambda row: session.begin([replace(1, insert("acct", row))])]
            for ask in asking:
                with self.assertRaisesRegex(ValueError, "acct has no value for column bal"):
                    ask(short)
                with self.assertRaisesRegex(ValueError, "acct has no column name"):
                    ask(long)
            with self.assertRaisesRegex(ValueError, "no table note"):
                session.insert("note", short)
            for bad in ("ann", {1, 2, 3}, b"ann"):
                self.assertRaises(TypeError, session.insert, "acct", bad)
            session.insert("acct", [1, "ann", 0])    # None of these was sent.
        self.assertEqual(len(self.lines()), 2)

    def test_a_row_is_taken_as_it_is(self) -> None:
        row: list[Value] = [1, "ann", 0]
        write = insert("acct", row)
        row[2] = 7
        self.assertEqual(write["row"], [1, "ann", 0])
        self.assertEqual(insert("acct", (1, "ann")), {"insert": "acct", "row": [1, "ann"]})


class Pages(StandInCase):

    def test_pages(self) -> None:
        with self.open(told(
                '{"call":1,"time":7,"generation":2,"oldest":0,"entries":9,"repair":null}',
                '{"call":2,"time":7,"rows":[[-3,"ann",1],[4,"ann",2]],"more":true}',
                '{"call":3,"time":7,"rows":[[5,"ann",3]],"more":false}')) as session:
            pages = list(session.pages("acct", {"owner": "ann"}, most=2, worker=3))
        self.assertEqual([page.rows for page in pages], [[[-3, "ann", 1], [4, "ann", 2]], [[5, "ann", 3]]])
        self.assertEqual(self.lines()[1:], [
            '{"worker":3,"status":true}',
            '{"worker":3,"select":"acct","where":[["owner","ann"]],"at":7,"in":2,"most":2}',
            '{"worker":3,"select":"acct","where":[["owner","ann"]],"at":7,"in":2,"after":4,"most":2}'])

    def test_pages_of_a_closed_generation(self) -> None:
        with self.open(told('{"call":1,"time":5,"rows":[[1,"ann",1]],"more":true}',
                            '{"call":2,"time":5,"rows":[],"more":false}')) as session:
            self.assertEqual([len(page.rows) for page in session.pages("acct", generation=0)], [1, 0])
        self.assertEqual(self.lines()[1:], [
            '{"select":"acct","where":[],"in":0,"most":1000}',
            '{"select":"acct","where":[],"at":5,"in":0,"after":1,"most":1000}'])


class PagesOfTheProgram(ClientCase):

    def test_many_in_flight_and_pages(self) -> None:
        with Session([ACCT], command=session_command()) as session:
            futures = [session.send(insert("acct", [key, "x" * 1000, 0])) for key in range(10000)]
            self.assertEqual([future.result().slot for future in futures], list(range(1, 10001)))
            keys: list[Value] = []
            for page in session.pages("acct", most=999):
                session.delete("acct", {"id": 10000 - len(keys)})    # It isn't seen by this reading.
                keys += [row[0] for row in page.rows]
            self.assertEqual(keys, list(range(10000)))


class Updates(StandInCase):

    def test_both_forms(self) -> None:
        wanted = {"update": "acct", "change": [["set", "owner", "eve"], ["add", "bal", -5]],
                  "where": [["id", 1]]}
        self.assertEqual(update("acct", [("set", "owner", "eve"), ("add", "bal", -5)], {"id": 1}), wanted)
        self.assertEqual(update("acct", {"id": 1}, set={"owner": "eve"}, add={"bal": -5}), wanted)
        self.assertEqual(update("acct", where=[("id", 1)], set={"owner": "eve"}, add={"bal": -5}), wanted)
        self.assertEqual(update("acct", change=[("add", "bal", 1)], where={}),
                         update("acct", {}, add={"bal": 1}))
        with self.open(told(*(WRITTEN % (call, call) for call in range(1, 3)))) as session:
            session.update("acct", {"id": 1}, set={"bal": 0}, worker=2)
            session.update("acct", where={}, add={"bal": 1}, if_time=1)
        self.assertEqual(self.lines()[1:], [
            '{"worker":2,"update":"acct","change":[["set","bal",0]],"where":[["id",1]]}',
            '{"if":1,"update":"acct","change":[["add","bal",1]],"where":[]}'])

    def test_what_is_missing(self) -> None:
        change: Any = update
        for bad in (lambda: change("acct", [("set", "bal", 0)]),
                    lambda: change("acct", set={"bal": 0}),
                    lambda: change("acct", where={}),
                    lambda: change("acct", {"bal": 0}, {"id": 1}),
                    lambda: change("acct", [("set", "bal", 0)], {}, set={"bal": 0})):
            self.assertRaises(TypeError, bad)


class Comparisons(StandInCase):

    def test_each_of_them(self) -> None:
        for compare, sign in ((is_not, "!="), (below, "<"), (at_most, "<="), (above, ">"), (at_least, ">=")):
            values: list[tuple[str, Value]] = [("bal", -5), ("owner", "ann")]
            for column, value in values:
                where = [[column, sign, value]]
                each: list[Any] = [
                    {column: compare(value)}, [(column, compare(value))], [[column, compare(value)]],
                    [(column, sign, value)], where, iter([(column, compare(value))])]
                for given in each:
                    self.assertEqual(delete("acct", given), {"delete": "acct", "where": where})

    def test_beside_equalities(self) -> None:
        wanted = [["id", 1], ["bal", ">=", 8]]
        where: dict[str, Any] = {"id": 1, "bal": at_least(8)}
        self.assertEqual(update("acct", where=where, add={"bal": -8})["where"], wanted)
        self.assertEqual(update("acct", where, add={"bal": -8})["where"], wanted)
        self.assertEqual(update("acct", [("add", "bal", -8)], where)["where"], wanted)
        self.assertEqual(select("acct", where)["where"], wanted)
        self.assertEqual(preview("acct", where)["where"], wanted)

    def test_of_one_column(self) -> None:
        where = [("id", above(1)), ("id", below(9)), ("id", is_not(5))]
        self.assertEqual(delete("acct", where)["where"], [["id", ">", 1], ["id", "<", 9], ["id", "!=", 5]])

    def test_their_lines(self) -> None:
        with self.open(told(WRITTEN % (1, 1), ANSWER % 2, '{"call":3,"done":0,"left":1,"rerun":0}',
                            '{"call":4,"done":0,"rows":[]}')) as session:
            session.delete("acct", {"bal": below(-(2 ** 63) + 1)})
            list(session.pages("acct", [("id", at_least(1)), ("id", at_most(2))], at=1, generation=0))
            session.begin([replace(1, update("acct", {"owner": is_not("b\n")}, set={"bal": 0}))])
            session.preview("acct", {"owner": above("")})
        self.assertEqual(self.lines()[1:], [
            '{"delete":"acct","where":[["bal","<",-9223372036854775807]]}',
            '{"select":"acct","where":[["id",">=",1],["id","<=",2]],"at":1,"in":0,"most":1000}',
            '{"begin":[{"replace":1,"by":{"update":"acct","change":[["set","bal",0]],'
            '"where":[["owner","!=","b\\n"]]}}]}',
            '{"preview":"acct","where":[["owner",">",""]]}'])

    def test_what_cannot_be_compared(self) -> None:
        bad: Any = None
        compared: Any = below(1)
        with self.open(told(WRITTEN % (1, 1))) as session:
            with self.assertRaisesRegex(TypeError, r"where\[0\]\[2\]"):
                session.delete("acct", {"bal": below(bad)})
            with self.assertRaisesRegex(ValueError, r"where\[0\]\[2\]"):
                session.delete("acct", {"bal": below(2 ** 63)})
            with self.assertRaisesRegex(TypeError, "Compared"):
                session.insert("acct", [1, "ann", compared])
            session.delete("acct", {})    # None of these was sent.
        self.assertEqual(len(self.lines()), 2)

    def test_copies(self) -> None:
        compared = pickle.loads(pickle.dumps(at_least("b")))
        self.assertEqual((compared, compared.how, compared.value), (at_least("b"), ">=", "b"))


class WholeActions(StandInCase):

    def test_requests(self) -> None:
        write = delete("acct", {})
        self.assertEqual(do([write], whole=True), {"do": [write], "whole": True})
        self.assertEqual(do(iter([write]), whole=False), {"do": [write]})
        self.assertEqual(replace(1, do([], whole=True)),
                         {"replace": 1, "by": {"do": [], "whole": True}})

    def test_their_lines(self) -> None:
        row: dict[str, Value] = {"bal": 10, "owner": "ann", "id": 1}
        with self.open(told(*(WRITTEN % (call, call) for call in range(1, 4)),
                            '{"call":4,"done":0,"left":3,"rerun":0}')) as session:
            session.do([insert("acct", row)], whole=True, worker=2, if_time=0)
            session.send(do([insert("acct", row)], whole=True), worker=2).result()
            session.send({"whole": True, "do": [insert("acct", row)]}).result()
            session.begin([replace(1, do([insert("acct", row)], whole=True)), replace(2, do([]))])
        written = '"do":[{"insert":"acct","row":[1,"ann",10]}]'
        self.assertEqual(self.lines()[1:], [
            '{"worker":2,"if":0,' + written + ',"whole":true}', '{"worker":2,' + written + ',"whole":true}',
            '{"whole":true,' + written + '}',
            '{"begin":[{"replace":1,"by":{' + written + ',"whole":true}},{"replace":2,"by":{"do":[]}}]}'])

    def test_slots(self) -> None:
        slot = '{"slot":%d,"worker":1,"do":[],%s"replies":[]%s}'
        given = (("", ""), ('"whole":true,', ""), ("", ',"asked":[],"asked_whole":true'),
                 ('"whole":true,', ',"asked":[]'))
        told_of = ",".join(slot % (number, *each) for number, each in enumerate(given, 1))
        with self.open(told('{"call":1,"time":4,"slots":[' + told_of + ']}', WRITTEN % (2, 5))) as session:
            slots = session.slots(1, 4).slots
            assert slots[1].do is not None
            session.do(slots[1].do, whole=slots[1].whole)    # as it was
        self.assertEqual([(slot.whole, slot.asked, slot.asked_whole) for slot in slots], [
            (False, None, False), (True, None, False), (False, [], True), (True, [], False)])
        self.assertEqual(self.lines()[2], '{"do":[],"whole":true}')
