"""One conversation of a session, from its opening to its end, with a stand-in and with the program; and the
program of the tutorial."""

from __future__ import annotations

import subprocess
import sys
from typing import Any

from tests.support.client_package import PACKAGE, session_command
from tests.support.fixtures import program
from tests.support.stand_in import ACCT, ACCT_LINE, OPENING, ClientCase, StandInCase, told
from timetravel import (
    Causes, ChangedSelect, ChangedWrite, Changes, Difference, Differences, EditedTwice, Fault, Forgotten, Later,
    Moved, NoGeneration, NoSlot, NotRepairing, Previewed, Redone, Repair, RepairOfAnother, Repairing, Reply, Row,
    Selected, Session, Slot, Slots, Status, Stepped, Switched, Tables, Trial, Written, above, at_least, at_most,
    below, cancel, delete, do, insert, is_not, replace, update)

# The requests of one conversation: a call of a session, its line, its answer as a line and decoded.
CONVERSATION: list[tuple[Any, str, str, Any]] = [
    (lambda s: s.insert("acct", [1, "ann", 10]),
     '{"insert":"acct","row":[1,"ann",10]}',
     '{"call":1,"slot":1,"replies":["inserted"]}', Written(1, 1, [Reply("inserted")])),
    (lambda s: s.update("acct", [("set", "bal", 0)], {}, worker=2),
     '{"worker":2,"update":"acct","change":[["set","bal",0]],"where":[]}',
     '{"call":2,"slot":2,"replies":[{"updated":1}]}', Written(2, 2, [Reply("updated", 1)])),
    (lambda s: s.select("acct", {"id": 1}),
     '{"select":"acct","where":[["id",1]]}',
     '{"call":3,"time":2,"rows":[[1,"ann",0]]}', Selected(3, 2, [Row([1, "ann", 0])])),
    (lambda s: s.select("acct", at=9),
     '{"select":"acct","where":[],"at":9}',
     '{"call":4,"refused":"later","now":2}', (Later, {"cause": "later", "now": 2, "call": 4})),
    (lambda s: s.begin([cancel(9)]),
     '{"begin":[{"cancel":9}]}',
     '{"call":5,"refused":"no slot","slot":9}', (NoSlot, {"slot": 9})),
    (lambda s: s.begin([cancel(2)]),
     '{"begin":[{"cancel":2}]}',
     '{"call":6,"done":0,"left":2,"rerun":0}', Stepped(0, 2, 0, 6)),
    (lambda s: s.step(),
     '{"step":1,"of":1}',
     '{"call":7,"done":1,"left":1,"rerun":0}', Stepped(1, 1, 0, 7)),
    (lambda s: s.preview("acct"),
     '{"preview":"acct","where":[]}',
     '{"call":8,"done":1,"rows":[[1,"ann",10]]}', Previewed(8, 1, [Row([1, "ann", 10])])),
    (lambda s: s.update("acct", [("add", "bal", 1)], [("id", 1)]),
     '{"update":"acct","change":[["add","bal",1]],"where":[["id",1]]}',
     '{"call":9,"slot":3,"replies":[{"updated":1}]}', Written(9, 3, [Reply("updated", 1)])),
    (lambda s: s.insert("acct", [1, "ann"]),
     '{"insert":"acct","row":[1,"ann"]}',
     '{"call":10,"fault":{"path":"$","cause":"row of the wrong width"}}',
     (Fault, {"path": "$", "cause": "row of the wrong width", "call": 10})),
    (lambda s: s.changes("next"),
     '{"changes":"next"}',
     '{"call":11,"from":1,"changed":[]}', Changes(11, 1, [])),
    (lambda s: s.finish(),
     '{"finish":true,"of":1}',
     '{"call":12,"generation":1,"slots":3,"rerun":2}', Switched(12, 1, 3, 2)),
    (lambda s: s.changes(),
     '{"changes":"now"}',
     '{"call":13,"from":1,"changed":[{"call":2,"slot":2,"before":[{"updated":1}],"after":"cancelled"},'
     '{"call":3,"time":2,"before":[[1,"ann",0]],"after":[[1,"ann",10]]}]}',
     Changes(13, 1, [ChangedWrite(2, 2, [Reply("updated", 1)], None),
                     ChangedSelect(3, 2, [Row([1, "ann", 0])], [Row([1, "ann", 10])])])),
    (lambda s: s.select("acct", generation=0),
     '{"select":"acct","where":[],"in":0}',
     '{"call":14,"time":3,"rows":[[1,"ann",1]]}', Selected(14, 3, [Row([1, "ann", 1])])),
    (lambda s: s.abort(),
     '{"abort":true,"of":1}',
     '{"call":15,"refused":"not repairing"}', (NotRepairing, {"cause": "not repairing"})),
    (lambda s: s.do([], if_time=3),
     '{"if":3,"do":[]}',
     '{"call":16,"slot":4,"replies":[]}', Written(16, 4, [])),
    (lambda s: s.do([], if_time=3),
     '{"if":3,"do":[]}',
     '{"call":17,"refused":"moved","now":4}', (Moved, {"now": 4})),
    (lambda s: s.slots(1, 9, row=("acct", 1)),
     '{"slots":[1,9],"row":["acct",1]}',
     '{"call":18,"time":4,"slots":[{"slot":1,"worker":1,"do":[{"insert":"acct","row":[1,"ann",10]}],'
     '"replies":["inserted"]},{"slot":3,"worker":1,"do":[{"update":"acct","change":[["add","bal",1]],'
     '"where":[["id",1]]}],"replies":[{"updated":1}]}]}',
     Slots(18, 4, [Slot(1, 1, [insert("acct", [1, "ann", 10])], [Reply("inserted")]),
                   Slot(3, 1, [update("acct", [("add", "bal", 1)], {"id": 1})],
                        [Reply("updated", 1)])])),
    (lambda s: s.slots(2, 2),
     '{"slots":[2,2]}',
     '{"call":19,"time":4,"slots":[{"slot":2,"worker":2,"do":null,"replies":null,'
     '"asked":[{"update":"acct","change":[["set","bal",0]],"where":[]}]}]}',
     Slots(19, 4, [Slot(2, 2, None, None, [update("acct", [("set", "bal", 0)], {})])])),
    (lambda s: s.select("acct", after=0, most=1),
     '{"select":"acct","where":[],"after":0,"most":1}',
     '{"call":20,"time":4,"rows":[[1,"ann",11]],"more":false}',
     Selected(20, 4, [Row([1, "ann", 11])], False)),
    (lambda s: s.tables(),
     '{"tables":true}',
     '{"call":21,"version":4,"tables":[' + ACCT_LINE + '],"keep":4,"records":100000}',
     Tables(21, 4, [ACCT], 4, 100000)),
    (lambda s: s.status(),
     '{"status":true}',
     '{"call":22,"time":4,"generation":1,"oldest":0,"entries":9,"repair":null}',
     Status(22, 4, 1, 0, 9, None)),
    (lambda s: s.send({"x\n": 1, "status": True}).result(),
     '{"x\\n":1,"status":true}',
     '{"call":23,"fault":{"path":"$","cause":"unknown member \\"x\\\\n\\""}}',
     (Fault, {"cause": 'unknown member "x\\n"'})),
    (lambda s: s.send({"x": 1}).result(),
     '{"x":1}',
     '{"call":24,"fault":{"path":"$","cause":"missing one of insert, update, delete, select, preview, do, '
     'begin, step, finish, abort, status, slots, changes, tables, why, diff, would, forget"}}',
     (Fault, {"path": "$", "call": 24})),
    # A second repair, with replaced slots, and the members that the requests above leave out.
    (lambda s: s.do([insert("acct", [2, "bøb", -5]), insert("acct", [2, "eve", 0])], worker=3, if_time=4),
     '{"worker":3,"if":4,"do":[{"insert":"acct","row":[2,"bøb",-5]},{"insert":"acct","row":[2,"eve",0]}]}',
     '{"call":25,"slot":5,"replies":["inserted","duplicate"]}',
     Written(25, 5, [Reply("inserted"), Reply("duplicate")])),
    (lambda s: s.delete("acct", {"owner": "bøb", "bal": -5}, worker=3, if_time=5),
     '{"worker":3,"if":5,"delete":"acct","where":[["owner","bøb"],["bal",-5]]}',
     '{"call":26,"slot":6,"replies":[{"deleted":1}]}', Written(26, 6, [Reply("deleted", 1)])),
    (lambda s: s.begin([replace(6, do([])), replace(2, delete("acct", {"id": 7}))], worker=9, if_time=6),
     '{"worker":9,"if":6,"begin":[{"replace":6,"by":{"do":[]}},'
     '{"replace":2,"by":{"delete":"acct","where":[["id",7]]}}]}',
     '{"call":27,"done":0,"left":6,"rerun":0}', Stepped(0, 6, 0, 27)),
    (lambda s: s.begin([]),
     '{"begin":[]}', '{"call":28,"refused":"repairing"}', (Repairing, {"call": 28})),
    (lambda s: s.step(10000, worker=9, if_time=6),
     '{"worker":9,"if":6,"step":10000,"of":9}',
     '{"call":29,"done":6,"left":0,"rerun":2}', Stepped(6, 0, 2, 29)),
    (lambda s: s.status(worker=9, if_time=6),
     '{"worker":9,"if":6,"status":true}',
     '{"call":30,"time":6,"generation":1,"oldest":0,"entries":18,'
     '"repair":{"done":6,"left":0,"rerun":2,"worker":9}}', Status(30, 6, 1, 0, 18, Repair(6, 0, 2, 9))),
    (lambda s: s.preview("acct", {}, after=-9, most=1, worker=9, if_time=6),
     '{"worker":9,"if":6,"preview":"acct","where":[],"after":-9,"most":1}',
     '{"call":31,"done":6,"rows":[[1,"ann",11]],"more":true}', Previewed(31, 6, [Row([1, "ann", 11])], True)),
    (lambda s: s.changes("next", worker=9, if_time=6),
     '{"worker":9,"if":6,"changes":"next"}',
     '{"call":32,"from":1,"changed":[{"call":2,"slot":2,"before":[{"updated":1}],'
     '"after":[{"deleted":0}]},{"call":3,"time":2,"before":[[1,"ann",0]],"after":[[1,"ann",10]]},'
     '{"call":26,"slot":6,"before":[{"deleted":1}],"after":[]}]}',
     Changes(32, 1, [ChangedWrite(2, 2, [Reply("updated", 1)], [Reply("deleted", 0)]),
                     ChangedSelect(3, 2, [Row([1, "ann", 0])], [Row([1, "ann", 10])]),
                     ChangedWrite(26, 6, [Reply("deleted", 1)], [])])),
    (lambda s: s.abort(worker=9, if_time=6),
     '{"worker":9,"if":6,"abort":true,"of":9}',
     '{"call":33,"time":6,"generation":1,"oldest":0,"entries":19,"repair":null}',
     Status(33, 6, 1, 0, 19, None)),
    (lambda s: s.begin([cancel(1), cancel(1)]),
     '{"begin":[{"cancel":1},{"cancel":1}]}',
     '{"call":34,"refused":"edited twice","slot":1}', (EditedTwice, {"slot": 1})),
    (lambda s: s.select("acct", [("id", 1)], at=2, generation=5, after=0, most=2, worker=9, if_time=6),
     '{"worker":9,"if":6,"select":"acct","where":[["id",1]],"at":2,"in":5,"after":0,"most":2}',
     '{"call":35,"refused":"no generation","oldest":0,"newest":1}',
     (NoGeneration, {"oldest": 0, "newest": 1})),
    (lambda s: s.slots(1, 9, of=2, row=("acct", 1), worker=9, if_time=6),
     '{"worker":9,"if":6,"slots":[1,9],"of":2,"row":["acct",1]}',
     '{"call":36,"time":6,"slots":[]}', Slots(36, 6, [])),
    (lambda s: s.finish(worker=9, if_time=6),
     '{"worker":9,"if":6,"finish":true,"of":9}',
     '{"call":37,"refused":"not repairing"}', (NotRepairing, {"call": 37})),
    (lambda s: s.tables(worker=9, if_time=5),
     '{"worker":9,"if":5,"tables":true}', '{"call":38,"refused":"moved","now":6}', (Moved, {"now": 6})),
    # What lies before a time is forgotten.
    (lambda s: s.forget(9),
     '{"forget":9}', '{"call":39,"refused":"later","now":6}', (Later, {"now": 6})),
    (lambda s: s.forget(2, worker=9, if_time=6),
     '{"worker":9,"if":6,"forget":2}',
     '{"call":40,"time":6,"generation":1,"oldest":1,"entries":5,"repair":null,"horizon":2}',
     Status(40, 6, 1, 1, 5, None, 2)),
    (lambda s: s.send({"forget": 1}).result(),
     '{"forget":1}', '{"call":41,"refused":"forgotten","horizon":2}',
     (Forgotten, {"cause": "forgotten", "horizon": 2, "call": 41})),
    (lambda s: s.select("acct", at=1),
     '{"select":"acct","where":[],"at":1}', '{"call":42,"refused":"forgotten","horizon":2}',
     (Forgotten, {"horizon": 2})),
    (lambda s: s.slots(1, 3),
     '{"slots":[1,3]}',
     '{"call":43,"time":6,"slots":[{"slot":3,"worker":1,"do":[{"update":"acct","change":[["add","bal",1]],'
     '"where":[["id",1]]}],"replies":[{"updated":1}]}]}',
     Slots(43, 6, [Slot(3, 1, [update("acct", [("add", "bal", 1)], {"id": 1})], [Reply("updated", 1)])])),
    (lambda s: s.status(),
     '{"status":true}',
     '{"call":44,"time":6,"generation":1,"oldest":1,"entries":5,"repair":null,"horizon":2}',
     Status(44, 6, 1, 1, 5, None, 2)),
    # Conditions that compare.
    (lambda s: s.update("acct", where={"id": 1, "bal": at_least(11)}, add={"bal": -11}),
     '{"update":"acct","change":[["add","bal",-11]],"where":[["id",1],["bal",">=",11]]}',
     '{"call":45,"slot":7,"replies":[{"updated":1}]}', Written(45, 7, [Reply("updated", 1)])),
    (lambda s: s.select("acct", [("id", above(0)), ("id", below(2)), ("owner", is_not("bob"))]),
     '{"select":"acct","where":[["id",">",0],["id","<",2],["owner","!=","bob"]]}',
     '{"call":46,"time":7,"rows":[[1,"ann",0]]}', Selected(46, 7, [Row([1, "ann", 0])])),
    (lambda s: s.delete("acct", [("bal", above(0)), ("bal", at_most(9))]),
     '{"delete":"acct","where":[["bal",">",0],["bal","<=",9]]}',
     '{"call":47,"slot":8,"replies":[{"deleted":0}]}', Written(47, 8, [Reply("deleted", 0)])),
    (lambda s: s.slots(7, 7),
     '{"slots":[7,7]}',
     '{"call":48,"time":8,"slots":[{"slot":7,"worker":1,"do":[{"update":"acct","change":[["add","bal",-11]],'
     '"where":[["id",1],["bal",">=",11]]}],"replies":[{"updated":1}]}]}',
     Slots(48, 8, [Slot(7, 1, [update("acct", where={"id": 1, "bal": at_least(11)}, add={"bal": -11})],
                        [Reply("updated", 1)])])),
    (lambda s: s.select("acct", [("id", "==", 1)]),
     '{"select":"acct","where":[["id","==",1]]}',
     '{"call":49,"fault":{"path":"$.where[0][1]","cause":"out of range"}}',
     (Fault, {"path": "$.where[0][1]", "cause": "out of range"})),
    # Whole actions, of which the last one is replaced by the same writes, not whole.
    (lambda s: s.do([insert("acct", [3, "eve", 8]), update("acct", where={"id": 1}, add={"bal": 5})],
                    whole=True, worker=3, if_time=8),
     '{"worker":3,"if":8,"do":[{"insert":"acct","row":[3,"eve",8]},'
     '{"update":"acct","change":[["add","bal",5]],"where":[["id",1]]}],"whole":true}',
     '{"call":50,"slot":9,"replies":["inserted",{"updated":1}]}',
     Written(50, 9, [Reply("inserted"), Reply("updated", 1)])),
    (lambda s: s.send(do([delete("acct", {"id": 3}), insert("acct", {"id": 1, "owner": "ann", "bal": 0}),
                          delete("acct", {})], whole=True)).result(),
     '{"do":[{"delete":"acct","where":[["id",3]]},{"insert":"acct","row":[1,"ann",0]},'
     '{"delete":"acct","where":[]}],"whole":true}',
     '{"call":51,"slot":10,"replies":[{"deleted":1},"duplicate"]}',
     Written(51, 10, [Reply("deleted", 1), Reply("duplicate")])),
    (lambda s: s.do([], whole=False),
     '{"do":[]}', '{"call":52,"slot":11,"replies":[]}', Written(52, 11, [])),
    (lambda s: s.select("acct"),
     '{"select":"acct","where":[]}',
     '{"call":53,"time":11,"rows":[[1,"ann",5],[3,"eve",8]]}',
     Selected(53, 11, [Row([1, "ann", 5]), Row([3, "eve", 8])])),
    (lambda s: s.begin([replace(10, do([delete("acct", {"id": 3}), insert("acct", [1, "ann", 0]),
                                        delete("acct", {})])), replace(11, do([], whole=True)), cancel(9)]),
     '{"begin":[{"replace":10,"by":{"do":[{"delete":"acct","where":[["id",3]]},'
     '{"insert":"acct","row":[1,"ann",0]},{"delete":"acct","where":[]}]}},'
     '{"replace":11,"by":{"do":[],"whole":true}},{"cancel":9}]}',
     '{"call":54,"done":2,"left":9,"rerun":0}', Stepped(2, 9, 0, 54)),
    (lambda s: s.finish(),
     '{"finish":true,"of":1}',
     '{"call":55,"generation":2,"slots":11,"rerun":3}', Switched(55, 2, 11, 3)),
    (lambda s: s.slots(9, 11),
     '{"slots":[9,11]}',
     '{"call":56,"time":11,"slots":[{"slot":9,"worker":3,"do":null,"replies":null,'
     '"asked":[{"insert":"acct","row":[3,"eve",8]},'
     '{"update":"acct","change":[["add","bal",5]],"where":[["id",1]]}],"asked_whole":true},'
     '{"slot":10,"worker":1,"do":[{"delete":"acct","where":[["id",3]]},'
     '{"insert":"acct","row":[1,"ann",0]},{"delete":"acct","where":[]}],'
     '"replies":[{"deleted":0},"duplicate",{"deleted":1}],"asked":[{"delete":"acct","where":[["id",3]]},'
     '{"insert":"acct","row":[1,"ann",0]},{"delete":"acct","where":[]}],"asked_whole":true},'
     '{"slot":11,"worker":1,"do":[],"whole":true,"replies":[],"asked":[]}]}',
     Slots(56, 11, [
         Slot(9, 3, None, None, [insert("acct", [3, "eve", 8]),
                                 update("acct", where={"id": 1}, add={"bal": 5})], False, True),
         Slot(10, 1, [delete("acct", {"id": 3}), insert("acct", [1, "ann", 0]), delete("acct", {})],
              [Reply("deleted", 0), Reply("duplicate"), Reply("deleted", 1)],
              [delete("acct", {"id": 3}), insert("acct", [1, "ann", 0]), delete("acct", {})], False, True),
         Slot(11, 1, [], [], [], True, False)])),
    (lambda s: s.send({"insert": "acct", "row": [4, "fay", 0], "whole": True}).result(),
     '{"insert":"acct","row":[4,"fay",0],"whole":true}',
     '{"call":57,"fault":{"path":"$","cause":"unknown member \\"whole\\""}}',
     (Fault, {"path": "$", "cause": 'unknown member "whole"'})),
    (lambda s: s.send({"do": [], "whole": 1}).result(),
     '{"do":[],"whole":1}',
     '{"call":58,"fault":{"path":"$.whole","cause":"wrong type"}}',
     (Fault, {"path": "$.whole", "cause": "wrong type"})),
    # What is meant for the repair of a worker is refused where it is another's. A worker who hasn't begun
    # one may go on with any.
    (lambda s: s.begin([cancel(8)], worker=7),
     '{"worker":7,"begin":[{"cancel":8}]}',
     '{"call":59,"done":2,"left":9,"rerun":0}', Stepped(2, 9, 0, 59)),
    (lambda s: s.step(2),
     '{"step":2,"of":1}', '{"call":60,"refused":"repair of another","worker":7}',
     (RepairOfAnother, {"cause": "repair of another", "worker": 7, "call": 60})),
    (lambda s: s.send({"worker": 9, "finish": True}).result(),
     '{"worker":9,"finish":true,"of":9}', '{"call":61,"refused":"repair of another","worker":7}',
     (RepairOfAnother, {"worker": 7})),
    (lambda s: s.abort(of=8),
     '{"abort":true,"of":8}', '{"call":62,"refused":"repair of another","worker":7}',
     (RepairOfAnother, {"worker": 7})),
    (lambda s: s.step(2, of=7),
     '{"step":2,"of":7}', '{"call":63,"done":4,"left":7,"rerun":0}', Stepped(4, 7, 0, 63)),
    (lambda s: s.step(2, worker=8),
     '{"worker":8,"step":2}', '{"call":64,"done":6,"left":5,"rerun":0}', Stepped(6, 5, 0, 64)),
    (lambda s: s.send({"step": 2, "of": 7}).result(),
     '{"step":2,"of":7}', '{"call":65,"done":8,"left":3,"rerun":1}', Stepped(8, 3, 1, 65)),
    (lambda s: s.status(),
     '{"status":true}',
     '{"call":66,"time":11,"generation":2,"oldest":1,"entries":30,'
     '"repair":{"done":8,"left":3,"rerun":1,"worker":7},"horizon":2}',
     Status(66, 11, 2, 1, 30, Repair(8, 3, 1, 7), 2)),
    (lambda s: s.finish(worker=7),
     '{"worker":7,"finish":true,"of":7}',
     '{"call":67,"generation":3,"slots":11,"rerun":1}', Switched(67, 3, 11, 1)),
    (lambda s: s.send({"finish": True, "of": 0}).result(),
     '{"finish":true,"of":0}', '{"call":68,"fault":{"path":"$.of","cause":"out of range"}}',
     (Fault, {"path": "$.of"})),
    # Why slots were re-executed, for each of the causes.
    (lambda s: s.why(2),
     '{"why":true,"in":2}',
     '{"call":69,"done":11,"redone":[{"slot":8,"because":"edited"}]}', Causes(69, 11, [Redone(8, "edited")])),
    (lambda s: s.why(),
     '{"why":true}', '{"call":70,"refused":"not repairing"}', (NotRepairing, {"call": 70})),
    (lambda s: s.why(3, after=8, most=2, worker=9, if_time=11),
     '{"worker":9,"if":11,"why":true,"in":3,"after":8,"most":2}',
     '{"call":71,"refused":"no generation","oldest":1,"newest":3}', (NoGeneration, {"oldest": 1, "newest": 3})),
    (lambda s: s.insert("acct", [5, "eve", 8]),
     '{"insert":"acct","row":[5,"eve",8]}',
     '{"call":72,"slot":12,"replies":["inserted"]}', Written(72, 12, [Reply("inserted")])),
    (lambda s: s.update("acct", where={"id": 5}, set={"owner": "bøb"}),
     '{"update":"acct","change":[["set","owner","bøb"]],"where":[["id",5]]}',
     '{"call":73,"slot":13,"replies":[{"updated":1}]}', Written(73, 13, [Reply("updated", 1)])),
    (lambda s: s.do([insert("acct", [5, "ann", 0]), update("acct", where={"owner": "eve"}, add={"bal": 1}),
                     delete("acct", {"bal": 7})]),
     '{"do":[{"insert":"acct","row":[5,"ann",0]},{"update":"acct","change":[["add","bal",1]],'
     '"where":[["owner","eve"]]},{"delete":"acct","where":[["bal",7]]}]}',
     '{"call":74,"slot":14,"replies":["duplicate",{"updated":0},{"deleted":0}]}',
     Written(74, 14, [Reply("duplicate"), Reply("updated", 0), Reply("deleted", 0)])),
    (lambda s: s.update("acct", where={"owner": "eve"}, add={"bal": 1}),
     '{"update":"acct","change":[["add","bal",1]],"where":[["owner","eve"]]}',
     '{"call":75,"slot":15,"replies":[{"updated":0}]}', Written(75, 15, [Reply("updated", 0)])),
    (lambda s: s.delete("acct", {"bal": 7}),
     '{"delete":"acct","where":[["bal",7]]}',
     '{"call":76,"slot":16,"replies":[{"deleted":0}]}', Written(76, 16, [Reply("deleted", 0)])),
    (lambda s: s.delete("acct", {"owner": "bøb"}),
     '{"delete":"acct","where":[["owner","bøb"]]}',
     '{"call":77,"slot":17,"replies":[{"deleted":1}]}', Written(77, 17, [Reply("deleted", 1)])),
    (lambda s: s.begin([cancel(13)]),
     '{"begin":[{"cancel":13}]}',
     '{"call":78,"done":2,"left":15,"rerun":0}', Stepped(2, 15, 0, 78)),
    (lambda s: s.step(14),
     '{"step":14,"of":1}', '{"call":79,"done":16,"left":1,"rerun":4}', Stepped(16, 1, 4, 79)),
    (lambda s: s.why(),
     '{"why":true}',
     '{"call":80,"done":16,"redone":[{"slot":13,"because":"edited"},'
     '{"slot":14,"because":"names","table":"acct","key":5,"since":13},'
     '{"slot":15,"because":"reads","table":"acct","column":"owner","value":"eve","since":13},'
     '{"slot":16,"because":"scans","table":"acct","since":13}]}',
     Causes(80, 16, [Redone(13, "edited"), Redone(14, "names", "acct", 5, since=13),
                     Redone(15, "reads", "acct", None, "owner", "eve", 13),
                     Redone(16, "scans", "acct", since=13)])),
    (lambda s: s.why(after=13, most=1),
     '{"why":true,"after":13,"most":1}',
     '{"call":81,"done":16,"redone":[{"slot":14,"because":"names","table":"acct","key":5,"since":13}],"more":true}',
     Causes(81, 16, [Redone(14, "names", "acct", 5, since=13)], True)),
    (lambda s: s.finish(),
     '{"finish":true,"of":1}', '{"call":82,"generation":4,"slots":17,"rerun":5}', Switched(82, 4, 17, 5)),
    (lambda s: s.why(3, after=16, most=9, worker=9, if_time=17),
     '{"worker":9,"if":17,"why":true,"in":3,"after":16,"most":9}',
     '{"call":83,"done":17,"redone":[{"slot":17,"because":"wrote","table":"acct","key":5,"since":13}],"more":false}',
     Causes(83, 17, [Redone(17, "wrote", "acct", 5, since=13)], False)),
    (lambda s: s.send({"why": False}).result(),
     '{"why":false}', '{"call":84,"fault":{"path":"$.why","cause":"out of range"}}',
     (Fault, {"path": "$.why", "cause": "out of range"})),
    # Which rows differ, and what a repair would come to.
    (lambda s: s.diff(3),
     '{"diff":true,"in":3}',
     '{"call":85,"done":17,"diff":[{"table":"acct","key":5,"before":null,"after":[5,"eve",10]}]}',
     Differences(85, 17, [Difference("acct", 5, None, Row([5, "eve", 10]))])),
    (lambda s: s.diff(),
     '{"diff":true}', '{"call":86,"refused":"not repairing"}', (NotRepairing, {"call": 86})),
    (lambda s: s.diff(3, after=("acct", 5), most=2, worker=9, if_time=17),
     '{"worker":9,"if":17,"diff":true,"in":3,"after":["acct",5],"most":2}',
     '{"call":87,"done":17,"diff":[],"more":false}', Differences(87, 17, [], False)),
    (lambda s: s.diff(4, after=("acct", -1)),
     '{"diff":true,"in":4,"after":["acct",-1]}',
     '{"call":88,"refused":"no generation","oldest":1,"newest":4}', (NoGeneration, {"oldest": 1, "newest": 4})),
    (lambda s: s.would([replace(12, insert("acct", {"bal": 0, "id": 6, "owner": "ann"})), cancel(17)]),
     '{"would":[{"replace":12,"by":{"insert":"acct","row":[6,"ann",0]}},{"cancel":17}]}',
     '{"call":89,"slots":17,"rerun":5,"redone":[{"slot":12,"because":"edited"},'
     '{"slot":14,"because":"wrote","table":"acct","key":5,"since":12},'
     '{"slot":15,"because":"wrote","table":"acct","key":5,"since":12},'
     '{"slot":16,"because":"scans","table":"acct","since":12},{"slot":17,"because":"edited"}],"changed":['
     '{"call":3,"time":2,"before":[[1,"ann",0]],"after":[[1,"ann",10]]},'
     '{"call":47,"slot":8,"before":[{"deleted":0}],"after":"cancelled"},'
     '{"call":50,"slot":9,"before":["inserted",{"updated":1}],"after":"cancelled"},'
     '{"call":51,"slot":10,"before":[{"deleted":1},"duplicate"],"after":[{"deleted":0},"duplicate",{"deleted":1}]},'
     '{"call":53,"time":11,"before":[[1,"ann",5],[3,"eve",8]],"after":[]},'
     '{"call":73,"slot":13,"before":[{"updated":1}],"after":"cancelled"},'
     '{"call":74,"slot":14,"before":["duplicate",{"updated":0},{"deleted":0}],'
     '"after":["inserted",{"updated":0},{"deleted":0}]},'
     '{"call":77,"slot":17,"before":[{"deleted":1}],"after":"cancelled"}],'
     '"diff":[{"table":"acct","key":5,"before":[5,"eve",10],"after":[5,"ann",0]},'
     '{"table":"acct","key":6,"before":null,"after":[6,"ann",0]}]}',
     Trial(89, 17, 5, [
         Redone(12, "edited"), Redone(14, "wrote", "acct", 5, since=12), Redone(15, "wrote", "acct", 5, since=12),
         Redone(16, "scans", "acct", since=12), Redone(17, "edited")], [
         ChangedSelect(3, 2, [Row([1, "ann", 0])], [Row([1, "ann", 10])]),
         ChangedWrite(47, 8, [Reply("deleted", 0)], None),
         ChangedWrite(50, 9, [Reply("inserted"), Reply("updated", 1)], None),
         ChangedWrite(51, 10, [Reply("deleted", 1), Reply("duplicate")],
                      [Reply("deleted", 0), Reply("duplicate"), Reply("deleted", 1)]),
         ChangedSelect(53, 11, [Row([1, "ann", 5]), Row([3, "eve", 8])], []),
         ChangedWrite(73, 13, [Reply("updated", 1)], None),
         ChangedWrite(74, 14, [Reply("duplicate"), Reply("updated", 0), Reply("deleted", 0)],
                      [Reply("inserted"), Reply("updated", 0), Reply("deleted", 0)]),
         ChangedWrite(77, 17, [Reply("deleted", 1)], None)], [
         Difference("acct", 5, Row([5, "eve", 10]), Row([5, "ann", 0])),
         Difference("acct", 6, None, Row([6, "ann", 0]))])),
    (lambda s: s.would([cancel(99), cancel(99)], worker=9, if_time=17),
     '{"worker":9,"if":17,"would":[{"cancel":99},{"cancel":99}]}',
     '{"call":90,"refused":"no slot","slot":99}', (NoSlot, {"slot": 99})),
    (lambda s: s.would([cancel(12), cancel(12)]),
     '{"would":[{"cancel":12},{"cancel":12}]}',
     '{"call":91,"refused":"edited twice","slot":12}', (EditedTwice, {"slot": 12})),
    (lambda s: s.begin([replace(12, insert("acct", [6, "ann", 0])), cancel(17)]),
     '{"begin":[{"replace":12,"by":{"insert":"acct","row":[6,"ann",0]}},{"cancel":17}]}',
     '{"call":92,"done":2,"left":15,"rerun":0}', Stepped(2, 15, 0, 92)),
    (lambda s: s.would([]),
     '{"would":[]}', '{"call":93,"refused":"repairing"}', (Repairing, {"call": 93})),
    (lambda s: s.step(15),
     '{"step":15,"of":1}', '{"call":94,"done":17,"left":0,"rerun":5}', Stepped(17, 0, 5, 94)),
    (lambda s: s.send({"diff": True}).result(),
     '{"diff":true}',
     '{"call":95,"done":17,"diff":[{"table":"acct","key":5,"before":[5,"eve",10],"after":[5,"ann",0]},'
     '{"table":"acct","key":6,"before":null,"after":[6,"ann",0]}]}',
     Differences(95, 17, [Difference("acct", 5, Row([5, "eve", 10]), Row([5, "ann", 0])),
                          Difference("acct", 6, None, Row([6, "ann", 0]))])),
    (lambda s: s.diff(most=1),
     '{"diff":true,"most":1}',
     '{"call":96,"done":17,"diff":[{"table":"acct","key":5,"before":[5,"eve",10],"after":[5,"ann",0]}],"more":true}',
     Differences(96, 17, [Difference("acct", 5, Row([5, "eve", 10]), Row([5, "ann", 0]))], True)),
    (lambda s: s.diff(after=("acct", 5), most=1),
     '{"diff":true,"after":["acct",5],"most":1}',
     '{"call":97,"done":17,"diff":[{"table":"acct","key":6,"before":null,"after":[6,"ann",0]}],"more":false}',
     Differences(97, 17, [Difference("acct", 6, None, Row([6, "ann", 0]))], False)),
    (lambda s: s.abort(),
     '{"abort":true,"of":1}',
     '{"call":98,"time":17,"generation":4,"oldest":1,"entries":76,"repair":null,"horizon":2}',
     Status(98, 17, 4, 1, 76, None, 2)),
    (lambda s: s.send({"diff": False}).result(),
     '{"diff":false}', '{"call":99,"fault":{"path":"$.diff","cause":"out of range"}}',
     (Fault, {"path": "$.diff", "cause": "out of range"})),
    (lambda s: s.diff(after=("note", 1)),
     '{"diff":true,"after":["note",1]}', '{"call":100,"fault":{"path":"$.after[0]","cause":"no such table"}}',
     (Fault, {"path": "$.after[0]", "cause": "no such table"})),
    (lambda s: s.send({"would": [{"cancel": -1}]}).result(),
     '{"would":[{"cancel":-1}]}', '{"call":101,"fault":{"path":"$.would[0].cancel","cause":"wrong type"}}',
     (Fault, {"path": "$.would[0].cancel", "cause": "wrong type"})),
    # Changes of some requests, with what these were.
    (lambda s: s.changes(of=3, only="writes", after=3, most=1, asked=True, worker=9, if_time=17),
     '{"worker":9,"if":17,"changes":"now","of":3,"only":"writes","after":3,"most":1,"asked":true}',
     '{"call":102,"from":3,"changed":[{"call":50,"worker":3,"slot":9,"before":["inserted",{"updated":1}],'
     '"after":"cancelled","do":[{"insert":"acct","row":[3,"eve",8]},'
     '{"update":"acct","change":[["add","bal",5]],"where":[["id",1]]}],"whole":true}],"more":false}',
     Changes(102, 3, [ChangedWrite(
         50, 9, [Reply("inserted"), Reply("updated", 1)], None, 3,
         [insert("acct", [3, "eve", 8]), update("acct", where={"id": 1}, add={"bal": 5})], True)], False)),
    (lambda s: s.changes("now", only="reads", most=1, asked=False),
     '{"changes":"now","only":"reads","most":1}',
     '{"call":103,"from":3,"changed":[{"call":3,"time":2,"before":[[1,"ann",0]],"after":[[1,"ann",10]]}],"more":true}',
     Changes(103, 3, [ChangedSelect(3, 2, [Row([1, "ann", 0])], [Row([1, "ann", 10])])], True)),
    (lambda s: s.send({"changes": "now", "only": "reads", "after": 3, "most": 5, "asked": True}).result(),
     '{"changes":"now","only":"reads","after":3,"most":5,"asked":true}',
     '{"call":104,"from":3,"changed":[{"call":53,"worker":1,"time":11,"before":[[1,"ann",5],[3,"eve",8]],"after":[],'
     '"select":"acct","where":[]}],"more":false}',
     Changes(104, 3, [ChangedSelect(53, 11, [Row([1, "ann", 5]), Row([3, "eve", 8])], [], 1, "acct", [])], False)),
    (lambda s: s.changes("next", of=7),
     '{"changes":"next","of":7}', '{"call":105,"refused":"not repairing"}', (NotRepairing, {"call": 105})),
    (lambda s: s.changes(only="both"),
     '{"changes":"now","only":"both"}', '{"call":106,"fault":{"path":"$.only","cause":"out of range"}}',
     (Fault, {"path": "$.only", "cause": "out of range"})),
    # Stamps of writes, and the slots that have some.
    (lambda s: s.insert("acct", [7, "gil", 0], stamp=1000),
     '{"insert":"acct","row":[7,"gil",0],"stamp":1000}',
     '{"call":107,"slot":18,"replies":["inserted"]}', Written(107, 18, [Reply("inserted")])),
    (lambda s: s.update("acct", where={"id": 7}, add={"bal": 1}, worker=3, if_time=18, stamp=0),
     '{"worker":3,"if":18,"update":"acct","change":[["add","bal",1]],"where":[["id",7]],"stamp":0}',
     '{"call":108,"slot":19,"replies":[{"updated":1}]}', Written(108, 19, [Reply("updated", 1)])),
    (lambda s: s.delete("acct", {"id": 9}, stamp=2**63 - 1),
     '{"delete":"acct","where":[["id",9]],"stamp":9223372036854775807}',
     '{"call":109,"slot":20,"replies":[{"deleted":0}]}', Written(109, 20, [Reply("deleted", 0)])),
    (lambda s: s.do([delete("acct", {"id": 9})], whole=True, stamp=1500),
     '{"do":[{"delete":"acct","where":[["id",9]]}],"whole":true,"stamp":1500}',
     '{"call":110,"slot":21,"replies":[{"deleted":0}]}', Written(110, 21, [Reply("deleted", 0)])),
    (lambda s: s.send(insert("acct", [8, "gil", 0]), worker=3, stamp=2000).result(),
     '{"worker":3,"insert":"acct","row":[8,"gil",0],"stamp":2000}',
     '{"call":111,"slot":22,"replies":["inserted"]}', Written(111, 22, [Reply("inserted")])),
    (lambda s: s.send({"delete": "acct", "where": [["id", 8]], "stamp": 2500}, stamp=1).result(),
     '{"delete":"acct","where":[["id",8]],"stamp":2500}',
     '{"call":112,"slot":23,"replies":[{"deleted":1}]}', Written(112, 23, [Reply("deleted", 1)])),
    (lambda s: s.insert("acct", [7, "gil", 0]),
     '{"insert":"acct","row":[7,"gil",0]}',
     '{"call":113,"slot":24,"replies":["duplicate"]}', Written(113, 24, [Reply("duplicate")])),
    (lambda s: s.slots(18, 99, of=3, row=("acct", 8), stamps=(0, 2000), if_time=24),
     '{"if":24,"slots":[18,99],"of":3,"row":["acct",8],"stamps":[0,2000]}',
     '{"call":114,"time":24,"slots":[{"slot":22,"worker":3,"stamp":2000,"do":[{"insert":"acct","row":[8,"gil",0]}],'
     '"replies":["inserted"]}]}',
     Slots(114, 24, [Slot(22, 3, [insert("acct", [8, "gil", 0])], [Reply("inserted")], stamp=2000)])),
    (lambda s: s.slots(21, 24),
     '{"slots":[21,24]}',
     '{"call":115,"time":24,"slots":[{"slot":21,"worker":1,"stamp":1500,"do":[{"delete":"acct","where":[["id",9]]}],'
     '"whole":true,"replies":[{"deleted":0}]},{"slot":22,"worker":3,"stamp":2000,"do":[{"insert":"acct",'
     '"row":[8,"gil",0]}],"replies":["inserted"]},{"slot":23,"worker":1,"stamp":2500,"do":[{"delete":"acct",'
     '"where":[["id",8]]}],"replies":[{"deleted":1}]},{"slot":24,"worker":1,"do":[{"insert":"acct",'
     '"row":[7,"gil",0]}],"replies":["duplicate"]}]}',
     Slots(115, 24, [
         Slot(21, 1, [delete("acct", {"id": 9})], [Reply("deleted", 0)], None, True, False, 1500),
         Slot(22, 3, [insert("acct", [8, "gil", 0])], [Reply("inserted")], None, False, False, 2000),
         Slot(23, 1, [delete("acct", {"id": 8})], [Reply("deleted", 1)], None, False, False, 2500),
         Slot(24, 1, [insert("acct", [7, "gil", 0])], [Reply("duplicate")], None, False, False, None)])),
    (lambda s: s.send({"slots": [1, 99], "stamps": [2**63 - 1, 0]}).result(),
     '{"slots":[1,99],"stamps":[9223372036854775807,0]}',
     '{"call":116,"time":24,"slots":[]}', Slots(116, 24, [])),
    (lambda s: s.insert("acct", [9, "gil", 0], stamp=-1),
     '{"insert":"acct","row":[9,"gil",0],"stamp":-1}', '{"call":117,"fault":{"path":"$.stamp","cause":"wrong type"}}',
     (Fault, {"path": "$.stamp", "cause": "wrong type"})),
    (lambda s: s.do([{**delete("acct", {}), "stamp": 1}], stamp=1),
     '{"do":[{"delete":"acct","where":[],"stamp":1}],"stamp":1}',
     '{"call":118,"fault":{"path":"$.do[0]","cause":"unknown member \\"stamp\\""}}', (Fault, {"path": "$.do[0]"})),
    (lambda s: s.slots(1, 9, stamps=(1,)),
     '{"slots":[1,9],"stamps":[1]}', '{"call":119,"fault":{"path":"$.stamps","cause":"wrong type"}}',
     (Fault, {"path": "$.stamps", "cause": "wrong type"})),
]


class Conversation(ClientCase):
    """Holds conversations, and looks at what is answered."""

    def converse(self, session: Session) -> None:
        for ask, line, _, wanted in CONVERSATION:
            with self.subTest(line):
                if isinstance(wanted, tuple):
                    self.assert_raises(lambda: ask(session), *wanted)
                else:
                    self.assertEqual(ask(session), wanted)


class StandIn(Conversation, StandInCase):

    def test_each_request_and_its_answer(self) -> None:
        with self.open(told(*(answer for _, _, answer, _ in CONVERSATION))) as session:
            self.assertEqual(session.opened, Status(0, 0, 0, 0, 0, None))
            self.assertIsNone(session.exit_status)
            self.converse(session)
        self.assertEqual(session.exit_status, 0)
        self.assertEqual(self.lines(), [OPENING] + [line for _, line, _, _ in CONVERSATION])


class Program(Conversation):

    def test_each_request_and_its_answer(self) -> None:
        with Session([ACCT], command=session_command()) as session:
            self.converse(session)
        self.assertEqual(session.exit_status, 0)

    def test_the_incident(self) -> None:
        ran = subprocess.run([sys.executable, str(PACKAGE / "incident.py"), str(program())],
                             capture_output=True, encoding="utf-8", timeout=600)
        self.assertEqual((ran.stderr, ran.returncode), ("", 0))
        self.assertEqual(ran.stdout, (PACKAGE / "incident.out").read_text(encoding="utf-8"))
