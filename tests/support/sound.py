"""What holds of every run with `--json`: each object is one of the schema, and the sums and the status say what the
rows say."""
from collections import Counter
from collections.abc import Mapping, Sequence
from typing import Any

from tests.support.checks import LATER, equal
from tests.support.schema import SCHEMA, wrong

VERDICTS = SCHEMA["$defs"]["sum"]["properties"]["verdicts"]["required"]
# the mailboxes that are done, would be done, or were checked
SUMMED = ("done", "would be done", "prepared", "would be prepared", "back", "would go back", "whole", "not whole")
# the remarks on messages that were there already, and the reasons for which mailboxes are left for now alone
THERE, FOR_NOW = ("shared", "there-already"), {"locked", "changed"}


def want_sound(status: int, objects: Sequence[Mapping[str, Any]]) -> None:
    """Compares what a run printed with itself. What was interrupted, or refused its words, has no sums; `kind` has none
    either."""
    equal("what is wrong by the schema", [line for one in objects for line in wrong(one)], [])
    rows = [one for one in objects if one["type"] == "row"]
    for row in rows:
        said = "; ".join(one["says"] for one in row["remarks"])
        equal(f"a reason: {row}", row["reason"] is not None, row["verdict"] == "left")
        equal(f"what its remarks say: {row}", row["says"][-len(said) :] if said else "", said)
        equal(f"where its folder is: {row}", row["folder"] == "INBOX", row["directory"] == ".")
    if status in (0, 1, LATER) and len(rows) < len(objects):
        want_sums(status, rows, objects[-1])


def want_sums(status: int, rows: Sequence[Mapping[str, Any]], sums: Mapping[str, Any]) -> None:
    """The sums and the status are those of the rows."""
    counts = Counter(row["verdict"] for row in rows)
    left = Counter(row["reason"] for row in rows if row["verdict"] == "left")
    summed = [row for row in rows if row["verdict"] in SUMMED]
    there = [one["says"].split()[0] for row in summed for one in row["remarks"] if one["remark"] in THERE]
    equal("verdicts", sums["verdicts"], {verdict: counts[verdict] for verdict in VERDICTS})
    equal("left", {one["reason"]: one["count"] for one in sums["left"]}, left)
    equal("there already", sums["there_already"], sum(map(int, there)))
    for what in ("messages", "bytes"):
        before = sum(row[what] or 0 for row in rows if row["verdict"] == "done before")
        equal(what, (sums[what], sums["before"][what]), (sum(row[what] or 0 for row in summed), before))
    # a file that was passed over is one, and another path to a mailbox is none
    whys = [one["remark"] for row in rows if row["verdict"] == "no mail" for one in row["remarks"]]
    counts["no mail"] -= whys.count("same-file")
    passed = whys.count("by-no-mail") + whys.count("no-mail-noted")
    said = [
        f"{count} other file" if verdict == "no mail" else f"{count} {verdict}"
        for verdict, count in counts.items()
        if count
    ]
    equal(f"what is not said: {sums}", [says for says in said if says not in sums["says"]], [])
    is_wrong = counts["not whole"] or sum(counts.values()) == counts["no mail"] - passed or left.keys() - FOR_NOW
    equal(f"status: {sums}", status, 1 if is_wrong else LATER if left else 0)
