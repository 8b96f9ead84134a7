#!/usr/bin/env python3
"""Tries the edits of crates that must fail, and their controls, which keep the meaning: many in one check.

    edits.py --proved FOLDER [--plan] [--logs FOLDER] [CRATE..]

An edit, crates/NAME/must-fail/*.edit, changes what the code means, and the prover has to refuse it; its control, in
lines of the same file that begin with `# `, has its shape and keeps the meaning, and has to prove. The crates are
proved as they stand, and so one check tells of many changes: each is made in a copy of its function, which stands
beside that one and has its contract and its answers, with holes for the proofs of the functions as they stand. An edit
is refused where a goal of the very function stays open that it changes: a type that differs, or a goal that doesn't
follow. What stops at a limit of the search alone might hold, so such an edit counts as a fault. A control has no goal
open in the functions that it changes.

A function of a trait and a few others have no copies (`may_be_copied`), and are changed where they stand, those of
different functions in one check. So is what a copy doesn't show to be well. What a group can't judge, since a function
that is called is edited too, is tried again with others of which that holds, and then by itself. Edits of limits, which
the law `limits_are` names, are tried together, each at its clause of the law; those of definitions alone, in the laws
of the crate. The statements of the crates below come from FOLDER. The crates are tried side by side, one a processor.
"""

import argparse
import concurrent.futures
import glob
import os
import re
import sys
import tempfile
import typing

from build import Toolchain, most_checks
from crates import ROOT, Ended, end_by_signals, read_crates
from edit_checks import CHECKS, LIMIT, WHOLE, Crate
from edit_steps import applied, copied, functions_of, may_be_copied, steps_of, written
from rust_places import blanked

WORDS = {"edit": ("refused", "NOT REFUSED"), "control": ("proved", "NOT PROVED")}
LAWS = "src/laws.rt"
LIMITS = (LAWS, ("", "", "limits_are"))
ITEM = re.compile(r"^(?:pub(?:\([a-z]+\))? )?([a-z]+)\b(?: (\w+))?", re.M)


class Change(typing.NamedTuple):
    """An edit or a control: its name, its steps (file, old text, new text), the functions whose goals tell of it, the
    clause of the law on limits that does so, if one does, whether it can be tried with others, and whether in copies of
    its functions."""

    kind: str
    name: str
    steps: tuple
    places: frozenset
    clause: str
    is_grouped: bool
    is_copied: bool = False

    def meets(self, other):
        """Whether both are told of by the same goals."""
        return bool(self.places & other.places) and self.clause == other.clause


def constant_of(texts, steps):
    """The constant that these steps change; None if they change anything else."""
    for file, old, _ in steps:
        text, end = blanked(texts[file]), texts[file].find(old) + len(old)
        items = [it for it in ITEM.finditer(text) if it.start() < end] if file.endswith(".rt") else []
        if not items or items[-1][1] != "const":
            return None
    return items[-1][2]


def clause_on(crate, name):
    """The clause of the law on limits that names this constant."""
    law = crate.functions.get(LIMITS)
    text = crate.texts[LAWS][law.start : law.body] if law else ""
    found = re.search(rf"ensures (\w+) \{{[^}}]*\b{name}\b", text)
    return found[1] if found else sys.exit(f"edits: {crate.name}: no clause of limits_are names {name}")


def change_of(crate, kind, name, steps):
    """The edit or control, with where a check tells of it."""
    if applied(crate.texts, steps) is None:
        sys.exit(f"edits: {crate.name}/{kind}/{name}: an old text doesn't stand in its file once")
    (places, is_within), constant = functions_of(crate.texts, steps), constant_of(crate.texts, steps)
    if places:
        is_copied = is_within and all(may_be_copied(crate, it) for it in places)
        return Change(kind, name, steps, places, "", True, is_copied)
    if constant:
        return Change(kind, name, steps, frozenset({LIMITS}), clause_on(crate, constant), True)
    of_code = [it for it in steps if it[0].endswith(".rt")]
    laws = {it for it in crate.functions if it[0] == LAWS} if len(of_code) < len(steps) else set()
    return Change(kind, name, steps, functions_of(crate.texts, of_code)[0] | laws, "", False)


def changes_of(crate, folder, kind):
    """All edits, or all controls, of a crate."""
    for path in sorted(glob.glob(os.path.join(folder, "must-fail/*.edit"))):
        with open(path, encoding="utf-8") as file:
            steps = steps_of(file.read(), kind)
        if steps or kind == "edit":
            yield change_of(crate, kind, os.path.basename(path)[:-5], steps)


def grouped(changes, texts):
    """The changes in groups that can be made at once where the functions stand: limits by themselves, and no function
    twice."""
    groups = []
    for change in sorted(changes, key=lambda it: -sum(it.meets(other) for other in changes)):
        for group in groups:
            steps = [step for it in [*group, change] for step in it.steps]
            is_alike = bool(change.clause) == bool(group[0].clause)
            if is_alike and not any(change.meets(it) for it in group) and applied(texts, steps):
                group.append(change)
                break
        else:
            groups.append([change])
    return groups


def first_groups(changes, texts):
    """The changes in groups that can be made at once. The copies stand in the last one that isn't of limits: there are
    mostly controls, which prove."""
    changes = [it for it in changes if it.is_grouped]
    groups = grouped([it for it in changes if not it.is_copied], texts)
    copies = [it for it in changes if it.is_copied]
    of_functions = [it for it in groups if not it[0].clause]
    if copies and not of_functions:
        return [copies, *groups]
    for group in of_functions[-1:]:
        group += copies
    return groups


def open_goals(crate, change, told):
    """The goals of the functions that tell of a change which stay open, each with why: for a definition also the lemmas
    without a proof that these stand on."""
    found = {}
    for symbol in sorted({it for place in change.places for it in crate.symbols(place) if it in told.lines}):
        own = symbol.partition("::")[2]
        for goal, why in told.goals.get(own, {}).items():
            if goal in ("returns", f"returns-clause-{change.clause}") or not change.clause:
                found[f"`{goal}` of {written(own)}"] = why
        for lemma in told.lemmas[symbol] if not change.is_grouped else ():
            found[f"`{lemma.rpartition('.')[2]}` of {own}"] = "a lemma without a proof"
    return found


def judged(crate, change, told):
    """Whether a check tells that an edit is refused, or a control proved, and why, or why not. None if it doesn't tell:
    if no goal is open, but the function isn't proved for want of another."""
    goals = open_goals(crate, change, told)
    if goals:
        ways = sorted(goals, key=lambda it: goals[it] == LIMIT)
        is_refused = change.kind == "edit" and goals[ways[0]] != LIMIT
        return is_refused, f"at {ways[0]}: {goals[ways[0]]}"
    own = [it for place in change.places for it in crate.symbols(place) if it in told.lines]
    if not own or not all(told.lines[it].startswith(WHOLE) for it in own):
        return None, "no goal of its own is open, and it isn't proved"
    return (True, "as it must be") if change.kind == "control" else (False, "no goal of its own is open")


class Judge:
    """Tries the changes of a crate over a folder of what its checks keep."""

    def __init__(self, crate, kept, logs):
        self.crate, self.kept, self.logs = crate, kept, logs
        self.told = []
        self.failed = 0

    def check(self, changes, what):
        """How a check with these changes judges each; None if they can't be made together, or it came to no verdict."""
        in_place = [it for it in changes if not it.is_copied]
        texts, places = applied(self.crate.texts, [step for it in in_place for step in it.steps]), {}
        if texts is None:
            return None
        for number, change in enumerate(it for it in changes if it.is_copied):
            texts, places[change] = copied(self.crate, texts, change, number)
        stood = frozenset().union(*(it.places for it in in_place))
        told = self.crate.check(texts, stood, frozenset().union(*places.values()), self.kept)
        if self.logs:
            with open(os.path.join(self.logs, f"{self.crate.name}.{what}.log"), "w", encoding="utf-8") as file:
                file.write(told.text)
        tried = [(it, it._replace(places=places.get(it, it.places))) for it in changes]
        return [(it, *judged(self.crate, made, told)) for it, made in tried] if told.has_verdict else None

    def try_group(self, group, what):
        """Tries a group; in halves where the check has no verdict. Gives each change with how it was judged."""
        told = self.check(group, what)
        if told:
            return told
        if len(group) == 1:
            return [(group[0], False, "the check has no verdict: see it by rt must-fail")]
        half = len(group) // 2
        return self.try_group(group[:half], f"{what}a") + self.try_group(group[half:], f"{what}b")

    def try_groups(self, groups, what):
        """Tries groups of changes. Gives those that have to be tried again, where their functions stand."""
        left = []
        for number, group in enumerate(groups):
            for change, is_well, why in self.try_group(group, f"{what}-{number}"):
                if is_well is None or change.is_copied and not is_well:
                    left.append(change._replace(is_copied=False))
                else:
                    self.report(change, is_well, why)
        return left

    def report(self, change, is_well, why):
        self.failed += not is_well
        verdict = " ".join([WORDS[change.kind][0], why]) if is_well else f"{WORDS[change.kind][1]}: {why}"
        self.told.append(f"{self.crate.name}/{change.kind}/{change.name}: {verdict}")

    def try_all(self, changes):
        left = self.try_groups(first_groups(changes, self.crate.texts), "group")
        if len(left) > 1:
            left = self.try_groups(grouped(left, self.crate.texts), "again")
        for change in [*(it for it in changes if not it.is_grouped), *left]:
            self.report(*self.try_group([change], f"alone-{change.kind}-{change.name}")[0])


def tried(crate, changes, logs):
    """Tries all changes of a crate. Gives what judged them."""
    with tempfile.TemporaryDirectory(prefix="pnmpipe-edits-kept-") as kept:
        judge = Judge(crate, kept, logs)
        judge.try_all(changes)
    return judge


def plan(crate, changes):
    groups = [len(it) for it in first_groups(changes, crate.texts)]
    alone = [f"{it.kind} {it.name}" for it in changes if not it.is_grouped]
    counts = [sum(it.kind == kind for it in changes) for kind in WORDS]
    copies = sum(it.is_copied for it in changes)
    told = f"{counts[0]} edits, {counts[1]} controls, {copies} in copies, in groups of {groups}, alone: {alone}"
    print(f"{crate.name}: {told}")


def try_crates(crates, logs):
    """Tries the edits and controls of the crates, and tells of each. Gives the status."""
    total = failed = checks = seconds = 0
    # the largest first: what a crate's edits take goes by its size
    crates = sorted(crates, key=lambda it: -sum(len(text) for text in it[0].texts.values()))
    with concurrent.futures.ThreadPoolExecutor(most_checks()) as pool:
        try:
            for judge in pool.map(lambda it: tried(*it, logs), crates):
                crate, count = judge.crate, len(judge.told)
                told = f"{count} tried, {judge.failed} failed, {crate.checks} checks, {crate.seconds:.0f} CPU s"
                print("\n".join([*judge.told, f"{crate.name}: {told}"]), flush=True)
                total, failed = total + count, failed + judge.failed
                checks, seconds = checks + crate.checks, seconds + crate.seconds
        except Ended as ended:
            CHECKS.end(ended.args[0])
            raise
    print(f"edits: {total} tried, {failed} failed, {checks} checks, {seconds:.0f} CPU s")
    return 1 if failed else 0


def main():
    parser = argparse.ArgumentParser(description=__doc__, formatter_class=argparse.RawDescriptionHelpFormatter)
    parser.add_argument("--proved", required=True, metavar="FOLDER", help="where the statements of proved crates are")
    parser.add_argument("--plan", action="store_true", help="print the groups, and check nothing")
    parser.add_argument("--logs", metavar="FOLDER", help="a folder for what each check prints")
    parser.add_argument("crates", nargs="*", metavar="CRATE", help="by default all")
    asked = parser.parse_args()
    end_by_signals()
    toolchain, crates = Toolchain(), []
    for name in asked.crates or read_crates():
        folder = os.path.join(ROOT, "crates", name)
        crate = Crate(name, folder, toolchain, os.path.abspath(asked.proved))
        changes = [it for kind in WORDS for it in changes_of(crate, folder, kind)]
        if changes:
            crates.append((crate, changes))
    if asked.plan:
        for crate, changes in crates:
            plan(crate, changes)
        return 0
    try:
        return try_crates(crates, asked.logs)
    except Ended as ended:
        return 128 + ended.args[0]


if __name__ == "__main__":
    sys.exit(main())
