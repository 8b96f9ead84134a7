"""What the steps of an edit change: functions, and copies of these that stand beside them, each with one change, so
that one check tells of all changes of a function."""

import os
import re

from rust_places import begin_of, blanked, function_named, functions, is_marked, named

# how the name of a copy ends, before its number
TRIED = "_tried_"

# how a line of an edit's control begins in the edit's text; `rt` takes it for a remark
OF_CONTROL = "# "


def steps_of(text, kind="edit"):
    """The steps of an edit's text, or those of its control: its new texts are lines of their own, and it has the edit's
    file and old text, unless such a line says which."""
    file = old = None
    steps = []
    for line in text.split("\n"):
        is_of_control = line.startswith(OF_CONTROL)
        if is_of_control and kind == "edit":
            continue
        line = line.removeprefix(OF_CONTROL)
        if line.startswith("file: "):
            file = line[6:].strip()
        elif line.startswith("old: "):
            old = line[5:]
        elif line.startswith("new:") and is_of_control == (kind == "control"):
            steps.append((file, old, line[4:].removeprefix(" ")))
    return tuple(steps)


def applied(texts, steps):
    """The texts with these steps made; None where an old text doesn't stand in its file once."""
    texts = dict(texts)
    for file, old, new in steps:
        if texts.get(file, "").count(old) != 1:
            return None
        texts[file] = texts[file].replace(old, new)
    return texts


def header_of(text, function):
    """What others see of a function: its signature and its contract, but not which of its parameters may change."""
    return re.sub(r"\bmut (?=\w+:)", "", re.sub(r"\s+", " ", text[function.start : function.body]))


def function_at(text, old, new):
    """The name of the function whose body a step changes; an empty one if the step only adds functions, or changes the
    words that clauses import; else None."""
    at, changed = text.find(old), text.replace(old, new)
    before, after = list(functions(text)), list(functions(changed))
    held = [number for number, it in enumerate(before) if it.start <= at and at + len(old) <= it.end]
    if held:
        number = max(held, key=lambda it: before[it].start)
        is_kept = len(before) == len(after) and header_of(text, before[number]) == header_of(changed, after[number])
        return named(before[number]) if is_kept else None
    is_import = all(it.startswith("ghost use ") for it in (old, new))
    is_beside = is_import or not blanked(text)[at : at + len(old)].strip()
    names = [[named(it) for it in found] for found in (before, after)]
    return () if is_beside and all(names[0].count(it) == names[1].count(it) for it in names[0]) else None


def functions_of(texts, steps):
    """The functions that these steps change, and whether each step is made in one of them; no function if a step is
    made elsewhere, and isn't one that only adds functions or changes imports."""
    found, texts, is_within = set(), dict(texts), True
    for file, old, new in steps:
        function = function_at(texts[file], old, new) if file.endswith(".rt") else None
        if function is None:
            return frozenset(), False
        found |= {(file, function)} if function else set()
        is_within = is_within and bool(function)
        texts[file] = texts[file].replace(old, new)
    return frozenset(found), is_within


def may_be_copied(crate, place):
    """Whether a copy beside a function is checked as the function is. It isn't if a trait has it, if it is proved with
    others that call it, if a check sees only what is reached, or if a lemma names its goals."""
    file, (owner, trait, _) = place
    function = crate.functions[place]
    if trait or owner and owner not in crate.types or not crate.sees_all:
        return False
    (folder,) = crate.proof_folders(file, function)
    own, goals = f"proofs/{folder}/", f"proofs.{folder.replace('/', '.')}."
    is_cited = any(goals in text for path, text in crate.texts.items() if not path.startswith(own))
    return not is_cited and not is_marked(crate.texts[file], function, "cycle(")


def copied(crate, texts, change, number):
    """The texts with a copy of each function that a change of the crate changes, where the change is made, beside the
    function; with the places of the copies."""
    made, texts, places = applied(crate.texts, change.steps), dict(texts), set()
    for file, (owner, trait, name) in sorted(change.places):
        function, copy = function_named(made[file], (owner, trait, name)), f"{name}{TRIED}{number}"
        head = made[file][begin_of(made[file], function) : function.start]
        rest = made[file][function.start : function.end]
        end = function_named(texts[file], (owner, trait, name)).end
        texts[file] = f"{texts[file][:end]}\n\n{head}{rest.replace(name, copy, 1)}{texts[file][end:]}"
        (folder,) = crate.proof_folders(file, crate.functions[file, (owner, trait, name)])
        goals = [f"proofs.{it.replace('/', '.')}." for it in (folder, folder.removesuffix(name) + copy)]
        for path in [it for it in crate.texts if it.startswith(f"proofs/{folder}/")]:
            answers = f"proofs/{folder.removesuffix(name)}{copy}/{os.path.basename(path)}"
            texts[answers] = crate.texts[path].replace(*goals)
        places.add((file, (owner, trait, copy)))
    return texts, frozenset(places)


def written(symbol):
    """The name of a function, also if it is that of a copy."""
    return re.sub(rf"{TRIED}\d+\b", "", symbol)
