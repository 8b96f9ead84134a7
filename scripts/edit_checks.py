"""What edits.py asks the prover: a check of a crate with other texts, and what such a check tells of each function.

A function is proved by its own body, its own contract and the contracts of what it calls. So in a crate that was
proved, a hole may stand for the proof of each function that isn't asked about: a check goes past it by the contract.
Nor does it need the body, of which it would work out each step all the same.
"""

import collections
import os
import re
import subprocess
import tempfile
import threading
import typing

from build import LIBRARY, PROGRAM
from crates import Ended
from rust_places import Function, emptied, functions, is_marked, is_name_of, module_of, modules_of_types, named

SOURCES = ("src", "specs", "proofs")

HOLE = """use Rattle.{crate}.proofs.{path}.Statement.{{statement}}

pub {name}_spec : {{M : Type 1}} → statement M
{name}_spec = ?
"""

# a check's line on what it has proved or not, and how it tells that a goal of it stays open: of one that has an answer
# by an error there, of another one by a note on the code, and in the line itself
LINE = re.compile(r"^(?:fn|impl|trait|const|static|type|struct|enum) (\S+): (.*)")
OF_ANSWER = re.compile(r"^(?:\./)?proofs/(\S+)/(?:Answers|Invariants|Proof)\.antt:\d+:\d+: error: `([^`]*)`: ")
OF_CODE = re.compile(r"^note: (?:\./)?src/\S+:\d+:\d+: .*\(`([^`]*)`\)")
BY_SEARCH = re.compile(r"`search` did not prove ((?:`[^`]*`(?:, | and )?)+)")
# a lemma that a function stands on, and that isn't proved
BY_LEMMA = re.compile(r"it stands on ((?:`[^`]*`(?:, | and )?)+), which antt refuses")
# what is no refusal of what the code does: an answer that names what the edit took away
OF_NAMES = re.compile(r"has no field|is not in scope|has no `|was not admitted|is no name")
# how a line begins of a function that has no open goal, in a check that goes past holes
WHOLE = ("no holes", "depends on a hole in", "proved")
# how the last line of a check begins that came to a verdict
VERDICTS = ("logic=", "only=", "holes=")

# why a goal is open, by words of the prover's
DIFFERS = re.compile(r"types (?:first |)differ|the two types are")
IS_FALSE = re.compile(r"does not follow|at which this goal is false|Every way was tried")
AT_A_LIMIT = re.compile(r"one of its limits|its own limit|broke off|step limit|bound of its own|lemmas still to try")
LIMIT = "a limit of the search"


class Told(typing.NamedTuple):
    """What a check told: whether it came to a verdict, its line on each function, the open goals of each with the kind
    of what refuses them, the lemmas without a proof that each stands on, and all that it printed."""

    has_verdict: bool
    lines: dict
    goals: dict
    lemmas: dict
    text: str


def reason(text):
    """By what a goal stays open, from what the prover says of it."""
    if DIFFERS.search(text):
        return "a type that differs"
    return LIMIT if AT_A_LIMIT.search(text) and not IS_FALSE.search(text) else "a goal that doesn't follow"


def messages(text):
    """The messages of a check: a line, with those below it that are set in."""
    message = []
    for line in text.split("\n"):
        if message and not line.startswith(" "):
            yield "\n".join(message)
            message = []
        message.append(line)
    yield "\n".join(message)


def function_of(folder, goal, lines):
    """The function whose goal is answered in this folder of proofs, and the goal's name for it. If functions are proved
    together, their folder begins with +, and the goal's name with its function, or the folder ends with that."""
    module, plus, together = folder.replace("/", "::").partition("::+")
    if not plus:
        return module, goal
    name, _, rest = goal.partition("-")
    if any(it.endswith(f"::{module}::{name}") for it in lines):
        return f"{module}::{name}", rest
    return f"{module}::{together.rpartition('+')[2]}", goal


def read(text):
    """What a check has told, by what it printed."""
    lines, goals, lemmas, noted, answered = {}, collections.defaultdict(dict), {}, {}, []
    for message in messages(text):
        found, of_answer, of_code = LINE.match(message), OF_ANSWER.match(message), OF_CODE.match(message)
        if of_answer and not OF_NAMES.search(message.partition("\n")[0]):
            answered.append((of_answer[1], of_answer[2], reason(message)))
        elif of_code:
            noted[of_code[1]] = reason(message)
        elif found:
            name, said = found[1], found[2]
            lines[name] = said
            searched, stands = BY_SEARCH.search(said), BY_LEMMA.search(said)
            for goal in [*noted, *re.findall(r"`([^`]*)`", searched[1] if searched else "")]:
                goals[name.partition("::")[2]][goal] = noted.get(goal, reason(""))
            refused = re.findall(r"`([^`]*)`", stands[1] if stands else "")
            lemmas[name] = [it for it in refused if ".Answers." not in it]
            noted = {}
    for folder, goal, why in answered:
        function, goal = function_of(folder, goal, lines)
        goals[function][goal] = why
    last = [it for it in text.rstrip("\n").split("\n") if it][-1:]
    return Told(bool(last) and last[0].startswith(VERDICTS), lines, goals, lemmas, text)


class Checks:
    """The checks that run, so that a signal ends them."""

    def __init__(self):
        self.lock = threading.Lock()
        self.children = set()
        self.ended = None

    def start(self, words, **how):
        with self.lock:
            if self.ended:
                raise Ended(self.ended)
            child = subprocess.Popen(words, stdin=subprocess.DEVNULL, **how)
            self.children.add(child)
        return child

    def wait(self, child):
        """How many seconds of a processor it took."""
        _, status, used = os.wait4(child.pid, 0)
        with self.lock:
            child.returncode = os.waitstatus_to_exitcode(status)
            self.children.remove(child)
        return used.ru_utime + used.ru_stime

    def end(self, number):
        """Ends all of them, and has none begin any more."""
        with self.lock:
            self.ended = number
            for child in self.children:
                child.kill()


CHECKS = Checks()


class Crate:
    """A crate whose edits are tried: its texts, and how they are checked over the statements of the crates below it."""

    def __init__(self, name, folder, toolchain, proved):
        self.name, self.toolchain, self.proved = name, toolchain, proved
        self.texts = {}
        for part in SOURCES:
            for at, _, files in os.walk(os.path.join(folder, part)):
                for file in files:
                    path = os.path.join(at, file)
                    with open(path, encoding="utf-8") as text:
                        self.texts[os.path.relpath(path, folder)] = text.read()
        # each function by its place: its file and its name
        self.functions = {
            (file, named(function)): function
            for file in sorted(it for it in self.texts if it.endswith(".rt"))
            for function in functions(self.texts[file])
            if not is_marked(self.texts[file], function, "cfg(test)")
        }
        # whether a check sees all functions, and not only those that are reached from others
        self.sees_all = name not in (PROGRAM, LIBRARY)
        self.types = modules_of_types(self.texts)
        self.known = set()
        self.checks = self.seconds = 0

    def module(self, file, function):
        """The module by which a check names a function: of a type's own methods that of the type."""
        is_method = function.owner and not function.trait
        return self.types.get(function.owner, module_of(file)) if is_method else module_of(file)

    def symbols(self, place):
        """The names by which checks have told of the function and of the closures in it."""
        file, (owner, trait, name) = place
        function = Function(name, owner, trait, 0, 0, 0)
        module = self.module(file, function)
        return sorted(it for it in self.known if is_name_of(it, self.name, module, function))

    def proof_folders(self, file, function):
        """The folders of a function's proof: of a trait's method where it is there, since its name may have more."""
        start = "/".join([*self.module(file, function), ""])
        if not function.trait:
            return [f"{start}{function.owner}/{function.name}" if function.owner else f"{start}{function.name}"]
        begins = f"proofs/{start}{function.owner}{function.trait}"
        found = {it.split("/", 1)[1].rpartition("/")[0] for it in self.texts if it.startswith(begins)}
        return sorted(it for it in found if it.endswith("/" + function.name))

    def with_holes(self, texts, places):
        """The texts with a hole for the proof of each function but these, and no body, where a hole can stand: there is
        none for functions that call one another, which are proved together."""
        texts, emptied_of = dict(texts), collections.defaultdict(set)
        for place, function in self.functions.items():
            if place in places or is_marked(self.texts[place[0]], function, "cycle("):
                continue
            for path in self.proof_folders(place[0], function):
                for it in ("Answers", "Invariants"):
                    texts.pop(f"proofs/{path}/{it}.antt", None)
                words = {"crate": self.name, "path": path.replace("/", "."), "name": function.name}
                texts[f"proofs/{path}/Proof.antt"] = HOLE.format(**words)
                if self.sees_all:
                    emptied_of[place[0]].add(place[1])
        return {path: emptied(text, emptied_of[path]) if path in emptied_of else text for path, text in texts.items()}

    def paths(self, places):
        """The names by which a check is asked for these functions alone: the module of a method of a trait that has
        parameters. None if one has none, or if a check sees only what is reached."""
        paths = [] if self.sees_all else [""]
        for file, (owner, trait, name) in places:
            module = module_of(file)
            has_parameters = trait and re.search(rf"^impl\b[^{{]*\b{trait}<", self.texts[file], re.M)
            own = module if has_parameters else [*module, owner + trait, name]
            found = self.proof_folders(file, Function(name, owner, trait, 0, 0, 0)) or ["/".join(own)]
            paths += [it.replace("/", "::") for it in found]
        return paths if all(paths) else []

    def check(self, texts, places, copies, kept):
        """What a check of these texts tells of these functions and copies, over what earlier checks have kept."""
        texts = self.with_holes(texts, places)
        words = self.toolchain.words("check", self.name, 1, self.proved)
        words += ["--incremental", kept, "--allow-holes"]
        words += [word for path in self.paths(sorted(places | copies)) for word in ("--only", path)]
        with tempfile.TemporaryDirectory(prefix="pnmpipe-edits-") as room, tempfile.TemporaryFile() as out:
            for path, text in texts.items():
                os.makedirs(os.path.dirname(os.path.join(room, path)), exist_ok=True)
                with open(os.path.join(room, path), "w", encoding="utf-8") as file:
                    file.write(text)
            self.seconds += CHECKS.wait(CHECKS.start(words, cwd=room, stdout=out, stderr=subprocess.STDOUT))
            out.seek(0)
            told = read(out.read().decode(errors="replace"))
        self.checks += 1
        self.known |= set(told.lines)
        return told
