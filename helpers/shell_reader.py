"""Reads text of the shell as shfmt(1) parses it: its pipelines, with their words and redirections. `pnmpipe-translate`
and `pnmpipe-explain` use it.

Single commands and their pipelines are found in loops, functions, brackets, branches of `case`, `$(..)` and `<(..)`.
Patterns, quotes, backquotes and here documents are no commands.
"""

import json
import re
import shlex
import subprocess

LACKING = "it needs shfmt 3.6 or later, which parses the shell's text (Debian's package is shfmt)"

# an expansion that gives one word and changes nothing: a parameter, or a sum of them
PLAIN_PARAMETER = re.compile(r"\$(?:[A-Za-z_]\w*|[0-9#]|\{(?:[A-Za-z_]\w*|[0-9]+)\})")
PLAIN_SUM = re.compile(r"\$\(\((?!.*(?:\+\+|--))[\w \t$+*/%()-]+\)\)")


class Kept(Exception):
    """Why something is kept as it is."""


class Lacking(Exception):
    """The program that parses the shell's text isn't there, or is another one."""


class Expansion(str):
    """The text of a parameter, a substitution or an arithmetic expansion."""


class Word:
    """A word of the shell: its text as it stands, and what it means where no expansion is in it."""

    def __init__(self, raw, value=""):
        self.raw = raw
        self.parts = [value] if value else []
        # whether its meaning is its text, without expansions and patterns
        self.literal = True
        # whether it may become several words, or none: by a pattern or an expansion, or by parameters alone
        self.may_split = self.may_split_by_parameter = False

    @classmethod
    def of_text(cls, text):
        """The word that means a text."""
        return cls(shlex.quote(text), text)

    @property
    def value(self):
        return "".join(self.parts) if self.literal else None

    @property
    def parameter(self):
        """The expansion that the word is, where it is one alone that gives a word and changes nothing; else None."""
        if len(self.parts) != 1 or not isinstance(self.parts[0], Expansion):
            return None
        plain = PLAIN_PARAMETER.fullmatch(self.parts[0]) or PLAIN_SUM.fullmatch(self.parts[0])
        return str(self.parts[0]) if plain else None

    def add(self, kind, text, quoted):
        """Adds what the shell has as a part of a word."""
        if kind == "SglQuoted" and text.startswith("'"):
            self.parts.append(text[1:-1])
        elif kind == "Lit" and quoted:
            self.parts.append(re.sub(r'\\([$`"\\]|\n)', lambda it: it[1].strip("\n"), text))
        elif kind == "Lit":
            if re.search(r"[*?[{]", re.sub(r"(?s)\\.", "", text)):
                self.literal, self.may_split = False, True
            self.literal = self.literal and (bool(self.parts) or not text.startswith("~"))
            self.parts.append(re.sub(r"(?s)\\(.)", lambda it: it[1].strip("\n"), text))
        else:
            self.parts.append(Expansion(text))
            self.literal = False
            if kind == "ProcSubst":
                return
            if not quoted and PLAIN_PARAMETER.fullmatch(text):
                self.may_split_by_parameter = True
            elif not quoted or re.search(r"\$[@*]|[@*]\]|\$\{[@*]", text):
                self.may_split = True

    def behind(self, prefix):
        """The word without a literal prefix that has no quotes; None where it has another beginning."""
        if not self.raw.startswith(prefix) or not self.parts or not self.parts[0].startswith(prefix):
            return None
        word = Word(self.raw[len(prefix) :])
        word.parts = [part for part in [self.parts[0][len(prefix) :], *self.parts[1:]] if part]
        word.literal, word.may_split = self.literal, self.may_split
        word.may_split_by_parameter = self.may_split_by_parameter
        return word


class Stage:
    """A command of a pipeline: where it stands, its words and redirections, and the bar behind it. One that isn't a
    simple command has no words."""

    def __init__(self, start, end, words=(), redirections=(), bar=""):
        self.start, self.end, self.bar = start, end, bar
        self.words, self.redirections = list(words), list(redirections)


def span(node):
    """Where a node of the tree begins and ends in the text."""
    return node["Pos"]["Offset"], node["End"]["Offset"]


def parsed(text):
    """The tree of the lines that shfmt can parse, from the first one on; where they end in the text; and what it finds
    at fault behind them, or None. A shell would run these lines too before it comes to the fault."""
    # One byte stands in for each letter that isn't ASCII, which means nothing to the shell: so places in the tree are
    # places in the text.
    given = re.sub(r"[^\x01-\x7f]", ".", text).encode("ascii")
    end, fault = len(given), None
    while True:
        try:
            done = subprocess.run(["shfmt", "--to-json"], input=given[:end], capture_output=True, check=False)
        except FileNotFoundError:
            raise Lacking(LACKING) from None
        except OSError as error:
            raise Lacking(f"shfmt can't be run: {error.strerror}") from None
        if done.returncode == 0:
            return json.loads(done.stdout), end, fault
        if end == 0:
            raise Lacking(LACKING)
        told = done.stderr.decode("utf-8", "replace").strip()
        line, why = re.fullmatch(r"(?:.*?(\d+):\d+: )?(.*)", told, re.S).groups("1")
        fault = fault or f"shfmt can't parse line {line}: {why}"
        # the lines before the one at fault, which may be the last one
        before = re.findall(rb"[^\n]*\n", given[: end - 1])
        end = len(b"".join(before[: int(line) - 1]))


class ShellReader:
    """A text, and the edits that are made in it. What reads it has its own pipeline_ended(stages)."""

    def __init__(self, text):
        self.text = text
        # what is put in place of what
        self.edits = []
        # parts that are comments; and others that no command stands in, each with the reason
        self.comments, self.asides = [], []

    def pipeline_ended(self, stages):
        """Takes a pipeline; those inside of it came before."""
        raise NotImplementedError

    def rendered(self, start, end):
        """A part of the text with the edits that were made in it."""
        made, at = [], start
        for first, behind, text in sorted(self.edits):
            # an edit inside of another one was made before it, and stands in its text
            if first < at or behind > end:
                continue
            made += [self.text[at:first], text]
            at = behind
        return "".join(made) + self.text[at:end]

    def read(self, node):
        """Reads what stands below a node of the tree."""
        if isinstance(node, list):
            for each in node:
                self.read(each)
        elif isinstance(node, dict):
            if "Hash" in node:
                self.comments.append(span(node))
            elif node.get("Backquotes"):
                self.asides.append((*span(node), "it stands in backquotes; write $(..) in their place"))
            elif "Position" in node and not {"Type", "FiPos"} & node.keys():
                # a statement; a branch of `if` has the field Position too
                self.read_pipeline(node)
            else:
                if "Hdoc" in node:
                    self.asides.append((*span(node.pop("Hdoc")), "it stands in a here document"))
                self.read(list(node.values()))

    def read_pipeline(self, statement):
        """Reads what stands in a statement, and then hands it on as a pipeline."""
        linked = self.linked(statement)
        for each, _ in linked:
            self.read([each.get(key) for key in ("Comments", "Cmd", "Redirs")])
        self.pipeline_ended([self.stage(each, bar) for each, bar in linked])

    def linked(self, statement, bar=""):
        """The statements with bars between that a statement is, each with the bar behind it."""
        command = statement.get("Cmd", {})
        if command.get("Type") == "BinaryCmd" and not statement.get("Redirs"):
            at = command["OpPos"]["Offset"]
            operator = re.match(r"\|&?(?!\|)|", self.text[at : at + 3])[0]
            if operator:
                self.read(statement.get("Comments"))
                return self.linked(command["X"], operator) + self.linked(command["Y"], bar)
        return [(statement, bar)]

    def stage(self, statement, bar):
        """A statement as a stage of a pipeline."""
        command, redirections = statement.get("Cmd"), statement.get("Redirs", [])
        parts = [span(it) for it in [command] if it] + [(span(it)[0], span(it["Word"])[1]) for it in redirections]
        parts = parts or [span(statement)]
        start, end = min(part[0] for part in parts), max(part[1] for part in parts)
        if command and command["Type"] != "CallExpr":
            return Stage(start, end, bar=bar)
        words = [Word(self.rendered(*span(it))) for it in (command or {}).get("Assigns", [])]
        words += [self.word(it) for it in (command or {}).get("Args", [])]
        texts = [self.rendered(span(it)[0], span(it["Word"])[1]) for it in redirections]
        return Stage(start, end, words, texts, bar)

    def word(self, node):
        """A word of the tree."""
        word = Word(self.rendered(*span(node)))
        for part in node["Parts"]:
            is_quoted = part["Type"] == "DblQuoted" and not part.get("Dollar")
            for each in part.get("Parts", []) if is_quoted else [part]:
                word.add(each["Type"], self.text[slice(*span(each))], is_quoted)
        return word
