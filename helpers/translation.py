"""Turns text of the shell that calls Netpbm's tools into text that calls pnmpipe. `pnmpipe-translate` and
`pnmpipe-explain` use it."""

import re
import shlex

from chain_text import MOST_BYTES, MOST_STAGES, WORD, ChainFault, is_file, read_chain
from netpbm_words import ANY_SETTING, Kept, place_of, read_stage, tool_of
from shell_reader import ShellReader, Stage, Word, parsed, span
from tool_table import LEAVING_PAM, OLD_NAMES, OPTIONS

NAMED = re.compile(r"(?<![\w.-])(%s)(?![\w.-])" % "|".join([*OPTIONS, *OLD_NAMES]))
BAR = re.compile(r"(?:[ \t]|\\\n)*\|(?:[ \t\n]|\\\n)*")
INPUT = re.compile(r"0?<")

# other texts than the shell's, by the ends of their files' names; and words of theirs that no command has for a name: a
# rule's target, a key, an item, a block's mark
OTHERS = {"akefile": "a Makefile", ".mk": "a Makefile", ".yml": "YAML", ".yaml": "YAML", ".md": "Markdown"}
NO_COMMAND = re.compile(r"-|[^=]+:|``.*", re.S)


class NoScript(Exception):
    """Why a text is no script of the shell."""


class Translation(ShellReader):
    """One pass over a text: what is put in place of what, and the notes."""

    def __init__(self, text):
        super().__init__(text)
        self.said = []
        # the calls that were kept, and names that the text gives a meaning of its own
        self.kept, self.defined = [], set()
        # bash's statuses of a pipeline's stages are counted by them
        self.may_join = "PIPESTATUS" not in text

    def tell(self, place, text):
        self.said.append((1 + self.text.count("\n", 0, place), text))

    def define(self, node):
        """Finds the functions and aliases below a node of the tree."""
        if isinstance(node, dict):
            texts = [self.text[slice(*span(word))] for word in node.get("Args", []) if node.get("Type") == "CallExpr"]
            if texts[:1] == ["alias"]:
                self.defined |= {text.strip("'\"").partition("=")[0] for text in texts}
            if node.get("Type") == "FuncDecl":
                self.defined.add(node["Name"]["Value"])
            node = list(node.values())
        for each in node if isinstance(node, list) else []:
            self.define(each)

    def pipeline_ended(self, stages):
        """Translates the runs of tools of a pipeline."""
        run = []
        makes_pam = False
        for index, each in enumerate(stages):
            call, tool = self.taken(each, makes_pam, index == 0)
            makes_pam = tool == "pamchannel" or (makes_pam and tool is not None and tool != "pnminvert")
            if call is None:
                self.replace(run)
                run = []
                continue
            if run and not self.can_follow(run, call):
                self.replace(run)
                run = []
            run.append(call)
        self.replace(run)

    def taken(self, stage, makes_pam, is_first):
        """A stage as a call that is translated, or None, and the name of its tool."""
        tool = name = None
        try:
            index = place_of(stage)
            if index is None:
                self.pass_over(stage)
                return None, None
            name = stage.words[index].raw
            tool = tool_of(stage.words[index])
            tool = OLD_NAMES.get(tool, tool)
            if name in self.defined:
                raise Kept("a function or an alias has this name")
            if stage.bar == "|&":
                raise Kept("|& sends its messages down the pipe")
            if makes_pam and tool in LEAVING_PAM:
                raise Kept("it makes PGM or PPM of PAM, and pnmpipe leaves PAM as it is")
            unknown = [text for text in stage.redirections if not re.match(r"0?<[^<>&]|[0-9]*>", text)]
            if unknown:
                raise Kept(f"pnmpipe-translate doesn't know what the redirection {unknown[0]} does")
            call = read_stage(stage, index)
            if call.doubtful and not is_first:
                raise Kept(f"{call.doubtful} may be an option")
            return call, tool
        except Kept as reason:
            name = name or next(word.raw for word in stage.words if tool_of(word, True))
            self.kept.append((stage.start, stage.end))
            self.tell(stage.start, f"kept {name}: {reason}")
            return None, tool

    def pass_over(self, stage):
        """Leaves a stage that calls none of the tools."""
        name = next((word.raw for word in stage.words if not ANY_SETTING.match(word.raw)), None)
        if name and NO_COMMAND.fullmatch(name):
            raise NoScript(f"it seems to be a Makefile, YAML or Markdown: {name.splitlines()[0]} is no command's name")
        if name:
            self.asides.append((stage.start, stage.end, f"it is an argument of {name}"))

    def can_follow(self, run, call):
        """Whether a call goes into one with those before it."""
        if call.file is not None or run[-1].plain or call.prefix != run[-1].prefix or not self.may_join:
            return False
        # messages of a stage, and its output or input, may go elsewhere
        if any(not INPUT.match(text) for text in run[-1].redirections):
            return False
        if any(re.match(r"0?<|[2-9]", text) for text in call.redirections):
            return False
        tools = [tool for each in [*run, call] for tool in each.tools]
        fits = len(tools) <= MOST_STAGES and len(" | ".join(tools)) <= MOST_BYTES
        # comments and here documents between two stages stay where they are
        return fits and BAR.fullmatch(self.text, run[-1].end, call.start) is not None

    def replace(self, run):
        """Puts one call in place of a run."""
        if not run:
            return
        tools = [tool for each in run for tool in each.tools]
        if len(tools) > MOST_STAGES:
            self.tell(run[0].start, "kept a run: it has too many stages")
            return
        chain = " | ".join(tools)
        quote = '"' if "$" in chain else "'"
        words = [*run[0].prefix, "pnmpipe"] + ["--plain"] * run[-1].plain + [quote + chain + quote]
        # a tool opens its file once the shell has made the outputs
        for each in reversed(run):
            words += each.redirections
        if run[0].file is not None:
            words.append("< " + run[0].file)
        self.edits.append((run[0].start, run[-1].end, " ".join(words)))
        self.tell(run[0].start, "%d tool%s in one call" % (len(run), "" if len(run) == 1 else "s"))
        for each in run:
            for note in each.notes + (each.notes_if_first if each is run[0] else []):
                self.tell(each.start, note)

    def tell_of_others(self, end):
        """Names the tools that stand elsewhere than in calls and comments, before the end of what was read."""
        told = [*self.comments, *self.kept, *(edit[:2] for edit in self.edits)]
        for found in NAMED.finditer(self.text, 0, end):
            at = found.start()
            if any(start <= at < end for start, end in told):
                continue
            asides = [(end - start, why) for start, end, why in self.asides if start <= at < end]
            why = min(asides)[1] if asides else "it isn't surely a call"
            self.tell(at, f"kept {found[0]}: {why}")


def reason_to_keep_all(text, path):
    """Why a text, of a file with this path, is no script that is read here; None where it may be."""
    if "\r\n" in text:
        return "its lines end with CR LF, which no shell takes: make them end with LF, by `tr -d '\\r'` say"
    for end, what in OTHERS.items():
        if path.endswith(end):
            return f"it is {what}, not a script of the shell"
    interpreter = re.match(r"#! *(?:/usr/bin/env +)?(\S+)", text)
    name = interpreter.group(1).rsplit("/", 1)[-1] if interpreter else "sh"
    return None if name in ("sh", "ash", "bash", "dash", "ksh", "mksh") else f"it is a script of {name}"


def translated(text, path=""):
    """The text, of a file with this path, translated, and what is to be said of it: lines of the text with notes."""
    reading = Translation(text)
    try:
        reason = reason_to_keep_all(text, path)
        if reason:
            raise NoScript(reason)
        tree, end, fault = parsed(text)
        reading.define(tree)
        reading.read(tree)
        if fault:
            reading.tell(end, f"kept what follows: {fault}")
        reading.tell_of_others(end)
    except NoScript as why:
        return text, [(1, f"kept all: {why}")]
    except RecursionError:
        return text, [(1, "kept all: its commands stand too deep in one another")]
    return reading.rendered(0, len(text)), reading.said


def translated_words(pipeline):
    """The translation of a pipeline whose stages are lists of words, as a text of the shell."""
    reading = Translation(" | ".join(map(shlex.join, pipeline)))
    stages, at = [], 0
    for words in pipeline:
        end = at + len(shlex.join(words))
        stages.append(Stage(at, end, map(Word.of_text, words)))
        at = end + len(" | ")
    reading.pipeline_ended(stages)
    return reading.rendered(0, len(reading.text))


def in_pnmpipe(text):
    """The call of pnmpipe that does what Netpbm's tools do with these words; none where pnmpipe-translate has none."""
    try:
        made = translated_words([WORD.findall(stage) for stage in text.split("|")])
    except NoScript:
        return None
    words = [word for word in shlex.split(made) if word != "--plain"]
    if words[:1] != ["pnmpipe"] or len(words) not in (2, 4) or words[2:3] not in ([], ["<"]):
        return None
    if not all(map(is_file, words[3:])):
        return None
    try:
        read_chain(words[1])
        return made
    except ChainFault:
        return None


def remedy_of(text, fault):
    """What to do about the fault of a chain: the call, where Netpbm's tools take these words."""
    call = in_pnmpipe(text) if fault.stage else None
    return f"Write:\n{call}" if call else fault.remedy
