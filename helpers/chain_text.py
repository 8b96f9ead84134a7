"""The text of a chain: which tools it names, or what is wrong with it, where, and what would be right; and why a tool
refuses an image. `pnmpipe-explain` uses it."""

import difflib
import importlib.machinery
import importlib.util
import os
import re
import shlex
import typing

from slow_heads import named_tool, result_head, span
from slow_reader import Fault
from tool_table import TOOLS, TYPE

MOST_BYTES, MOST_STAGES, MOST_TYPE = 4_096, 64, 255
BLANKS = " \t\r\n"
WORD = re.compile(r"[^ \t\r\n]+")

AXES = [("left", "right", "width"), ("top", "bottom", "height")]


# what stands in place of options that Netpbm's tools take and pnmpipe doesn't
ELSEWHERE = {
    "plain": "Leave it out here, and ask pnmpipe for plain output:\npnmpipe --plain '..'",
    "quiet": "Leave it out: the tools print nothing but faults.",
    "verbose": "Leave it out: the tools print nothing but faults.",
    "pad": "pnmpipe pads nothing; Netpbm's own pamcut does.",
    "memsize": "Leave it out.",
    "pagesize": "Leave it out.",
    "infile": "Use < for a file:\npnmpipe '..' < FILE",
}

FACTOR = "Write a factor, as in pamenlarge 2, or -xscale N, -yscale N or both."
MISSING = {
    "pamdepth": ("pamdepth lacks its maxval.", "Write the new maxval, as in pamdepth 255."),
    "pamchannel": ("pamchannel lacks its planes.", "Write which samples of each pixel to keep, as in pamchannel 0."),
    "pamenlarge": ("pamenlarge lacks its factor.", FACTOR),
    "pamflip": ("pamflip lacks its way to flip.", "Write one of -" + ", -".join(TOOLS["pamflip"].options) + "."),
    "pnmtile": ("pnmtile lacks its width or its height.", "Write both, as in pnmtile 640 480."),
}


class Word(typing.NamedTuple):
    """A word of a chain, and where it stands in the chain's text."""

    text: str
    start: int
    end: int


class ChainFault(Exception):
    """What is wrong with a chain: the fault's name, the words that are at fault, what they are, and what to do."""

    def __init__(self, name, words, what, remedy):
        super().__init__(name)
        self.words, self.what, self.remedy = words, what, remedy
        # the stage's number, 0 where the whole text is at fault, and where it stands in the text
        self.stage, self.start, self.end = 0, 0, 0


class ToolFault(Exception):
    """Why a tool refuses an image: the fault's name, what doesn't fit, and what to do."""

    def __init__(self, name, what, remedy):
        super().__init__(name)
        self.what, self.remedy = what, remedy


class Tool:
    """A stage of a chain: the tool's name, its text, its options' values and its arguments."""

    def __init__(self, words):
        self.name, self.text = words[0].text, " ".join(word.text for word in words)
        self.options, self.arguments = {}, []


def listed(items, last="and"):
    """Words with commas between, and with `and`."""
    items = list(items)
    return f" {last} ".join([*([", ".join(items[:-1])] if items[1:] else []), *items[-1:]])


def read_chain(text):
    """The tools that a chain's text names."""
    size = len(text.encode("utf-8", "surrogateescape"))
    if size > MOST_BYTES:
        what = f"The chain has {size:,} bytes; at most {MOST_BYTES:,} are allowed."
        raise ChainFault("TooLong", [], what, "Split it into two calls, with a pipe of the shell between them.")
    if not text.strip(BLANKS):
        raise ChainFault("Empty", [], "The chain names no tool.", f"Name one: {listed(TOOLS, 'or')}.")
    parts = text.split("|")
    if len(parts) > MOST_STAGES:
        what = f"The chain has {len(parts):,} stages; at most {MOST_STAGES} are allowed."
        raise ChainFault("TooMany", [], what, "Split it into two calls, with a pipe of the shell between them.")
    tools, start = [], 0
    for number, part in enumerate(parts, 1):
        words = [Word(found[0], start + found.start(), start + found.end()) for found in WORD.finditer(part)]
        try:
            tools.append(read_stage(words))
        except ChainFault as fault:
            fault.stage, fault.start, fault.end = number, start, start + len(part)
            raise
        start += len(part) + 1
    return tools


def read_stage(words):
    """The tool that a stage names."""
    if not words:
        what = "A stage is empty: no word stands between two bars, before the first one or after the last one."
        raise ChainFault("EmptyStage", [], what, "Remove a bar, or name a tool there.")
    if words[0].text not in TOOLS:
        raise unknown_tool(words)
    tool, left = Tool(words), words[1:]
    while left:
        word = left.pop(0)
        if word.text.startswith("-"):
            take_option(tool, word, left)
        else:
            take_argument(tool, word, left)
    finish(tool, words)
    return tool


def is_file(text):
    """Whether a word seems to name a file."""
    return re.search(r"^[^<>'\"].*[./]|^[./]|^-$", text) is not None or os.path.exists(text)


def outside(text, following):
    """What to do about a redirection of the shell inside of quotes: a word, and the words that follow it."""
    file = text.lstrip("<>") or (following[0] if following else "FILE")
    return f"Put it after the chain, outside of the quotes:\npnmpipe '..' {text[0]} {shlex.quote(file)}"


def loaded(name):
    """The program of this name that stands beside this module, as a module."""
    path = os.path.join(os.path.dirname(os.path.realpath(__file__)), name)
    loader = importlib.machinery.SourceFileLoader(name.replace("-", "_"), path)
    module = importlib.util.module_from_spec(importlib.util.spec_from_loader(loader.name, loader))
    loader.exec_module(module)
    return module


def nearest(text, names, mark=""):
    """A question for the name that is most like a text, if one is."""
    found = difflib.get_close_matches(text.lower(), names, 1, 0.75)
    return f"Is {mark}{found[0]} meant? " if found else ""


def unknown_tool(words):
    """The fault of a stage whose first word is no tool."""
    name = words[0].text
    remedy = f"{nearest(name, TOOLS)}The tools are {listed(TOOLS)}; case matters."
    if re.fullmatch(r"p[abgnp]m\w+|\w+to(p[abgnp]m|pnm)", name) and not nearest(name, TOOLS):
        remedy = f"Run a tool that pnmpipe lacks before or after it, in a pipe of the shell. {remedy}"
    if re.match(r"['\"]", name):
        remedy = "Leave the inner quotes out: one pair goes around the whole chain."
    if name[0] in "<>":
        remedy = outside(name, [it.text for it in words[1:]])
    return ChainFault("UnknownTool", words[:1], f"pnmpipe has no tool {name}.", remedy)


def option_parts(text):
    """The name of an option, then `=` and its value, both of which may be empty."""
    return re.fullmatch(r"--?([^=]*)(=?)(.*)", text, re.S).groups()


def take_option(tool, word, left):
    """Takes an option and, where the next word is its value, that."""
    name, equals, text = option_parts(word.text)
    options = TOOLS[tool.name].options
    if name not in options:
        raise unknown_option(tool, word, name)
    wanted = options[name]
    key = name if wanted else "way"
    if key in tool.options:
        what, remedy = f"-{name} is given twice.", "Leave one out."
        if not wanted:
            what = "pamflip takes one way to flip, and this is a second one."
            remedy = "Leave one out, or make a stage of each, as in pamflip -lr | pamflip -tb."
        raise ChainFault("Conflict", [word], what, remedy)
    if not wanted:
        if equals:
            raise ChainFault("BadValue", [word], f"-{name} takes no value.", f"Write -{name} alone.")
        tool.options[key] = name
        return
    if not equals and not left:
        what = f"-{name} lacks its value: it is the stage's last word."
        raise ChainFault("MissingValue", [word], what, f"Write {kind_of(wanted)} after it.")
    value = Word(text, word.start, word.end) if equals else left.pop(0)
    tool.options[name] = value_of(value, wanted, f"-{name}")


def unknown_option(tool, word, name):
    """The fault of an option that the tool doesn't have."""
    options = TOOLS[tool.name].options
    has = f"it has {listed('-' + it for it in options)}" if options else "it takes no option"
    begun = [it for it in options if name and it.startswith(name)]
    if re.fullmatch(r"-[0-9]+", word.text):
        remedy = "Only -left, -right, -top and -bottom of pamcut take a negative number."
    elif name in ELSEWHERE:
        remedy = ELSEWHERE[name]
    elif len(begun) > 1:
        remedy = f"Write the option in full: {listed(('-' + it for it in begun), 'or')}."
    elif options:
        remedy = nearest(name, options, "-") + "Write options in full; case matters."
    else:
        remedy = "Leave it out."
    return ChainFault("UnknownOption", [word], f"{tool.name} has no option {word.text}; {has}.", remedy)


def take_argument(tool, word, left):
    """Takes an argument, which so many words follow."""
    form = TOOLS[tool.name]
    if len(tool.arguments) < form.most:
        tool.arguments.append(value_of(word, form.argument, tool.name))
        return
    takes = f"at most {form.most} argument{'s' * (form.most > 1)}" if form.most else "no arguments"
    remedy = "Leave it out."
    # (inside of the chain quotes mean nothing)
    text = word.text.strip("'\"")
    if text in form.options:
        remedy = f"Is -{text} meant? An option's name begins with a dash."
    elif tool.name == "pamenlarge" and word.text.isdecimal():
        scales = f"-xscale {tool.arguments[0]} -yscale {word.text}"
        remedy = f"One factor holds for both ways; for two of them write:\npnmpipe 'pamenlarge {scales}'"
    elif text[:1] in ("<", ">"):
        remedy = outside(text, [it.text for it in left])
    elif is_file(text):
        remedy = f"Leave it out. Use < for a file:\npnmpipe '..' < {shlex.quote(text)}"
    what = f"{tool.name} takes {takes}, so {word.text} is one too many."
    raise ChainFault("ExtraArgument", [word], what, remedy)


def kind_of(wanted):
    """What a value has to be."""
    if wanted == TYPE:
        return f"a text of at most {MOST_TYPE} bytes"
    return f"a decimal number from {wanted[0]:,} to {wanted[1]:,}"


def value_of(word, wanted, whose):
    """The value that a word is."""
    if wanted == TYPE:
        size = len(word.text.encode("utf-8", "surrogateescape"))
        if size > MOST_TYPE:
            raise ChainFault("BadValue", [word], f"The text has {size} bytes.", f"{whose} takes {kind_of(wanted)}.")
        return word.text
    is_number = re.fullmatch("-?[0-9]+" if wanted[0] < 0 else "[0-9]+", word.text)
    if is_number and wanted[0] <= int(word.text) <= wanted[1]:
        return int(word.text)
    isnt = "out of range" if is_number else "not a decimal number"
    what = f"{whose} takes {kind_of(wanted)}, and {word.text or 'an empty word'} is {isnt}."
    raise ChainFault("BadValue", [word], what, "Write a number in this range.")


def finish(tool, words):
    """What is wrong with a stage once all its words were taken."""
    for axis in AXES:
        if set(axis) <= set(tool.options):
            names = [f"-{name}" for name in axis]
            marked = [word for word in words if re.split("=", word.text.lstrip("-"))[0] in axis]
            what = f"{listed(names)} can't be given together: any two of them determine the third."
            raise ChainFault("Conflict", marked, what, "Leave one of them out.")
    if tool.name == "pamenlarge" and tool.arguments and tool.options:
        what = "pamenlarge takes a factor for both ways, or -xscale and -yscale, and not both."
        raise ChainFault("Conflict", words[1:], what, FACTOR)
    is_there = bool(tool.options) if tool.name == "pamflip" else len(tool.arguments) >= TOOLS[tool.name].least
    if tool.name == "pamenlarge":
        is_there = bool(tool.arguments or tool.options)
    if not is_there:
        if tool.name in MISSING:
            raise ChainFault("MissingArgument", words, *MISSING[tool.name])
        remedy = f"It takes {kind_of(TOOLS[tool.name].argument)}."
        raise ChainFault("MissingArgument", words, f"{tool.name} lacks an argument.", remedy)


# --- why tools refuse images


def cut_outside(stage, head):
    """What a cut keeps that the image doesn't have."""
    for axis, length, unit in zip(AXES, head[1:3], ("column", "row")):
        first, last = span(length, *map(stage.options.get, axis))
        if 0 <= first <= last < length:
            continue
        given = listed(f"-{name} {stage.options[name]}" for name in axis if name in stage.options)
        if not 0 <= first < length:
            asks = f"begins at {unit} {first:,}"
        elif last >= length:
            asks = f"ends at {unit} {last:,}"
        else:
            asks = f"ends at {unit} {last:,}, and begins behind it at {unit} {first:,}"
        return f"It has {length:,} {unit}{'s' * (length > 1)}, numbered from 0, and what {given} keeps {asks}."


def head_of_result(stage, head):
    """The head of what a tool makes of an image."""
    try:
        return result_head(named_tool(stage), head)
    except Fault as fault:
        name, size = str(fault), fault.what
    if name == "CutOutside":
        remedy = "Ask for what every image of the stream has, or leave this one out."
        raise ToolFault(name, cut_outside(stage, head), remedy)
    if name == "ChannelOutside":
        depth, beyond = head[3], next(plane for plane in stage.arguments if plane >= head[3])
        what = f"It has {depth} plane{'s' * (depth > 1)}, numbered from 0, so there is no plane {beyond}."
        raise ToolFault(name, what, "Ask for planes that every image of the stream has.")
    width, height, depth = (size[it] for it in ("width", "height", "depth"))
    made = f"{width:,} columns, {height:,} rows and {depth} plane{'s' * (depth > 1)}"
    most = "an image has at most 16,777,216 columns, as many rows, and as many samples a row (columns times planes)"
    raise ToolFault(name, f"The result would have {made}; {most}.", "Ask for a smaller result.")
