"""What the words of Netpbm's tools mean, and what pnmpipe has in their place."""

import re

from chain_text import option_parts
from shell_reader import Kept, Word
from tool_table import ALL_WAYS, EXTENT, LEAVING_PAM, OLD_NAMES, OPTIONS, TOOLS

# the stage for each name of a way to turn an image
WAYS = {name: [f"pamflip -{way}"] for name, way in ALL_WAYS.items()}

# pnmflip's own rules for its options, in their order
PNMFLIP = [("-lr|-le.*", "lr"), ("-tb|-to.*", "tb"), ("-x.*|-tr.*", "xy"), ("-r9.*|-rotate9.*|-cc.*", "r90")]
PNMFLIP += [("-r1.*|-rotate1.*", "r180"), ("-r2.*|-rotate2.*|-cw", "r270")]

# the notes, each of which is said once a script
STREAMS = "differs, {}: pnmpipe treats every image of a stream, and Netpbm's tool only the first"
STAYS_PAM = "differs, {}: a PAM image stays PAM, and Netpbm's tool makes PGM or PPM of it"
STAYS_BITS = "differs, pamdepth {}: PBM, and PAM of type BLACKANDWHITE, stay as they are; Netpbm's tool makes them gray"
PLAIN_LINES = "differs, -plain: the same samples, with other blanks and line ends than Netpbm's"
TYPES = "differs, pamchannel -tupletype: Netpbm's tool refuses a type that doesn't fit the planes or the maxval"
PLAIN_STREAMS = "differs, {}: of several plain images in one input pnmpipe takes the first; Netpbm's tool takes all"
LINE_END = "differs, an LF or other bytes after a raw image: pnmpipe ends with BadMagic; Netpbm's tools mostly don't"
NAMED = "differs, a file's name from a variable: if it begins with a dash, Netpbm takes an option or standard input"
ONE_NAME = "assumed: {} without quotes is one file's name, and no option"
ONE_NUMBER = "assumed: a variable or a sum that stands for a number holds one decimal number"
SIZES = "assumed: among pamcut's four numbers a width or height from a variable is above 0 (pnmpipe refuses others)"

# one less than the greatest number that pnmpipe takes, or a negative one counted from the end
MOST_NUMBER = EXTENT[1] - 1

# settings that may stand before a tool's name, since pnmpipe doesn't look at them; the options of nice(1); and the
# folders of a tool that is named by its path
SETTING = re.compile(r"(LC_[A-Z]+|LANG|LANGUAGE|TZ|TMPDIR)=")
ANY_SETTING = re.compile(r"[A-Za-z_]\w*\+?=")
NICE = re.compile(r"-n|-?-?[0-9]+|-n[0-9]+|--adjustment=-?[0-9]+")
FOLDER = re.compile(r"/(?:[\w.+-]+/)*bin")


class Call:
    """A call of one of Netpbm's tools, and what pnmpipe has in its place."""

    def __init__(self, stage, index):
        self.start, self.end = stage.start, stage.end
        self.redirections = stage.redirections
        # what stands before the tool's name: settings, `nice` and its number
        self.prefix = [word.raw for word in stage.words[:index]]
        self.tools = []
        # the file that is read, and the variable that may be an option in its place
        self.file = self.doubtful = None
        self.plain = False
        self.notes = []
        # notes that hold where it is the first of its call
        self.notes_if_first = []


def tool_of(word, anywhere=False):
    """The tool that a word names, by its own name or by a path of programs, or anywhere; None where it names none."""
    folder, _, name = (word.value or "").rpartition("/")
    if anywhere:
        name = re.split(r"[^\w.-]", "".join(word.parts))[-1]
    elif folder and not FOLDER.fullmatch(folder):
        return None
    return name if OLD_NAMES.get(name, name) in OPTIONS else None


def place_of(stage):
    """Which word of a stage is the tool's name; None where it calls none of these tools."""
    index, words = 0, stage.words
    while index < len(words) and ANY_SETTING.match(words[index].raw):
        index += 1
    settings = index
    while index < len(words) and words[index].raw in ("command", "exec", "nice"):
        is_nice = words[index].raw == "nice"
        index += 1
        while is_nice and index < len(words) and NICE.fullmatch(words[index].raw):
            index += 1
    if index < len(words) and tool_of(words[index]):
        for word in words[:settings]:
            if not SETTING.match(word.raw):
                raise Kept(f"{word.raw} stands before it")
        return index
    if index < len(words) and tool_of(words[index], True):
        raise Kept("another program may stand there")
    return None


def whole_name(tool, given):
    """The option that a name is or begins alone."""
    names = OPTIONS[tool][0] + OPTIONS[tool][1]
    found = [given] if given in names else [name for name in names if given and name.startswith(given)]
    if len(found) > 1:
        raise Kept(f"-{given} may be any of -{', -'.join(found)}")
    if not found:
        raise Kept(f"{tool} has no option -{given}" if given else "the word -- isn't translated")
    return found[0]


def number_of(call, word, what, least=None, most=MOST_NUMBER):
    """A decimal number as text, where pnmpipe takes it, and one less than it too; or a variable that holds one."""
    if word.parameter:
        call.notes.append(ONE_NUMBER)
        return word.parameter
    if not word.literal:
        raise Kept(f"{what} is {word.raw}, which is more than a variable")
    text = word.value
    is_number = re.fullmatch(r"-?[0-9]{1,8}", text)
    if not is_number or abs(int(text)) > most or (least is not None and int(text) < least):
        raise Kept(f"{what} isn't a number that pnmpipe takes")
    return str(int(text))


def option_of(tool, word):
    """The name of the option that a word is, and its value where one stands behind `=`; None for an argument."""
    found = re.match(r"--?([^='\"\\$`]*)(=?)", word.raw)
    if word.literal:
        text = word.value
        if not text.startswith("-") or text == "-" or (tool == "pamcut" and re.fullmatch(r"-[0-9]+", text)):
            return None
        name, sign, value = option_parts(text)
        return whole_name(tool, name), Word.of_text(value) if sign else None
    if not found:
        return None
    value = word.behind(found.group(0)) if found.group(2) else None
    if value is None:
        raise Kept(f"{word.raw} has a variable in its name")
    return whole_name(tool, found.group(1)), value


def options_of(tool, words):
    """The options of a tool, by their names, and its arguments."""
    options, arguments = {}, []
    values = OPTIONS[tool][0]
    left = list(words)
    while left:
        word = left.pop(0)
        found = option_of(tool, word)
        if found is None:
            arguments.append(word)
            continue
        name, value = found
        if name in options:
            raise Kept(f"-{name} is there twice")
        if name in values:
            if value is None and not left:
                raise Kept(f"-{name} lacks its value")
            options[name] = left.pop(0) if value is None else value
        elif value is not None:
            raise Kept(f"-{name} takes no value")
        else:
            options[name] = None
    return options, arguments


def axis_words(call, options, first, last, size):
    """The words of one axis of pamcut."""
    crop_first, crop_last = "crop" + first, "crop" + last
    given = [name for name in (first, last, size, crop_first, crop_last) if name in options]
    if len(given) > 2 or {first, crop_first} <= set(given) or {last, crop_last} <= set(given):
        raise Kept(f"pamcut can't take -{' and -'.join(given)} together")
    words = []
    for name in given:
        if name == crop_last and options[name].parameter:
            raise Kept(f"-{name} is a variable, and the -{last} of pnmpipe would be its negative less 1")
        number = number_of(call, options[name], f"-{name}", 1 if name == size else 0 if "crop" in name else None)
        if name == crop_last:
            number = str(-int(number) - 1)
        words.append(f"-{name.replace('crop', '')} {number}")
    return words


def four_numbers(call, arguments):
    """pamcut by its older form: the first column and row, and a size, or what is left out from the end."""
    left, top, width, height = [number_of(call, word, "an argument") for word in arguments[:4]]
    words = ["pamcut", f"-left {left}", f"-top {top}"]
    for size, last, text in (("width", "right", width), ("height", "bottom", height)):
        if text.startswith("$"):
            call.notes.append(SIZES)
            words.append(f"-{size} {text}")
        else:
            words.append(f"-{size} {text}" if int(text) > 0 else f"-{last} {int(text) - 1}")
    return [" ".join(words)], arguments[4:]


def cut(call, options, arguments):
    for name in ("pad", "verbose"):
        if name in options:
            raise Kept(f"pnmpipe's pamcut has no -{name}")
    if len(arguments) in (4, 5) and not options:
        return four_numbers(call, arguments)
    words = axis_words(call, options, "left", "right", "width") + axis_words(call, options, "top", "bottom", "height")
    return [" ".join(["pamcut", *words])], arguments


def numbers(call, tool, arguments):
    """A tool and its numbers, and what stands behind them."""
    form = TOOLS[tool]
    if len(arguments) < form.most:
        raise Kept(f"{tool} lacks a number")
    taken = arguments[: form.most]
    given = [number_of(call, word, "a number", form.argument[0], min(form.argument[1], MOST_NUMBER)) for word in taken]
    return [" ".join([tool, *given])], arguments[form.most :]


def depth(call, _, arguments):
    stages, arguments = numbers(call, "pamdepth", arguments)
    maxval = stages[0].partition(" ")[2]
    if maxval.startswith("$"):
        call.notes.append(STAYS_BITS.format("by a variable that holds 1"))
    elif maxval == "1":
        call.notes.append(STAYS_BITS.format(1))
    return stages, arguments


def channel(call, options, arguments):
    if not 1 <= len(arguments) <= 16:
        raise Kept("it is translated with 1 to 16 planes")
    words = ["pamchannel", *[number_of(call, word, "a plane", 0) for word in arguments]]
    if "tupletype" in options:
        value = options["tupletype"].value
        if value is None or not re.fullmatch(r"[A-Za-z0-9_=.,:+-]{0,255}", value):
            raise Kept("the tuple type has a blank, a quote or a variable")
        words.insert(1, f"-tupletype={value}")
        call.notes.append(TYPES)
    if call.plain:
        raise Kept("PAM has no plain form")
    return [" ".join(words)], [options["infile"]] if "infile" in options else []


def enlarge(call, options, arguments):
    if not options:
        return numbers(call, "pamenlarge", arguments)
    if "scale" in options:
        if len(options) > 1:
            raise Kept("-scale and another scale are both there")
        return [f"pamenlarge {number_of(call, options['scale'], '-scale', 1)}"], arguments
    named = [name for name in ("xscale", "yscale") if name in options]
    scales = [f"-{name} {number_of(call, options[name], '-' + name, 1)}" for name in named]
    return [" ".join(["pamenlarge", *scales])], arguments


def flip(_, options, arguments):
    if len(options) != 1:
        unknown = [word.raw for word in arguments if word.may_split or word.may_split_by_parameter]
        if unknown and not options:
            raise Kept(f"{unknown[0]} may be a way to flip")
        raise Kept("pamflip takes one way to flip")
    name = next(iter(options))
    if name == "xform":
        value = options[name].value
        way = "(leftright|topbottom|transpose)"
        if value is None or not re.fullmatch(f"{way}(,{way})*", value):
            raise Kept("-xform has something other than leftright, topbottom and transpose")
        return [stage for way in value.split(",") for stage in WAYS[way]], arguments
    if name not in WAYS:
        raise Kept(f"pnmpipe's pamflip has no -{name}")
    return WAYS[name], arguments


def old_flip(words):
    """pnmflip, which takes any number of ways, in turn."""
    stages, arguments = [], []
    for word in words:
        text = word.value
        if text is None or not text.startswith("-"):
            arguments.append(word)
            continue
        for pattern, way in PNMFLIP:
            if re.fullmatch(pattern, text):
                stages += WAYS[way]
                break
        else:
            raise Kept(f"pnmpipe has nothing for pnmflip's {text}")
    return stages or ["pamflip -null"], arguments


RULES = {"pamcut": cut, "pamdepth": depth, "pamchannel": channel, "pamenlarge": enlarge, "pamflip": flip}


def file_of(call, arguments):
    """The file that is read, by its word; None for standard input."""
    if not arguments:
        return None
    if len(arguments) > 1:
        unknown = [word.raw for word in arguments if word.may_split or word.may_split_by_parameter]
        raise Kept(f"{unknown[0]} may be an option" if unknown else "it has several files, or too many arguments")
    word = arguments[0]
    if word.value == "-":
        return None
    if word.may_split:
        raise Kept(f"{word.raw} may be several words: put it in double quotes")
    if word.may_split_by_parameter:
        call.doubtful = word.raw
        call.notes.append(ONE_NAME.format(word.raw))
    if not word.literal:
        call.notes.append(NAMED)
    return word.raw


def read_stage(stage, index):
    """Reads a stage as a call of the tool that a word of it names: what pnmpipe has in its place."""
    call = Call(stage, index)
    name = tool_of(stage.words[index])
    tool = OLD_NAMES.get(name, name)
    words = []
    for word in stage.words[index + 1 :]:
        if word.value in ("-quiet", "--quiet"):
            continue
        if word.value in ("-plain", "--plain"):
            call.plain = True
        elif word.value in ("-version", "--version", "-help", "--help", "-?"):
            raise Kept(f"it asks for {word.value}")
        else:
            words.append(word)
    if tool == "pnmflip":
        call.tools, arguments = old_flip(words)
    else:
        options, arguments = options_of(tool, words)
        rule = RULES.get(tool)
        call.tools, arguments = rule(call, options, arguments) if rule else numbers(call, tool, arguments)
    call.file = file_of(call, arguments)
    if call.file is not None and any(text.startswith(("<", "0<")) for text in call.redirections):
        raise Kept("it has a file and a redirection of standard input")
    if tool in ("pnminvert", "pamenlarge", "pamflip", "pnmflip", "pnmtile"):
        call.notes.append(STREAMS.format(tool))
    else:
        call.notes_if_first.append(PLAIN_STREAMS.format(tool))
    call.notes_if_first.append(LINE_END)
    if tool in LEAVING_PAM:
        call.notes.append(STAYS_PAM.format(tool))
    if call.plain:
        call.notes.append(PLAIN_LINES)
    return call
