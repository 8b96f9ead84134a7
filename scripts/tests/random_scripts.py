"""Scripts of the shell at random that call Netpbm's tools in every construct, and calls of a tool by random words: what
`test_translate.py` translates."""

import random

import tool_table
from tool_examples import untried
from tool_table import OLD_NAMES, OPTIONS

FILES = ["in.pgm", "in.ppm", "in.pbm"]

TOOLS = ["pnminvert", "pnminvert -quiet", "pamcut -left 1", "pamcut -l 1 -right -2", "pamcut -width 4 -top 1"]
TOOLS += ["pamcut 1 1 3 0", "pnmcut 0 0 -1 5", "pamdepth 100", "pnmdepth 7", "pamenlarge 2", "pamenlarge -xscale 2"]
TOOLS += ["pamflip -xy", "pamflip -r90", "pamflip -xform=leftright,transpose", "pnmflip -tb -lr", "pnmtile 9 8"]
TOOLS += ["pamcut -left $n", 'pamcut -top "$n" -width=${three}', "pamenlarge $((n + 1))", "pamcut $n 0 $three 4"]
TOOLS += ["LC_ALL=C pnminvert", "nice -n 1 pamflip -lr", "command pamcut -height 5", "pamcut -left 99"]
# (behind pamchannel, which makes PAM, some tools are kept)
TOOLS += untried([*TOOLS, "pamchannel"])


class Writer:
    """Writes statements; `bash` says whether it may use what the shell of POSIX lacks."""

    def __init__(self, seed, bash):
        self.random = random.Random(seed)
        self.bash = bash
        self.count = 0
        self.functions = []

    def one_of(self, choices):
        return self.random.choice(choices)

    def new(self, prefix):
        self.count += 1
        return f"{prefix}{self.count}"

    def file(self):
        return self.one_of([*FILES, '"$file"', "'in.pgm'", '"in.p"pm'])

    def bar(self):
        return self.one_of([" | ", " | ", "|", " |\n  ", " \\\n  | ", " | # pamcut | pnminvert\n  "])

    def tools(self, depth):
        """What reads standard input and writes standard output."""
        made = []
        for _ in range(self.random.randint(1, 3)):
            made.append(self.group(depth - 1) if depth > 0 and self.random.random() < 0.25 else self.one_of(TOOLS))
        return self.bar().join(made)

    def group(self, depth):
        """A compound command in a pipeline."""
        inner = self.tools(depth)
        return self.one_of(
            [
                "{ %s; }" % inner,
                "{\n%s\n}" % inner,
                "(%s)" % inner,
                "if true; then %s; else cat; fi" % inner,
                "while true; do %s; break; done" % inner,
                "for word in pnminvert; do %s; done" % inner,
                "case $n in 0) pnminvert ;; (1|2) %s ;; esac" % inner,
                "case pamcut in\n  pamcut) %s;;\nesac" % inner,
                "until false; do { %s; }; break; done" % inner,
            ]
        )

    def source(self, depth):
        """A pipeline that reads a file."""
        tools = self.tools(depth)
        first = self.one_of(["pamcut -left 1 {}", "pnminvert {}", "pnminvert < {}", "pamflip -quiet -lr {}", "cat {}"])
        if self.bash and self.random.random() < 0.2:
            first = "pamcut <(%s)" % first
        return first.format(self.file()) + self.bar() + tools

    def statement(self, depth):
        writers = [self.to_file, self.to_file, self.substituted, self.conditional, self.document, self.comment]
        if depth > 0:
            writers += [self.loop, self.branches, self.function, self.grouped, self.choice]
        if self.bash:
            writers.append(self.of_bash)
        return self.one_of(writers)(depth)

    def to_file(self, depth):
        name = self.new("out")
        return f"{self.source(depth)} > {name}; echo $?; cksum < {name}"

    def substituted(self, depth):
        ways = ['x="$({} | cksum)"; echo $? "$x"', "x=`{} | cksum`; echo $? $x", 'echo "$({} |\n cksum)"']
        return self.one_of(ways).format(self.source(min(depth, 1)).replace("`", ""))

    def conditional(self, depth):
        way = self.one_of(["if {0}; then echo pamcut; else echo no; fi", "{0} && echo yes || echo no", "! {0} || echo"])
        return way.format(f"{self.source(depth)} > {self.new('out')}")

    def document(self, _):
        word = self.one_of(["E", "'E'", "-E"])
        lines = f"pnminvert {self.file()} | pamflip -lr\n$n it's\n" + ("\tE" if word == "-E" else "E")
        ways = ["cat <<{0} | cksum\n{1}", "cat <<{0} |\n{1}\ncksum"]
        ways.append("pnminvert in.pgm|pamflip -lr > {2}; cat <<{0}\n{1}")
        ways.append("pnminvert in.pgm | cat - /dev/fd/3 3<<{0} |\n{1}\ncksum")
        return self.one_of(ways).format(word, lines, self.new("out"))

    def comment(self, depth):
        return f"# it's {self.one_of(TOOLS)} | {{\n{self.to_file(depth)} # pnminvert < in.pgm"

    def loop(self, depth):
        inner = self.statement(depth - 1)
        return self.one_of(
            [
                "for file in in.pgm in.ppm; do\n%s\ndone" % inner,
                "for file in *.pbm\ndo {\n%s\n} done | cksum" % inner,
                "count=0; while [ $count -lt 2 ]; do\n%s\ncount=$((count + 1)); done" % inner,
            ]
        )

    def branches(self, depth):
        inner, other = self.statement(depth - 1), self.statement(depth - 1)
        return f"case $file in\n*.pgm)\n{inner}\n;;\n*)\n{other}\n;;\nesac"

    def function(self, depth):
        name = self.new("f")
        return f"{name}() {{\n{self.statement(depth - 1)}\n}}\n{name}; {name} | cksum"

    def grouped(self, depth):
        inner = self.statement(depth - 1)
        ways = ["{\n%s\n} > group; cksum < group", "(\n%s\n) | cksum", "{ {\n%s\n}; } 2> /dev/null | wc -c"]
        return self.one_of(ways) % inner

    def choice(self, depth):
        inner = self.statement(depth - 1)
        return f"if [ $n -eq 1 ]; then\n{inner}\nelif pnminvert < in.pgm > {self.new('out')}; then echo\nfi"

    def of_bash(self, depth):
        source = self.source(depth)
        return self.one_of(
            [
                "cmp <(%s) in.pgm > /dev/null; echo $?",
                "cksum < <(%s)",
                "(( n << 1 )); [[ a < b ]] && {\n%s\n} | cksum",
                "function g {\n%s\n}; g | cksum",
                "cat <<< 'pnminvert |' | cksum; %s | cksum",
            ]
        ) % source


# how many arguments each tool is called with; numbers, more of them small; and values of options
ARGUMENTS = {name: (most - 1, most, most, most + 1) for name, (_, most, *_) in tool_table.TOOLS.items() if most}
ARGUMENTS |= {"pamcut": (0, 1, 4, 5), "pamchannel": (0, 1, 3)}
NUMBERS = "0 1 01 009 -1 -0 +1 1x - 255 65535 65536 16777215 16777216 -16777215 -16777216 123456789".split()
NUMBERS += ["", *map(str, [*range(1, 17)] * 3)]
VALUES = {"infile": ["in.pgm", "-", "none"], "tupletype": ["RGB", "", "a b", "-1"]}
VALUES |= {"xform": ["leftright", "topbottom,transpose", "left", "transpose,", ""]}
# of pnmflip, which has its own rules, and of all tools
OLD_WAYS = "lr left tb to xy tr r90 rotate9 ccw cw r180 r270 rotate2 r l null".split()
COMMON = ["quiet", "plain", "version"]


def random_option(numbers, tool):
    """The words of an option, most of which are as they should be."""
    values, flags = OPTIONS[tool]
    names = [*values, *flags, *(OLD_WAYS if tool == "pnmflip" else []), numbers.choice(COMMON)]
    name = numbers.choice(names)
    mark = numbers.choice(["-", "-", "--"])
    given = name[: numbers.randint(1, len(name))] if numbers.random() < 0.3 else name
    value = numbers.choice(VALUES.get(name, NUMBERS))
    if name not in values:
        return [mark + given + numbers.choice([""] * 19 + ["=1"])]
    return numbers.choice([[mark + given, value], [mark + given, value], [f"{mark}{given}={value}"], [mark + given]])


def random_call(numbers, tool):
    """The words of a call of a tool, most of which are as they should be, with a file or without."""
    name = OLD_NAMES.get(tool, tool)
    parts = [random_option(numbers, name) for _ in range(numbers.choice([0, 0, 1, 1, 1, 2]))]
    parts += [[numbers.choice(NUMBERS)] for _ in range(numbers.choice(ARGUMENTS.get(name, [0, 0, 1])))]
    if numbers.random() < 0.5:
        numbers.shuffle(parts)
    parts += numbers.choice([[], [], [["in.pgm"]], [["-"]]])
    return [tool, *(word for part in parts for word in part)]


def random_script(seed, bash):
    """A script and what it stands on: the variables and files that its statements name."""
    writer = Writer(seed, bash)
    lines = ["n=1 three=3 file=in.pgm"]
    lines += [writer.statement(2) for _ in range(3)]
    return "\n".join(lines) + "\n"
