"""What pnm_flow_cases has to tell: of runs, what they answer and write over readers and writers that fail, and by
`judge_rings` what stages, lanes and chains send over rings."""

import re
from array import array

import judge_rings
from case_text import changes, numbers_in, text_of
from chain_text import read_chain
from slow_heads import named_tool
from slow_reader import answers, answers_to_all, tell_text
from slow_tools import stage
from slow_writer import Sink, Writer

# so many calls are never made
NEVER = 9_999

JOB = re.compile(r"([^(]*)\(([^)]*)\) ?(.*)", re.S)


class Lines:
    """Works out the lines of the program one after another."""

    def want(self, line):
        """What is told of a line."""
        word, _, rest = line.partition(" ")
        text = text_of(rest).decode("latin-1")
        if word in judge_rings.WORDS:
            return judge_rings.want(word, text)
        found = JOB.fullmatch(text)
        if not found:
            raise ValueError("no such word, or no chain")
        facts, chain, written = found.groups()
        run = Run([named_tool(tool) for tool in read_chain(chain)], written.encode("latin-1"))
        return want_of_runs(word, facts, run)


def want_of_runs(word, facts, run):
    """What runs answer and write."""
    if word in ("raw", "plain"):
        return run.told(word)
    if word == "cuts":
        return changes([Run(run.tools, run.text[:length]).told("raw") for length in range(len(run.text) + 1)])
    if word == "never":
        return run.told("raw", Writer(flushes=0))
    numbers = numbers_in(facts)
    if word == "room":
        return run.in_room(numbers[0])
    if word == "buffered":
        return changes([run.in_room(size) for size in range(numbers[0])])
    if word not in ("reads", "writes", "flushes"):
        raise ValueError("no such word")
    count, read_size, reads, write_size, writes, flushes = numbers
    told = []
    for later in range(count):
        calls = {"reads": reads, "writes": writes, "flushes": flushes}
        calls[word] += later
        calls = {name: None if number >= NEVER else number for name, number in calls.items()}
        writer = Writer(write_size, calls["writes"], calls["flushes"])
        told.append(run.told(facts.split()[0], writer, read_size, calls["reads"]))
    return changes(told)


def parted(given, flushes):
    """What was given, without the fault, and this; and how often the run flushes before a read."""
    return (given, None, flushes) if given[-1] == "StreamEnd" else (given[:-1], given[-1], flushes)


class Run:
    """A run of tools over a text."""

    def __init__(self, tools, text):
        self.tools, self.text = tools, text

    def said(self, size, failing):
        """What the source says of the text, a read giving so many bytes and the one after so many failing: its messages
        and its fault; and how often the run flushes before a read, where an image has ended since it did so."""
        come, count, ended, flushes = 0, 0, 0, 0
        given, is_read_on = answers_to_all(b"")
        while is_read_on:
            flushes += given.count("ImageEnd") > ended
            ended = given.count("ImageEnd")
            if count == failing:
                return given, "ReadFailed", flushes
            count += 1
            # a read that gives nothing finds the end
            known = answers_to_all(self.text[: come + size])
            given, is_read_on = known if come < len(self.text) else (answers(self.text), False)
            come += size
        return parted(given, flushes)

    def told(self, form, writer=None, size=None, failing=None):
        """What a run answers, and what it writes."""
        writer = writer or Writer()
        size = size or len(self.text) + 1
        is_whole = failing is None and writer.flushes is None
        given, fault, flushes = parted(answers(self.text), 0) if is_whole else self.said(size, failing)
        answer = f" input {fault}" if fault else ""
        messages = [array("H", it) if isinstance(it, list) else it for it in given] + (["Stop"] if fault else [])
        for number, tool in enumerate(self.tools, 1):
            end, messages, _ = stage(tool, messages)
            if end.startswith("Fault("):
                answer = answer or f" tool {number} {end[6:-1]}"
        sink = Sink(form, writer)
        faults = [it for it in map(sink.put, messages) if it]
        # the fault of the form, or of a write, comes before a flush that failed
        flushes = (sink.images if form == "plain" else flushes) + (not faults)
        if not faults and writer.flushes is not None and writer.flushes < flushes:
            faults = ["WriteFailed"]
        answer = answer or (f" output {faults[0]}" if faults else f" {sink.images} images {sink.rows} rows")
        return answer + tell_text(writer.written)

    def in_room(self, size):
        """The same over a writer that has room for so many bytes, and all of these."""
        writer = Writer(1, size)
        told = self.told("raw", writer)
        answer = told[: len(told) - len(tell_text(writer.written))]
        return answer + tell_text(writer.written.ljust(size, b"\0"))
