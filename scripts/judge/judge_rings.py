"""What pnm_flow_cases has to tell of threads at rings whose messages are there before they begin: a stage, the dealing
to lanes, the gathering from them, and a chain over lanes. What lies in a ring together is passed on one by one, or
together, as the tool likes."""

import re
from copy import copy

from case_text import Apart, OneOf, Together, handed_in, is_head, is_row, one_by_one
from chain_text import read_chain
from slow_heads import named_tool
from slow_reader import MOST, tell
from slow_tools import Place, keeps_images, stage

WORDS = ("stage", "deal", "gather", "chain", "heights")

# how many places a ring has
PLACES = 8

ENDS = ("StreamEnd", "Stop")

STAGE = re.compile(r"(\d+) (?:(\w+) )?\(([^)]*)\) ?(.*)", re.S)


def want(word, text):
    """What is told of a line."""
    if word == "heights":
        lanes, height = map(int, text.split())
        return "".join(f" {dealt_height(height, lane, lanes)}" for lane in range(lanes))
    if word in ("stage", "chain"):
        found = STAGE.fullmatch(text)
        if not found:
            raise ValueError("no tool in parentheses")
        number, gone, chain, takes = found.groups()
        tools = [named_tool(tool) for tool in read_chain(chain)]
        handed = handed_in(takes)
        if len(handed) > PLACES:
            return " no case"
        if word == "chain":
            return want_of_chain(tools, handed)
        return want_of_stage(tools[0], handed, int(number), gone)
    number, gone, *takes = text.split(" ", 2)
    if word == "deal":
        handed = handed_in(takes[0] if takes else "")
        return " no case" if len(handed) > PLACES else want_of_deal(handed, int(number), gone)
    if word == "gather":
        lanes = [handed_in(lane) for lane in (takes[0].split("|") if takes else [])]
        return want_of_gather(lanes, int(number), gone)
    raise ValueError("no such word")


def told_after(word, messages):
    return f" {word}{tell(messages)}" if messages else ""


# --- stages


def want_of_stage(tool, handed, room, gone):
    """How a stage ends, what it leaves of what came, and what it sends."""
    messages = one_by_one(handed)
    end, sent, taken = stage(tool, messages)
    left = told_after("left", messages[taken:])
    if gone != "output":
        return may_go_together(handed, f" {end}{left}{told_after('sent', sent)}")
    # that nobody takes it is seen where no place is left, and rows that came together may take one place
    if len(sent) <= room:
        return f" {end}{left}"
    least = least_places(tool, handed, sent)
    is_open = any(isinstance(it, Together) for it in handed) and least <= room
    return OneOf((f" {end}{left}", " PeerGone")) if is_open else " PeerGone"


def least_places(tool, handed, sent):
    """How few places of a ring may take what is sent: one for all rows; none for an end that comes with rows, or is
    given with the last ones that the tool has kept; and none for rows where their head came with rows."""
    groups = [it for it in handed if isinstance(it, Together)]
    heads_join = any(is_head(it[0]) for it in groups)
    ends_join = keeps_images(tool) or any(it[-1] == "ImageEnd" for it in groups)
    alone = [it for it in sent if not is_row(it) and not (ends_join and it == "ImageEnd")]
    return len(alone) + (not heads_join and len(alone) < len(sent))


def may_go_together(handed, told):
    """What is told, where messages that came together may go on so."""
    return Apart(told) if any(isinstance(it, Together) for it in handed) else told


def want_of_chain(tools, handed):
    """How each tool of a chain ends, over however many lanes, and what the last one sends."""
    messages, told, left = one_by_one(handed), "", ""
    for number, tool in enumerate(tools):
        end, sent, taken = stage(tool, messages)
        left = left if number else told_after("left", messages[taken:])
        told, messages = f"{told} {end}", sent
    return may_go_together(handed, f"{told}{left}{told_after('sent', messages)}")


# --- lanes


def dealt_height(height, lane, lanes):
    """How many of so many rows a lane gets, row y going to lane y mod the number of lanes."""
    return len(range(lane, height, lanes))


def with_height(head, height):
    return (*head[:2], height, *head[3:])


def want_of_deal(handed, lanes, gone):
    """How the dealing ends, what it leaves of what came, and what each lane is sent that is there."""
    sent, place, end = [[] for _ in range(lanes)], Place(), "PeerGone"
    missed = int(gone) if gone.isdigit() else None
    messages, taken = one_by_one(handed), 0
    for part in parts_that_come(handed, place):
        taken += len(part)
        if not place.accepts(part[0]):
            end = "Fault(OutOfOrder)"
            break
        deal(part, place, sent)
        # the ring of the lane that is gone has one place
        if missed is not None and len(sent[missed]) > 1:
            break
        if part[-1] in ENDS:
            end = "Well" if part[-1] == "StreamEnd" else "Broken"
            break
    for lane in sent:
        if not lane or lane[-1][-1] not in ENDS:
            lane.append(["Stop"])
    if end.startswith("Fault") or missed is not None:
        ends = [at for at, it in enumerate(messages) if it in ENDS]
        taken = ends[0] + 1 if ends else len(messages)
    told = "".join(f" |{''.join(map(tell_part, it))}" for lane, it in enumerate(sent) if lane != missed)
    return f" {end}{told_after('left', messages[taken:])}{told}"


def parts_that_come(handed, place):
    """What is dealt at once: what is handed over together, if all of it may come at the place, which the caller moves;
    or else its messages one by one."""
    for it in handed:
        part = it if isinstance(it, Together) else [it]
        after = copy(place)
        may_come = all(after.accepts(message) and not after.step(message) for message in part)
        yield from [part] if may_come else ([message] for message in part)


def deal(part, place, sent):
    """Sends each lane its messages of a part together, and moves the place past these."""
    its = [[] for _ in sent]
    for message in part:
        for lane in [place.row % len(sent)] if is_row(message) else range(len(sent)):
            is_cut = is_head(message)
            its[lane].append(with_height(message, dealt_height(message[2], lane, len(sent))) if is_cut else message)
        place.step(message)
    for lane, messages in enumerate(its):
        if messages:
            sent[lane].append(messages)


def tell_part(messages):
    """A message, or several with the braces around them."""
    return f" {{{tell(messages)} }}" if len(messages) > 1 else tell(messages)


class Over(Exception):
    """The gathering is over by this end."""


def want_of_gather(lanes, room, gone):
    """How the gathering ends, and what it sends; each lane is drained. Rows that came together in a lane may go on
    together, with those of other lanes, their head and their end."""
    given, sent = [one_by_one(lane) for lane in lanes], []
    handed = [it for lane in lanes for it in lane]
    try:
        gather([list(lane) for lane in given], sent)
    except Over as over:
        end = str(over)
    # the lanes are drained through their ends, but at the end of the stream
    if end != "Well" and not all(any(it in ENDS for it in lane) for lane in given):
        end = "PeerGone"
    if gone != "output":
        return may_go_together(handed, f" {end}{told_after('sent', sent)}")
    if len(sent) <= room:
        return f" {end}"
    # an image takes one place at least, and so does the end
    least = sum(is_head(it) or it in ENDS for it in sent)
    is_open = any(isinstance(it, Together) for it in handed) and least <= room
    return OneOf((f" {end}", " PeerGone")) if is_open else " PeerGone"


def gather(lanes, sent):
    """Sends what lanes give, row y from lane y mod their number, and everything else once all of them agree."""
    place = Place()

    def send(message, end=None):
        sent.append(message)
        if end:
            raise Over(end)
        place.step(message)

    def take(lane):
        message = lanes[lane].pop(0) if lanes[lane] else None
        if message is None:
            send("Stop", "PeerGone")
        if message == "Stop":
            send("Stop", "Broken")
        return message

    while True:
        if place.head and place.row < place.head[2]:
            message = take(place.row % len(lanes))
        else:
            message = agreed([take(lane) for lane in range(len(lanes))])
        if message is None or not place.accepts(message):
            send("Stop", "Fault(OutOfOrder)")
        send(message, "Well" if message == "StreamEnd" else None)


def agreed(given):
    """The message that lanes give together: an end that is the same of each, or the head of their rows; else none."""
    if not all(map(is_head, given)):
        return given[0] if all(it == given[0] for it in given) and not is_row(given[0]) else None
    height = sum(head[2] for head in given)
    head = with_height(given[0], height)
    is_dealt = all(it == with_height(head, dealt_height(height, lane, len(given))) for lane, it in enumerate(given))
    return head if is_dealt and height <= MOST else None
