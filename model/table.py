"""What check.py checks: for each line a model, the definitions that it is made with, how it is searched and what has to
come of it.

how: deadlock: no state in which a thread sleeps for ever, and no assertion is violated;
     cycles: no cycle at all in what the threads may do, so that each run ends.

A big line is left out of `make model`; a long one has more than some 4,000,000 states.

A line of an edit takes a wake-up, or what stands for it, out of the model: it has to fail. Its `edit` says the same
edit of the program, and `caught` which test of the repository fails for that, or that the model alone finds it.
"""

from typing import NamedTuple


class Line(NamedTuple):
    model: str
    words: str
    how: str
    wanted: str
    name: str
    is_big: bool = False
    is_long: bool = False
    edit: str = ""
    caught: str = ""


TABLE = []


def holds(model, words, name, how="deadlock", is_big=False, is_long=False):
    TABLE.append(Line(model, words, how, "holds", name, is_big or is_long, is_long))


def edit(model, words, name, program, caught="model alone", wanted="fails", is_big=False):
    TABLE.append(Line(model, words, "deadlock", wanted, f"edit: {name}", is_big, False, program, caught))


# ---- two ends of a ring, for streams of any length -------------------------------------------------------------------

ENDED = "two ends: the neighbour ends each sleep"
for size in ("CAP=1", "CAP=2", "CAP=3 KEPT=1"):
    holds("ends.pml", size, ENDED)
for size in ("CAP=3", "CAP=4", "CAP=4 KEPT=2", "CAP=8"):
    holds("ends.pml", size, ENDED, is_big=True)
holds("ends.pml", "CAP=1 MOST=6", "two ends: each run ends", "cycles")
for size in ("CAP=2 MOST=6", "CAP=3 MOST=7", "CAP=3 KEPT=1 MOST=7", "CAP=4 KEPT=2 MOST=6"):
    holds("ends.pml", size, "two ends: each run ends", "cycles", is_big=True)
holds("ends.pml", "CAP=1 FUTEX", "two ends: the parker step by step over a futex")
for size in ("CAP=2 FUTEX", "CAP=3 KEPT=1 FUTEX"):
    holds("ends.pml", size, "two ends: the parker step by step over a futex", is_big=True)
holds("ends_tso.pml", "CAP=1", "two ends: store buffers")
for size in ("CAP=2", "CAP=3", "CAP=2 PLAIN_TAIL PLAIN_HEAD"):
    holds("ends_tso.pml", size, "two ends: store buffers", is_big=True)

edit("ends_tso.pml", "CAP=1 PLAIN_EMPTY", "a sleep ends by a plain store",
     "std, Parker::park_timeout: the last store of EMPTY is Release")
edit("ends.pml", "CAP=1 M_NO_TOKEN", "a wake before the sleep is lost",
     "std, Parker::unpark: a compare_exchange of PARKED in place of the swap")
edit("ends.pml", "CAP=1 M_NO_WAKE_BY_SENDER", "no wake by the sending end",
     "sender.rt, Sender::wake_receiver: without self.waker.wake_receiver()")
edit("ends.pml", "CAP=1 M_NO_WAKE_AT_PUSH", "no wake after a message",
     "sender.rt, Sender::send_reserved: without self.wake_receiver()",
     caught="scripts/waits.py, most runs")
edit("ends.pml", "CAP=1 M_WAKE_BEFORE_TAIL", "the wake before the message is there",
     "sender.rt, Sender::send_reserved: self.waker.wake_receiver() before push_reserved, and none after it",
     is_big=True)
edit("ends.pml", "CAP=1 M_HOLDS_END", "the end of the stream is held back",
     "sender.rt, bytes_of: Some(0) for StreamEnd and Stop")
edit("ends.pml", "CAP=1 M_NO_WAKE_AT_POP", "no wake after a message was taken",
     "receiver.rt, Receiver::receive_known: without self.waker.wake_sender()")
edit("ends.pml", "CAP=2 M_NO_WAKE_AT_NONE_LEFT", "no wake where none is left",
     "receiver.rt, Receiver::receive_known: left > 0 && left == self.half")
edit("ends.pml", "CAP=4 KEPT=2 M_NO_WAKE_AT_LAST", "a wake where half is left alone, beside wide rows",
     "receiver.rt, Receiver::receive_known: left == self.half",
     caught="pnm_flow_tests, wakes_where_none_is_left")
edit("ends.pml", "CAP=4 M_NO_WAKE_AT_LAST", "the same without wide rows: it costs time, and no more",
     "receiver.rt, Receiver::receive_known: left == self.half", wanted="holds", is_big=True)
edit("ends.pml", "CAP=4 KEPT=2 M_NO_WAKE_AT_HALF", "a wake where none is left alone: it costs time, and no more",
     "receiver.rt, Receiver::receive_known: left == 0", wanted="holds", is_big=True)
edit("ends.pml", "CAP=1 M_WAKE_BEFORE_HEAD", "the wake before the place is free",
     "receiver.rt, Receiver::receive_known: the wake before pop_known")
edit("ends.pml", "CAP=2 M_NO_WAKE_BEFORE_ROOM", "no wake before the wait for room",
     "sender.rt, Sender::wait: without self.wake_receiver()")
edit("ends.pml", "CAP=2 M_NO_WAKE_BEFORE_OTHERS", "no wake before a wait for something else",
     "whoever holds back by Sender::coalesce_wakes and waits for anything else: without wake_receiver()")
edit("ends.pml", "CAP=1 M_NO_WAKE_AT_SENDER_DROP", "the sending end goes and wakes nobody",
     "wakers.rt, drop of SenderWaker: without self.wake_receiver()")
edit("ends.pml", "CAP=1 M_NO_WAKE_AT_RECEIVER_DROP", "the receiving end goes and wakes nobody",
     "wakers.rt, drop of ReceiverWaker: without self.wake_sender()")
edit("ends.pml", "CAP=1 M_WAKE_BEFORE_GONE", "an end wakes before it is gone",
     "sender.rt, receiver.rt: the field waker before the field ring", is_big=True)
edit("ends.pml", "CAP=1 M_NO_LOOK_AFTER_GONE", "no second look after the end was seen dropped",
     "receiver.rt, Receiver::wait_for_message: return false where the end was dropped")

# ---- the caller and its tools ----------------------------------------------------------------------------------------

CALLER = "a run: another thread ends each sleep"
SMALL = "TOOLS=1 CAP=1 COARSE"
TWO = "TOOLS=2 CAP=1 COARSE HOLDS=0"
holds("io_loop.pml", SMALL, CALLER)
holds("io_loop.pml", f"{SMALL} MOST=2 MOST_IMAGES=1", "a run: it ends", "cycles", is_big=True)
holds("io_loop.pml", "TOOLS=1 CAP=1 MOST_IMAGES=1", f"{CALLER}, step by step", is_big=True)
for size in ("TOOLS=1 CAP=2 COARSE MOST_IMAGES=1", "TOOLS=1 CAP=3 COARSE HOLDS=0 KEPT=1 MOST_IMAGES=0"):
    holds("io_loop.pml", size, CALLER, is_big=True)
holds("io_loop.pml", f"{SMALL} BLOCKS SLOW", f"{CALLER}; rows in blocks, a slow source", is_big=True)
holds("io_loop.pml", "TOOLS=1 CAP=2 COARSE BLOCKS SLOW MOST_IMAGES=0 MOST_ANSWERS=1",
      f"{CALLER}; rows in blocks, a slow source", is_big=True)
holds("io_loop.pml", f"{SMALL} SLOW MOST_IMAGES=1 MOST_ANSWERS=1", f"{CALLER}; a slow source")
holds("io_loop.pml", f"{SMALL} BLOCKS MOST_IMAGES=0 MOST_ANSWERS=1", f"{CALLER}; rows in blocks", is_big=True)
for size in ("MOST_IMAGES=0 MOST_ANSWERS=2", "MOST_IMAGES=1 MOST_ANSWERS=1"):
    holds("io_loop.pml", f"{TWO} {size}", f"{CALLER}; two tools", is_long=True)
holds("io_loop.pml", f"{TWO} SLOW MOST_IMAGES=0 MOST_ANSWERS=1", f"{CALLER}; two tools, a slow source", is_big=True)

BETWEEN = "a chain between two threads, whose ends may go"
holds("io_loop.pml", f"{SMALL} OUTER_THREADS MOST_ANSWERS=1", BETWEEN)
holds("io_loop.pml", "TOOLS=1 CAP=1 OUTER_THREADS MOST_ANSWERS=1", f"{BETWEEN}, step by step", is_big=True)
holds("io_loop.pml", f"{TWO} OUTER_THREADS MOST_ANSWERS=1", BETWEEN, is_big=True)

edit("io_loop.pml", f"{SMALL} M_NO_WAKE_AT_HOME_BEFORE_ROOM", "the caller isn't woken at home",
     "wakers.rt, SenderWaker::sleep: without self.wake_home()",
     caught="pnm_flow_tests, wakes_its_home_before_it_sleeps")
edit("io_loop.pml", f"{SMALL} M_NO_WAKE_BEFORE_TAKING", "no wake before the source may read",
     "io_loop.rt, wake_before_taking: without ingress.wake_receiver()")
edit("io_loop.pml", f"{SMALL} UNASSERTED M_NO_WAKE_BEFORE_TAKING", "the same, by the sleep that it makes last",
     "io_loop.rt, wake_before_taking: without ingress.wake_receiver()", is_big=True)
edit("io_loop.pml", f"{SMALL} M_READS_BEFORE_THE_RESULT", "the source may read before a result is taken",
     "io_loop.rt, may_send: !ingress.is_over() alone", is_big=True)
edit("io_loop.pml", f"{SMALL} M_WAITS_FOR_ROOM_ALONE", "the caller sleeps at the first ring alone",
     "io_loop.rt, wait: ingress.wait(rt) always", is_big=True)
edit("io_loop.pml", f"{SMALL} M_WAITS_FOR_RESULTS_ALONE", "the caller sleeps at the last ring alone",
     "io_loop.rt, wait: egress.wait(rt) always", is_big=True)
edit("io_loop.pml", f"{SMALL} M_NO_WAKE_BEFORE_INPUT", "no wake before a stage waits for input",
     "stage.rt, wait: without output.wake_receiver()",
     caught="scripts/waits.py, pamflip -tb and a ring of 8")
edit("io_loop.pml", f"{SMALL} M_NO_WAKE_AT_PUSH", "no wake after a message, in a run",
     "sender.rt, Sender::send_reserved: without self.wake_receiver()", is_big=True)
edit("io_loop.pml", f"{SMALL} M_NO_WAKE_AT_POP", "no wake after a message was taken, in a run",
     "receiver.rt, Receiver::receive_known: without self.waker.wake_sender()", is_big=True)
edit("io_loop.pml", f"{SMALL} M_NO_WAKE_BEFORE_ROOM", "no wake before the wait for room, in a run",
     "sender.rt, Sender::wait: without self.wake_receiver()", is_big=True)
edit("io_loop.pml", f"{SMALL} M_NO_STOP_AT_REFUSAL", "a tool that refuses sends no Stop",
     "stage.rt, break_off: without output.send(Stop)", is_big=True)
edit("io_loop.pml", f"{SMALL} M_NO_DRAIN_AT_REFUSAL", "a tool that refuses doesn't drain its input",
     "stage.rt, break_off: without input.drain_after(..)", is_big=True)
edit("io_loop.pml", f"{SMALL} OUTER_THREADS M_NO_DRAIN_WHERE_OUTPUT_IS_GONE",
     "a stage whose output is gone doesn't drain its input",
     "stage.rt, pass_all: without input.drain_after(..)", is_big=True)
edit("io_loop.pml", f"{SMALL} OUTER_THREADS M_NO_STOP_WHERE_INPUT_IS_GONE", "a stage whose input is gone sends no Stop",
     "stage.rt, pass_all: without output.send(Stop) where has_next is false", is_big=True)

# ---- lanes -----------------------------------------------------------------------------------------------------------

BARE = "BARE CAP=1 COARSE HOLDS=0"
DRAINED = "lanes that are drained: a lane ends each sleep of the gatherer"
LANES = "lanes: another thread ends each sleep"
for rows in (2, 3, 6):
    holds("lanes.pml", f"{BARE} MOST_ROWS={rows} ONE_HEIGHT DRAINS NO_FAULTS", DRAINED, is_big=True)
holds("lanes.pml", f"{BARE} MOST_ROWS=3 DRAINS NO_FAULTS", DRAINED, is_big=True)
holds("lanes.pml", "BARE CAP=2 COARSE HOLDS=0 MOST_ROWS=3 ONE_HEIGHT DRAINS NO_FAULTS", DRAINED, is_long=True)
ALONE = "MOST_IMAGES=2 ONE_HEIGHT NO_FAULTS RINGS_ALONE"
for size, is_big in ("LANES=3 BARE CAP=1 COARSE MOST_ROWS=4", False), ("LANES=3 BARE CAP=2 COARSE MOST_ROWS=8", True):
    holds("lanes.pml", f"{size} {ALONE} DRAINS", f"{DRAINED}; each a ring alone", is_big=is_big)
    holds("lanes.pml", f"{size} {ALONE}", f"{LANES}; each a ring alone", is_big=is_big)
holds("lanes.pml", f"BARE CAP=4 COARSE KEPT=2 MOST_ROWS=4 {ALONE} DRAINS",
      f"{DRAINED}; each a ring alone, beside wide rows", is_big=True)
holds("lanes.pml", f"LANES=3 BARE CAP=4 COARSE HOLDS=0 KEPT=2 MOST_ROWS=3 {ALONE} DRAINS",
      f"{DRAINED}; each a ring alone, beside wide rows", is_long=True)
holds("lanes.pml", "BARE CAP=3 COARSE HOLDS=0 KEPT=1 MOST_ROWS=2 ONE_HEIGHT DRAINS NO_FAULTS",
      f"{DRAINED}, beside wide rows", is_long=True)
WIDE = "BARE CAP=4 COARSE HOLDS=0 KEPT=2 MOST_ROWS=2 MOST_IMAGES=2 ONE_HEIGHT DRAINS NO_FAULTS"
GOES = f"{BARE} ONE_HEIGHT DRAINS NO_FAULTS LANES_GO"
holds("lanes.pml", f"{GOES} MOST_ROWS=0 MOST_IMAGES=0", f"{DRAINED}; lanes may go")
holds("lanes.pml", f"{GOES} MOST_ROWS=1", f"{DRAINED}; lanes may go", is_big=True)
edit("lanes.pml", f"{WIDE} M_SLEEPS_AT_THE_FIRST_OPEN_LANE",
     "beside wide rows a gatherer that drains sleeps at the first lane that is open",
     "drain.rt, drain_all: the first open lane's Receiver::wait in place of output.sleep(rt)",
     caught="pnm_flow_tests, drains_whichever_lane_has_no_room")
edit("lanes.pml", f"{BARE} MOST_ROWS=2 ONE_HEIGHT DRAINS NO_FAULTS M_NO_WAKE_AT_HOME_BEFORE_ROOM",
     "a lane that sleeps for want of room doesn't wake the gatherer at home",
     "wakers.rt, SenderWaker::sleep: without self.wake_home()",
     caught="pnm_flow_tests, drains_whichever_lane_has_no_room")
edit("lanes.pml", f"{BARE} MOST_ROWS=2 ONE_HEIGHT DRAINS NO_FAULTS M_NO_WAKE_AT_HOME_AT_END",
     "a lane whose stream ends doesn't wake the gatherer at home",
     "sender.rt, Sender::send_reserved: without self.waker.wake_home()",
     caught="pnm_flow_tests, wakes_its_home_at_the_end")
edit("lanes.pml", f"{GOES} MOST_ROWS=0 MOST_IMAGES=0 M_NO_WAKE_AT_HOME_AT_DROP",
     "a lane that goes doesn't wake the gatherer at home",
     "wakers.rt, drop of SenderWaker: without self.wake_home()", caught="pnm_flow_tests, wakes_its_home_at_the_end")
CALLED = "a run of a tool over lanes: another thread ends each sleep"
CALLER_ALONE = "CALLER RINGS_ALONE CAP=1 COARSE"
holds("lanes.pml", "CALLER CAP=1 COARSE HOLDS=0 NO_FAULTS MOST_ROWS=0 MOST_IMAGES=0", CALLED)
holds("lanes.pml", f"{CALLER_ALONE} HOLDS=0 NO_FAULTS MOST_ROWS=3 ONE_HEIGHT", f"{CALLED}; each lane a ring alone")
for size in ("NO_FAULTS MOST_ROWS=1 ONE_HEIGHT", "LANES=3 HOLDS=0 NO_FAULTS MOST_ROWS=4 ONE_HEIGHT"):
    holds("lanes.pml", f"{CALLER_ALONE} {size}", f"{CALLED}; each lane a ring alone", is_big=True)
holds("lanes.pml", f"{CALLER_ALONE} HOLDS=0 MOST_ROWS=3 ONE_HEIGHT", f"{CALLED}; each lane a ring alone", is_long=True)
edit("lanes.pml", f"{CALLER_ALONE} HOLDS=0 NO_FAULTS MOST_ROWS=3 ONE_HEIGHT M_NO_HOME_OF_THE_CALLER",
     "a gatherer that sleeps for want of room doesn't wake the caller at home",
     "threaded.rt, run: without output.set_home(..)")
BLOCKS = "rows in blocks"
for size, is_big in ("LANES=2 MOST_ROWS=4", False), ("LANES=3 MOST_ROWS=5", True):
    holds("lanes.pml", f"{size} BARE CAP=1 COARSE BLOCKS {ALONE}", f"{LANES}; each a ring alone, {BLOCKS}",
          is_big=is_big)
holds("lanes.pml", f"{BARE} MOST_ROWS=4 ONE_HEIGHT NO_FAULTS BLOCKS", f"{LANES}; {BLOCKS}", is_long=True)
holds("lanes.pml", f"{CALLER_ALONE} HOLDS=0 NO_FAULTS MOST_ROWS=3 ONE_HEIGHT BLOCKS",
      f"{CALLED}; each lane a ring alone, {BLOCKS}", is_big=True)
SILENT = "CAP=1 COARSE HOLDS=0 NO_FAULTS AWAITS RINGS_ALONE"
holds("lanes.pml", f"{SILENT} MOST_ROWS=3 ONE_HEIGHT", f"{LANES}; a source that waits for what is due")
edit("lanes.pml", f"{SILENT} MOST_ROWS=3 ONE_HEIGHT M_AWAITS_EACH_LANE_AT_A_ROW",
     "the gatherer awaits each lane though a row came alone",
     "next.rt, await_row: fill_each(..) whatever are_rows_together() says")
for size in ("MOST_ROWS=3 TAKER_GOES NO_FAULTS", "MOST_ROWS=1 TAKER_GOES"):
    holds("lanes.pml", f"{BARE} {size}", LANES, is_long=True)
holds("lanes.pml", "CAP=1 COARSE HOLDS=0 MOST_ROWS=0 NO_FAULTS", f"{LANES}, between two threads", is_long=True)

edit("lanes.pml", f"{BARE} MOST_ROWS=6 ONE_HEIGHT DRAINS NO_FAULTS M_DRAINS_ONE_BY_ONE",
     "the gatherer drains one lane after another", "drain.rt, drain_all: each input.drain(rt) in turn", is_big=True)
edit("lanes.pml", f"{BARE} MOST_ROWS=4 TAKER_GOES M_NO_DRAIN_BY_GATHERER", "the gatherer doesn't drain",
     "gathering.rt, gather_all and break_off: without drain_all(..)", is_big=True)
edit("lanes.pml", f"LANES=3 BARE CAP=1 COARSE MOST_ROWS=4 {ALONE} M_NO_WAKE_BEFORE_ROOM_BY_DEALER",
     "the dealer wakes no other lane before it waits for room, where each is a ring alone",
     "dealing.rt, wake_before_room: without wake_each(..)")
edit("lanes.pml", "BARE CAP=1 COARSE MOST_ROWS=3 ONE_HEIGHT NO_FAULTS M_NO_WAKE_BEFORE_ROOM_BY_DEALER",
     "the same with threads for lanes: it costs time, and no more",
     "dealing.rt, wake_before_room: without wake_each(..)", wanted="holds", is_big=True)
edit("lanes.pml", "CAP=1 COARSE MOST_ROWS=0 NO_FAULTS AWAITS M_NO_WAKE_BEFORE_INPUT_BY_DEALER",
     "the dealer wakes no lane before it waits for input", "dealing.rt, wake_before_input: without wake_each(..)")
edit("lanes.pml", f"{BARE} MOST_ROWS=4 M_NO_DRAIN_AT_REFUSAL", "a lane that refuses doesn't drain its input",
     "stage.rt, break_off: without input.drain_after(..)", is_big=True)
edit("lanes.pml", f"{BARE} MOST_ROWS=3 M_NO_STOP_TO_LANES", "a dealer that breaks off sends no Stop",
     "dealing.rt, break_off: without send_end(..)", is_big=True)
edit("lanes.pml", "CAP=1 COARSE HOLDS=0 MOST_ROWS=1 M_NO_DRAIN_BY_DEALER",
     "a dealer that breaks off doesn't drain its input",
     "dealing.rt, break_off: without input.drain_after(..)", is_big=True)
edit("lanes.pml", f"{BARE} MOST_ROWS=3 M_NO_WAKE_AT_POP", "no wake after a message was taken, in lanes",
     "receiver.rt, Receiver::receive_known: without self.waker.wake_sender()", is_big=True)
edit("lanes.pml", f"{BARE} MOST_ROWS=3 M_NO_WAKE_AT_PUSH", "no wake after a message, in lanes",
     "sender.rt, Sender::send_reserved: without self.wake_receiver()", is_big=True)

# ---- starts ----------------------------------------------------------------------------------------------------------

STARTS = "starts of threads, of which none or one is refused"
for refused in (2, 1, 3, 0):
    holds("starts.pml", f"COARSE REFUSED={refused}", STARTS, is_big=refused != 2)
for refused in (3, 1, 2, 4, 5):
    holds("starts.pml", f"OVER_LANES COARSE REFUSED={refused}", STARTS, is_big=refused != 3)
for refused in (6, 0):
    holds("starts.pml", f"OVER_LANES COARSE NO_FAULTS REFUSED={refused}", STARTS, is_long=True)

edit("starts.pml", "COARSE REFUSED=3 M_KEEPS_ENDS_AT_NO_START", "a task that isn't started keeps its ends",
     "branches.rt, run_both: the tasks are kept until the threads are joined")
edit("starts.pml", "OVER_LANES COARSE REFUSED=4 M_KEEPS_ENDS_AT_NO_START",
     "what isn't begun after a refusal keeps its ends",
     "tool_run.rt, Waiter::run: beside is kept until the threads are joined", is_big=True)
edit("starts.pml", "OVER_LANES COARSE REFUSED=4 M_KEEPS_NOTIFIER", "a Notifier that isn't begun keeps its end",
     "branches.rt, run_both: the second task is kept until the threads are joined")
edit("starts.pml", "OVER_LANES COARSE M_NO_ANNOUNCEMENT", "nothing is announced",
     "tool_run.rt, Notifier::run: without notify.send(..)", is_big=True)
edit("starts.pml", "COARSE REFUSED=2 M_NO_WAKE_AT_RECEIVER_DROP", "a receiving end that isn't taken wakes nobody",
     "wakers.rt, drop of ReceiverWaker: without self.wake_sender()", is_big=True)
edit("starts.pml", "COARSE REFUSED=2 M_NO_WAKE_AT_SENDER_DROP", "a sending end that isn't taken wakes nobody",
     "wakers.rt, drop of SenderWaker: without self.wake_receiver()", is_big=True)
