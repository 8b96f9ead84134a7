/* The starts of a chain's threads, of which number REFUSED is refused (none: 0): run_stages of chain.rt,
 * run_tool with Notifier and Waiter of tool_run.rt, run_threads of lanes.rt, deal_and_gather of around.rt,
 * run_both of branches.rt.
 *
 * OVER_LANES: two tools, of which the last one works over two lanes: its own thread starts these, and tells the
 * level by a ring that they are there. Starts: 1 that thread, 2 lane 1, 3 lane 0, 4 the gatherer, 5 the dealer,
 * 6 the first tool. Else TOOLS plain ones, started from the last one on: 1 is the last tool.
 *
 * What isn't started drops what it holds, the levels within what they hold, and then threads are joined; these
 * have no more than ring ends that were dropped or are theirs, so to join is nothing but to want that all end.
 * The input's stream ends, or is dropped, at once, or, where a start is refused, after any rows, which nobody
 * takes then; whoever takes the results may go.
 */
#ifndef REFUSED
#define REFUSED 0
#endif
#ifndef CAP
#define CAP 1
#endif
#define STARTS(n) (REFUSED != (n))

#ifdef OVER_LANES
#define LANES 2
#define MOST_ROWS 0
#define MOST_IMAGES 0
#define NR 8
#define INPUT 1
#define TO(lane) (2 + (lane))
#define FROM(lane) (4 + (lane))
#define LAST 6
#define STARTED 7
#define HAS_HOME(r) ((r) >= FROM(0) && (r) < LAST)
#define HOME(r) SP(LAST)
#else
#ifndef TOOLS
#define TOOLS 3
#endif
#define NR (TOOLS + 1)
#define LAST TOOLS
#endif
#define NP (2 * NR)
#define SP(r) (2 * (r))
#define RP(r) (2 * (r) + 1)
#include "rings.pml"
#include "tool.pml"

active proctype Source() {
    SENDER_LOCALS
    bit ok = 1;
    do
    :: !ok -> break
#if REFUSED
    :: ok -> send(0, ROW, 1, ok)
#endif
    :: ok -> send(0, SEND, 1, ok); break
    :: ok -> send(0, STOP, 1, ok); break
    :: ok -> drop_sender(0); break
    od
}

active proctype Taker() {
    LOCALS
    bit ok;
    byte m;
    do
    :: true -> await_message(LAST, ok);
        if
        :: ok -> take(LAST, m); if :: ENDS(m) -> break :: else fi
        :: else -> break
        fi
    :: true -> drop_receiver(LAST); break
    od
}

#ifdef OVER_LANES
#include "lane_threads.pml"

/* what the task of lane i holds */
inline drop_lane(i) {
    drop_receiver(TO(i)); drop_sender(FROM(i))
}

/* what the gatherer's task holds, and the dealer's with what is done beside it */
inline drop_gatherer() {
    drop_receiver(FROM(0)); drop_receiver(FROM(1)); drop_sender(LAST)
}
inline drop_dealer() {
    drop_receiver(INPUT); drop_sender(TO(0)); drop_sender(TO(1));
#ifndef M_KEEPS_NOTIFIER
    drop_sender(STARTED)
#endif
}

/* run_threads, deal_and_gather, and Notifier */
proctype Over_lanes() {
    SENDER_LOCALS
    bit ok;
    if
    :: STARTS(2) -> run Lane(TO(1), FROM(1))
    :: else -> drop_lane(1); drop_lane(0); drop_gatherer(); drop_dealer(); goto done
    fi;
    if
    :: STARTS(3) -> run Lane(TO(0), FROM(0))
    :: else -> drop_lane(0); drop_gatherer(); drop_dealer(); goto done
    fi;
    if
    :: STARTS(4) -> run Gatherer()
    :: else -> drop_gatherer(); drop_dealer(); goto done
    fi;
    if
    :: STARTS(5) -> run Dealer()
    :: else -> drop_dealer(); goto done
    fi;
#ifndef M_NO_ANNOUNCEMENT
    send(STARTED, SEND, 0, ok);
#endif
#ifndef M_KEEPS_NOTIFIER
    drop_sender(STARTED);
#endif
done:
    skip
}

/* run_stages: the level that starts the last tool, listens, and starts the first one */
active proctype Level() {
    LOCALS
    bit ok;
    byte m;
    if
    :: STARTS(1) -> run Over_lanes()
    :: else -> drop_lane(0); drop_lane(1); drop_gatherer(); drop_dealer(); goto without
    fi;
    await_message(STARTED, ok); /* Waiter */
    assert(ok == (STARTS(2) && STARTS(3) && STARTS(4) && STARTS(5)));
    if
    :: ok -> take(STARTED, m)
    :: else -> goto without
    fi;
    if
    :: STARTS(6) -> run Tool(0, 1)
    :: else -> goto without
    fi;
    drop_receiver(STARTED);
    goto done;
without: /* the work beside isn't begun, and goes */
    drop_receiver(STARTED);
#ifndef M_KEEPS_ENDS_AT_NO_START
    drop_receiver(0); drop_sender(1);
#endif
done:
    skip
}

#else

/* run_stages: its ends of the rings within go with the task that isn't started, in any order */
active proctype Level() {
    PARK_LOCALS
    byte n = TOOLS; /* the tool that is to be started, from 1 */
    bit here, within;
    do
    :: n == 0 -> break
    :: n > 0 && STARTS(1 + TOOLS - n) -> run Tool(n - 1, n); n--
    :: n > 0 && !STARTS(1 + TOOLS - n) ->
#ifdef M_KEEPS_ENDS_AT_NO_START
        break;
#endif
        do
        :: here && within -> break
        :: !here -> here = 1; drop_sender(n)
        :: !within -> within = 1; drop_receiver(0)
        od;
        break
    od
}
#endif
