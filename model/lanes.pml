/* A row-wise tool over lanes, between a thread that sends images and one that takes what comes, or by itself
 * (BARE).
 *
 * CALLER: one thread, the caller of a run, does both; it is woken at ring 0, too, by the gatherer.
 *
 * The thread that sends may drop its end at any time, unless NO_FAULTS, and the one that takes may, with
 * TAKER_GOES.
 *
 * RINGS_ALONE: a lane is one ring from the dealer to the gatherer, and no thread: so more of them can be searched.
 *
 * AWAITS: between messages the thread that sends may wait until all has come out behind the lanes.
 *
 * LANES_GO: a lane's ends may go between two messages.
 *
 * A gatherer that drains sleeps at the sending end of its output, the home of the rings from the lanes.
 *
 * Rings: 0 to the dealer, then those to the lanes, those from them, and LAST behind the gatherer.
 */
#ifndef LANES
#define LANES 2
#endif
#ifndef CAP
#define CAP 1
#endif
#ifndef MOST_IMAGES
#define MOST_IMAGES 1
#endif
#ifndef MOST_ROWS
#define MOST_ROWS 3
#endif
#define NR (2 * LANES + 2)
#define NP (2 * NR)
#define INPUT 0
#ifdef RINGS_ALONE
#define TO(lane) FROM(lane)
#else
#define TO(lane) (1 + (lane))
#endif
#define FROM(lane) (1 + LANES + (lane))
#define LAST (1 + 2 * LANES)
#define SP(r) (2 * (r))
#define RP(r) (2 * (r) + 1)
#if defined(CALLER) && !defined(M_NO_HOME_OF_THE_CALLER)
#define HAS_HOME(r) ((r) > LANES)
#define HOME(r) ((r) == LAST -> SP(0) : SP(LAST))
#else
#define HAS_HOME(r) ((r) > LANES && (r) < LAST)
#define HOME(r) SP(LAST)
#endif
#include "rings.pml"
#include "lane_threads.pml"

#ifdef CALLER
#include "caller.pml"
#elif !defined(BARE)
#ifdef AWAITS
short owed; /* what was sent, and hasn't come out behind the lanes */
#define OWES owed++
#define OWES_LESS owed--
#else
#define OWES skip
#define OWES_LESS skip
#endif

active proctype Source() {
    SENDER_LOCALS
    SOURCE_LOCALS
    bit ok;
    byte m;
    do
#ifdef AWAITS
    :: owed != 0 -> wake_receiver(0); (owed == 0)
#endif
    :: true -> say(m);
        send(0, m, 1, ok);
        OWES;
        if :: ENDS(m) || !ok -> break :: else -> m = 0 fi
#ifndef NO_FAULTS
    :: true -> drop_sender(0); break
#endif
    od
}

active proctype Taker() {
    LOCALS
    bit ok;
    byte m;
    do
    :: true -> await_message(LAST, ok);
        if
        :: ok -> take(LAST, m); OWES_LESS; if :: ENDS(m) -> break :: else -> m = 0 fi
        :: else -> break
        fi
#ifdef TAKER_GOES
    :: true -> drop_receiver(LAST); break
#endif
    od
}
#endif

init {
    atomic {
#ifndef RINGS_ALONE
#if LANES > 2
        run Lane(TO(2), FROM(2));
#endif
        run Lane(TO(1), FROM(1));
        run Lane(TO(0), FROM(0));
#endif
        run Gatherer();
        run Dealer()
    }
}
