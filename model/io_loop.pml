/* A run over threads: the caller and TOOLS tools, each in a thread of its own.
 *
 * The source says any stream: rows, by themselves or (BLOCKS) together, ends of images (MOST_IMAGES at most),
 * the end of the stream or a fault. SLOW: the reader may keep the caller until no tool can go on.
 *
 * OUTER_THREADS: run_chain between two other threads, one of which may drop its end at any time, in place of a
 * caller.
 */
#ifndef TOOLS
#define TOOLS 1
#endif
#ifndef CAP
#define CAP 1
#endif
#ifndef MOST_IMAGES
#define MOST_IMAGES 2
#endif
#define NR (TOOLS + 1)
#define NP (2 * NR)
#define LAST TOOLS /* the ring behind the last tool */
#define SP(r) (2 * (r))
#define RP(r) (2 * (r) + 1)
#ifndef OUTER_THREADS
/* the caller sends on ring 0 as well, and may sleep there */
#define HAS_HOME(r) ((r) == LAST)
#define HOME(r) SP(0)
#endif
#include "rings.pml"
#include "tool.pml"

#ifdef MOST /* so many rows at most */
#define COUNT_LOCALS byte asked;
#define MAY_SAY_ROW (asked < MOST)
#define COUNT asked++
#else
#define COUNT_LOCALS
#define MAY_SAY_ROW 1
#define COUNT skip
#endif

init {
    atomic {
        run Tool(0, 1);
#if TOOLS > 1
        run Tool(1, 2);
#endif
#if TOOLS > 2
        run Tool(2, 3);
#endif
    }
}

#ifdef OUTER_THREADS
active proctype Outer_sender() {
    SENDER_LOCALS
    COUNT_LOCALS
    bit ok;
    do
    :: MAY_SAY_ROW -> COUNT; send(0, ROW, 1, ok); if :: ok :: else -> break fi
    :: true -> send(0, SEND, 1, ok); break
    :: true -> send(0, STOP, 1, ok); break
    :: true -> drop_sender(0); break
    od
}

active proctype Outer_receiver() {
    LOCALS
    bit ok;
    byte m;
    do
    :: true -> await_message(LAST, ok);
        if
        :: ok -> take(LAST, m); if :: ENDS(m) -> break :: else fi
        :: else -> break
        fi
    :: true -> drop_receiver(LAST); break
    od
}
#else

/* what the source says next */
#define SOURCE_LOCALS byte images; COUNT_LOCALS
inline say(m) {
    if
    :: MAY_SAY_ROW -> COUNT; m = ROW
#ifdef KEPT
    :: MAY_SAY_ROW -> COUNT; m = WIDE
#endif
#ifdef BLOCKS
    :: MAY_SAY_ROW -> COUNT; m = BLOCK
#endif
    :: images < MOST_IMAGES -> images++; m = IEND
    :: m = SEND
    :: m = STOP
    fi
}

/* SLOW: no tool can go on while the caller is away: each has ended, or sleeps where nothing is there or no room. */
#define RESTS(i) (ended[i] || (pk[RP(i)] == PARKED && len(ring[i]) == 0) \
    || (pk[SP((i) + 1)] == PARKED && len(ring[(i) + 1]) == CAP))
#if TOOLS == 1
#define ALL_REST RESTS(0)
#elif TOOLS == 2
#define ALL_REST (RESTS(0) && RESTS(1))
#else
#define ALL_REST (RESTS(0) && RESTS(1) && RESTS(2))
#endif
#include "caller.pml"
#endif
