/* The caller of a run: io_loop.rt, ingress.rt, egress.rt. It sends on ring 0, and takes from ring LAST, whose home is
 * the sending end of ring 0.
 *
 * The includer defines SOURCE_LOCALS and say(m), by which the source says its next message. Whether the source would
 * have to wait for its reader is told anew after each. SLOW: there the reader may keep the caller until ALL_REST.
 */
#define CALLER_LOCALS \
    bit would_read = 1; /* Ingress::would_read */ \
    bit said_end;       /* the source has said StreamEnd, and says None next */ \
    bit input_over;     /* Ingress.input, is_gone */ \
    bit output_over;    /* Egress.has_ended, is_gone */ \
    short unwritten;    /* Ingress::images() - Egress::images() */

/* io_loop.rt, may_send */
#ifdef M_READS_BEFORE_THE_RESULT
#define MAY_SEND (!input_over)
#else
#define MAY_SEND (!input_over && (output_over || unwritten <= 0 || !would_read))
#endif

/* Ingress::send_next */
inline send_next() {
    /* The source may wait for its reader: the first tool is woken for all, and each result of an image sent is taken. */
#ifndef UNASSERTED
    assert(!would_read || !unw[0]);
#endif
    assert(!would_read || output_over || unwritten <= 0);
#ifdef SLOW
    if
    :: would_read -> if :: true :: true -> (ALL_REST) fi
    :: else
    fi;
#endif
    if
    :: said_end -> input_over = 1
    :: else ->
        say(m);
        put(0, m, 1);
        if
        :: m == IEND -> unwritten++
        :: m == SEND -> said_end = 1
        :: m == STOP -> input_over = 1
        :: else
        fi;
        m = 0
    fi;
    if :: would_read = 0 :: would_read = 1 fi
}

/* Ingress::try_send, send_held; a call for 64 packets at most is one that may stop after each */
inline ingress_try_send() {
    has_room(0);
    if
    :: !st -> input_over = gone[0]; moved = input_over
    :: else ->
        do
        :: send_next();
            if
            :: !input_over && !would_read ->
                has_room(0);
                if
                :: st
                :: else -> break
                fi
            :: else -> break
            fi
        od;
        moved = 1
    fi
}

/* Egress::try_receive, take_seen, take_next */
inline egress_try_receive() {
    has_message(LAST);
    if
    :: !st -> output_over = gone[LAST]; moved = output_over
    :: else ->
        do
        :: output_over || seen[LAST] == 0 -> break
        :: else ->
            take(LAST, m);
            if
            :: m == IEND -> unwritten--
            :: ENDS(m) -> output_over = 1
            :: else
            fi;
            m = 0
        od;
        moved = 1
    fi
}

/* io_loop.rt, wait: at the first ring where there is more to be sent, else at the last one */
#if defined(M_WAITS_FOR_ROOM_ALONE)
#define WAITS_FOR_ROOM 1
#elif defined(M_WAITS_FOR_RESULTS_ALONE)
#define WAITS_FOR_ROOM 0
#else
#define WAITS_FOR_ROOM MAY_SEND
#endif

active proctype Caller() {
    LOCALS
    CALLER_LOCALS
    SOURCE_LOCALS
    bit takes, moved;
    byte m;
    do /* run_loop */
    :: input_over && output_over -> break
    :: else ->
        moved = 0;
        if
        :: takes || would_read -> /* wake_before_taking, and the first half of run_once */
#ifndef M_NO_WAKE_BEFORE_TAKING
            wake_receiver(0);
#endif
            if
            :: !output_over -> STEP { egress_try_receive() }
            :: else
            fi;
            if :: moved :: else -> takes = 0 fi
        :: else
        fi;
        if
        :: moved
        :: else -> /* send_or_take */
            if :: MAY_SEND -> STEP { ingress_try_send() } :: else fi;
            if
            :: moved
            :: else ->
                takes = 1;
                if :: !output_over -> STEP { egress_try_receive() } :: else fi
            fi
        fi;
        if
        :: moved
        :: else ->
            if
            :: WAITS_FOR_ROOM -> STEP { wait_at_sender(0) }
            :: else -> STEP { park(RP(LAST)) }
            fi
        fi
    od
    /* All threads are joined: the search finds a state in which one of them hasn't ended. */
}
