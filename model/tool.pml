/* A tool in a thread of its own between two rings: stage.rt, run_filter.
 *
 * It answers a message by up to MOST_ANSWERS rows or (BLOCKS) rows together, and rows that come together by up
 * to twice as many; an end of an image by one besides; and it refuses at any message, or before the first one,
 * unless NO_FAULTS. Rows together of many bytes are as a wide row is.
 */
#ifndef MOST_ANSWERS
#define MOST_ANSWERS 2
#endif
#define MAY_ANSWER(m, k) (k < MOST_ANSWERS || (m == BLOCK && k < 2 * MOST_ANSWERS))

bit ended[NR]; /* by the number of the ring that a tool receives on */

proctype Tool(byte i; byte o) {
    LOCALS
    bit ok;
    byte m, k;
    /* pass_all: a tool for which there was no memory has refused already */
#ifndef NO_FAULTS
    if :: m = ROW; goto refuse :: skip fi;
#endif
next:
    /* has_next, wait */
#ifndef M_NO_WAKE_BEFORE_INPUT
    if
    :: seen[i] == 0 -> wake_receiver(o)
    :: else
    fi;
#endif
    await_message(i, ok);
    if
    :: !ok ->
#ifndef M_NO_STOP_WHERE_INPUT_IS_GONE
        send(o, STOP, 1, ok);
#endif
        goto done
    :: else
    fi;
    take(i, m);
    /* pass: feed_next, send_answers */
    k = 0;
    do
    :: !ENDS(m) && MAY_ANSWER(m, k) ->
        k++;
        send(o, ROW, 1, ok);
        if :: ok :: else -> goto output_gone fi
#ifdef KEPT
    :: !ENDS(m) && MAY_ANSWER(m, k) ->
        k++;
        send(o, WIDE, 1, ok);
        if :: ok :: else -> goto output_gone fi
#endif
#ifdef BLOCKS
    :: !ENDS(m) && MAY_ANSWER(m, k) ->
        k++;
        send(o, BLOCK, 1, ok);
        if :: ok :: else -> goto output_gone fi
#endif
    :: m == ROW || m == BLOCK || m == WIDE -> k = 0; goto next
    :: m == IEND ->
        k = 0;
        send(o, IEND, 1, ok);
        if :: ok -> goto next :: else -> goto output_gone fi
    :: ENDS(m) ->
        send(o, m, 1, ok);
        goto done
#ifndef NO_FAULTS
    :: m != STOP -> goto refuse
#endif
    od;
output_gone:
#ifndef M_NO_DRAIN_WHERE_OUTPUT_IS_GONE
    drain_after(i, m, ok);
#endif
    goto done;
refuse: /* break_off */
#ifndef M_NO_STOP_AT_REFUSAL
    send(o, STOP, 1, ok);
#endif
#ifndef M_NO_DRAIN_AT_REFUSAL
    drain_after(i, m, ok);
#endif
done: /* the ring ends stay in StageDone until the thread is joined */
    ended[i] = 1
}
