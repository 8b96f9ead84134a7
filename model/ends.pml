/* One ring and its two ends.
 *
 * The stream has no bound unless MOST is given; each message may be held back; KEPT is the most places that wide
 * rows keep free. The sending end ends the stream and stays, or goes at any time; between messages it may wait
 * for something else, which comes only once all that it sent was taken: it has to wake the receiver first
 * (Sender::coalesce_wakes). The receiving end goes on until the stream has ended or the sending end is gone, or goes
 * at any time.
 */
#ifndef CAP
#define CAP 2
#endif
#define NR 1
#define NP 2
#define SP(r) 0
#define RP(r) 1
#include "rings.pml"

#ifdef MOST /* so many messages at most */
#define COUNT_LOCALS byte sent;
#define MAY_SEND (sent < MOST)
#define COUNT sent++
#else
#define COUNT_LOCALS
#define MAY_SEND 1
#define COUNT skip
#endif

active proctype Sending() {
    SENDER_LOCALS
    COUNT_LOCALS
    bit ok, waited;
    do
    :: MAY_SEND -> COUNT; waited = 0; send(0, ROW, 1, ok);
        if :: ok :: else -> break fi
#ifdef KEPT
    :: MAY_SEND -> COUNT; waited = 0; send(0, WIDE, 1, ok);
        if :: ok :: else -> break fi
#endif
    :: !waited ->
        waited = 1;
#ifndef M_NO_WAKE_BEFORE_OTHERS
        wake_receiver(0);
#endif
        (len(ring[0]) == 0 || gone[0])
    :: true -> send(0, SEND, 1, ok); break
    :: true -> send(0, STOP, 1, ok); drop_sender(0); break
    :: true -> drop_sender(0); break
    od
}

active proctype Receiving() {
    LOCALS
    bit ok;
    byte m;
    do
    :: true -> await_message(0, ok);
        if
        :: ok ->
            take(0, m);
            if :: ENDS(m) -> break :: else fi
        :: else -> break
        fi
    :: true -> drop_receiver(0); break
    od
}
