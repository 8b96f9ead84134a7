/* The two ends of a ring and how a thread waits at one: what ends.pml, io_loop.pml, lanes.pml and starts.pml
 * include.
 *
 * One step of a thread holds at most one access to a word that threads share: the tail, the head and the flags
 * of rtrb, and the state of a Parker. Every such access is SeqCst in the program, so to interleave steps is what
 * the machine does; ends_tso.pml looks at weaker stores.
 *
 *   ring[r]   a push is the store of the tail, a pop that of the head      rtrb: push_reserved, pop_known
 *   gone[r]   one end of the ring was dropped                              rtrb: is_abandoned
 *   pk[p]     the state of a parker: EMPTY, NOTIFIED, PARKED               std::thread::Parker
 *
 * Nothing times out: a sleep that no other thread ends is a state in which the search finds that thread stuck.
 *
 * The includer defines NR (rings), CAP (places of each), NP (parkers), SP(r) and RP(r) (those of the sending and
 * of the receiving end), and, where some rings have a home, HAS_HOME(r) and HOME(r), the parker there.
 */
#define EMPTY    0
#define NOTIFIED 1
#define PARKED   2

/* What a place of a ring holds. From SEND on it ends the stream (Ending::Whole, Ending::BrokenOff). */
#define ROW   1
#define IEND  2
#define BLOCK 3 /* rows together: Packet::Rows of several */
#define WIDE  4 /* a wide row, beside which places stay free */
#define BEGIN 5 /* lanes.pml: BEGIN + h is the head of an image of h rows */
#define LAST_ROW 13 /* lanes.pml, with BLOCKS: a row with the end of its image */
#define SEND  14
#define STOP  15
#define ENDS(m) ((m) >= SEND)

chan ring[NR] = [CAP] of { byte };
bit  gone[NR];
byte pk[NP];

/* COARSE: each operation on a ring end is one step, but for its sleep. Larger runs are searched so, for threads
 * that wait for one another; that two threads may meet inside an operation is what the others look at. */
#ifdef COARSE
#define STEP atomic
#else
#define STEP
#endif

/* HOLDS=0: no message is held back, as in rings of fewer than 4 places */
#ifndef HOLDS
#define HOLDS 1
#endif

/* ---- std::thread::Parker ---------------------------------------------------------------------------------------- */

#ifdef FUTEX
/* step by step: unpark is a swap, and then the wake of the futex; the kernel compares and sleeps in one step */
bit asleep[NP];
#define WAKE(p) d_step { old = pk[p]; pk[p] = NOTIFIED }; if :: old == PARKED -> asleep[p] = 0 :: else fi
#define PARK_LOCALS byte old; bit sleeps;
inline park(p) {
    d_step { if :: pk[p] == EMPTY -> pk[p] = PARKED; sleeps = 1 :: else -> sleeps = 0 fi };
    if
    :: sleeps ->
        atomic { if :: pk[p] == PARKED -> asleep[p] = 1 :: else fi };
        asleep[p] == 0
    :: else
    fi;
    pk[p] = EMPTY
}
#else
#ifdef M_NO_TOKEN
#define WAKE(p) atomic { if :: pk[p] == PARKED -> pk[p] = NOTIFIED :: else fi }
#else
#define WAKE(p) pk[p] = NOTIFIED
#endif
#define PARK_LOCALS
/* the exchange; then it sleeps while the state is PARKED; then the store of EMPTY */
inline park(p) {
    atomic { if :: pk[p] == EMPTY -> pk[p] = PARKED :: else fi };
    atomic { pk[p] != PARKED -> pk[p] = EMPTY }
}
#endif

/* ---- the sending end -------------------------------------------------------------------------------------------- */

/* What a thread has of its ends, each in the place of the ring's number; no other thread sees it.
 *   room  places known to be free             Producer::cached_slots
 *   kept  places kept free beside wide rows   Sender.kept_free
 *   unw   something was sent unwoken          Sender.unwoken > 0
 *   seen  messages seen                       Consumer::cached_slots
 *   half  half of those seen at a look        Receiver.half
 *   st    what an operation has answered */
#define SENDER_LOCALS byte room[NR] = CAP; byte kept[NR]; bit unw[NR]; bit st; bit hold; PARK_LOCALS
#define LOCALS SENDER_LOCALS byte seen[NR]; byte half[NR]; bit edge;

/* SenderWaker::wake_home: whom a thread wakes besides, before it sleeps for want of room in a ring that HAS_HOME,
 * where it ends the stream, and where its end goes */
#ifdef HAS_HOME
#define WAKE_HOME(r) if :: HAS_HOME(r) -> WAKE(HOME(r)) :: else fi
#endif

/* Sender::has_room */
inline has_room(r) {
    atomic {
        if
        :: room[r] > kept[r] -> st = 1
        :: else ->
            room[r] = CAP - len(ring[r]); /* the load of the head */
            st = (room[r] > kept[r])
        fi
    }
}

/* Sender::wake_receiver */
inline wake_receiver(r) {
    if
#ifdef M_NO_WAKE_BY_SENDER
    :: unw[r] -> unw[r] = 0
#else
    :: unw[r] -> unw[r] = 0; WAKE(RP(r))
#endif
    :: else
    fi
}

/* Sender::send_reserved. Where `holds`, any message may be held back, however many were: so this stands for
 * every messages_per_wake and every width of rows. */
inline put(r, m, holds) {
#ifdef M_WAKE_BEFORE_TAIL
    WAKE(RP(r));
#endif
    atomic {
        assert(room[r] > 0 && len(ring[r]) < CAP);
        ring[r]!m; /* the store of the tail */
        room[r]--;
        unw[r] = 1;
#ifdef KEPT
        if
        :: m == WIDE -> kept[r] = KEPT
        :: m == WIDE && KEPT > 1 -> kept[r] = 1
        :: m != WIDE && !ENDS(m) -> kept[r] = 0
        :: ENDS(m)
        fi;
#endif
        if
#ifdef M_HOLDS_END
        :: holds && HOLDS -> hold = 1
#else
        :: holds && HOLDS && !ENDS(m) -> hold = 1
#endif
        :: hold = 0
        fi
    };
    if
    :: hold -> hold = 0
    :: else ->
        unw[r] = 0;
#if defined(HAS_HOME) && !defined(M_NO_WAKE_AT_HOME_AT_END)
        if :: ENDS(m) -> WAKE_HOME(r) :: else fi;
#endif
#if !defined(M_WAKE_BEFORE_TAIL) && !defined(M_NO_WAKE_AT_PUSH) && !defined(M_NO_WAKE_BY_SENDER)
        WAKE(RP(r))
#endif
    fi
}

/* Sender::sleep */
inline sleep_at_sender(r) {
#if defined(HAS_HOME) && !defined(M_NO_WAKE_AT_HOME_BEFORE_ROOM)
    WAKE_HOME(r);
#endif
    park(SP(r))
}

/* Sender::wait: it wakes, and sleeps */
#ifdef M_NO_WAKE_BEFORE_ROOM
#define WAKE_BEFORE_ROOM(r) skip
#else
#define WAKE_BEFORE_ROOM(r) wake_receiver(r)
#endif
inline wait_at_sender(r) {
    WAKE_BEFORE_ROOM(r);
    sleep_at_sender(r)
}

/* Sender::send, with wait_for_room; `ok` is its answer */
inline send(r, m, holds, ok) {
    STEP {
    do
    :: has_room(r);
        if
        :: st -> ok = 1; break
        :: else ->
            st = gone[r]; /* the load of the flags */
            if
            :: st -> ok = 0; break
            :: else -> wait_at_sender(r)
            fi
        fi
    od;
    if
    :: ok -> put(r, m, holds)
    :: else
    fi
    }
}

/* The ring's end goes first, and then its waker, which wakes (Drop of SenderWaker). */
inline drop_sender(r) {
    STEP {
#ifdef M_WAKE_BEFORE_GONE
    WAKE(RP(r)); gone[r] = 1
#else
    gone[r] = 1;
#if defined(HAS_HOME) && !defined(M_NO_WAKE_AT_HOME_AT_DROP)
    WAKE_HOME(r);
#endif
#ifndef M_NO_WAKE_AT_SENDER_DROP
    WAKE(RP(r))
#endif
#endif
    }
}

/* ---- the receiving end ------------------------------------------------------------------------------------------ */

/* Receiver::has_message, look */
inline has_message(r) {
    atomic {
        if
        :: seen[r] > 0 -> st = 1
        :: else ->
            seen[r] = len(ring[r]); /* the load of the tail */
            half[r] = seen[r] / 2;
            st = (seen[r] > 0)
        fi
    }
}

/* Receiver::receive_known */
#if defined(M_NO_WAKE_AT_NONE_LEFT)
#define EDGE(r) (seen[r] == half[r] && half[r] > 0)
#elif defined(M_NO_WAKE_AT_LAST)
#define EDGE(r) (seen[r] == half[r])
#elif defined(M_NO_WAKE_AT_HALF)
#define EDGE(r) (seen[r] == 0)
#else
#define EDGE(r) (seen[r] == 0 || seen[r] == half[r])
#endif
inline take(r, m) {
    STEP {
#ifdef M_WAKE_BEFORE_HEAD
    if
    :: seen[r] == 1 || seen[r] - 1 == half[r] -> WAKE(SP(r))
    :: else
    fi;
#endif
    atomic {
        assert(seen[r] > 0);
        ring[r]?m; /* the store of the head */
        seen[r]--;
        edge = EDGE(r);
        if :: seen[r] == 0 -> half[r] = 0 :: else fi
    };
    if
#if !defined(M_WAKE_BEFORE_HEAD) && !defined(M_NO_WAKE_AT_POP)
    :: edge -> edge = 0; WAKE(SP(r))
#endif
    :: else -> edge = 0
    fi
    }
}

/* Receiver::has_message || wait_for_message; `ok` is the answer */
inline await_message(r, ok) {
    STEP {
    do
    :: has_message(r);
        if
        :: st -> ok = 1; break
        :: else ->
            st = gone[r]; /* the load of the flags */
            if
            :: st ->
#ifdef M_NO_LOOK_AFTER_GONE
                ok = 0;
#else
                has_message(r); ok = st;
#endif
                break
            :: else -> park(RP(r))
            fi
        fi
    od;
    assert(ok || len(ring[r]) == 0) /* nothing is lost */
    }
}

/* Receiver::drain_after a message m that was taken; m is free after it */
inline drain_after(r, m, ok) {
    do
    :: ENDS(m) -> break
    :: else ->
        await_message(r, ok);
        if
        :: ok -> take(r, m)
        :: else -> break
        fi
    od
}

/* The ring's end goes first, and then its waker, which wakes (Drop of ReceiverWaker). */
inline drop_receiver(r) {
    STEP {
#ifdef M_WAKE_BEFORE_GONE
    WAKE(SP(r)); gone[r] = 1
#else
    gone[r] = 1;
#ifndef M_NO_WAKE_AT_RECEIVER_DROP
    WAKE(SP(r))
#endif
#endif
    }
}
