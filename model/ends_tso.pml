/* One ring and its two ends once more, by themselves, over a memory with a store buffer for each thread
 * (x86-64): which stores have to be `xchg`, or be followed by a fence, as those of Rattle's SeqCst are.
 * Positions and slots are those of rtrb.
 *
 * PLAIN_TAIL, PLAIN_HEAD, PLAIN_EMPTY: the store of the tail, of the head, of EMPTY at the end of park_timeout
 * is a plain `mov`, as that of a Release store. Each read-modify-write waits for the buffer, as `lock` does.
 */
#ifndef CAP
#define CAP 2
#endif
#define AT_TAIL 0
#define AT_HEAD 1
#define AT_GONE 2
#define AT_PS   3 /* the parkers of the sending and of the receiving end */
#define AT_PR   4
#define AT_SLOT 5
#define EMPTY    0
#define NOTIFIED 1
#define PARKED   2

byte mem[AT_SLOT + CAP];
chan buffer[2] = [4] of { byte, byte };
bit over[2];

/* the memory takes a thread's stores in their order, at any time */
active [2] proctype Drain() {
    byte at, value;
end:
    do
    :: atomic { buffer[_pid]?at, value -> mem[at] = value; at = 0; value = 0 }
    od
}

#define PLAIN(me, at, value) buffer[me]!at, value
#define FENCED(me, at, value) atomic { len(buffer[me]) == 0 -> mem[at] = value }
#ifdef PLAIN_TAIL
#define STORE_TAIL PLAIN
#else
#define STORE_TAIL FENCED
#endif
#ifdef PLAIN_HEAD
#define STORE_HEAD PLAIN
#else
#define STORE_HEAD FENCED
#endif
#ifdef PLAIN_EMPTY
#define STORE_EMPTY PLAIN
#else
#define STORE_EMPTY FENCED
#endif
#define UNPARK(me, at) FENCED(me, at, NOTIFIED)

inline park(me, at) {
    atomic { len(buffer[me]) == 0 -> if :: mem[at] == EMPTY -> mem[at] = PARKED :: else fi };
    mem[at] != PARKED;
    STORE_EMPTY(me, at, EMPTY)
}

#define NEXT(pos) (((pos) + 1) % (2 * CAP))
#define DISTANCE(a, b) (((b) + 2 * CAP - (a)) % (2 * CAP))

inline wake_receiver() {
    if
    :: unwoken -> unwoken = 0; UNPARK(0, AT_PR)
    :: else
    fi
}

inline send(is_end) {
    do
    :: CAP - DISTANCE(head, tail) > 0 -> ok = 1; break
    :: else ->
        head = mem[AT_HEAD];
        if
        :: CAP - DISTANCE(head, tail) > 0 -> ok = 1; break
        :: else ->
            ok = !mem[AT_GONE];
            if
            :: !ok -> break
            :: else -> wake_receiver(); park(0, AT_PS)
            fi
        fi
    od;
    if
    :: ok ->
        PLAIN(0, AT_SLOT + tail % CAP, is_end);
        tail = NEXT(tail);
        STORE_TAIL(0, AT_TAIL, tail);
        unwoken = 1;
        if
        :: !is_end
        :: wake_receiver()
        fi
    :: else
    fi
}

active proctype Sending() {
    byte head, tail;
    bit ok, unwoken;
    do
    :: true -> send(0); if :: ok :: else -> break fi
    :: true -> wake_receiver();
        (len(buffer[0]) == 0 && (mem[AT_TAIL] == mem[AT_HEAD] || mem[AT_GONE]))
    :: true -> send(1); break
    :: true -> FENCED(0, AT_GONE, 1); UNPARK(0, AT_PR); break
    od
}

active proctype Receiving() {
    byte head, tail, half;
    bit ok, is_end, edge;
    do
    :: true ->
        do
        :: head != tail -> ok = 1; break
        :: else ->
            tail = mem[AT_TAIL];
            half = DISTANCE(head, tail) / 2;
            if
            :: head != tail -> ok = 1; break
            :: else ->
                ok = !mem[AT_GONE];
                if
                :: ok -> park(1, AT_PR)
                :: else -> tail = mem[AT_TAIL]; half = DISTANCE(head, tail) / 2; ok = (head != tail); break
                fi
            fi
        od;
        if
        :: !ok -> break
        :: else ->
            is_end = mem[AT_SLOT + head % CAP];
            head = NEXT(head);
            STORE_HEAD(1, AT_HEAD, head);
            edge = (head == tail || DISTANCE(head, tail) == half);
            if
            :: edge -> UNPARK(1, AT_PS)
            :: else
            fi;
            if :: is_end -> break :: else fi
        fi
    :: true -> FENCED(1, AT_GONE, 1); UNPARK(1, AT_PS); break
    od
}
