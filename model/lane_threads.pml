/* The threads of a row-wise tool over LANES lanes: dealing.rt, a lane by stage.rt, and gathering.rt, next.rt,
 * together.rt, held.rt, lane.rt, drain.rt.
 *
 * BLOCKS: LANES + 1 rows may come together, of which the first lane gets two and each other one; and the last row
 * of an image may come with its end. What is put together of these leaves as one message.
 *
 * The includer defines INPUT (the ring to the dealer), TO(lane), FROM(lane), LAST (the ring behind the
 * gatherer), and MOST_ROWS, the greatest height of an image, up to 6, or, with ONE_HEIGHT, that of each, up to
 * 8. The dealer may have no memory for a head or a row, and each lane refuses at any message or before the first
 * one, unless NO_FAULTS.
 *
 * BARE: no threads around: the dealer says the images itself, and the gatherer's output always has room. Then
 * TAKER_GOES has the gatherer find its output gone after any message, and DRAINS has it drain from the first one
 * on.
 */
#define HEIGHT(m) ((m) - BEGIN)
#define IS_HEAD(m) ((m) >= BEGIN && (m) <= BEGIN + MOST_ROWS)

#ifdef KEPT
#define A_ROW WIDE /* each row is wide */
#else
#define A_ROW ROW
#endif

/* a lawful stream of MOST_IMAGES images at most, or one that ends by a fault */
#define SOURCE_LOCALS bit inside; byte rows, said, images;
inline say(m) {
    if
    :: inside && said < rows -> m = A_ROW; said++
#ifdef BLOCKS
    :: inside && said + LANES < rows -> m = BLOCK; said = said + LANES + 1
    :: inside && said + 1 == rows -> m = LAST_ROW; inside = 0; rows = 0; said = 0
#endif
    :: inside && said == rows -> m = IEND; inside = 0; rows = 0; said = 0
    :: !inside && images < MOST_IMAGES ->
        atomic {
            images++; inside = 1;
#ifdef ONE_HEIGHT
            rows = MOST_ROWS;
#else
            if
            :: rows = 0
            :: MOST_ROWS >= 1 -> rows = 1
            :: MOST_ROWS >= 2 -> rows = 2
            :: MOST_ROWS >= 3 -> rows = 3
            :: MOST_ROWS >= 4 -> rows = 4
            :: MOST_ROWS >= 5 -> rows = 5
            :: MOST_ROWS >= 6 -> rows = 6
            fi;
#endif
            m = BEGIN + rows
        }
    :: !inside -> m = SEND
#ifndef NO_FAULTS
    :: m = STOP
#endif
    fi
}

/* ---- dealing.rt ------------------------------------------------------------------------------------------------- */

inline wake_each() {
    wake_receiver(TO(0)); wake_receiver(TO(1))
#if LANES > 2
    ; wake_receiver(TO(2))
#endif
}

/* each lane is woken where the next message of the input, or room in this lane's ring, may have to be waited for */
inline wake_before_input() {
    has_message(INPUT);
    if
#ifndef M_NO_WAKE_BEFORE_INPUT_BY_DEALER
    :: !st -> wake_each()
#endif
    :: else
    fi
}
inline wake_before_room(lane) {
    has_room(TO(lane));
    if
#ifndef M_NO_WAKE_BEFORE_ROOM_BY_DEALER
    :: !st -> wake_each()
#endif
    :: else
    fi
}

/* send_part, send_end: the first lane from y on gets `first`, the others `rest`; past a lane whose ring's other end is
 * gone */
#define LANE ((y + turn) % LANES)
inline send_parts(first, rest, went) {
    turn = 0;
    went = 1;
    do
    :: turn == LANES -> break
    :: else ->
        STEP { wake_before_room(LANE) };
        if :: turn == 0 -> part = first :: else -> part = rest fi;
        send(TO(LANE), part, 1, ok);
        turn++;
        if :: ok :: else -> went = 0 fi
    od;
    turn = 0; part = 0
}

proctype Dealer() {
    LOCALS
    bit ok, went;
    byte m, y, turn, part;
#ifdef BARE
    SOURCE_LOCALS
#endif
next:
#ifdef BARE
    say(m);
#else
    STEP { wake_before_input() };
    await_message(INPUT, ok);
    if
    :: ok -> take(INPUT, m)
    :: else -> m = ROW; goto break_off
    fi;
#endif
    if
    :: m == A_ROW ->
        STEP { wake_before_room(y) };
        send(TO(y), m, 1, went);
        y = (y + 1) % LANES
#ifdef BLOCKS
    :: m == BLOCK -> /* LANES + 1 rows: two for the first lane */
        send_parts(BLOCK, ROW, went);
        y = (y + 1) % LANES
    :: m == LAST_ROW -> /* a row with the image's end, which each lane gets */
        send_parts(LAST_ROW, IEND, went);
        y = 0
#endif
    :: m != A_ROW && m != BLOCK && m != LAST_ROW ->
        y = 0;
        send_parts(m, m, went)
#ifndef NO_FAULTS
    :: !ENDS(m) -> goto break_off
#endif
    fi;
    if
    :: ENDS(m) -> goto done
    :: went && !ENDS(m) -> goto next
    :: !went && !ENDS(m) -> goto break_off
    fi;
break_off:
#ifndef M_NO_STOP_TO_LANES
    send_parts(STOP, STOP, went);
#endif
#if !defined(BARE) && !defined(M_NO_DRAIN_BY_DEALER)
    drain_after(INPUT, m, ok);
#endif
done:
    skip
}

/* ---- a lane: run_filter of stage.rt over a tool that makes one message of each ----------------------------------- */

proctype Lane(byte i; byte o) {
    LOCALS
    bit ok;
    byte m;
#ifndef NO_FAULTS
    if :: m = ROW; goto refuse :: skip fi;
#endif
next:
#ifdef LANES_GO
    if :: drop_receiver(i); drop_sender(o); goto done :: skip fi;
#endif
    if
    :: seen[i] == 0 -> wake_receiver(o)
    :: else
    fi;
    await_message(i, ok);
    if
    :: !ok -> send(o, STOP, 1, ok); goto done
    :: else
    fi;
    take(i, m);
    if
    :: true -> send(o, m, 1, ok);
        if
        :: ENDS(m) -> goto done
        :: ok && !ENDS(m) -> m = 0; goto next
        :: !ok && !ENDS(m) -> drain_after(i, m, ok); goto done
        fi
#ifndef NO_FAULTS
    :: m != STOP -> goto refuse
#endif
    fi;
refuse:
    send(o, STOP, 1, ok);
#ifndef M_NO_DRAIN_AT_REFUSAL
    drain_after(i, m, ok);
#endif
done:
    skip
}

/* ---- gathering.rt, next.rt, together.rt, held.rt, lane.rt --------------------------------------------------------- */

#define OPEN  0
#define ENDED 1
#define GONE  2

/* what is held of a lane: rows, and a message behind them */
#define HOLDS_NOTHING(lane) (rows[lane] == 0 && then[lane] == 0)

/* fill: receives from a lane of which nothing is held; `ok` where something that isn't Stop is */
inline fill(lane) {
    if
    :: HOLDS_NOTHING(lane) ->
        await_message(FROM(lane), ok);
        if
        :: ok ->
            take(FROM(lane), m);
            if :: ENDS(m) -> state[lane] = ENDED :: else fi;
            ok = (m != STOP);
            if
            :: m == A_ROW || m == ROW -> rows[lane] = 1
            :: m == BLOCK -> rows[lane] = 2
            :: m == LAST_ROW -> rows[lane] = 1; then[lane] = IEND
            :: else -> then[lane] = m
            fi;
            m = 0
        :: else
        fi
    :: else
    fi
}

/* fill_each */
inline fill_each() {
    lane = 0;
    do
    :: !ok || lane == LANES -> break
    :: else -> fill(lane); lane++
    od;
    lane = 0
}

/* ---- drain.rt ---------------------------------------------------------------------------------------------------- */

/* drain_lane, drain_one */
inline drain_lane(lane) {
    if
    :: state[lane] == OPEN ->
        has_message(FROM(lane));
        if
        :: st
        :: else ->
            st = gone[FROM(lane)];
            if
            :: st ->
                has_message(FROM(lane));
                if :: st :: else -> state[lane] = GONE; moved = 1 fi
            :: else
            fi
        fi;
        if
        :: st ->
            take(FROM(lane), m);
            moved = 1;
            if :: ENDS(m) -> state[lane] = ENDED :: else fi;
            m = 0
        :: else
        fi
    :: else
    fi
}

#if LANES == 2
#define clear_held() rows[0] = 0; rows[1] = 0; then[0] = 0; then[1] = 0
#define ONE_IS_OPEN (state[0] == OPEN || state[1] == OPEN)
#define FIRST_OPEN (state[0] == OPEN -> 0 : 1)
#else
#define clear_held() rows[0] = 0; rows[1] = 0; rows[2] = 0; then[0] = 0; then[1] = 0; then[2] = 0
#define ONE_IS_OPEN (state[0] == OPEN || state[1] == OPEN || state[2] == OPEN)
#define FIRST_OPEN (state[0] == OPEN -> 0 : (state[1] == OPEN -> 1 : 2))
#endif

proctype Gatherer() {
    LOCALS
    bit ok, inside, moved;
    byte m, first, y, height, lane;
    byte state[LANES], rows[LANES], then[LANES];
#ifdef DRAINS
    goto drain;
#endif
next: /* await_lanes, await_row */
    ok = 1;
    if
    :: inside && y < height ->
        fill(y % LANES);
        if
#ifdef M_AWAITS_EACH_LANE_AT_A_ROW
        :: ok -> fill_each()
#else
        :: ok && (rows[y % LANES] > 1 || rows[y % LANES] == 1 && then[y % LANES] != 0) -> fill_each()
#endif
        :: else
        fi
    :: else -> fill_each()
    fi;
    if :: !ok -> goto break_off :: else fi;
    /* put_together */
    if
    :: inside && y < height -> /* take_rows */
        ok = (rows[y % LANES] > 0);
        first = ROW;
        do
        :: y < height && rows[y % LANES] > 0 ->
            d_step { rows[y % LANES]--; y++ }
        :: else -> break
        od
    :: else ->
        first = then[0];
        ok = (rows[0] == 0 && (inside -> first == IEND : (first == SEND || IS_HEAD(first))));
        lane = 0;
        do
        :: !ok || lane == LANES -> break
        :: else -> ok = (rows[lane] == 0 && then[lane] == first); then[lane] = 0; lane++
        od;
        lane = 0
    fi;
    if :: !ok -> goto break_off :: else fi;
    if
    :: IS_HEAD(first) -> inside = 1; y = 0; height = HEIGHT(first)
    :: first == IEND -> inside = 0; y = 0; height = 0
    :: else
    fi;
#ifndef BARE
    send(LAST, first, 0, ok);
    if :: !ok -> goto drain :: else fi;
#else
#ifdef TAKER_GOES
    if :: goto drain :: skip fi;
#endif
#endif
    if :: first == SEND -> goto done :: else -> first = 0; goto next fi;
break_off:
#ifndef BARE
    send(LAST, STOP, 0, ok);
#endif
drain: /* drain_all */
    atomic { ok = 0; inside = 0; first = 0; y = 0; height = 0; lane = 0; clear_held() };
#ifdef M_NO_DRAIN_BY_GATHERER
    goto done;
#endif
#ifdef M_DRAINS_ONE_BY_ONE
    do
    :: lane == LANES -> goto done
    :: else ->
        m = (state[lane] == OPEN -> ROW : STOP);
        drain_after(FROM(lane), m, ok);
        lane++
    od;
#endif
    do
    :: moved = 0;
        do
        :: lane == LANES -> break
        :: else -> STEP { drain_lane(lane) }; lane++
        od;
        lane = 0;
        if
        :: !ONE_IS_OPEN -> break
        :: ONE_IS_OPEN && moved
        :: ONE_IS_OPEN && !moved ->
#ifdef M_SLEEPS_AT_THE_FIRST_OPEN_LANE
            park(RP(FROM(FIRST_OPEN)))
#else
            STEP { sleep_at_sender(LAST) }
#endif
        fi
    od;
done:
    skip
}
