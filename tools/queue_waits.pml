/* How putters and the taker wait at the queue of lanes, for the model checker Spin, which goes through every order of their steps (tools/try_waits).

   It follows push_or_closed, take, pop, close and their wake-ups in crates/lane_queue/src/lanes.rt and taker.rt, and the kit's event counts. Each atomic
   operation there is a step here; a push, a pop and a look at whether the queue is full are one each. Items have no content, and lanes no last item. The
   taker stops for good once it has taken TAKES items.

   Once nothing moves any more, no putter sleeps at a queue that has room or is closed, and the taker doesn't sleep at an item. */
#ifndef PUTTERS
#define PUTTERS 2    /* 3 at the most */
#endif
#ifndef ITEMS
#define ITEMS 2      /* of each putter */
#endif
#ifndef TAKES
#define TAKES 2
#endif
#ifndef ROOM
#define ROOM 2
#endif
#ifndef CLOSES
#define CLOSES 0     /* whether the queue is closed, in any moment */
#endif

byte held;
bool closed;

/* The event count `room`. Whoever waits asks of its epoch only whether it is still the one of his key. */
byte room_waiters;
bool room_was_told[3];
bool putter_sleeps[3];
bool putters_at_rest;

/* The event count `items`. */
byte items_waiters;
bool items_was_told;
bool taker_sleeps;
bool taker_at_rest;

/* A new epoch: the key of none who waits is that of it. */
inline tell_room() { d_step { room_was_told[0] = true; room_was_told[1] = true; room_was_told[2] = true } }

/* The system wakes any one of those that sleep. */
inline notify_one_putter() {
    if
    :: room_waiters == 0
    :: else ->
        tell_room();
        atomic {
            if
            :: putter_sleeps[0] -> putter_sleeps[0] = false
            :: putter_sleeps[1] -> putter_sleeps[1] = false
            :: putter_sleeps[2] -> putter_sleeps[2] = false
            :: else
            fi
        }
    fi
}

inline notify_all_putters() {
    if
    :: room_waiters == 0
    :: else ->
        tell_room();
        d_step { putter_sleeps[0] = false; putter_sleeps[1] = false; putter_sleeps[2] = false }
    fi
}

inline notify_taker() {
    if
    :: items_waiters == 0
    :: else ->
        items_was_told = true;
        taker_sleeps = false
    fi
}

/* take_down looks at the flag, and then takes it down and looks what it was. */
inline take_down(flag) {
    if
    :: !flag
    :: else -> d_step { was_set = flag; flag = false }
    fi
}

inline wake_putter() {
    take_down(putters_at_rest);
    if
    :: was_set -> was_set = false; notify_one_putter()
    :: else
    fi
}

inline wake_taker() {
    take_down(taker_at_rest);
    if
    :: was_set -> was_set = false; notify_taker()
    :: else
    fi
}

/* Puts ITEMS items. Of each, it tries some times and then announces a sleep before each try. */
proctype Putter(byte me) {
    byte left = ITEMS;
    bool announced, pushed, was_set;
    do
    :: left == 0 -> break
    :: else ->
        announced = false;
        do
        :: true ->
            if
            :: !announced
            :: announced = true
            fi;
            if
            :: announced ->
                room_waiters++;
                room_was_told[me] = false;
                putters_at_rest = true
            :: else
            fi;
            if
            :: closed -> goto gone
            :: else
            fi;
            d_step { pushed = (held < ROOM); held = (pushed -> held + 1 : held) };
            if
            :: pushed ->
                wake_taker();
#ifndef WITHOUT_WAKE_NEXT
                if
                :: announced && held < ROOM -> wake_putter()
                :: else
                fi;
#endif
                break
            :: !pushed && announced ->
                d_step { putter_sleeps[me] = !room_was_told[me] };
end_asleep:     !putter_sleeps[me];
                room_waiters--
            :: else
            fi
        od;
        room_waiters = (announced -> room_waiters - 1 : room_waiters);
        left--
    od;
    goto done;
gone:
    room_waiters = (announced -> room_waiters - 1 : room_waiters);
done:
    skip
}

/* Takes TAKES items, and tries and sleeps likewise. */
proctype Taker() {
    byte left = TAKES;
    bool announced, popped, was_set;
    do
    :: left == 0 -> break
    :: else ->
        announced = false;
        do
        :: true ->
            if
            :: !announced
            :: announced = true
            fi;
            if
            :: announced ->
                items_waiters++;
                items_was_told = false;
                taker_at_rest = true
            :: else
            fi;
            d_step { popped = (held > 0); held = (popped -> held - 1 : held) };
            if
            :: popped -> wake_putter(); break
            :: !popped && announced ->
                d_step { taker_sleeps = !items_was_told };
end_asleep:     !taker_sleeps;
                items_waiters--
            :: else
            fi
        od;
        items_waiters = (announced -> items_waiters - 1 : items_waiters);
        left--
    od
}

proctype Closer() {
    closed = true;
    notify_all_putters()
}

init {
    byte next = 0;
    atomic {
        do
        :: next < PUTTERS -> run Putter(next); next++
        :: else -> break
        od;
        run Taker();
        if
        :: CLOSES -> run Closer()
        :: else
        fi
    };
    timeout;
    assert(!(putter_sleeps[0] || putter_sleeps[1] || putter_sleeps[2]) || (held == ROOM && !closed));
    assert(!taker_sleeps || held == 0)
}
