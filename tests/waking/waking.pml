/* How workers wait and wake: the two locks, the two conditions and what they guard, statement by statement
   as crates/kpn_monitor and crates/kpn_run have them. An inline (or a proctype) is the function that the
   comment before it names; tests/waking_sources compares both. tests/interleavings runs it with Spin.

   The machine is abstract: how many processes are ready, out and parked. A body returns, or waits for
   another body's call, or never comes back; what a commit does is any of what its contract allows. Some
   lines are long, since each changed model (wrong/) turns one line. */

#ifndef ROUNDS
#define ROUNDS 2        /* threads in work_in_rounds, as the workers of a run */
#endif
#ifndef TAKERS
#define TAKERS 0        /* threads in work, which wait in take */
#endif
#ifndef PROCESSES
#define PROCESSES 3
#endif
#ifndef LOST
#define LOST 0          /* so many threads, at most, never come back from a call */
#endif
#ifndef PASS
#define PASS 0          /* 0: no time limit ever passes, 1: each may, at any moment, 2: each does */
#endif
#ifndef SPURIOUS
#define SPURIOUS 0      /* 1: a condition may wake for no reason */
#endif
#ifndef MEET
#define MEET 0          /* 1: two of the processes wait in each call for a call of the other */
#endif
#ifndef LEAVING
#define LEAVING 0       /* 1: a thread in `work` may leave after a commit, as one of a crew may */
#endif
#ifndef STOPS
#define STOPS 0         /* 1: the workers of a run are told to stop, at any moment */
#endif
#ifndef PROMPT
#define PROMPT 0        /* 1: workers of a run may ask bodies in place, under the lock */
#endif
#ifdef COARSE           /* what a thread does under a lock is one step */
#define HOLDING atomic
#else                   /* so is each statement: a lock, what one call does under it, an unlock */
#define HOLDING
#endif

#define WORKERS (ROUNDS + TAKERS)
#define MOST 4

#define FREE 0

/* where a thread is: at work, waiting for `changed` or for `roused`, there with a time limit, in a call
   that never returns, or gone */
#define AWAKE   0
#define CHANGED 1
#define ROUSED  2
#define TIMED   3
#define IN_CALL 4
#define LEFT    5

#define SPARE 0
#define IDLE  1

#define NOTHING 0
#define TASKS   1
#define OVER    2

#define ALL 255

byte at[MOST];
byte state, resters;                        /* the locks: free, or of which thread */
byte ready, out, parked; bit ended;         /* the machine */
byte waiting;                               /* Guarded */
byte share, keep, kept;                     /* in one exchange; else 0 */
byte known, resting, looking_out; bit over; /* Resters */
byte awake;                                 /* Monitor::awake */
byte lost;                                  /* threads that never come back */
#if STOPS
bit stopped;                                /* the signal */
#else
#define stopped 0
#endif
#ifdef TAKEN
bit took;                                   /* a task was taken, and is not called yet */
#endif
#if PASS == 2
bit news[MOST];                             /* an answer was committed since this lookout's last look */
#endif
bit sleeps_in_take, sleeps_at_rest;
#if MEET
byte meeting, meeters; bit passed_over;     /* in a call that waits; ready ones; an other was taken before */
bit at_meeting[MOST];
#define has_ready (ready + meeters > 0)
#define ready_all (ready + meeters)
#else
#define has_ready (ready > 0)
#define ready_all ready
#endif

/* No thread can go on by itself. A thread that waits with a time limit can, where limits pass. */
#if PASS == 2
#define waits(j) (at[j] == CHANGED || at[j] == ROUSED)
#else
#define waits(j) (at[j] == CHANGED || at[j] == ROUSED || at[j] == TIMED)
#endif
#define stands(j) (at[j] == LEFT || at[j] == IN_CALL || waits(j))
#define none_awake (stands(0) && stands(1) && stands(2) && stands(3))
#define some_in_take (at[0] == CHANGED || at[1] == CHANGED || at[2] == CHANGED || at[3] == CHANGED)
#define rests(j) (waits(j) && at[j] != CHANGED)
#define some_at_rest (rests(0) || rests(1) || rests(2) || rests(3))
#define is_gone(j) (at[j] == LEFT || at[j] == IN_CALL)
#define all_gone (is_gone(0) && is_gone(1) && is_gone(2) && is_gone(3))

/* The property of states: when the last thread that was awake begins to wait, or leaves, no process is
   ready and no end stands. With threads that never come back resting ones need their time limits. */
inline look_round() {
    sleeps_in_take = none_awake && some_in_take && (has_ready || ended);
    assert(sleeps_in_take == 0);
#if LOST == 0 || PASS == 2
    sleeps_at_rest = none_awake && some_at_rest && (has_ready || ended);
    assert(sleeps_at_rest == 0);
#endif
}

/* The locks and the conditions of std. */

#define lock(m)     atomic { m == FREE -> m = i + 1 }
#define try_lock(m) atomic { m == FREE -> m = i + 1 }
#define unlock(m)   m = FREE
#define falls(m)    m = FREE   /* the guard goes out of scope */

inline wait(condition, m) {
    atomic { m = FREE; at[i] = condition; look_round() };
    at[i] == AWAKE;
    lock(m)
}

inline wait_timeout(condition, m) {
    atomic { m = FREE; at[i] = TIMED; look_round() };
    at[i] == AWAKE;
    lock(m)
}

/* wakes a thread whose time limit passes, or for no reason */
proctype weather(byte i) {
end:
    do
    :: atomic { PASS > 0 && at[i] == TIMED -> at[i] = AWAKE }
    :: atomic { SPURIOUS && (at[i] == CHANGED || at[i] == ROUSED || at[i] == TIMED) -> at[i] = AWAKE }
    od
}

#define is_at(j, condition) (at[j] == condition || (condition == ROUSED && at[j] == TIMED))

inline notify_one(condition) {
    atomic {
        if
        :: is_at(0, condition) -> at[0] = AWAKE
        :: is_at(1, condition) -> at[1] = AWAKE
        :: is_at(2, condition) -> at[2] = AWAKE
        :: is_at(3, condition) -> at[3] = AWAKE
        :: !is_at(0, condition) && !is_at(1, condition) && !is_at(2, condition) && !is_at(3, condition)
        fi
    }
}

inline notify_at(j, condition) {
    if :: is_at(j, condition) -> at[j] = AWAKE :: else fi
}

inline notify_all(condition) {
    d_step {
        notify_at(0, condition);
        notify_at(1, condition);
        notify_at(2, condition);
        notify_at(3, condition)
    }
}

/* The machine. */

inline machine_take() {
#if MEET
    if
    :: ready > 0 && !(passed_over && meeters > 0) -> ready = ready - 1; passed_over = (meeters > 0); taken = TASKS
    :: meeters > 0 -> meeters = meeters - 1; passed_over = 0; meets = 1; taken = TASKS
    :: !has_ready -> taken = NOTHING
    fi;
#else
    if
    :: ready > 0 -> ready = ready - 1; taken = TASKS
    :: else -> taken = NOTHING
    fi;
#endif
    if
    :: taken == TASKS ->
        out = out + 1;
#ifdef TAKEN
        took = 1
#endif
    :: else
    fi
}

/* The answer's process is ready again, parked, or has stopped; what that lets go on is ready too; if
   nothing is ready or out, the run ends or a channel grows; and it may end at any time, by its budget or
   for want of memory. */
inline machine_commit() {
    out = out - 1;
    if
    :: ended -> ready = ready + 1
    :: else ->
        if
#if MEET
        :: meets -> meeters = meeters + 1; meets = 0
        :: !meets -> ready = ready + 1
        :: !meets -> parked = parked + 1
        :: !meets
#else
        :: ready = ready + 1
        :: parked = parked + 1
        :: true
#endif
        fi;
        if
        :: true
        :: parked > 0 -> parked = parked - 1; ready = ready + 1
        :: parked > 1 -> parked = parked - 2; ready = ready + 2
        fi;
        if
        :: has_ready || out > 0
        :: !has_ready && out == 0 && parked > 0 -> parked = parked - 1; ready = ready + 1
        :: ended = 1
        fi
    fi;
#if PASS == 2
    news[0] = 1; news[1] = 1; news[2] = 1; news[3] = 1
#endif
}

/* guarded.rt: Guarded::take */
inline guarded_take() {
    if
    :: ended -> taken = OVER
    :: else -> machine_take()
    fi
}

/* Places::stay: the deed is done and lets one that was parked go on, or nobody; the process stays out. */
inline machine_commit_on() {
    if
    :: true
    :: parked > 0 -> parked = parked - 1; ready = ready + 1
    fi;
#if PASS == 2
    news[0] = 1; news[1] = 1; news[2] = 1; news[3] = 1
#endif
}

/* Hand::give: each answer of the hand is committed; a process that can go on may go out again, if fewer than
   `keep` did. If the run has ended none of these stays out. */
inline give() {
    do
    :: hand > 0 ->
        if
        :: kept < keep && !ended -> machine_commit_on(); kept = kept + 1
        :: machine_commit()
        fi;
        hand = hand - 1
    :: else -> break
    od;
    if
    :: ended -> out = out - kept; ready = ready + kept
    :: else -> hand = kept
    fi;
    keep = 0;
    kept = 0
}

/* Guarded::deal_more: more tasks are taken, while there are any. */
inline deal_more() {
    do
    :: hand < wanted && has_ready -> machine_take(); hand = hand + 1
    :: else -> break
    od
}

/* guarded.rt: Guarded::meet_end */
inline guarded_meet_end() {
    if
    :: ended -> taken = OVER
    :: else -> taken = NOTHING
    fi
}

/* guarded.rt: Guarded::deal */
inline deal() {
    if
    :: most == 0 -> guarded_meet_end()
    :: else ->
        if
        :: hand > 0 -> deal_more(); taken = TASKS
        :: else ->
            guarded_take();
            if
            :: taken == TASKS -> hand = 1; deal_more(); taken = TASKS
            :: else
            fi
        fi
    fi
}

#define less(a, b) (a > b -> a - b : 0)

/* guarded.rt: Guarded::exchange */
inline guarded_exchange() {
    atomic { share = ready_all + hand; hand_wanted(share); share = 0; keep = (most > 0 -> less(wanted, ready_all) : 0); give(); deal(); wanted = 0 }
}

/* Guarded::ask_in_place: one answer or two are taken, while a process is ready and the run goes on; if none
   is, it meets an end. */
inline guarded_ask_in_place() {
    atomic {
        if
        :: has_ready && !ended ->
            machine_take(); machine_commit();
            if
            :: has_ready && !ended -> machine_take(); machine_commit()
            :: true
            fi;
            taken = TASKS
        :: else -> guarded_meet_end()
        fi
    }
}

/* guarded.rt: Guarded::has_work */
#define has_work (has_ready || ended)

#define least(a, b) (a < b -> a : b)

/* guarded.rt: Guarded::wakes */
inline guarded_wakes() {
    atomic {
        if
        :: waiting == 0 -> wakes = 0
        :: else ->
            if
            :: ended -> wakes = ALL
            :: else -> wakes = least(ready_all, waiting)
            fi
        fi
    }
}

/* A hand's share: any number up to the greatest share, for `most` and the ways to share are not modelled.
   Two bodies that wait for each other must not be in one hand, and `wanted` is 1 with so few processes. */
inline hand_wanted(all) {
    wanted = 1;
    do
    :: wanted < all / (all > ROUNDS -> (seen < ROUNDS -> seen : ROUNDS) : ROUNDS) -> wanted = wanted + 1
    :: break
    od;
    assert(!MEET || wanted == 1)
}

/* hand.rt: Sharer::see_awake */
inline see_awake() {
    seen = (awake == 0 -> ROUNDS : (awake < 2 -> 2 : awake))
}

/* resting.rt: Resters::begin */
inline begin(is_new, why) {
    d_step {
        if :: is_new -> known = known + 1 :: else fi;
        is_last = (resting + 1 >= known);
        if
        :: over || (is_last && why == SPARE) -> rested = 0
        :: else -> resting = resting + 1; rested = 1
        fi;
        is_last = 0
    }
}

/* resting.rt: Resters::want_lookout */
#define want_lookout(why) (looking_out <= why && !over)

/* resting.rt: Resters::begin_looking_out */
inline begin_looking_out() { looking_out = looking_out + 1 }

/* resting.rt: Resters::end_looking_out */
inline end_looking_out() { looking_out = looking_out - 1 }

/* resting.rt: Resters::end */
inline end() {
    d_step { resting = resting - 1; hands_over = (resting > 0 && want_lookout(SPARE)) }
}

/* resting.rt: Resters::note_end */
inline note_end() {
    d_step { over = 1; some = (resting > 0) }
}

/* monitor.rt: Monitor::lock */
inline monitor_lock() {
    if
    :: try_lock(state)
    :: true -> lock(state)
    fi
}

/* monitor.rt: Monitor::take */
inline monitor_take() {
    HOLDING {
        lock(state);
        do
        :: true ->
            atomic { guarded_take() };
            if
            :: taken != NOTHING ->
                unlock(state);
                if :: taken == OVER -> rouse()  /* of take */ :: else fi;
                break
            :: else
            fi;
            waiting = waiting + 1; wait(CHANGED, state);
            waiting = waiting - 1
        od
    }
}

/* monitor.rt: Monitor::commit */
inline monitor_commit() {
    HOLDING {
        lock(state);
        atomic { machine_commit() }; guarded_wakes();
        unlock(state)
    };
    wake()
}

/* monitor.rt: Monitor::exchange */
inline monitor_exchange() {
    HOLDING {
        see_awake();
        monitor_lock();
        guarded_exchange();
        guarded_wakes();
        seen = 0;
        unlock(state)
    };
    wake();
    if
    :: taken == OVER -> rouse()
    :: else
    fi
}

/* monitor.rt: Monitor::ask_in_place */
inline monitor_ask_in_place() {
    HOLDING {
        if
        :: try_lock(state)
        :: true -> monitor_lock()
        fi;
        guarded_ask_in_place();
        guarded_wakes();
        unlock(state)
    };
    wake();
    if
    :: taken == OVER -> rouse()  /* of ask_in_place */
    :: else
    fi
}

/* monitor.rt: Monitor::rest */
inline rest() {
    HOLDING {
        lock(resters); if :: why == IDLE -> monitor_lock(); rested = !has_work; falls(state) :: else -> rested = 1 fi;
        if
        :: !rested -> falls(resters)
        :: else ->
            begin(is_new, why);
            is_new = 0;
            awake = known - resting;
            if
            :: !rested -> falls(resters)
            :: else ->
                if
                :: !want_lookout(why) -> wait(ROUSED, resters)
                :: else
                fi;
                if
                :: want_lookout(why) -> begin_looking_out(); look_out(); end_looking_out()
                :: else
                fi;
                end();
                awake = known - resting;
                unlock(resters)
            fi
        fi
    };
    if
    :: hands_over -> hands_over = 0; notify_one(ROUSED)
    :: else
    fi;
    why = SPARE;
    rested = 0
}

/* Sighting::shows_want, which knows the time: nobody is wanted if there is nothing to do, and else any answer
   may be given. Where each time limit passes the answer is yes if no answer was committed since the last look. */
inline shows_want() {
    if
    :: is_wanted
#if PASS == 2
    :: is_wanted && news[i] -> is_wanted = 0
    :: !is_wanted
    fi;
    news[i] = 0
#else
    :: is_wanted = 0
    fi
#endif
}
#define is_same true   /* or not: what follows from it is not modelled */

/* monitor.rt: Monitor::look_out */
inline look_out() {
    look_for_work();
    do
    :: true ->
        is_wanted = 0;
        wait_timeout(ROUSED, resters);
        look_for_work();
        shows_want();
        if
        :: is_same ->
            monitor_lock();
            skip; /* `held_up_at` bears on how the ready processes are shared out, which is left open */
            falls(state)
        :: true
        fi;
        if :: is_wanted || over -> is_wanted = 0; break :: else fi
    od
}

/* monitor.rt: Monitor::look_for_work */
inline look_for_work() {
    monitor_lock();
    is_wanted = has_work;
    falls(state)
}

/* monitor.rt: Monitor::rouse */
inline rouse() {
    HOLDING { lock(resters); note_end(); unlock(resters) };
    if
    :: some -> some = 0; notify_all(ROUSED)
    :: else
    fi
}

/* monitor.rt: Monitor::wake */
inline wake() {
    if
    :: wakes == ALL -> wakes = 0; notify_all(CHANGED)
    :: else ->
        do
        :: wakes > 0 -> wakes = wakes - 1; notify_one(CHANGED)
        :: else -> break
        od
    fi
}

/* A body's call. */
inline call() {
#ifdef TAKEN
    took = 0;
#endif
    if
#if MEET
    :: meets -> meet()
    :: !meets
#else
    :: true
#endif
    :: atomic { lost < LOST -> lost = lost + 1; at[i] = IN_CALL; look_round() }; false
    fi
}

#if MEET
inline meet() {
    atomic {
        if
        :: meeting > 0 -> meeting = 0; at_meeting[0] = 0; at_meeting[1] = 0; at_meeting[2] = 0; at_meeting[3] = 0
        :: else -> meeting = 1; at_meeting[i] = 1
        fi
    };
    !at_meeting[i]
}
#endif

/* worker.rt: call_all */
inline call_all() {
    called = 0;
    do
    :: called < hand -> call(); called = called + 1
    :: else -> break
    od
}

/* Pace::called, which knows the time: a worker is spare only after calls, and so not twice without one. */
inline pace_called() {
    if
    :: most = 1
    :: called > 0 -> most = 0
    fi;
    called = 0
}

/* worker.rt: ask_in_place */
inline ask_in_place() {
    do
    :: true ->
        monitor_ask_in_place();
        stops = stopped;
        if
        :: taken == TASKS && !stops -> taken = 0  /* while that is quicker */
        :: taken == TASKS -> taken = 0; break
        :: taken == NOTHING -> break
        :: taken == OVER -> break
        fi
    od
}

/* worker.rt: go_on */
inline go_on() { take_turn() }

/* Pace::exchanged is part of it: with tasks it goes on; without, one that is spare rests, and any other
   rests or pauses. */
/* worker.rt: take_turn */
inline take_turn() {
    if
    :: taken == TASKS -> taken = 0; most = 0
    :: taken == NOTHING && most > 0 -> most = 0
    :: taken == NOTHING -> why = (most > 0 -> IDLE : SPARE); most = 0; rest()
    fi
}

/* worker.rt: work_in_rounds */
proctype in_rounds(byte i) {
    byte hand, called, wanted, seen, taken, wakes, most;
    bit why, is_new, is_last, rested, hands_over, some, is_wanted, stops;
#if MEET
    bit meets;
#endif
    is_new = 1;
    rest();
    do
    :: true ->
        if
        :: PROMPT && hand == 0 -> ask_in_place()
        :: true
        fi;
        if :: taken == OVER -> break :: else fi;
        stops = stopped;
        call_all();
        pace_called();
        if :: stops -> most = 0 :: else fi;
        monitor_exchange();
        if
        :: taken == OVER -> break
        :: taken == NOTHING && stops -> rouse(); break  /* of one that stops */
        :: else -> go_on()
        fi
    od;
    atomic { at[i] = LEFT; look_round() }
}

/* own_thread.rt: answer */
inline answer() {
    call(); monitor_commit()
}

/* own_thread.rt: work_with */
proctype in_work(byte i) {
    byte taken, wakes;
    bit some;
#if MEET
    bit meets;
#endif
    do
    :: true ->
        monitor_take();
        if
        :: taken == OVER -> break
        :: else -> taken = 0; answer()
        fi;
#if LEAVING
        if
        :: break
        :: true
        fi
#endif
    od;
    atomic { at[i] = LEFT; look_round() }
}

#if STOPS
/* an observer, or nobody */
proctype observer() {
end_observer:
    stopped = 1
}
#endif

init {
    byte n;
    atomic {
#if MEET
        meeters = 2;
        ready = PROCESSES - 2;
#else
        ready = PROCESSES;
#endif
        n = 0;
        do
        :: n < ROUNDS -> run in_rounds(n); run weather(n); n = n + 1
        :: n >= ROUNDS && n < WORKERS -> run in_work(n); run weather(n); n = n + 1
        :: n >= WORKERS && n < MOST -> at[n] = LEFT; n = n + 1
        :: n == MOST -> break
        od;
#if STOPS
        run observer()
#endif
    }
}

#ifdef ENDS     /* every thread that comes back from its calls leaves once an end stands, or once all are to stop */
ltl ends { [] ((ended || stopped) -> <> all_gone) }
#endif
#ifdef TAKEN    /* a ready process is taken, unless the run ends */
ltl taken { [] <> (!has_ready || ended || took) }
#endif
#ifdef MEETS    /* a body that waits for another meets it, unless the run ends */
ltl meets { [] <> (meeting == 0 || ended) }
#endif
