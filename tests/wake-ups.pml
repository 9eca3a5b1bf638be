/* Who waits for what when threads run a machine, and who rings whom: a model for spin (Promela) that tests/test-wake-ups plays.

   Workers carry harts, and a daemon purges and makes room. A machine is a set of the parameters below: the test plays some small ones. A step is one
   hold of the machine's locks, or one look at words that threads share; a word is written and rings are rung in one step where nothing is read between.
   The comment of a line names the function that it is; `FUNCTION: CALL` names a ring, a wait or what leads to one, as the sources have it: the test plays
   each machine without that line too. Left out are the pager's lock and the slots', the order in which the list asks for pages (any page may be asked
   for), translations and accessed bits. A try that made no room is one step with what a worker makes of it: in the sources a purge may come between the
   count of such tries and the rest, which then lasts until the turn is passed on. A process has two harts at most, and each hart one page, or two (TWO),
   or one for both harts (SHARED); its end rings for both, or for the first one (ONE), as for one of many more workers than a process has harts. */

/* The parameters: workers, processes, frames, slots; instructions of a hart. */
#ifndef WORKERS
#define WORKERS 2
#endif
#ifndef PROCESSES
#define PROCESSES 2
#endif
#ifndef FRAMES
#define FRAMES 1
#endif
#ifndef SLOTS
#define SLOTS 99
#endif
#ifndef LEFT0
#define LEFT0 1
#endif
#ifndef LEFT1
#define LEFT1 0
#endif
#ifndef LEFT2
#define LEFT2 1
#endif
#ifndef LEFT3
#define LEFT3 0
#endif
#ifndef LEFT4
#define LEFT4 1
#endif
#ifndef LEFT5
#define LEFT5 0
#endif
/* Instructions of a turn; tries of a process; tries before a rest; pages that come in for one hart; failed loads in a row; frames that are to be free:
   for none the daemon only purges. */
#ifndef SLICE
#define SLICE 1
#endif
#ifndef MOST_TRIES
#define MOST_TRIES 0
#endif
#ifndef FIRST_TRIES
#define FIRST_TRIES 99
#endif
#ifndef MOST_PAGES
#define MOST_PAGES 99
#endif
#ifndef MOST_FAULTS
#define MOST_FAULTS 2
#endif
#ifndef WANTED
#define WANTED 1
#endif
/* How many writes and loads may fail, and how many slices may find no memory, at any time. */
#ifndef FAILS
#define FAILS 0
#endif
#ifndef LOADS
#define LOADS 0
#endif
#ifndef KILLS
#define KILLS 0
#endif
/* Whether a hart's instruction ends its turn, is run again, starts the other hart, or ends the process; whether the gate holds a hart after its slice. */
#ifndef yields
#define yields(h) false
#endif
#ifndef stays
#define stays(h) false
#endif
#ifndef starts
#define starts(h) false
#endif
#ifndef exits
#define exits(h) false
#endif
#ifndef held
#define held(h) false
#endif
/* Whether each write of a page fails, and each load for a hart. */
#ifndef sticks
#define sticks(v) false
#endif
#ifndef is_unreadable
#define is_unreadable(h) false
#endif

/* With BOUND no hart waits while so many pages come in for others. STATUS: the gate wants a status line for each frame that comes free. OWED: a hart that is to
   try for its page once a frame has come free that nobody made room for. PROGRESS: no run goes on for ever. BELL: only the bell. */
#define HARTS (2 * PROCESSES)
#define DAEMON WORKERS
#define NONE 99
#define process(h) ((h) / 2)
#define other(h) ((h) ^ 1)
#define carrier(h) ((process(h) + (h) % 2) % WORKERS)
#ifdef TWO
#define PAGES (2 * HARTS)
#define page_of(h) (2 * (h) + left[h] % 2)
#define owner(v) ((v) / 4)
#else
#define PAGES HARTS
#define owner(v) ((v) / 2)
#ifdef SHARED
#define page_of(h) (2 * process(h))
#else
#define page_of(h) (h)
#endif
#endif

/* A page; LISTED is one whose load has failed, until it is withdrawn. */
#define ABSENT 0
#define LISTED 1
#define RESIDENT 2
#define LEAVING 3
/* What a hart waits for. */
#define NOTHING 0
#define PAGE 1
#define FRAME 2
/* Which harts a worker looks at: all, all once it has served some, those that wait for a frame, those for which the turn was lent. */
#define ALL 0
#define ROW 1
#define WAITING 2
#define LENT 3
#define serving (mode >= WAITING)
/* A thread's steps. */
mtype = { READ, BEGIN, LOOK, BRING, TRY, UNDO, TAKE, TAKE_AGAIN, ROOM, PURGED, SWEEP, COLLECT, SAVE, STUCK, KEPT, WATCHED, RUN, UNPRESS, PUBLISH, RAN,
    TURN_ENDS, OVER, LET, KILL, TELL_END, COUNT_END, PASS, GIVE_UP, LOOK_BEHIND, RESTS, ASLEEP, CALLED, DONE, FINISHED };

#define bell(b) (1 << (b))
#define EACH (bell(WORKERS + 1) - 1)
#define is_rung(b) ((rung & bell(b)) != 0)
#define is_heard(w) ((heard & bell(w)) != 0)

byte rung, heard = EACH;                       /* Bell: whether it rang since a round began, and since rings() of heed_stuck */
byte free = FRAMES, slots = SLOTS, page[PAGES], left[HARTS], tries[PROCESSES];
bool slot[PAGES], over[PROCESSES], locked[PROCESSES], reclaimer;
byte fails = FAILS, loads = LOADS, kills = KILLS;
byte holder, last, lent_for, pages, failed;    /* ReclaimTurn */
bool given, resting;
byte pressed[PROCESSES], watcher[PROCESSES], stuck_count[PROCESSES], ended;    /* Signs */
bool owes_turn[HARTS];                         /* whether this hart has yielded, and the other one has had no turn since */
bool owes[HARTS];                              /* whether a worker that waited for an instruction before this hart's has not been rung */
bool unpurged[PROCESSES], live[HARTS], yielded[HARTS], before[HARTS];    /* Harts: before is that the other one's last turn was before this one's */
byte wait[HARTS];
bool hungry[WORKERS], offered[WORKERS], freed;    /* Station */
bool lack[HARTS], tried[HARTS], told[HARTS], waits[HARTS];    /* Seat, Lack: waits is Seat::hungry */
byte faults[HARTS], turn_left[HARTS];
#ifdef BOUND
byte waited[HARTS];
#endif
#ifdef OWED
bool owed;                                     /* whether frames have come free while the hart OWED waits for one, and it has not tried since */
#endif
#ifdef STATUS
bool owes_status;                              /* whether a frame has come free for which the gate was not called */
#endif

/* Where progress is looked at, who made room tries before others take the frame: these may be quicker, but not each time. */
#ifdef PROGRESS
byte maker = NONE;
#define set_maker(w) maker = w
#define may_take(w) (maker == NONE || maker == w)
#else
#define set_maker(w) skip
#define may_take(w) true
#endif
#define has_turn(w) (holder == (w) + 1)
#define harts_may_run(h) (live[h] && (!yielded[h] || !live[other(h)] || !before[h]))
#define signs_may_run(h) (pressed[process(h)] == 0 -> harts_may_run(h) : pressed[process(h)] == (h) + 1 && live[h])
#define may_run(h) (!resting && signs_may_run(h))
#define may_go_on(h) (signs_may_run(h) && wait[h] == NOTHING)
#define waits_to_run(h) (live[h] && (yielded[h] || wait[h] == PAGE))
#define waits_elsewhere(h) (live[h] && wait[h] == FRAME && carrier(h) != w)
#define carrier_if(h, wish) (wish -> bell(carrier(h)) : 0)
#define carriers_of_live(p) (carrier_if(2 * (p), live[2 * (p)]) | carrier_if(2 * (p) + 1, live[2 * (p) + 1]))
#define carriers_of_waiting(p) (carrier_if(2 * (p), waits_to_run(2 * (p))) | carrier_if(2 * (p) + 1, waits_to_run(2 * (p) + 1)))
#ifdef ONE
#define carriers(p) bell(carrier(2 * (p)))
#else
#define carriers(p) (bell(carrier(2 * (p))) | bell(carrier(2 * (p) + 1)))
#endif
#define empty_seat(h) lack[h] = false; tried[h] = false; told[h] = false; waits[h] = false; faults[h] = 0; turn_left[h] = 0
#if WORKERS == 3
#define set_last(w) last = w
#else
#define set_last(w) skip
#endif
#if WORKERS == 1
#define others_wait(w) false
#endif
#if WORKERS == 2
#define others_wait(w) hungry[1 - w]
#endif
#if WORKERS == 3
#define others_wait(w) (hungry[(w + 1) % 3] || hungry[(w + 2) % 3])
#endif
#define is_spent(p) (MOST_TRIES > 0 && tries[p] >= MOST_TRIES)
#define may_leave(v) (page[v] == RESIDENT && !locked[owner(v)])
#define stays_out(v) (page[v] != RESIDENT)
#if PAGES == 2
#define none_resident (stays_out(0) && stays_out(1))
#endif
#if PAGES == 4
#define none_resident (stays_out(0) && stays_out(1) && stays_out(2) && stays_out(3))
#endif
#if PAGES == 6
#define none_resident (stays_out(0) && stays_out(1) && stays_out(2) && stays_out(3) && stays_out(4) && stays_out(5))
#endif
#if PAGES == 12
#define none_resident (stays_out(0) && stays_out(1) && stays_out(2) && stays_out(3) && stays_out(4) && stays_out(5) && stays_out(6) && stays_out(7) && \
    stays_out(8) && stays_out(9) && stays_out(10) && stays_out(11))
#endif
#if PAGES == 8
#define none_resident (stays_out(0) && stays_out(1) && stays_out(2) && stays_out(3) && stays_out(4) && stays_out(5) && stays_out(6) && stays_out(7))
#endif


inline ring(those) {                           /* ring */
    rung = rung | (those); heard = heard | (those)
}

inline sleep() {                               /* sleep */
    step = ASLEEP;                             /* sleep: .park_timeout */
}

inline wait_for_ring() {                       /* wait_for_ring */
    sleep();                                   /* wait_for_ring: sleep */
}

inline nap() {                                 /* nap */
    sleep();                                   /* nap: sleep */
}

inline wait_for_call() {                       /* wait_for_call */
    nap();                                     /* wait_for_call: self.nap */
}

inline ring_worker(w) {                        /* ring_worker */
    ring(bell(w));                             /* ring_worker: station.bell.ring */
}

inline ring_harts() {                          /* Signals::ring */
    ring(bells);                               /* ring: station.bell.ring */
    bells = 0
}

inline tell_harts(p) {                         /* tell_harts */
    bells = carriers_of_live(p);
    ring_harts();                              /* tell_harts: self.ring */
    bells = 0
}

inline tell_watcher(p) {                       /* tell_watcher */
    if
    :: watcher[p] != 0 ->
        ring_worker(watcher[p] - 1);           /* tell_watcher: self.ring_worker */
        watcher[p] = 0; owes[2 * p] = false; owes[2 * p + 1] = false
    :: else
    fi
}

inline tell_ran(p) {                           /* tell_ran */
    stuck_count[p] = 0;
    tell_watcher(p);                           /* tell_ran: self.tell_watcher */
}

inline tell_page(p) {                          /* tell_page */
    bells = carriers_of_waiting(p);
    ring_harts();                              /* tell_page: self.ring */
    bells = 0
}

inline tell_end(p) {                           /* tell_end, first half */
    step = TELL_END; ending = p
}

inline tell_if_ended(p) {                      /* tell */
    if
    :: ends ->
        ends = false;
        tell_end(p);                           /* tell: self.signals().tell_end */
    :: else
    fi
}

inline end_press(p) {                          /* Signals::end_press */
    pressed[p] = 0;
    tell_harts(p);                             /* end_press: self.tell_harts */
}

inline end_rest() {                            /* Signals::end_rest */
    if
    :: resting ->
        resting = false;
        tell_all_harts();                      /* end_rest: self.tell_harts */
    :: else
    fi
}

inline tell_all_harts() {                      /* tell_harts */
    bells = carriers_of_live(0);
#if PROCESSES > 1
    bells = bells | carriers_of_live(1);
#endif
#if PROCESSES > 2
    bells = bells | carriers_of_live(2);
#endif
    ring_harts()
}

inline loosen() {                              /* loosen */
    failed = 0;
    end_rest();                                /* loosen: self.end_rest */
}

inline offer_to(w) {                           /* offer */
    if
    :: frames_left > 0 && hungry[w] ->
        offered[w] = true;
        ring(bell(w));                         /* offer: station.bell.ring */
        frames_left--
    :: else
    fi
}

inline offer(count) {                          /* offer */
    frames_left = count;
    offer_to(0);
#if WORKERS > 1
    offer_to(1);
#endif
#if WORKERS > 2
    offer_to(2);
#endif
    frames_left = 0
}

inline find_next(w) {                          /* next_hungry */
    next = NONE;
#if WORKERS == 2
    if :: hungry[1 - w] -> next = 1 - w :: else fi
#endif
#if WORKERS == 3
    if
    :: (last + 1) % 3 != w && hungry[(last + 1) % 3] -> next = (last + 1) % 3
    :: else ->
        if
        :: (last + 2) % 3 != w && hungry[(last + 2) % 3] -> next = (last + 2) % 3
        :: else -> if :: last != w && hungry[last] -> next = last :: else fi
        fi
    fi
#endif
}

inline give(w) {                               /* ReclaimTurn::give */
    pages = 0; given = true; holder = w + 1
}

inline hand_to_next(w) {                       /* hand_to_next */
    find_next(w);
    if
    :: next != NONE ->
        give(next);
        ring_worker(next);                     /* hand_to_next: self.ring_worker */
        gives_up = false
    :: else
    fi
}

inline pass_turn() {                           /* Signals::pass_turn: goes on at `then` */
    step = PASS
}

inline give_turn_back() {                      /* ProcessLocks::pass_turn */
    pass_turn();                               /* pass_turn: self.signals().pass_turn */
}

inline lend_to(h) {
    if
    :: next == NONE && waits_elsewhere(h) -> next = carrier(h)
    :: else
    fi
}

inline lend_turn(p) {                          /* lend_turn */
    if
    :: has_turn(w) && lent_for == 0 ->
        lend_to(2 * p);
        lend_to(2 * p + 1)
    :: else
    fi;
    if
    :: next != NONE ->
        set_last(w);
        lent_for = p + 1;
        give(next);
        ring_worker(next);                     /* lend_turn: self.ring_worker */
        next = NONE;
        lent = true
    :: else
    fi
}

/* A late worker took the turn after a hart of its round had to wait. That hart is not tried again before the bell rings, as machine `kept` shows. */
inline take() {                                /* take, is_served */
    if :: holder == 0 -> holder = w + 1; given = false; pages = 0; is_late = hungers :: else fi;
    if
    :: !has_turn(w)
    :: has_turn(w) && pages >= MOST_PAGES && others_wait(w) ->
        hungry[w] = true;
        ring_worker(w);                        /* take_turn: signals.ring_worker */
        wait_for_frame()
    :: has_turn(w) && !(pages >= MOST_PAGES && others_wait(w)) ->
        assert(lent_for == 0 || given || serving);    /* a lent turn is for one process, once */
        step = ROOM
    fi
}

inline set_wait(h, what) {                     /* Signals::set_wait */
    wait[h] = what;
    tell_watcher(process(h));                  /* set_wait: self.tell_watcher */
}

inline wait_for_frame() {                      /* bring_in */
    told[h] = false; tried[h] = true; waits[h] = true; step = OVER;
    set_wait(h, FRAME)
}

inline try_again() {                           /* is_spent, bring_in */
    step = (is_spent(process(h)) -> KILL : TRY); then = OVER
}

inline count_turn(h) {                         /* Harts::end_turn */
    yielded[h] = yield; before[h] = yield; before[other(h)] = false
}

inline end_turn(h) {                           /* Signals::end_turn */
    count_turn(h);                             /* end_turn: harts.end_turn */
    if
    :: yield ->
        tell_watcher(process(h));              /* end_turn: self.tell_watcher */
    :: else
    fi;
    if
    :: waits_to_run(other(h)) && carrier(other(h)) != carrier(h) ->
        bells = bell(carrier(other(h)));
        ring_harts();                          /* end_turn: self.ring */
        bells = 0
    :: else
    fi
}

inline end_hart_turn(h) {                      /* ProcessLocks::end_turn */
    end_turn(h);                               /* end_turn: self.signals().end_turn */
}

inline end_harts(p) {                          /* kill */
    if :: !over[p] -> ends = true :: else fi;
    over[p] = true;
    live[2 * p] = false; live[2 * p + 1] = false;
    left[2 * p] = 0; left[2 * p + 1] = 0
}

inline count_try_of(p) {
    if :: MOST_TRIES > 0 && tries[p] < MOST_TRIES -> tries[p]++ :: else fi
}

inline purge(p) {                              /* take_end, purge */
    if
    :: unpurged[p] ->
        unpurged[p] = false;
        step = PURGED;
        at_page = 0;
        do
        :: at_page == PAGES -> break
        :: at_page < PAGES ->
            if :: owner(at_page) == p && page[at_page] == RESIDENT -> page[at_page] = ABSENT; free++ :: else fi;
            if :: owner(at_page) == p && slot[at_page] -> slot[at_page] = false; slots++ :: else fi;
            at_page++
        od;
        at_page = 0
    :: else
    fi
}

inline purge_each() {                          /* take_end, purge */
    purge(0);
#if PROCESSES > 1
    purge(1);
#endif
#if PROCESSES > 2
    purge(2);
#endif
    if :: step == PURGED -> found_free = free :: else fi
}

inline note_free() {                           /* note_free */
#ifdef STATUS
    if
    :: !freed ->
        freed = true;
        ring(bell(DAEMON));                    /* note_free: self.daemon.ring */
    :: else
    fi
#else
    skip
#endif
}

inline sweep() {                               /* find_victim, sweep */
    if
    :: may_leave(0) -> victim = 0
    :: may_leave(1) -> victim = 1
#if PAGES > 2
    :: may_leave(2) -> victim = 2
    :: may_leave(3) -> victim = 3
#endif
#if PAGES > 4
    :: may_leave(4) -> victim = 4
    :: may_leave(5) -> victim = 5
#endif
#if PAGES > 6
    :: may_leave(6) -> victim = 6
    :: may_leave(7) -> victim = 7
#endif
    :: none_resident
    fi;
    if :: victim != NONE -> page[victim] = LEAVING :: else fi
}

inline count_try(has_made_room) {              /* count_try */
    if
    :: w == DAEMON
    :: w != DAEMON && has_made_room -> failed = 0
    :: w != DAEMON && !has_made_room -> if :: FIRST_TRIES < 99 && failed <= FIRST_TRIES -> failed++ :: else fi
    fi
}

inline room_is_made() {                        /* make_room_once, make_room */
    if
    :: victim != NONE ->
        victim = NONE;
#ifdef STATUS
        owes_status = true;
#endif
        note_free();                           /* make_room_once: shared.locks().signals().note_free */
        count_try(true)
    :: else
    fi;
    if
    :: w == DAEMON -> again = true; step = DONE
    :: else ->
        reclaimer = false;
        set_maker(w);
        try_again();
        end_the_rest();                        /* make_room: locks.end_rest */
    fi
}

inline no_page_left() {                        /* a page has settled, and is resident again */
    page[victim] = RESIDENT;
    count_try_of(owner(victim));
    step = STUCK
}

inline page_left() {
    page[victim] = ABSENT; free++
}

inline end_the_rest() {                        /* ProcessLocks::end_rest */
    end_rest();                                /* end_rest: self.signals().end_rest */
}

inline heed_admission() {                      /* heed_admission */
    if
    :: few && holder == 0 ->
        ring(bell(DAEMON));                    /* heed_admission: self.locks.signals().daemon().ring */
    :: else
    fi;
    few = false
}

inline owe() {
#ifdef OWED
    if :: free > 0 && live[OWED] && wait[OWED] == FRAME && hungry[carrier(OWED)] -> owed = true :: else fi
#else
    skip
#endif
}

inline page_in(h) {                            /* page_in, and what bring_in makes of it */
#ifdef OWED
    if :: h == OWED -> owed = false :: else fi;
#endif
    if
    :: over[process(h)] -> empty_seat(h); step = OVER
    :: !over[process(h)] && page[page_of(h)] == RESIDENT -> page_is_in(h)
    :: !over[process(h)] && (page[page_of(h)] == LEAVING || page[page_of(h)] == LISTED) ->
        if
        :: told[h] -> tried[h] = true; waits[h] = false; step = OVER
        :: else ->
            told[h] = true;
            try_again();
            set_wait(h, PAGE)
        fi
    :: !over[process(h)] && page[page_of(h)] == ABSENT && free == 0 -> step = TAKE
    :: !over[process(h)] && page[page_of(h)] == ABSENT && free > 0 ->
        free--;
        count_try_of(process(h));
#ifdef BOUND
        looked_at = at; at = 0;
        do
        :: at == HARTS -> break
        :: at < HARTS ->
            if
            :: at != h && wait[at] == FRAME && live[at] -> waited[at]++; assert(waited[at] <= BOUND)
            :: at == h -> waited[at] = 0
            :: else
            fi;
            at++
        od;
        at = looked_at; looked_at = 0;
#endif
        few = free > 0 && free < WANTED;
        heed_admission();
        if
        :: !is_unreadable(h) -> page[page_of(h)] = RESIDENT; page_is_in(h)
        :: loads > 0 && !is_unreadable(h) -> loads--; page[page_of(h)] = LISTED; step = UNDO
        :: is_unreadable(h) -> page[page_of(h)] = LISTED; step = UNDO
        fi
    fi
}

inline page_is_in(h) {                         /* bring_in */
    if :: MOST_PAGES < 99 && has_turn(w) && pages < MOST_PAGES -> pages++ :: else fi;    /* count_page */
    lack[h] = false; told[h] = false; tried[h] = false; faults[h] = 0; waits[h] = false; wait[h] = NOTHING;
    step = (is_spent(process(h)) -> KILL : RUN); then = OVER
}

inline go(h) {                                 /* slice_of: instructions, up to the end of the turn or to a page that is absent */
    ran = true; tries[process(h)] = 0; step = RAN; is_last = true;
    owes[h] = watcher[process(h)] != 0;
    assert(!owes_turn[h] || !live[other(h)] || pressed[process(h)] != 0);    /* it has yielded to the other one */
    do
    :: true ->
        turn_left[h]--;
        if :: stays(h) :: else -> left[h]-- fi;
        if :: starts(h) && left[other(h)] > 0 && !live[other(h)] -> bears = true :: else fi;
        if
        :: left[h] == 0 -> dies = true; break
        :: left[h] > 0 && yields(h) -> yield = true; break
        :: left[h] > 0 && !yields(h) && turn_left[h] == 0 -> break
        :: left[h] > 0 && !yields(h) && turn_left[h] > 0 && page[page_of(h)] != RESIDENT -> lack[h] = true; is_last = false; break
        :: left[h] > 0 && !yields(h) && turn_left[h] > 0 && page[page_of(h)] == RESIDENT
        fi
    od
}

inline publish(h) {                            /* publish, news, tell */
    if :: bears -> live[other(h)] = true :: else fi;
    if :: dies -> live[h] = false; if :: exits(h) || !live[other(h)] -> end_harts(process(h)) :: else fi :: else fi;
    if
    :: bears || dies ->
        bears = false; dies = false;
        tell_harts(process(h));                /* tell: self.signals().tell_harts */
    :: else
    fi;
    then = RAN;
    tell_if_ended(process(h))
}

inline go_to_next() {                          /* carry_process, serve_waiting */
    if :: carrier(h) == w -> hungers = hungers || waits[h] :: else fi;
    if
    :: mode == ALL -> at++
    :: mode == ROW -> at++; if :: at % 2 == 0 -> mode = ALL :: else fi
    :: mode == LENT ->
        round_of++;
        if
        :: round_of == 2 ->
            round_of = 0; mode = ROW; step = LOOK; then = LOOK;
            give_turn_back();                  /* serve_waiting: locks.pass_turn */
        :: else
        fi
    :: mode == WAITING ->
        round_of++;
        if
        :: round_of % 2 == 0 ->
            first = (first + 1) % PROCESSES;   /* next_process */
            if
            :: !has_turn(w) -> mode = ROW; round_of = 0
            :: has_turn(w) && round_of == HARTS -> mode = ROW; round_of = 0; let_others_reclaim(LOOK)
            :: else
            fi
        :: else
        fi
    fi
}

inline let_others_reclaim(there) {             /* let_others_reclaim */
    if
    :: has_turn(w) && !given && others_wait(w) ->
        then = there; step = there;
        pass_turn();                           /* let_others_reclaim: signals.pass_turn */
    :: else
    fi
}

inline look() {                                /* carry_round, carry_row, carry_process */
    if
    :: step == OVER && !serving -> let_others_reclaim(LET)
    :: else
    fi;
    if
    :: step == OVER || step == LET -> step = LOOK; go_to_next()
    :: else
    fi;
    do
    :: step != LOOK -> break
    :: step == LOOK && mode == ALL && at == HARTS ->    /* carrier */
        hungry[w] = hungers;
        step = READ;
        if
        :: !hungers || !has_turn(w) ->
            then = (ran -> READ : RESTS);
            step = then;
            give_turn_back();                  /* carrier: locks.pass_turn */
        :: else
        fi
    :: step == LOOK && mode == ALL && at < HARTS && at % 2 == 0 && has_turn(w) && given ->    /* begin_turn */
        given = false; round_of = 0;
        if :: lent_for != 0 -> mode = LENT :: else -> mode = WAITING fi
    :: step == LOOK && at < HARTS && !(mode == ALL && at % 2 == 0 && has_turn(w) && given) ->
        if
        :: mode == WAITING -> h = (2 * first + round_of % 2) % HARTS
        :: mode == LENT -> h = 2 * (lent_for - 1) + round_of
        :: else -> h = at
        fi;
        if
        :: carrier(h) != w
        :: carrier(h) == w && !live[h] -> empty_seat(h)
        :: carrier(h) == w && live[h] && (waits[h] || !serving) && may_run(h) ->
            step = BRING;
            if :: has_turn(w) -> pages = 0 :: else fi;    /* begin_serving */
            if :: turn_left[h] == 0 -> turn_left[h] = SLICE :: else fi    /* begin_turn */
        :: carrier(h) == w && live[h] && (waits[h] || !serving) && !may_run(h) -> waits[h] = false; tried[h] = false    /* let_others_pass */
        :: carrier(h) == w && live[h] && !waits[h] && serving
        fi;
        if :: step == LOOK -> go_to_next() :: else fi
    od
}

#ifdef BELL
/* Only the bell, each step by itself: two threads let something come and ring, and one sleeps until both have. */
byte count, came;
bool sleeps, parked;

proctype caller() {
    came++;
    count++;                                   /* Bell::ring */
    if
    :: sleeps ->
        parked = false;                        /* ring: self.count.wake_all */
    :: else
    fi
}

proctype sleeper() {
    byte seen;
    do
    :: seen = count;                           /* rings */
       if :: came == 2 -> break :: else fi;
       sleeps = true;                          /* set_asleep */
       atomic { if :: count == seen -> parked = true :: else fi };
       !parked;
       sleeps = false                          /* set_asleep */
    od
}

init {
    atomic { run caller(); run caller(); run sleeper() }
}
#else
init {
    atomic {
        left[0] = LEFT0; live[0] = LEFT0 > 0; left[1] = LEFT1; live[1] = LEFT1 > 0 && !starts(0);
#if PROCESSES > 1
        left[2] = LEFT2; live[2] = LEFT2 > 0; left[3] = LEFT3; live[3] = LEFT3 > 0 && !starts(2);
#endif
#if PROCESSES > 2
        left[4] = LEFT4; live[4] = LEFT4 > 0; left[5] = LEFT5; live[5] = LEFT5 > 0 && !starts(4);
#endif
        run thread(0);
#if WORKERS > 1
        run thread(1);
#endif
#if WORKERS > 2
        run thread(2);
#endif
        run thread(DAEMON)
    }
}
#endif

inline heed_stuck() {                          /* heed_stuck */
    stuck = owner(victim);
    victim = NONE;
    if
    :: failed > FIRST_TRIES ->
        resting = true;                        /* begin_rest */
        try_again()
    :: else ->
        if :: stuck_count[stuck] <= MOST_TRIES / 2 -> stuck_count[stuck]++ :: else fi;    /* count_stuck */
        if
        :: MOST_TRIES > 0 && stuck_count[stuck] == MOST_TRIES / 2 && stuck != process(h) ->
            hungry[w] = true;
            lend_turn(stuck);                  /* heed_stuck: signals.lend_turn */
            assert(lent || lent_for != 0 || !waits_elsewhere(2 * stuck) && !waits_elsewhere(2 * stuck + 1))    /* it has the turn next */
        :: else
        fi;
        if
        :: lent -> lent = false; wait_for_frame()
        :: !lent && stuck == process(h) ->
            !locked[stuck];
            if :: pressed[stuck] == 0 -> pressed[stuck] = h + 1 :: else fi;    /* press */
            try_again()
        :: !lent && stuck != process(h) ->
            heard = heard & (EACH - bell(w));  /* rings */
            watcher[stuck] = w + 1;            /* watch */
            runner = NONE;
            if :: may_go_on(2 * stuck) -> runner = carrier(2 * stuck) :: else fi;
            if :: runner != w && may_go_on(2 * stuck + 1) -> runner = carrier(2 * stuck + 1) :: else fi;
            if
            :: runner == NONE -> heard = heard | bell(w); try_again()
            :: runner == w ->
                heard = heard | bell(w);
                hungry[w] = true;
                ring_worker(w);                /* heed_stuck: signals.ring_worker */
                wait_for_frame()
            :: runner != NONE && runner != w ->
                watching = true; step = WATCHED; then = WATCHED;
                wait_for_ring();               /* heed_stuck: self.wait_for_ring */
            fi;
            runner = 0
        fi
    fi;
    stuck = 0
}

proctype thread(byte w) {
    mtype step = READ, then = READ;
    byte h, at, round_of, first, mode, bells, frames_left, next = NONE, victim = NONE, stuck, runner, at_page, found_free, ending, looked_at;
    bool ran, hungers, is_busy = true, is_offered, lent, ends, bears, dies, is_last, yield, gives_up, few, watching, again, all, is_late;
    atomic { if :: w == DAEMON -> step = CALLED; again = true :: else fi };
    do
    :: atomic {
           step == READ ->                     /* carrier: rings */
           assert(is_busy || ran || is_rung(w) || has_turn(w) && given || is_late);    /* who has found nothing to do has slept */
           assert(is_rung(w) || !hungers || !has_turn(w) || given || is_late);    /* who keeps the turn tries again */
           at = 0;
           do
           :: at == HARTS -> break
           :: at < HARTS -> if :: is_rung(w) && carrier(at) == w -> tried[at] = false :: else fi; at++
           od;
           is_late = is_late && has_turn(w) && !is_rung(w);
           rung = rung & (EACH - bell(w));
           at = 0; ran = false; hungers = false; is_busy = false; mode = ALL; h = 0; then = READ; step = BEGIN
       }
    :: atomic {
           step == BEGIN || step == LOOK || step == OVER || step == LET || step == BRING || step == TRY && !locked[process(h)] && may_take(w) ||
               step == TURN_ENDS && !held(h) ->    /* after_slice */
           if
           :: step == BEGIN && ended == PROCESSES -> step = FINISHED    /* has_ended */
           :: step == BEGIN && ended < PROCESSES -> is_offered = offered[w]; offered[w] = false; step = LOOK    /* take_offer */
           :: step == TURN_ENDS ->
               turn_left[h] = 0;
               owes_turn[h] = yield; owes_turn[other(h)] = false;
               end_hart_turn(h);               /* run_part: locks.end_turn */
               yield = false; is_last = false;
               step = OVER
           :: else
           fi;
           if
           :: step == LOOK || step == OVER || step == LET -> look()
           :: else
           fi;
           if
           :: step == BRING -> step = (waits[h] && !is_offered && holder != 0 && !has_turn(w) -> OVER : TRY)    /* bring_in: may_try */
           :: else
           fi;
           if
           :: step == TRY && !lack[h] -> step = RUN
           :: step == TRY && lack[h] && tried[h] && !serving -> step = OVER
           :: step == TRY && lack[h] && !(tried[h] && !serving) && may_take(w) ->
               is_busy = true;
               set_maker(NONE);
               !locked[process(h)];
               page_in(h)
           :: else
           fi;
           if
           :: step == PASS ->                  /* Signals::pass_turn */
               step = then;
               if
               :: has_turn(w) ->
                   if :: lent_for == 0 -> set_last(w) :: else -> lent_for = 0 fi;    /* end */
                   gives_up = true;
                   hand_to_next(w);            /* pass_turn: self.hand_to_next */
                   if :: gives_up -> step = GIVE_UP :: else fi;
                   gives_up = false; next = NONE
               :: else
               fi
           :: else
           fi
       }
    :: atomic { step == GIVE_UP -> pages = 0; given = false; holder = 0; step = LOOK_BEHIND }    /* pass_turn */
    :: atomic {
           step == LOOK_BEHIND ->
           end_rest();                         /* pass_turn: self.end_rest */
           find_next(w);
           if
           :: next != NONE && holder == 0 ->
               give(next);                     /* take_for */
               ring_worker(next);              /* pass_turn: self.ring_worker */
           :: else
           fi;
           next = NONE; step = then
       }
    :: atomic {
           step == RESTS ->
           then = READ; step = READ;
           wait_for_ring();                    /* carrier: locks.wait_for_ring */
       }
    :: atomic { step == ASLEEP && (watching -> is_heard(w) : is_rung(w)) -> step = then }
    :: atomic {
           step == UNDO && !locked[process(h)] ->    /* undo */
           page[page_of(h)] = ABSENT; free++;
           owe();
           tell_page(process(h));              /* undo: self.locks.signals().tell_page */
           offer(1);                           /* undo: self.locks.signals().offer */
           faults[h]++;
           try_again();
           if :: faults[h] == MOST_FAULTS -> step = KILL :: else fi
       }
    :: atomic { step == TAKE -> step = TAKE_AGAIN; take() }    /* take_turn */
    :: atomic {
           step == TAKE_AGAIN ->               /* take_turn */
           hungry[w] = true;
           take();
           if :: step == TAKE_AGAIN -> wait_for_frame() :: else fi
       }
    :: atomic {
           step == ROOM && !reclaimer || step == PURGED ->    /* make_room, step */
           if
           :: step == ROOM -> reclaimer = true; step = SWEEP; purge_each()
           :: step == PURGED ->
               owe();
               loosen();                       /* purge_ended: shared.locks().signals().loosen */
               offer(found_free);              /* purge_ended: shared.locks().signals().offer */
               found_free = 0; step = SWEEP
           fi;
           if
           :: step == SWEEP && w == DAEMON && (holder != 0 || free >= WANTED) -> step = DONE    /* is_reclaiming */
           :: step == SWEEP && w != DAEMON && free > 0 -> room_is_made()
           :: step == SWEEP && (w == DAEMON -> holder == 0 && free < WANTED : free == 0) ->
               step = COLLECT;
               sweep();
               if
               :: victim == NONE && w == DAEMON -> step = DONE
               :: victim == NONE && w != DAEMON -> count_try(false); reclaimer = false; try_again()
               :: else
               fi
           :: else
           fi
       }
    :: atomic {
           step == COLLECT && !locked[owner(victim)] ->    /* collect */
           if
           :: !slot[victim] && slots == 0 -> no_page_left()
           :: else ->
               if :: !slot[victim] && SLOTS < 99 -> slot[victim] = true; slots-- :: else fi;
#ifdef SAVES
               step = SAVE
#else
               page_left()
#endif
           fi;
           if
           :: step != SAVE ->
               tell_page(owner(victim));       /* collect: self.locks.signals().tell_page */
           :: else
           fi;
           if :: step == COLLECT -> room_is_made() :: else fi
       }
    :: atomic {
           step == SAVE && !locked[owner(victim)] ->    /* saved */
           if
           :: !sticks(victim) -> page_left(); step = COLLECT
           :: fails > 0 && !sticks(victim) -> fails--; no_page_left()
           :: sticks(victim) -> no_page_left()
           fi;
           tell_page(owner(victim));           /* saved: self.locks.signals().tell_page */
           if :: step == COLLECT -> room_is_made() :: else fi
       }
    :: atomic {
           step == STUCK && !locked[owner(victim)] ->    /* kill_if_spent */
           then = KEPT; step = KEPT;
           if
           :: holder != 0 && is_spent(owner(victim)) -> end_harts(owner(victim)); tell_if_ended(owner(victim))
           :: else
           fi
       }
    :: atomic {
           step == KEPT ->
           count_try(false);
           if
           :: w == DAEMON -> victim = NONE; step = DONE
           :: else -> reclaimer = false; heed_stuck()
           fi
       }
    :: atomic {
           step == WATCHED ->
           assert(is_heard(w));                /* it has waited for an instruction of the other process */
           heard = heard | bell(w); watching = false;
           try_again()
       }
    :: atomic {
           step == RUN && !locked[process(h)] || step == RAN ->    /* slice */
           if
           :: step == RAN
           :: step == RUN ->
               if
               :: pressed[process(h)] != 0 && pressed[process(h)] != h + 1 -> step = OVER
               :: else ->
                   if
                   :: over[process(h)] -> step = TURN_ENDS
                   :: !over[process(h)] && page[page_of(h)] != RESIDENT -> lack[h] = true; step = BRING
                   :: !over[process(h)] && page[page_of(h)] == RESIDENT && kills > 0 -> kills--; then = TURN_ENDS; step = KILL
                   :: !over[process(h)] && page[page_of(h)] == RESIDENT ->
                       go(h);
                       if :: pressed[process(h)] != 0 -> locked[process(h)] = true; step = UNPRESS :: else -> publish(h) fi
                   fi
               fi
           fi;
           if
           :: step == RAN ->
               step = (is_last -> TURN_ENDS : BRING);
               tell_ran(process(h));           /* slice: self.signals().tell_ran */
               assert(!owes[h])                /* who waits for an instruction is rung after it */
           :: else
           fi
       }
    :: atomic {
           step == UNPRESS ->
           step = PUBLISH;
           end_press(process(h));              /* slice: self.signals().end_press */
       }
    :: atomic { step == PUBLISH -> locked[process(h)] = false; step = RAN; publish(h) }
    :: atomic {
           step == KILL && !locked[process(h)] ->    /* kill, kill_if_spent */
           end_harts(process(h));
           step = then;
           tell_if_ended(process(h))
       }
    :: atomic {
           step == TELL_END ->                 /* tell_end */
           unpurged[ending] = true;
           tell_watcher(ending);               /* tell_end: self.tell_watcher */
           step = COUNT_END
       }
    :: atomic {
           step == COUNT_END ->                /* tell_end */
           ended++;
           ring(bell(DAEMON));                 /* tell_end: self.daemon.ring */
           if
           :: ended == PROCESSES ->
               ring(EACH - bell(DAEMON));      /* tell_end: station.bell.ring */
           :: else ->
               bells = carriers(ending);
               ring_harts();                   /* tell_end: self.ring */
               bells = 0
           fi;
           ending = 0; step = then
       }
    :: atomic {
           step == CALLED ->                   /* daemon: rings, has_ended */
           assert(again || is_rung(w));
           again = false; rung = rung & (EACH - bell(w));
           all = ended == PROCESSES;
           step = ROOM
       }
    :: atomic {
           step == DONE ->                     /* daemon: step, tell_free */
#ifdef STATUS
           if :: freed -> owes_status = false :: else fi;
#endif
           reclaimer = false; freed = false;
           then = CALLED; step = CALLED;
           if
           :: all -> step = FINISHED
           :: !all && !again ->
               wait_for_call();                /* daemon: shared.locks().wait_for_call */
           :: else
           fi
       }
    :: step == FINISHED -> break
    od;
    if :: w == DAEMON -> assert(free == FRAMES) :: else fi    /* each page was purged */
}

#ifdef PROGRESS
/* No run goes on for ever in which each thread goes on: each hart that waits goes on, though another one goes round until then. */
never {
accept:
    do
    :: ended < PROCESSES
    od
}
#endif
