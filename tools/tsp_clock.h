/* The network's time on this host, read from the page that the daemon and tsp-launch write. tsp_clock(3) says what it is.
 *
 *     tsp_clock clock;
 *     tsp_time now;
 *     if (tsp_clock_open(&clock, NULL) == 0 && tsp_clock_now(&clock, &now) == TSP_SYNCHRONISED)
 *         printf("%lld to %lld\n", (long long)now.earliest, (long long)now.latest);
 *
 * All times are microseconds; those of clocks are since 1970. A call never waits for a writer for more than some 50 milliseconds. Each thread needs a tsp_clock of
 * its own. It is for gcc and clang, C from C99 on and C++ from C++11 on. With -std=c.. define _POSIX_C_SOURCE as 200809L before the first #include.
 *
 * The page has two halves. The daemon writes its own clock into one. Into the other the supervisor writes its last look at the master: it read this host's
 * clock, a, then the master's, s, and then its own again, d. Later the master's clock is ahead of this one by no less than s - d - 2 * w, and no
 * more than s - a + 2 * w, less what this clock was corrected by since. Here w is width(P, x + width(P, x)), with x for the microseconds that this host's
 * own counter passed since a, and width(P, x) = (P * x + 999999) / 1000000 + 1; if x is more than 100 seconds, w is width(P, x + 2 * width(P, x)).
 * That asks that s was the master's clock (nobody forged this one exchange), that both counters run wrong by P parts in a million at most
 * (TSP_DRIFT), and that neither host starts again and the master isn't corrected meanwhile.
 */
#ifndef TSP_CLOCK_H
#define TSP_CLOCK_H

#include <errno.h>
#include <fcntl.h>
#include <stdint.h>
#include <stdlib.h>
#include <string.h>
#include <sys/mman.h>
#include <sys/stat.h>
#include <time.h>
#include <unistd.h>

#ifndef CLOCK_MONOTONIC
#error "tsp_clock.h needs clock_gettime: define _POSIX_C_SOURCE as 200809L before the first #include"
#endif

#ifdef __cplusplus
extern "C" {
#endif

#define TSP_CLOCK_PATH "/run/tsp/clock"

/* What is known of the clock. An interval comes with TSP_SYNCHRONISED and TSP_HOLDING alone. */
enum tsp_status {
    TSP_STALE = 0,        /* the daemon ended properly, or hasn't written for 64 seconds (one that was killed may have any status until then) */
    TSP_WAITING = 1,      /* no master yet in this life of the daemon, or one that hasn't corrected it yet */
    TSP_SYNCHRONISED = 2, /* the daemon leads, or follows a master that was looked at in the last 64 seconds */
    TSP_HOLDING = 3       /* its master is gone, hasn't answered for 64 seconds, or doesn't say that it leads; or it is another one by now */
};

enum tsp_role { TSP_NOBODY = 0, TSP_FOLLOWS = 1, TSP_LEADS = 2 };

/* The network's time at a moment. With TSP_STALE only `life` and `steps` are told, and not even these if the daemon ended properly, its writer was
 * killed in the middle of a write, or there is no page. */
typedef struct {
    int64_t shown;    /* it never falls within a life, except at a step */
    int64_t earliest; /* the master's clock, as it ran on since it was asked, is no less */
    int64_t latest;   /* and no more */
    int64_t age;      /* how long ago it was asked */
    uint64_t life;    /* another number at each start of the daemon */
    uint64_t steps;   /* how often the clock was stepped in this life */
    int role;         /* an enum tsp_role */
    int status;       /* an enum tsp_status */
} tsp_time;

/* What the daemon writes: its clock, and whom it follows. Ticks are the microseconds that it counts. */
typedef struct {
    uint64_t sequence; /* odd while the daemon writes */
    uint64_t life;
    uint64_t counter;     /* by which clock it counts: 4 is CLOCK_MONOTONIC_RAW, 1 is CLOCK_MONOTONIC */
    int64_t origin;       /* what that clock read in nanoseconds at the tick of the next field, */
    uint64_t origin_tick; /* from which on the daemon counts by this rate: */
    int64_t rate;         /* so many parts in 10^9 faster */
    uint64_t tick;        /* when the clock was corrected last, and what it aimed at then */
    int64_t target;
    int64_t rest;  /* what was still to be slewed of that */
    int64_t least; /* the least that may be shown */
    int64_t moved; /* the sum of all corrections of this life */
    uint64_t steps, role;
    uint64_t master; /* the number of the peer that it follows */
    uint64_t alive;  /* when it wrote last */
} tsp_daemon;

/* What the supervisor writes: its last look at the master. */
typedef struct {
    uint64_t sequence; /* odd while the supervisor writes */
    uint64_t life;     /* of the daemon that it looked for, */
    int64_t moved;     /* and that one's corrections until then */
    uint64_t looked;   /* the tick at which it began to ask */
    int64_t low, high; /* by how much the master's clock was ahead of the target */
    uint64_t master, drift, had;
    int64_t learned; /* by how many parts in 10^9 the daemon should count faster, as far as that is known */
} tsp_look;

/* A page as it lies in memory, of 4096 octets, little-endian. */
typedef struct {
    uint64_t magic;
    uint32_t version, length;
    uint64_t before[6];
    tsp_daemon daemon; /* at 64 */
    uint64_t between[41];
    tsp_look look; /* at 512 */
    char master[256];
} tsp_page;

/* What tsp_spread reckoned last: by how many microseconds two clocks may have parted (`spread`) after so many (`passed`). It is the same after x of them as
 * long as drift * (x - passed) < room: so much room is left until the cached value changes. */
typedef struct {
    int64_t passed, spread;
    uint64_t room;
} tsp_parting;

/* Both halves, copied from a page, and how far the clocks had parted at the last read. */
typedef struct {
    tsp_daemon daemon;
    tsp_look look;
    tsp_parting parting;
} tsp_halves;

typedef struct {
    const tsp_page *page;
    const char *path;
    int64_t tried;   /* when it was opened last, in nanoseconds */
    tsp_halves kept; /* the last copy of the page, */
    int is_kept;     /* if there is one, and if a daemon and a supervisor can have written it */
} tsp_clock;

#define TSP_PAGE_SIZE 4096
#define TSP_VERSION 2
#define TSP_MAGIC UINT64_C(0x6b636f6c63707374) /* "tspclock" */
#define TSP_LASTS INT64_C(64000000)            /* the microseconds that an old look, or a daemon that writes nothing, counts for */
#define TSP_RECKONED INT64_C(100000000)        /* a look that is older than this has the wider width(x + 2 * width(x)) */
#define TSP_LONGEST (INT64_MAX / 2000)         /* the longest wait in microseconds: 146 years, as good as without an end */
#define TSP_FARTHEST (UINT64_C(1) << 56)       /* the greatest time on a page */
#define TSP_LAST_TICK (INT64_C(1) << 53)       /* the greatest tick */
#define TSP_AT_ONCE 64                         /* how often a page that is being written is read again without a pause */
#define TSP_PATIENCE INT64_C(40000000) /* the nanoseconds for which a page that is being written is read again */

/* Nanoseconds of a clock of the kernel. */
static inline int64_t tsp_nanoseconds_by(uint64_t counter)
{
    struct timespec time = {0, 0};
    clock_gettime((clockid_t)counter, &time);
    return (int64_t)time.tv_sec * INT64_C(1000000000) + (int64_t)time.tv_nsec;
}

/* Nanoseconds of CLOCK_MONOTONIC, by which waits are told. */
static inline int64_t tsp_nanoseconds(void)
{
    return tsp_nanoseconds_by(CLOCK_MONOTONIC);
}

/* The quotient, rounded down. */
static inline int64_t tsp_floor(int64_t value, int64_t by)
{
    return value >= 0 ? (int64_t)((uint64_t)value / (uint64_t)by) : value / by - (value % by < 0);
}

/* By how many microseconds a counter may be wrong after so many (`passed`), if neither is below 0. */
static inline int64_t tsp_width(int64_t drift, int64_t passed)
{
    return (int64_t)(((uint64_t)drift * (uint64_t)passed + 999999) / 1000000 + 1);
}

/* By how many microseconds two clocks may have parted after so many (x) of the own counter: 2 * width(x + width(x)), or 2 * width(x + 2 * width(x)) if x is
 * more than TSP_RECKONED. The cached value is given while there is room left until it changes, so that a read takes little more than a look at the clock.
 * (none is kept from one side of TSP_RECKONED to the other: the width grows by one just there, if there is a drift) */
static inline int64_t tsp_spread(tsp_parting *last, int64_t drift, int64_t passed)
{
    uint64_t parts, width, more, used;
    if ((uint64_t)drift * (uint64_t)(passed - last->passed) < last->room)
        return last->spread;
    parts = (uint64_t)drift * (uint64_t)passed + 999999;
    width = parts / 1000000 + 1;
    more = parts % 1000000 + (uint64_t)drift * (passed > TSP_RECKONED ? 2 * width : width);
    used = more % 1000000 > parts % 1000000 ? more % 1000000 : parts % 1000000;
    last->passed = passed;
    last->room = 1000000 - used;
    return last->spread = (int64_t)(2 * (width + more / 1000000));
}

/* By how much a number of a page is above the least that it may be, if none is farther from 0 than the most. */
#define TSP_ABOVE(value, most) ((uint64_t)(value) + (uint64_t)(most))

/* Whether a daemon can have written this half. (one test of all bits, since a read is to take little more than a look at the clock) */
static inline int tsp_is_sound(const tsp_daemon *d)
{
    return d->sequence != 0 && (d->counter == 4 || d->counter == 1) && (uint64_t)d->origin >> 62 == 0 && TSP_ABOVE(d->rate, 1000000) <= 2000000
        && d->origin_tick <= (uint64_t)TSP_LAST_TICK >> 2 && d->tick <= (uint64_t)TSP_LAST_TICK && TSP_ABOVE(d->target, TSP_FARTHEST) <= 2 * TSP_FARTHEST
        && TSP_ABOVE(d->rest, TSP_FARTHEST) <= 2 * TSP_FARTHEST && TSP_ABOVE(d->moved, TSP_FARTHEST) <= 2 * TSP_FARTHEST;
}

/* Whether a supervisor can have written this half. */
static inline int tsp_is_sound_look(const tsp_look *l)
{
    return l->drift <= 1000 && TSP_ABOVE(l->moved, TSP_FARTHEST) <= 2 * TSP_FARTHEST
        && TSP_ABOVE(l->low, TSP_FARTHEST) <= 2 * TSP_FARTHEST && TSP_ABOVE(l->high, TSP_FARTHEST) <= 2 * TSP_FARTHEST;
}

/* The daemon's tick at a nanosecond of its clock. */
static inline int64_t tsp_tick_at(const tsp_daemon *d, int64_t now)
{
    int64_t passed = tsp_floor(now - d->origin, 1000), billion = INT64_C(1000000000), whole;
    if (d->rate == 0)
        return (int64_t)d->origin_tick + passed;
    whole = tsp_floor(passed, billion);
    return (int64_t)d->origin_tick + passed + whole * d->rate + tsp_floor((passed - whole * billion) * d->rate, billion);
}

/* What the daemon's clock aims at, at a tick. */
static inline int64_t tsp_target_at(const tsp_daemon *d, int64_t tick)
{
    return d->target + (tick - (int64_t)d->tick);
}

/* What the daemon's clock shows at a tick: what it aims at, less what is still to be slewed of the last correction. */
static inline int64_t tsp_shown_at(const tsp_daemon *d, int64_t tick)
{
    int64_t passed = tick - (int64_t)d->tick, shown = tsp_target_at(d, tick), moved;
    if (d->rest != 0) {
        moved = passed > 0 ? (int64_t)((uint64_t)passed / 200) : 0;
        if (d->rest > moved)
            shown += moved - d->rest;
        else if (d->rest < -moved)
            shown -= moved + d->rest;
    }
    return shown < d->least ? d->least : shown;
}

/* The interval at a tick, by a look at the master, and what it is worth. */
static inline int tsp_interval_of(tsp_halves *page, int64_t tick, tsp_time *time)
{
    const tsp_daemon *d = &page->daemon;
    const tsp_look *l = &page->look;
    int64_t ahead, spread;
    time->age = 0;
    time->earliest = time->latest = 0;
    if (d->role == TSP_LEADS) {
        time->earliest = time->latest = tsp_target_at(d, tick);
        return TSP_SYNCHRONISED;
    }
    if (l->had != 1 || l->life != d->life || l->looked > (uint64_t)tick)
        return TSP_WAITING;
    time->age = tick - (int64_t)l->looked;
    spread = tsp_spread(&page->parting, (int64_t)l->drift, time->age);
    ahead = tsp_target_at(d, 0) - (d->moved - l->moved);
    time->earliest = tick + (ahead + l->low - spread);
    time->latest = tick + (ahead + l->high + spread);
    return d->role == TSP_FOLLOWS && l->master == d->master && time->age <= TSP_LASTS ? TSP_SYNCHRONISED : TSP_HOLDING;
}

/* What is told of a page that nobody writes. */
static inline int tsp_is_stale(const tsp_daemon *d, tsp_time *time)
{
    memset(time, 0, sizeof *time);
    if (d->sequence != 0) { /* or else no daemon runs */
        time->life = d->life;
        time->steps = d->steps;
    }
    return TSP_STALE;
}

/* The time that a page gives at a nanosecond of the daemon's clock, if a daemon and a supervisor can have written it. */
static inline int tsp_time_by(tsp_halves *page, int64_t now, tsp_time *time)
{
    const tsp_daemon *d = &page->daemon;
    int64_t tick;
    if ((uint64_t)now >> 62 != 0)
        return tsp_is_stale(d, time);
    tick = tsp_tick_at(d, now);
    if ((uint64_t)tick > (uint64_t)TSP_LAST_TICK || d->alive > (uint64_t)tick || (uint64_t)tick - d->alive > (uint64_t)TSP_LASTS)
        return tsp_is_stale(d, time);
    time->life = d->life;
    time->steps = d->steps;
    time->role = d->role <= TSP_LEADS ? (int)d->role : TSP_NOBODY;
    time->shown = tsp_shown_at(d, tick);
    return time->status = tsp_interval_of(page, tick, time);
}

/* The time that any page gives at a nanosecond of the daemon's clock. */
static inline int tsp_time_of(tsp_halves *page, int64_t now, tsp_time *time)
{
    return tsp_is_sound(&page->daemon) && tsp_is_sound_look(&page->look) ? tsp_time_by(page, now, time) : tsp_is_stale(&page->daemon, time);
}

/* Copies a field of a page that another process may write meanwhile. */
#define TSP_LOAD(half, field) (copy->half.field = __atomic_load_n(&page->half.field, __ATOMIC_RELAXED))

/* Copies what the time follows from. */
static inline void tsp_copy(tsp_halves *copy, const tsp_page *page)
{
    TSP_LOAD(daemon, life);
    TSP_LOAD(daemon, counter);
    TSP_LOAD(daemon, origin);
    TSP_LOAD(daemon, origin_tick);
    TSP_LOAD(daemon, rate);
    TSP_LOAD(daemon, tick);
    TSP_LOAD(daemon, target);
    TSP_LOAD(daemon, rest);
    TSP_LOAD(daemon, least);
    TSP_LOAD(daemon, moved);
    TSP_LOAD(daemon, steps);
    TSP_LOAD(daemon, role);
    TSP_LOAD(daemon, master);
    TSP_LOAD(daemon, alive);
    TSP_LOAD(look, life);
    TSP_LOAD(look, moved);
    TSP_LOAD(look, looked);
    TSP_LOAD(look, low);
    TSP_LOAD(look, high);
    TSP_LOAD(look, master);
    TSP_LOAD(look, drift);
    TSP_LOAD(look, had);
    copy->parting.room = 0;
}

#undef TSP_LOAD

/* Copies both halves, and reads the daemon's clock in between, so that the page was the one of that moment; 0 where it was written meanwhile. */
static inline int tsp_read_once(const tsp_page *page, tsp_halves *copy, int64_t *now)
{
    copy->daemon.sequence = __atomic_load_n(&page->daemon.sequence, __ATOMIC_ACQUIRE);
    copy->look.sequence = __atomic_load_n(&page->look.sequence, __ATOMIC_ACQUIRE);
    *now = tsp_nanoseconds_by(__atomic_load_n(&page->daemon.counter, __ATOMIC_RELAXED) == 1 ? 1 : 4);
    tsp_copy(copy, page);
    __atomic_thread_fence(__ATOMIC_ACQUIRE);
    return copy->daemon.sequence % 2 == 0 && copy->look.sequence % 2 == 0
        && __atomic_load_n(&page->daemon.sequence, __ATOMIC_RELAXED) == copy->daemon.sequence
        && __atomic_load_n(&page->look.sequence, __ATOMIC_RELAXED) == copy->look.sequence;
}

/* Copies a page, again while it is being written; 0 where that never ends, since its writer was killed then. */
static inline int tsp_read(const tsp_page *page, tsp_halves *copy, int64_t *now)
{
    const struct timespec pause = {0, 50000};
    int64_t until = 0;
    int number;
    for (number = 0;; number++) {
        if (tsp_read_once(page, copy, now))
            return 1;
        if (number < TSP_AT_ONCE)
            continue;
        if (until == 0)
            until = tsp_nanoseconds() + TSP_PATIENCE;
        else if (tsp_nanoseconds() > until)
            return 0;
        nanosleep(&pause, NULL);
    }
}

/* Unmaps the page. Whoever reads the clock after that opens it again. */
static inline void tsp_clock_close(tsp_clock *clock)
{
    if (clock->page != NULL)
        munmap((void *)(uintptr_t)clock->page, TSP_PAGE_SIZE);
    clock->page = NULL;
    clock->is_kept = 0;
}

/* Maps the page at the clock's path; -1, and errno, where there is none. */
static inline int tsp_clock_map(tsp_clock *clock)
{
    struct stat about;
    void *map = MAP_FAILED;
    int file = open(clock->path, O_RDONLY | O_CLOEXEC | O_NONBLOCK), fault;
    if (file < 0)
        return -1;
    if (fstat(file, &about) == 0 && S_ISREG(about.st_mode) && about.st_size >= TSP_PAGE_SIZE)
        map = mmap(NULL, TSP_PAGE_SIZE, PROT_READ, MAP_SHARED, file, 0);
    else
        errno = EINVAL;
    fault = errno;
    close(file);
    errno = fault;
    if (map == MAP_FAILED)
        return -1;
    tsp_clock_close(clock);
    clock->page = (const tsp_page *)map;
    if (clock->page->magic == TSP_MAGIC && clock->page->version == TSP_VERSION && clock->page->length == TSP_PAGE_SIZE)
        return 0;
    tsp_clock_close(clock);
    errno = EINVAL;
    return -1;
}

/* Opens the page at a path: that of TSP_CLOCK, or /run/tsp/clock, where it is NULL. The path must stay as it is while the clock is open. Gives -1, and
 * errno, where there is no page, or it is of another version: then tsp_clock_now says TSP_STALE, and looks for a page once a second. */
static inline int tsp_clock_open(tsp_clock *clock, const char *path)
{
    const char *named = getenv("TSP_CLOCK");
    memset(clock, 0, sizeof *clock);
    clock->path = path != NULL ? path : named != NULL && *named != '\0' ? named : TSP_CLOCK_PATH;
    clock->tried = tsp_nanoseconds();
    return tsp_clock_map(clock);
}

/* Whether a page still is as it was copied: no writer begins with a sequence that another one had, and each write takes the next. */
static inline int tsp_is_kept(const tsp_clock *clock)
{
    return __atomic_load_n(&clock->page->daemon.sequence, __ATOMIC_RELAXED) == clock->kept.daemon.sequence
        && __atomic_load_n(&clock->page->look.sequence, __ATOMIC_RELAXED) == clock->kept.look.sequence;
}

/* The time by the page that is mapped, which is copied and looked through. */
static inline __attribute__((cold)) int tsp_clock_anew(tsp_clock *clock, tsp_time *time)
{
    int64_t now;
    clock->is_kept = 0;
    if (clock->page == NULL || !tsp_read(clock->page, &clock->kept, &now)) {
        memset(time, 0, sizeof *time);
        return TSP_STALE;
    }
    clock->is_kept = tsp_is_sound(&clock->kept.daemon) && tsp_is_sound_look(&clock->kept.look);
    return clock->is_kept ? tsp_time_by(&clock->kept, now, time) : tsp_is_stale(&clock->kept.daemon, time);
}

/* The same; and if nobody writes that page any more, by the one that stands at its path now, which is looked for once a second. */
static inline __attribute__((cold)) int tsp_clock_seek(tsp_clock *clock, tsp_time *time)
{
    int64_t begun = tsp_nanoseconds(), now;
    int status = tsp_clock_anew(clock, time);
    now = tsp_nanoseconds();
    if (status != TSP_STALE || now - clock->tried <= INT64_C(1000000000))
        return status;
    /* (a service that started again may have put another page there; a call that has waited for a writer leaves that page to the next call) */
    clock->tried = now;
    return tsp_clock_map(clock) == 0 && now - begun < TSP_PATIENCE ? tsp_clock_anew(clock, time) : TSP_STALE;
}

/* The network's time now; its status is given too. The page is copied only if it was written since the last time. */
static inline int tsp_clock_now(tsp_clock *clock, tsp_time *time)
{
    int status;
    int64_t now;
    if (clock->is_kept) {
        now = tsp_nanoseconds_by(clock->kept.daemon.counter);
        __atomic_thread_fence(__ATOMIC_ACQUIRE);
        if (tsp_is_kept(clock) && (status = tsp_time_by(&clock->kept, now, time)) != TSP_STALE)
            return status;
    }
    return tsp_clock_seek(clock, time);
}

/* Waits until the master's clock is surely past this stamp: 1 when the interval, of whatever master the host knows then, also of one that is gone, lies after
 * it, and 0 if it doesn't within so many microseconds. Read the time again after that: if its status isn't TSP_SYNCHRONISED, or its life, its steps or the
 * master is another one than before, 1 says nothing. More than TSP_LONGEST is taken as that, so INT64_MAX waits without an end; what is below 0 is taken as
 * 0. */
static inline int tsp_clock_wait_after(tsp_clock *clock, int64_t stamp, int64_t longest)
{
    const struct timespec pause = {0, 100000};
    const int64_t until = tsp_nanoseconds() + (longest < 0 ? 0 : longest > TSP_LONGEST ? TSP_LONGEST : longest) * 1000;
    tsp_time time;
    while (tsp_clock_now(clock, &time) < TSP_SYNCHRONISED || time.earliest <= stamp) {
        if (tsp_nanoseconds() >= until)
            return 0;
        nanosleep(&pause, NULL);
    }
    return 1;
}

#ifdef __cplusplus
}
#endif

#endif
