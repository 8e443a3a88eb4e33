/* Reads the pages of a lab's hosts side by side, and compares what they give with what the lab knows: `truth FROM RATE SECONDS HOST..`
 *
 * HOST is PAGE,WALL,STEP,DRIFT,SLEW,SLEWS,SLEWN,COUNTED,NAME: a page, what the host's wall clock showed when fast time began, in microseconds since 1970, by
 * how many it is set at some time, by how many parts in a million its clocks are fast, by how many in a million all but its raw clock are slewed, from which
 * nanosecond of the host's time on and for how many, whether its daemon counts by a slewed one, and the master's name in pages. Fast time is that of
 * tsp_fast.c. A life begins at tick 0 at the moment that its wall clock tells; from then on each of its rates counts from where the last one had come to.
 *
 * Each sample is judged a while after it was read, when all is known of the corrections before it. It writes a line for each host: its name, how many
 * readings it gave with an interval, how many of these had the master's clock outside, how many were between a correction of the master and the
 * next look at it (of a host that leads: until it has written that) and aren't judged, how long that took at most, how often a shown value fell, the widths of
 * the interval at the median and at 99 in 100, and how often a rate changed; all times are microseconds.
 */
#define _POSIX_C_SOURCE 200809L
#include "tsp_clock.h"
#include <signal.h>
#include <stdio.h>

#define MOST_HOSTS 16
#define KEPT 64
#define TRIES 100
#define DELAY INT64_C(400000000)
#define WRITTEN INT64_C(1000000000) /* the nanoseconds in which a daemon surely has written a correction, also on a busy machine */
#define PACE INT64_C(30000)
#define ROOM (1 << 19)
#define WIDEST 2000000
#define THOUSAND 1000
#define MILLION 1000000
#define BILLION INT64_C(1000000000)

/* A page from when it was seen: the life, and from which tick on its target counts. */
typedef struct {
    uint64_t life;
    int64_t tick, target;
} segment;

/* A rate of a daemon in parts in 10^9, from a tick on, which was at a microsecond of its own clock. */
typedef struct {
    int64_t at, tick, rate;
} pace;

typedef struct {
    const char *path, *name;
    int64_t wall, step, drift, slew, slew_from, slew_for, is_slewed;
    tsp_clock clock;
    segment segments[KEPT];
    pace paces[KEPT];
    int count, paced;
    long rates; /* how often the rate changed in a life */
    uint64_t life, steps;
    int64_t shown;
    long readings, outside, between, falls;
    int64_t longest, begun;
    unsigned *widths;
} host;

typedef struct {
    int64_t at, earliest, latest, looked;
    int64_t changed; /* the tick of the correction before it that the page has */
    int who, master;
} sample;

static int64_t from, rate;
static host hosts[MOST_HOSTS];
static int hosts_count;
static sample ring[ROOM];
static volatile sig_atomic_t is_over;

static void over(int number)
{
    (void)number;
    is_over = 1;
}

/* So many parts in a million of a time. */
static int64_t parts_of(int64_t time, int64_t parts)
{
    return time / MILLION * parts + time % MILLION * parts / MILLION;
}

/* What a host's slewed clocks show when its raw one has moved on by so many nanoseconds, in nanoseconds since fast time began. */
static int64_t slewed(const host *h, int64_t passed)
{
    int64_t since = passed - h->slew_from;
    return since <= 0 ? passed : passed + parts_of(since < h->slew_for ? since : h->slew_for, h->slew);
}

/* By how many nanoseconds a host's raw clock has moved on when its slewed ones show this. */
static int64_t unslewed(const host *h, int64_t shown)
{
    int64_t since = shown - h->slew_from, most = parts_of(h->slew_for, h->slew);
    if (since <= 0)
        return shown;
    if (since >= h->slew_for + most)
        return shown - most;
    return h->slew_from + (int64_t)((long double)since * MILLION / (MILLION + h->slew));
}

/* The clock that a host's daemon counts by in nanoseconds, at a nanosecond of the machine's monotonic one. */
static int64_t own_time(const host *h, int64_t at)
{
    int64_t passed = (at - from) * rate;
    passed += parts_of(passed, h->drift);
    return (h->is_slewed ? slewed(h, passed) : passed) + from;
}

/* The machine's nanosecond at one of the clock that a host's daemon counts by. */
static int64_t machine_time(const host *h, int64_t own)
{
    int64_t passed = h->is_slewed ? unslewed(h, own - from) : own - from;
    return from + (int64_t)((double)passed * MILLION / (MILLION + (double)h->drift) / (double)rate);
}

/* What a daemon counts at a rate while its own clock moves on by so many microseconds; it rounds down. */
static int64_t counted(int64_t passed, int64_t parts)
{
    return passed + tsp_floor(passed % BILLION * parts, BILLION) + passed / BILLION * parts;
}

/* The rate with which a daemon counted at a microsecond of its own clock; at one before all that are known, the first one. */
static const pace *pace_at(const host *h, int64_t at)
{
    int number = h->paced - 1, first = h->paced > KEPT ? h->paced - KEPT : 0;
    while (number > first && h->paces[number % KEPT].at > at)
        number--;
    return &h->paces[number % KEPT];
}

/* How far a daemon has counted at a microsecond of its own clock. */
static int64_t tick_at(const host *h, int64_t at)
{
    const pace *p = pace_at(h, at);
    return p->tick + counted(at - p->at, p->rate);
}

/* At which microsecond of its own clock a daemon had counted so far. */
static int64_t counted_at(const host *h, int64_t tick)
{
    int number = h->paced - 1, first = h->paced > KEPT ? h->paced - KEPT : 0;
    const pace *p;
    int64_t passed;
    while (number > first && h->paces[number % KEPT].tick > tick)
        number--;
    p = &h->paces[number % KEPT];
    passed = (int64_t)((long double)(tick - p->tick) * BILLION / (BILLION + p->rate));
    while (counted(passed, p->rate) < tick - p->tick)
        passed++;
    return p->at + passed;
}

/* When a daemon's tick was 0, if its wall clock was ahead by so much then. */
static int64_t first_by(const host *h, const tsp_daemon *d, int64_t wall)
{
    int64_t passed = (d->target - (int64_t)d->tick - wall) * THOUSAND;
    return ((h->is_slewed ? passed : unslewed(h, passed)) + from) / THOUSAND;
}

/* The same, by the first page of its life: its wall clock was set before that, or wasn't; the page's origin is much nearer to one. */
static int64_t first_of(const host *h, const tsp_daemon *d)
{
    int64_t plain = first_by(h, d, h->wall), set = first_by(h, d, h->wall + h->step);
    return llabs(plain - d->origin / THOUSAND) <= llabs(set - d->origin / THOUSAND) ? plain : set;
}

/* Notes from when on a daemon counts with a rate. */
static void note_pace(host *h, int64_t at, int64_t tick, int64_t parts)
{
    h->paces[h->paced % KEPT] = (pace){at, tick, parts};
    h->paced++;
}

/* Notes the rate of a daemon, where its life begins or the rate is another one. */
static void note_rate(host *h, const tsp_daemon *d, int is_new)
{
    int64_t tick = (int64_t)d->origin_tick;
    if (is_new && d->moved == 0 && d->steps == 0 && tick == 0) {
        h->paced = 0;
        note_pace(h, first_of(h, d), 0, d->rate);
    } else if (h->paced > 0 && h->paces[(h->paced - 1) % KEPT].tick < tick) {
        note_pace(h, counted_at(h, tick), tick, d->rate);
        h->rates++;
    }
}

/* Notes a daemon's clock that differs from the last one of its host. */
static void note(host *h, const tsp_daemon *d)
{
    segment *last = h->count > 0 ? &h->segments[(h->count - 1) % KEPT] : NULL;
    note_rate(h, d, last == NULL || last->life != d->life);
    if (last != NULL && last->life == d->life && last->tick == (int64_t)d->tick && last->target == d->target)
        return;
    h->segments[h->count % KEPT] = (segment){d->life, (int64_t)d->tick, d->target};
    h->count++;
}

/* A host's target at a moment, when that was corrected last, and at which tick; 0 where it isn't known. */
static int truth(const host *h, int64_t at, int64_t *target, int64_t *corrected, int64_t *changed)
{
    int64_t tick;
    int number;
    if (h->paced == 0)
        return 0;
    tick = tick_at(h, tsp_floor(own_time(h, at), THOUSAND));
    for (number = h->count - 1; number >= 0 && number > h->count - KEPT; number--) {
        const segment *s = &h->segments[number % KEPT];
        if (s->life != h->segments[(h->count - 1) % KEPT].life)
            return 0;
        if (s->tick <= tick) {
            *target = s->target + tick - s->tick;
            *changed = s->tick;
            *corrected = machine_time(h, counted_at(h, s->tick) * THOUSAND);
            return 1;
        }
    }
    return 0;
}

/* Whether a host that leads hasn't written its last correction yet, which it does some microseconds after the tick from which that counts. */
static int is_unwritten(const sample *s, int64_t corrected, int64_t changed)
{
    return s->who == s->master && s->changed != changed && s->at - corrected < WRITTEN;
}

/* Compares a sample with the master's clock. */
static void judge(const sample *s)
{
    host *h = &hosts[s->who];
    int64_t target, corrected, changed, width = s->latest - s->earliest;
    if (s->master < 0 || !truth(&hosts[s->master], s->at, &target, &corrected, &changed))
        return;
    /* (both are known to the microsecond) */
    if (is_unwritten(s, corrected, changed) || (s->who != s->master && corrected + 2 * THOUSAND >= machine_time(h, s->looked))) {
        h->between++;
        if (h->begun == 0)
            h->begun = s->at;
        if ((s->at - h->begun) * rate / THOUSAND > h->longest)
            h->longest = (s->at - h->begun) * rate / THOUSAND;
        return;
    }
    h->begun = 0;
    h->readings++;
    h->outside += target < s->earliest || target > s->latest;
    h->widths[width < WIDEST ? width : WIDEST - 1]++;
}

/* Which host's page says that it leads, or that this page names; -1 where there is none. */
static int master_of(int who, const tsp_time *time, const char *name)
{
    int number;
    if (time->role == TSP_LEADS)
        return who;
    for (number = 0; number < hosts_count; number++)
        if (strcmp(hosts[number].name, name) == 0)
            return number;
    return -1;
}

/* Copies a host's page, and reads the machine's clock in between. */
static int read_page(const host *h, tsp_halves *page, char *name, int64_t *at)
{
    int64_t own;
    int tries;
    for (tries = 0; tries < TRIES; tries++) {
        uint64_t daemon = __atomic_load_n(&h->clock.page->daemon.sequence, __ATOMIC_ACQUIRE);
        *at = tsp_nanoseconds();
        if (!tsp_read(h->clock.page, page, &own))
            return 0;
        memcpy(name, h->clock.page->master, sizeof h->clock.page->master);
        if (page->daemon.sequence == daemon && __atomic_load_n(&h->clock.page->look.sequence, __ATOMIC_ACQUIRE) == page->look.sequence)
            return 1;
    }
    return 0;
}

/* Reads a host's page, and fills in a sample of it; 0 where it gives no interval. */
static int look(int who, sample *s)
{
    host *h = &hosts[who];
    tsp_halves page;
    tsp_time time;
    char name[256];
    int64_t at;
    if (h->clock.page == NULL && tsp_clock_open(&h->clock, h->path) != 0)
        return 0;
    if (!read_page(h, &page, name, &at) || tsp_time_of(&page, own_time(h, at), &time) == TSP_STALE)
        return 0;
    note(h, &page.daemon);
    if (time.life == h->life && time.steps == h->steps)
        h->falls += time.shown < h->shown;
    h->life = time.life;
    h->steps = time.steps;
    h->shown = time.shown;
    *s = (sample){at, time.earliest, time.latest, own_time(h, at) - time.age * THOUSAND, (int64_t)page.daemon.tick, who, master_of(who, &time, name)};
    return time.status == TSP_SYNCHRONISED;
}

/* The width that so many in a hundred readings don't exceed. */
static long width_at(const host *h, int hundredths)
{
    long sum = 0, place = 0;
    while (place < WIDEST - 1 && (sum += h->widths[place]) * 100 < h->readings * hundredths)
        place++;
    return place;
}

/* Waits until a nanosecond, without sleep where that would take longer. */
static void pause_until(int64_t at)
{
    const struct timespec sleep = {0, 20000};
    while (tsp_nanoseconds() < at)
        if (at - tsp_nanoseconds() > 2 * sleep.tv_nsec)
            nanosleep(&sleep, NULL);
}

static void run(int64_t until)
{
    long head = 0, tail = 0;
    while (!is_over && tsp_nanoseconds() < until) {
        int64_t begun = tsp_nanoseconds();
        int who;
        for (who = 0; who < hosts_count; who++)
            if (head - tail < ROOM)
                head += look(who, &ring[head % ROOM]);
        while (tail < head && begun - ring[tail % ROOM].at > DELAY)
            judge(&ring[tail++ % ROOM]);
        pause_until(begun + PACE / rate * hosts_count);
    }
}

int main(int count, char **words)
{
    int number;
    if (count < 5 || count - 4 > MOST_HOSTS)
        return 2;
    from = atoll(words[1]);
    rate = atoll(words[2]);
    for (number = 4; number < count; number++) {
        host *h = &hosts[hosts_count++];
        h->path = strtok(words[number], ",");
        h->wall = atoll(strtok(NULL, ","));
        h->step = atoll(strtok(NULL, ","));
        h->drift = atoll(strtok(NULL, ","));
        h->slew = atoll(strtok(NULL, ","));
        h->slew_from = atoll(strtok(NULL, ","));
        h->slew_for = atoll(strtok(NULL, ","));
        h->is_slewed = atoll(strtok(NULL, ","));
        h->name = strtok(NULL, ",");
        h->widths = calloc(WIDEST, sizeof *h->widths);
        if (h->widths == NULL)
            return 1;
    }
    signal(SIGTERM, over);
    run(tsp_nanoseconds() + atoll(words[3]) * INT64_C(1000000000));
    for (number = 0; number < hosts_count; number++) {
        const host *h = &hosts[number];
        printf("%s %ld %ld %ld %lld %ld %ld %ld %ld\n", h->name, h->readings, h->outside, h->between, (long long)h->longest, h->falls, width_at(h, 50),
               width_at(h, 99), h->rates);
    }
    return 0;
}
