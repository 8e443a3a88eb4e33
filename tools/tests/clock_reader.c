/* Tries tsp_clock.h: `clock_reader WHAT PAGE [COUNT]`.
 *
 *   times  reads pages from a file, each with a nanosecond behind it, and writes the time that each gives
 *   torn   reads so often a page that is written without pause, in each half of which all fields come from one number, and counts those that don't; also
 *          of as many reads that don't look at the locks
 *   open   opens the page, and writes the errno that this gives, or 0
 *   now    reads the page once, and writes its status and the microseconds that this took; and then so often again, each time more than a second later,
 *          and writes the least that these took
 *   after  waits for so many microseconds until each later time is after the latest that it is now, and writes whether it is
 *   kept   changes a copy of the page so often, and reads it with and without what was kept of the read before; writes how often both were the same, and
 *          fails at the first that aren't
 *   cost   writes the nanoseconds that a read takes, those of clock_gettime right after it, and how many times as long the read takes: each at
 *          the median of many rounds of COUNT
 */
#define _POSIX_C_SOURCE 200809L
#include "tsp_clock.h"
#include <stdio.h>

#define ROUNDS 501
#define LEAST_PAGES 300
#define LONGEST INT64_C(20000000000)

static int times(const char *path)
{
    tsp_page page;
    tsp_halves halves;
    tsp_time time;
    int64_t now;
    FILE *file = fopen(path, "rb");
    if (file == NULL)
        return 1;
    while (fread(&page, sizeof page, 1, file) == 1 && fread(&now, sizeof now, 1, file) == 1) {
        halves.daemon = page.daemon;
        halves.look = page.look;
        halves.parting.room = 0;
        tsp_time_of(&halves, now, &time);
        printf("%d %lld %lld %lld %lld %d ", time.status, (long long)time.shown, (long long)time.earliest, (long long)time.latest, (long long)time.age, time.role);
        printf("%llu %llu\n", (unsigned long long)time.life, (unsigned long long)time.steps);
    }
    return fclose(file);
}

static int is_torn(const tsp_halves *h)
{
    const tsp_daemon *d = &h->daemon;
    const tsp_look *l = &h->look;
    int64_t number = (int64_t)d->life, look = (int64_t)l->life;
    return d->origin != number || d->origin_tick != d->life || d->rate != number || d->tick != d->life || d->target != -number || d->rest != number
        || d->least != number || d->moved != number || d->steps != d->life || d->master != d->life || l->moved != look || l->looked != l->life
        || l->low != -look || l->high != look || l->master != l->life || l->drift != l->life;
}

static int torn(const tsp_clock *clock, long count)
{
    tsp_halves page;
    int64_t now, until = tsp_nanoseconds() + LONGEST;
    long number, torn = 0, bare = 0, pages = 0, unread = 0;
    uint64_t last = 0;
    for (number = 0; number < count || (pages < LEAST_PAGES && tsp_nanoseconds() < until); number++) {
        tsp_copy(&page, clock->page);
        bare += is_torn(&page);
        if (!tsp_read(clock->page, &page, &now)) {
            unread++;
            continue;
        }
        torn += is_torn(&page);
        pages += page.daemon.life != last;
        last = page.daemon.life;
    }
    printf("%ld torn, %ld unread, of %ld reads, which saw %ld pages, and %ld torn without the lock\n", torn, unread, number, pages, bare);
    return torn != 0;
}

static int now(tsp_clock *clock, long more)
{
    const struct timespec pause = {1, 100000000};
    tsp_time time;
    int64_t before = tsp_nanoseconds(), took, least = INT64_MAX;
    int status = tsp_clock_now(clock, &time);
    printf("%d %lld", status, (long long)(tsp_nanoseconds() - before) / 1000);
    for (; more > 0; more--) {
        nanosleep(&pause, NULL);
        before = tsp_nanoseconds();
        tsp_clock_now(clock, &time);
        took = tsp_nanoseconds() - before;
        least = took < least ? took : least;
    }
    if (least != INT64_MAX)
        printf(" %lld", (long long)least / 1000);
    puts("");
    return 0;
}

static int after(tsp_clock *clock, int64_t longest)
{
    tsp_time time;
    tsp_clock_now(clock, &time);
    printf("%d\n", tsp_clock_wait_after(clock, time.latest, longest));
    return 0;
}

/* Changes a half as its writer does, in a field that readers tell of; nothing at each third time. */
static void change(tsp_page *page, long number)
{
    if (number % 3 == 0) {
        page->daemon.sequence += 2;
        page->daemon.steps++;
        page->daemon.target += number % 2000 - 1000;
    } else if (number % 3 == 1) {
        page->look.sequence += 2;
        page->look.low -= number % 7;
        page->look.had = number % 5 != 0;
    }
}

/* Reads a page as if it were for the first time. */
static void read_anew(const tsp_clock *clock, tsp_time *time)
{
    tsp_clock fresh = *clock;
    fresh.is_kept = 0;
    tsp_clock_now(&fresh, time);
}

static int kept(const tsp_clock *opened, long count)
{
    tsp_page page = *opened->page;
    tsp_clock clock = *opened;
    long number;
    clock.page = &page;
    for (number = 0; number < count; number++) {
        tsp_time before, between, later;
        change(&page, number);
        read_anew(&clock, &before);
        tsp_clock_now(&clock, &between);
        read_anew(&clock, &later);
        if (between.status != later.status || between.life != later.life || between.steps != later.steps || between.role != later.role
            || between.shown < before.shown || between.shown > later.shown || between.latest < before.latest || between.latest > later.latest
            || between.age < before.age || between.age > later.age || !clock.is_kept) {
            printf("read %ld: status %d, steps %llu, shown %lld, and anew %d, %llu, %lld\n", number, between.status, (unsigned long long)between.steps,
                   (long long)between.shown, later.status, (unsigned long long)later.steps, (long long)later.shown);
            return 1;
        }
    }
    printf("%ld\n", number);
    return 0;
}

static int by_size(const void *a, const void *b)
{
    double first = *(const double *)a, second = *(const double *)b;
    return (first > second) - (first < second);
}

static double median(double *values)
{
    qsort(values, ROUNDS, sizeof *values, by_size);
    return values[ROUNDS / 2];
}

static int cost(tsp_clock *clock, long count)
{
    double reads[ROUNDS], looks[ROUNDS], times[ROUNDS];
    int64_t sum = 0;
    int round;
    for (round = 0; round < ROUNDS; round++) {
        int64_t begun = tsp_nanoseconds(), between;
        tsp_time time;
        struct timespec look;
        long number;
        for (number = 0; number < count; number++) {
            tsp_clock_now(clock, &time);
            sum += time.latest;
        }
        between = tsp_nanoseconds();
        for (number = 0; number < count; number++) {
            clock_gettime(CLOCK_MONOTONIC, &look);
            sum += look.tv_nsec;
        }
        reads[round] = (double)(between - begun) / (double)count;
        looks[round] = (double)(tsp_nanoseconds() - between) / (double)count;
        times[round] = reads[round] / looks[round];
    }
    printf("%.1f %.1f %.2f\n", median(reads), median(looks), median(times));
    return sum == 1;
}

int main(int count, char **words)
{
    tsp_clock clock;
    long long number = count > 3 ? atoll(words[3]) : 1;
    if (count < 3)
        return 2;
    if (strcmp(words[1], "times") == 0)
        return times(words[2]);
    if (strcmp(words[1], "open") == 0)
        return printf("%d\n", tsp_clock_open(&clock, words[2]) == 0 ? 0 : errno) < 0;
    if (tsp_clock_open(&clock, words[2]) != 0)
        return 3;
    if (strcmp(words[1], "torn") == 0)
        return torn(&clock, (long)number);
    if (strcmp(words[1], "after") == 0)
        return after(&clock, number);
    if (strcmp(words[1], "kept") == 0)
        return kept(&clock, (long)number);
    return strcmp(words[1], "cost") == 0 ? cost(&clock, (long)number) : now(&clock, count == 4 ? (long)number : 0);
}
