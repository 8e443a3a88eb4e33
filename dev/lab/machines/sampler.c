/* In a machine: notes its clocks beside the processor's counter, which all machines of one host share but for an offset.
 *
 *   sampler SECONDS        writes a line twice a second, for so many seconds
 *   sampler page           writes the page's status and role, the number of the daemon's life, and its rate
 *   sampler offset SHARED  writes by how much the host's counter is ahead of this machine's, how many counts the best of its questions took, and
 *                          how many were answered; the host answers by a page that both share
 *
 * A line has the counter and CLOCK_REALTIME at it in nanoseconds; the counter and the page's shown, earliest and latest time at it in microseconds, its status
 * and role, the number of the daemon's life and of its clock's steps in it; and how many counts the line took.
 */
#define _GNU_SOURCE
#include "tsp_clock.h"
#include <inttypes.h>
#include <stdio.h>
#include <x86intrin.h>

#define HALF INT64_C(500000000)
#define BILLION INT64_C(1000000000)
#define QUESTIONS 20000
#define LOOKS 5
/* How many counts the questions take at most, all together, and how often an answer is looked for. */
#define MOST UINT64_C(60000000000)
#define SPINS 2000000

typedef struct {
    uint64_t real_at, page_at, width;
    int64_t real;
    tsp_time page;
} moment;

static int offset(const char *path)
{
    volatile uint64_t *shared = mmap(NULL, TSP_PAGE_SIZE, PROT_READ | PROT_WRITE, MAP_SHARED, open(path, O_RDWR), 0);
    uint64_t best = UINT64_MAX, number, begun = __rdtsc();
    int64_t found = 0;
    int count = 0;
    if (shared == MAP_FAILED)
        return 1;
    number = shared[0];
    while (count < QUESTIONS && __rdtsc() - begun < MOST) {
        uint64_t before = __rdtsc(), after, spun = 0;
        shared[0] = ++number;
        while (shared[1] != number && ++spun < SPINS)
            ;
        after = __rdtsc();
        if (shared[1] != number)
            continue;
        count++;
        if (after - before < best) {
            best = after - before;
            found = (int64_t)(shared[2] - before - best / 2);
        }
    }
    printf("%" PRId64 " %" PRIu64 " %d\n", found, best, count);
    return count == 0;
}

/* The clocks of one moment, or nearly. */
static moment look_once(const tsp_clock *clock)
{
    tsp_halves copy;
    moment is;
    uint64_t a, b, c, d;
    int64_t now = 0;
    memset(&is, 0, sizeof is);
    a = __rdtsc();
    is.real = tsp_nanoseconds_by(CLOCK_REALTIME);
    b = __rdtsc();
    if (clock->page != NULL) {
        /* (the page is copied behind that, so it is that of the moment of its clock's reading) */
        c = __rdtsc();
        if (tsp_read_once(clock->page, &copy, &now))
            tsp_time_of(&copy, now, &is.page);
        d = __rdtsc();
    } else
        c = d = b;
    is.real_at = a + (b - a) / 2;
    is.page_at = c + (d - c) / 2;
    is.width = d - a;
    return is;
}

/* The narrowest of some looks. */
static moment look(const tsp_clock *clock)
{
    moment best = look_once(clock), is;
    int number;
    for (number = 1; number < LOOKS; number++) {
        is = look_once(clock);
        if (is.width < best.width)
            best = is;
    }
    return best;
}

static int page(void)
{
    tsp_clock clock;
    tsp_time now;
    tsp_clock_open(&clock, NULL);
    tsp_clock_now(&clock, &now);
    return printf("%d %d %" PRIx64 " %" PRId64 "\n", now.status, now.role, now.life, clock.is_kept ? clock.kept.daemon.rate : 0) < 0;
}

int main(int count, char **words)
{
    const struct timespec pause = {0, HALF};
    tsp_clock clock;
    int64_t until;
    if (count == 3 && strcmp(words[1], "offset") == 0)
        return offset(words[2]);
    if (count == 2 && strcmp(words[1], "page") == 0)
        return page();
    if (count != 2)
        return 2;
    until = tsp_nanoseconds_by(CLOCK_BOOTTIME) + atoll(words[1]) * BILLION;
    tsp_clock_open(&clock, NULL);
    setvbuf(stdout, NULL, _IOLBF, 0);
    while (tsp_nanoseconds_by(CLOCK_BOOTTIME) < until) {
        moment is = look(&clock);
        printf("%" PRIu64 " %" PRId64 " %" PRIu64 " %" PRId64 " %" PRId64 " %" PRId64 " %d %d %" PRIu64 " %" PRIu64 " %" PRIu64 "\n", is.real_at, is.real,
               is.page_at, is.page.shown, is.page.earliest, is.page.latest, is.page.status, is.page.role, is.page.life, is.page.steps, is.width);
        if (is.page.status == TSP_STALE) {
            tsp_clock_close(&clock);
            tsp_clock_open(&clock, NULL);
        }
        nanosleep(&pause, NULL);
    }
    return 0;
}
