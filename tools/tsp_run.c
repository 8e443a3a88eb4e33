/* Leads a program by the network's shown time, where tsp-run loads it: each look at the wall clock is answered by the page, to the microsecond.
 * libfaketime comes behind it, and turns times until which a program waits into the machine's.
 *
 * Sleeps by the monotonic clock, which isn't led, are the system's own. (libfaketime 0.9.10 refuses those until a time, by which Python sleeps)
 */
#define _GNU_SOURCE
#include "tsp_clock.h"
#include <dlfcn.h>
#include <sys/syscall.h>
#include <sys/time.h>

#define THOUSAND 1000
#define MILLION 1000000

typedef int sleeps(clockid_t, int, const struct timespec *, struct timespec *);

static tsp_clock led;
static ino_t opened;

/* Opens the page that is at its path, where that is another one by now. The old one stays mapped, since another thread may read it. */
static void renew(void)
{
    struct stat about;
    tsp_clock other;
    const char *named = getenv("TSP_CLOCK");
    if (stat(named != NULL && *named != '\0' ? named : TSP_CLOCK_PATH, &about) != 0 || about.st_ino == opened)
        return;
    if (tsp_clock_open(&other, NULL) == 0) {
        opened = about.st_ino;
        __atomic_store_n(&led.page, other.page, __ATOMIC_RELEASE);
    }
}

__attribute__((constructor)) static void begin(void)
{
    renew();
}

/* The shown time in microseconds; if the page is written no more, it runs on, also if the daemon ended properly. 0 if there is none. */
static int look(int64_t *shown)
{
    tsp_halves page;
    int64_t now, tick;
    int is_over;
    const tsp_page *at = __atomic_load_n(&led.page, __ATOMIC_ACQUIRE);
    if (at == NULL || !tsp_read(at, &page, &now))
        return 0;
    /* (a daemon that ends writes a 0 there, and leaves its clock) */
    is_over = page.daemon.sequence == 0;
    if (is_over)
        page.daemon.sequence = 2;
    if (!tsp_is_sound(&page.daemon))
        return 0;
    tick = tsp_tick_at(&page.daemon, now);
    if (is_over || tick - (int64_t)page.daemon.alive > TSP_LASTS) {
        static int64_t tried;
        int64_t last = __atomic_load_n(&tried, __ATOMIC_RELAXED), seen = tsp_nanoseconds();
        if (seen - last > INT64_C(1000000000) && __atomic_compare_exchange_n(&tried, &last, seen, 0, __ATOMIC_RELAXED, __ATOMIC_RELAXED))
            renew();
    }
    *shown = tsp_shown_at(&page.daemon, tick);
    return page.daemon.origin != 0;
}

int clock_gettime(clockid_t id, struct timespec *time)
{
    int64_t shown;
    if ((id != CLOCK_REALTIME && id != CLOCK_REALTIME_COARSE) || !look(&shown))
        return (int)syscall(SYS_clock_gettime, id, time);
    time->tv_sec = (time_t)tsp_floor(shown, MILLION);
    time->tv_nsec = (long)(shown - tsp_floor(shown, MILLION) * MILLION) * THOUSAND;
    return 0;
}

int gettimeofday(struct timeval *restrict time, void *restrict zone)
{
    struct timespec now;
    (void)zone;
    if (clock_gettime(CLOCK_REALTIME, &now) != 0)
        return -1;
    time->tv_sec = now.tv_sec;
    time->tv_usec = now.tv_nsec / THOUSAND;
    return 0;
}

time_t time(time_t *into)
{
    struct timespec now;
    if (clock_gettime(CLOCK_REALTIME, &now) != 0)
        return (time_t)-1;
    if (into != NULL)
        *into = now.tv_sec;
    return now.tv_sec;
}

int timespec_get(struct timespec *time, int base)
{
    return base == TIME_UTC && clock_gettime(CLOCK_REALTIME, time) == 0 ? base : 0;
}

int clock_nanosleep(clockid_t id, int flags, const struct timespec *until, struct timespec *left)
{
    sleeps *next = (sleeps *)dlsym(RTLD_NEXT, "clock_nanosleep");
    if (id == CLOCK_REALTIME && next != NULL)
        return next(id, flags, until, left);
    return syscall(SYS_clock_nanosleep, id, flags, until, left) == 0 ? 0 : errno;
}
