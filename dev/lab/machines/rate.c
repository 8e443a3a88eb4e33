/* Gives a machine's hardware a rate of its own: QEMU's clock, by which the machine's hardware counts, is so many parts in a million too fast. It is loaded
 * before the C library by LD_PRELOAD.
 *
 *   MACHINE_PPM  the parts in a million; too slow if it is below 0
 */
#define _GNU_SOURCE
#include <dlfcn.h>
#include <stdint.h>
#include <stdlib.h>
#include <time.h>

#define BILLION INT64_C(1000000000)

static int (*system_gettime)(clockid_t, struct timespec *);
static double rate;
static int64_t first;

static int64_t of(const struct timespec *time)
{
    return (int64_t)time->tv_sec * BILLION + time->tv_nsec;
}

__attribute__((constructor)) static void begin(void)
{
    const char *word = getenv("MACHINE_PPM");
    struct timespec now;
    system_gettime = (int (*)(clockid_t, struct timespec *))dlsym(RTLD_NEXT, "clock_gettime");
    rate = word ? atof(word) / 1e6 : 0;
    system_gettime(CLOCK_MONOTONIC, &now);
    first = of(&now);
}

int clock_gettime(clockid_t clock, struct timespec *time)
{
    int status;
    if (!system_gettime)
        begin();
    status = system_gettime(clock, time);
    if (status == 0 && clock == CLOCK_MONOTONIC) {
        int64_t now = of(time);
        now += (int64_t)((double)(now - first) * rate);
        time->tv_sec = now / BILLION;
        time->tv_nsec = now % BILLION;
    }
    return status;
}
