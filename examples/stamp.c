/* Prints a stamp of the network's time once all later ones are greater, with its master's name: cc -o stamp stamp.c
 * (in a clone, here: cc -I ../tools -o stamp stamp.c). It ends with 1 if it gets none: at once
 * if there is no page or the status isn't 2, and after the wait if that took more than ten seconds, or if another clock
 * counts then or has no name yet. */
#define _POSIX_C_SOURCE 200809L
#include <stdio.h>
#include <tsp_clock.h>

#define ROUNDS 40000     /* a round may move the master's clock by so many microseconds */
#define LONGEST 10000000 /* the longest wait, in microseconds */

/* Reads the time and, at status 2, the master's name, which is empty if the page doesn't have it yet. */
static tsp_time read_time(tsp_clock *clock, char master[256])
{
    tsp_time now;
    master[0] = 0;
    if (tsp_clock_now(clock, &now) == TSP_SYNCHRONISED) {
        memcpy(master, clock->page->master, 256);
        __atomic_thread_fence(__ATOMIC_ACQUIRE);
        if (!tsp_is_kept(clock) || (now.role == TSP_LEADS && clock->kept.look.master != 0))
            master[0] = 0;
    }
    return now;
}

/* Whether both readings are at status 2, and of one master's clock. */
static int is_same(const tsp_time *a, const char *master, const tsp_time *b, const char *other)
{
    return a->status == TSP_SYNCHRONISED && b->status == TSP_SYNCHRONISED && a->life == b->life && a->steps == b->steps &&
           master[0] != 0 && strcmp(master, other) == 0;
}

int main(void)
{
    char master[256], other[256];
    tsp_clock clock;
    tsp_time taken, later;
    if (tsp_clock_open(&clock, NULL) != 0) {
        perror("there is no page of the network's time");
        return 1;
    }
    taken = read_time(&clock, master);
    if (taken.status != TSP_SYNCHRONISED) {
        fprintf(stderr, "no stamp: status %d\n", taken.status);
        return 1;
    }
    if (!tsp_clock_wait_after(&clock, taken.latest + ROUNDS, LONGEST)) {
        fputs("no stamp: the interval didn't pass it within ten seconds\n", stderr);
        return 1;
    }
    later = read_time(&clock, other);
    if (!is_same(&taken, master, &later, other)) {
        fputs("no stamp: another clock counts now, or its name isn't known yet\n", stderr);
        return 1;
    }
    printf("%lld us, by %s\n", (long long)taken.latest, master);
    return 0;
}
