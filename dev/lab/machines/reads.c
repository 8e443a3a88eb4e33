/* Reads the page by the header that it is compiled with, for three seconds, and writes what opening it gave, and of its last reading the status, the shown time
 * and how wide the interval is. It keeps to what each version of the header has. */
#define _GNU_SOURCE
#include "tsp_clock.h"
#include <stdio.h>

int main(void)
{
    const struct timespec pause = {1, 100000000};
    tsp_clock clock;
    tsp_time now;
    int count, opened = tsp_clock_open(&clock, NULL);
    for (count = 0; count < 3; count++) {
        nanosleep(&pause, NULL);
        tsp_clock_now(&clock, &now);
    }
    return printf("%d %d %lld %lld\n", opened, now.status, (long long)now.shown, (long long)(now.latest - now.earliest)) < 0;
}
