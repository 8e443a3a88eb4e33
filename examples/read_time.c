/* Prints the network's time once a second, with the interval in which the master's clock lies: cc -o read_time read_time.c
 * (in a clone, here: cc -I ../tools -o read_time read_time.c) */
#define _POSIX_C_SOURCE 200809L
#include <stdio.h>
#include <tsp_clock.h>

int main(void)
{
    static const char *const words[] = {"the daemon doesn't run", "waits for a master", "synchronised", "had a master"};
    const struct timespec second = {1, 0};
    tsp_clock clock;
    tsp_time now;
    if (tsp_clock_open(&clock, NULL) != 0) {
        perror("there is no page of the network's time");
        return 1;
    }
    for (;;) {
        tsp_clock_now(&clock, &now);
        printf("%lld.%06lld, ", (long long)now.shown / 1000000, (long long)now.shown % 1000000);
        if (now.status >= TSP_SYNCHRONISED)
            printf("from %lld us earlier to %lld us later, ", (long long)(now.shown - now.earliest), (long long)(now.latest - now.shown));
        puts(words[now.status]);
        fflush(stdout);
        nanosleep(&second, NULL);
    }
}
