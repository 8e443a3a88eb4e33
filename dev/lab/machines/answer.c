/* On the host: answers a machine's questions for the processor's counter by a page that both share, for so many seconds: `answer SHARED SECONDS`.
 * `answer now` writes the counter, and the nanoseconds of the host's own clock at it.
 *
 * The machine writes a number into the first word. Its answer is the counter in the third word, and then the number in the second one.
 */
#define _GNU_SOURCE
#include <fcntl.h>
#include <stdint.h>
#include <stdio.h>
#include <stdlib.h>
#include <string.h>
#include <sys/mman.h>
#include <time.h>
#include <x86intrin.h>

#define LOOKS 0xfffff
#define PAIRS 1000

/* The counter and the host's clock, by the narrowest of some pairs. */
static int now(void)
{
    uint64_t best = UINT64_MAX, found = 0, before, after;
    struct timespec time, at = {0, 0};
    int number;
    for (number = 0; number < PAIRS; number++) {
        before = __rdtsc();
        clock_gettime(CLOCK_MONOTONIC_RAW, &time);
        after = __rdtsc();
        if (after - before < best) {
            best = after - before;
            found = before + best / 2;
            at = time;
        }
    }
    return printf("%llu %lld\n", (unsigned long long)found, (long long)at.tv_sec * 1000000000 + at.tv_nsec) < 0;
}

int main(int count, char **words)
{
    volatile uint64_t *shared;
    uint64_t last;
    time_t until;
    long turn;
    if (count == 2 && strcmp(words[1], "now") == 0)
        return now();
    if (count != 3)
        return 2;
    shared = mmap(NULL, 4096, PROT_READ | PROT_WRITE, MAP_SHARED, open(words[1], O_RDWR), 0);
    if (shared == MAP_FAILED)
        return 1;
    until = time(NULL) + atoi(words[2]);
    for (last = shared[0], turn = 0; turn++ & LOOKS || time(NULL) < until;)
        if (shared[0] != last) {
            last = shared[0];
            shared[2] = __rdtsc();
            shared[1] = last;
        }
    return 0;
}
