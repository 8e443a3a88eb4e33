/* Compares tsp_clock.h with the proved functions of the crate tsp_page_c, on random pages and moments: `clock_judge COUNT SEED`. Most pages are such as a daemon
 * and its supervisor write; some have numbers that neither writes. It writes how many there were of each status, or the first that differs.
 */
#define _POSIX_C_SOURCE 200809L
#include "tsp_clock.h"
#include <stdio.h>

struct told {
    int64_t shown, earliest, latest;
    uint64_t age, life, steps;
    int32_t role, status;
};
int64_t tsp_page_tick(const uint8_t *fields, size_t length, uint64_t now);
uint64_t tsp_page_spread(uint64_t drift, uint64_t passed);
int32_t tsp_page_read(const uint8_t *page, size_t length, uint64_t now, struct told *told);

static uint64_t state;

/* A random number of 64 bits (splitmix64). */
static uint64_t draw(void)
{
    uint64_t z = (state += UINT64_C(0x9e3779b97f4a7c15));
    z = (z ^ (z >> 30)) * UINT64_C(0xbf58476d1ce4e5b9);
    z = (z ^ (z >> 27)) * UINT64_C(0x94d049bb133111eb);
    return z ^ (z >> 31);
}

/* A number below another one. */
static uint64_t below(uint64_t most)
{
    return draw() % most;
}

/* A number with so many bits at most, of either sign. */
static int64_t within(int bits)
{
    int64_t value = (int64_t)(draw() >> (64 - 1 - below((uint64_t)bits)));
    return draw() % 2 ? value : -value;
}

/* A number near the edges of what a page may hold. */
static uint64_t edge(void)
{
    static const uint64_t edges[] = {0, 1000, 1000000, UINT64_C(1) << 51, UINT64_C(1) << 53, UINT64_C(1) << 56, UINT64_C(1) << 62, UINT64_C(1) << 63};
    uint64_t value = edges[below(8)] + below(5) - 2;
    return draw() % 2 ? value : ~value + 1;
}

/* A page, and a nanosecond of its daemon's clock. */
static uint64_t make(tsp_page *page)
{
    tsp_daemon *d = &page->daemon;
    tsp_look *l = &page->look;
    uint64_t *fields = draw() % 2 ? &d->life : &l->life, now;
    int64_t at;
    memset(page, 0, sizeof *page);
    d->sequence = l->sequence = 2;
    d->life = draw() % 4;
    d->counter = draw() % 2 ? 4 : 1;
    d->origin = (int64_t)(draw() >> (4 + below(50)));
    d->origin_tick = draw() % 2 ? 0 : draw() >> (14 + below(40));
    d->rate = draw() % 2 ? 0 : within(20) % 1000001;
    now = ((uint64_t)d->origin + (draw() >> (6 + below(50)))) >> 0;
    if (now >> 62 != 0)
        now >>= 2;
    at = tsp_tick_at(d, (int64_t)now);
    d->tick = at > 0 ? (uint64_t)at - below((uint64_t)at + 1) / (1 + below(1000000)) : 0;
    d->target = within(51);
    d->rest = within(20 + (int)below(30));
    d->least = draw() % 2 ? INT64_MIN : d->target + within(40);
    d->moved = within(40);
    d->steps = below(9);
    d->role = below(4);
    d->master = below(3);
    d->alive = at > 0 ? (uint64_t)at - below(70000000) : 0;
    l->life = draw() % 4 ? d->life : draw() % 4;
    l->moved = within(40);
    l->looked = at > 0 ? (uint64_t)at - (draw() >> (24 + below(40))) : 0;
    l->low = within(30);
    l->high = within(30);
    l->master = draw() % 4 ? d->master : below(3);
    l->drift = below(1001);
    l->had = draw() % 8 ? 1 : below(3);
    if (draw() % 16 == 0)
        fields[below(fields == &d->life ? 14 : 9)] = edge();
    if (draw() % 64 == 0)
        now = edge();
    return now;
}

static int differs(const tsp_page *page, uint64_t now, long *counts)
{
    static uint8_t octets[TSP_PAGE_SIZE];
    struct told told;
    tsp_halves halves = {0};
    tsp_time time;
    memcpy(octets, page, sizeof *page);
    halves.daemon = page->daemon;
    halves.look = page->look;
    if (page->daemon.counter != 4 && page->daemon.counter != 1)
        return 0;
    tsp_page_read(octets, sizeof octets, now, &told);
    tsp_time_of(&halves, (int64_t)now, &time);
    counts[time.status]++;
    return told.status != time.status || told.shown != time.shown || told.earliest != time.earliest || told.latest != time.latest || (int64_t)told.age != time.age
        || told.life != time.life || told.steps != time.steps || (time.status != TSP_STALE && told.role != time.role);
}

/* Whether two clocks part otherwise than the proved function says, from a moment on, in steps of which most leave the width as it is. */
static int parts_otherwise(uint64_t drift, uint64_t passed)
{
    tsp_parting last = {0, 0, 0};
    int step;
    for (step = 0; step < 8; step++) {
        if (tsp_page_spread(drift, passed) != (uint64_t)tsp_spread(&last, (int64_t)drift, (int64_t)passed))
            return 1;
        passed += below(1 + 400000 / (drift + 1));
    }
    return 0;
}

int main(int count, char **words)
{
    long number, counts[4] = {0, 0, 0, 0};
    tsp_page page;
    if (count < 3)
        return 2;
    state = strtoull(words[2], NULL, 10);
    for (number = 0; number < atol(words[1]); number++) {
        uint64_t now = make(&page), drift = below(1001), passed = draw() >> (11 + below(53));
        if (draw() % 8 == 0)
            passed = (uint64_t)TSP_RECKONED - below(2000);
        if (differs(&page, now, counts) || parts_otherwise(drift, passed)) {
            printf("page %ld differs, at %llu\n", number, (unsigned long long)now);
            return 1;
        }
    }
    printf("%ld stale, %ld waiting, %ld synchronised, %ld holding\n", counts[0], counts[1], counts[2], counts[3]);
    return 0;
}
