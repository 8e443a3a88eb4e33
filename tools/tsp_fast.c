/* Lets a program's time run faster, for tsp-demo and for dev/. It is loaded before the C library by LD_PRELOAD.
 *
 *   FAST_FROM   the value of CLOCK_MONOTONIC at which fast time begins, in nanoseconds
 *   FAST_RATE   how many nanoseconds of fast time pass in one
 *   FAST_WALL   what the wall clock shows when fast time begins, in nanoseconds since 1970
 *   FAST_DRIFT  by how many parts in a million the program's clocks are faster than that; 0 if left out
 *   FAST_HOLD   where it is set, time stands still from the first look at a clock until the program first waits
 *   FAST_STEP   the wall clock is set by so many nanoseconds
 *   FAST_AT     when fast time has passed for so many nanoseconds
 *   FAST_SLEW   CLOCK_MONOTONIC and the wall clock are slewed by so many parts in a million, as NTP does, and CLOCK_MONOTONIC_RAW isn't:
 *   FAST_SLEWS  from when fast time has passed for so many nanoseconds
 *   FAST_SLEWN  for so many nanoseconds
 *   FAST_SPOIL  a type: the first datagram of this type that is sent has the last bit of its octet 11 changed
 *
 * All programs with the same FAST_FROM, FAST_RATE and FAST_DRIFT have the same fast time, whenever they start. Receives,
 * polls and sleeps that wait so long in fast time wait less here. */
#define _GNU_SOURCE
#include <errno.h>
#include <poll.h>
#include <stdlib.h>
#include <string.h>
#include <sys/socket.h>
#include <sys/syscall.h>
#include <sys/time.h>
#include <time.h>
#include <unistd.h>

#define MILLION 1000000LL
#define BILLION 1000000000LL
#define LONGEST 512
#define SPOILED 11

static long long held;
static int waited, spoiled;

static long long setting(const char *name, long long otherwise)
{
    const char *text = getenv(name);
    return text ? atoll(text) : otherwise;
}

/* The nanoseconds of the machine's monotonic clock, or those at which time stands still. */
static int look(long long *now)
{
    struct timespec time;
    if (syscall(SYS_clock_gettime, CLOCK_MONOTONIC, &time))
        return -1;
    *now = time.tv_sec * BILLION + time.tv_nsec;
    if (!waited && getenv("FAST_HOLD")) {
        if (!held)
            held = *now;
        *now = held;
    }
    return 0;
}

/* By how many nanoseconds a clock that is slewed is ahead of one that isn't. */
static long long slewed(long long passed)
{
    long long since = passed - setting("FAST_SLEWS", 0), length = setting("FAST_SLEWN", 0);
    if (since <= 0)
        return 0;
    return (long long)((__int128)(since < length ? since : length) * setting("FAST_SLEW", 0) / MILLION);
}

int clock_gettime(clockid_t id, struct timespec *time)
{
    long long now;
    if (id != CLOCK_MONOTONIC && id != CLOCK_REALTIME && id != CLOCK_MONOTONIC_RAW)
        return syscall(SYS_clock_gettime, id, time);
    if (look(&now))
        return -1;
    long long from = setting("FAST_FROM", 0);
    long long passed = (now - from) * setting("FAST_RATE", 1);
    passed += (long long)((__int128)passed * setting("FAST_DRIFT", 0) / MILLION);
    if (id != CLOCK_MONOTONIC_RAW)
        passed += slewed(passed);
    long long shown = passed + from;
    if (id == CLOCK_REALTIME)
        shown = passed + setting("FAST_WALL", 0) + (passed >= setting("FAST_AT", 0) ? setting("FAST_STEP", 0) : 0);
    time->tv_sec = shown / BILLION;
    time->tv_nsec = shown % BILLION;
    return 0;
}

int setsockopt(int socket, int level, int name, const void *value, socklen_t size)
{
    if (level != SOL_SOCKET || name != SO_RCVTIMEO || size != sizeof(struct timeval))
        return syscall(SYS_setsockopt, socket, level, name, value, size);
    waited = 1;
    struct timeval wait = *(const struct timeval *)value;
    long long micros = (wait.tv_sec * MILLION + wait.tv_usec) / setting("FAST_RATE", 1);
    if (micros < 1)
        micros = 1;
    wait.tv_sec = micros / MILLION;
    wait.tv_usec = micros % MILLION;
    return syscall(SYS_setsockopt, socket, level, name, &wait, sizeof wait);
}

int poll(struct pollfd *files, nfds_t count, int wait)
{
    long long nanos = wait * MILLION / setting("FAST_RATE", 1);
    struct timespec time = {nanos / BILLION, nanos % BILLION};
    return syscall(SYS_ppoll, files, count, wait < 0 ? NULL : &time, NULL, 0);
}

/* A wait until a time is one until the machine's, by which the drift counts for nothing. */
int clock_nanosleep(clockid_t id, int flags, const struct timespec *wait, struct timespec *left)
{
    long long from = setting("FAST_FROM", 0), nanos = wait->tv_sec * BILLION + wait->tv_nsec;
    if (id != CLOCK_MONOTONIC)
        return syscall(SYS_clock_nanosleep, id, flags, wait, left) == 0 ? 0 : errno;
    nanos = flags & TIMER_ABSTIME ? from + (nanos - from) / setting("FAST_RATE", 1) : nanos / setting("FAST_RATE", 1);
    struct timespec time = {nanos / BILLION, nanos % BILLION};
    return syscall(SYS_clock_nanosleep, id, flags, &time, NULL) == 0 ? 0 : errno;
}

ssize_t sendto(int socket, const void *octets, size_t count, int flags, const struct sockaddr *to, socklen_t size)
{
    unsigned char copy[LONGEST];
    const unsigned char *first = octets;
    if (!spoiled && count > SPOILED && count <= LONGEST && setting("FAST_SPOIL", -1) == first[0]) {
        memcpy(copy, octets, count);
        copy[SPOILED] ^= 1;
        octets = copy;
        spoiled = 1;
    }
    return syscall(SYS_sendto, socket, octets, count, flags, to, size);
}
