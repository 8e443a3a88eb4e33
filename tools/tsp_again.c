/* Lets a daemon run once more by what its trace says, for tsp-witness. It is loaded before the C library by LD_PRELOAD.
 *
 *   AGAIN_WALL  what the wall clock shows, in microseconds since 1970
 *
 * Standard input has for each turn of the daemon its tick in eight octets, from whom it takes a datagram in four, how many octets that has in four, all in
 * the machine's own order; and then these octets. From whom is the number of a peer, STRANGER, or NOBODY where nothing is taken. At its next receive the
 * daemon gets that, at once, and from then on CLOCK_MONOTONIC_RAW shows that tick. CLOCK_MONOTONIC stands still, so no receive seems late. Behind the last
 * turn each receive fails.
 *
 * Peer number N has the address 198.18.0.0 + N. No socket is opened: what is sent goes nowhere, and counts as sent. */
#define _GNU_SOURCE
#include <arpa/inet.h>
#include <errno.h>
#include <fcntl.h>
#include <netinet/in.h>
#include <stdint.h>
#include <stdio.h>
#include <stdlib.h>
#include <string.h>
#include <sys/socket.h>
#include <sys/syscall.h>
#include <time.h>
#include <unistd.h>

#define MILLION 1000000ULL
#define THOUSAND 1000ULL
/* What the counter shows at tick 0, in microseconds. */
#define BEGIN MILLION
#define NOBODY UINT32_MAX
#define STRANGER (UINT32_MAX - 1)
#define PEERS 0xc6120000U
#define STRANGERS 0xc6130000U
#define LONGEST 512

struct turn {
    uint64_t tick;
    uint32_t from, count;
};

static uint64_t tick;

static void tell(uint64_t micros, struct timespec *time)
{
    time->tv_sec = micros / MILLION;
    time->tv_nsec = micros % MILLION * THOUSAND;
}

int clock_gettime(clockid_t id, struct timespec *time)
{
    const char *wall = getenv("AGAIN_WALL");
    if (id == CLOCK_MONOTONIC_RAW)
        tell(BEGIN + tick, time);
    else if (id == CLOCK_MONOTONIC)
        tell(BEGIN, time);
    else if (id == CLOCK_REALTIME && wall)
        tell(strtoull(wall, NULL, 10), time);
    else
        return syscall(SYS_clock_gettime, id, time);
    return 0;
}

int socket(int domain, int type, int protocol)
{
    (void)domain, (void)protocol;
    return open("/dev/null", O_RDWR | (type & SOCK_CLOEXEC ? O_CLOEXEC : 0));
}

int bind(int socket, const struct sockaddr *to, socklen_t size)
{
    (void)socket, (void)to, (void)size;
    return 0;
}

int setsockopt(int socket, int level, int name, const void *value, socklen_t size)
{
    (void)socket, (void)level, (void)name, (void)value, (void)size;
    return 0;
}

static int whole(void *room, size_t count)
{
    return fread(room, 1, count, stdin) == count;
}

ssize_t recvfrom(int socket, void *octets, size_t count, int flags, struct sockaddr *from, socklen_t *size)
{
    static unsigned char taken[LONGEST];
    struct turn turn;
    struct sockaddr_in sender = {.sin_family = AF_INET, .sin_port = htons(1)};
    (void)socket, (void)flags;
    if (!whole(&turn, sizeof turn) || turn.count > LONGEST || !whole(taken, turn.count)) {
        errno = EBADF;
        return -1;
    }
    tick = turn.tick;
    if (turn.from == NOBODY) {
        errno = EAGAIN;
        return -1;
    }
    if (count > turn.count)
        count = turn.count;
    memcpy(octets, taken, count);
    sender.sin_addr.s_addr = htonl(turn.from == STRANGER ? STRANGERS : PEERS + turn.from);
    if (from && size && *size >= sizeof sender) {
        memcpy(from, &sender, sizeof sender);
        *size = sizeof sender;
    }
    return count;
}

ssize_t sendto(int socket, const void *octets, size_t count, int flags, const struct sockaddr *to, socklen_t size)
{
    (void)socket, (void)octets, (void)flags, (void)to, (void)size;
    return count;
}
