/* Lets a program take its machine for one that slept. It is loaded before the C library by LD_PRELOAD.
 *
 *   SLEPT_FILE  from when this file is there on, the clock that counts on in a sleep is ten minutes ahead; a timer by that clock that is set
 *               then is over, as the system has it when a machine wakes
 */
#define _GNU_SOURCE
#include <poll.h>
#include <stdlib.h>
#include <sys/syscall.h>
#include <sys/timerfd.h>
#include <time.h>
#include <unistd.h>

#define TEN_MINUTES 600
#define SLICE 10

static int timer = -1;

static int slept(void)
{
    const char *file = getenv("SLEPT_FILE");
    return file && access(file, F_OK) == 0;
}

int clock_gettime(clockid_t id, struct timespec *time)
{
    long status = syscall(SYS_clock_gettime, id, time);
    if (status == 0 && id == CLOCK_BOOTTIME && slept())
        time->tv_sec += TEN_MINUTES;
    return (int)status;
}

int timerfd_settime(int file, int flags, const struct itimerspec *wait, struct itimerspec *before)
{
    timer = wait->it_value.tv_sec || wait->it_value.tv_nsec ? file : -1;
    return (int)syscall(SYS_timerfd_settime, file, flags, wait, before);
}

/* Has the timer be over that was set before the machine slept. */
static void wake(void)
{
    const struct itimerspec over = {{0, 0}, {0, 1}};
    if (timer < 0 || !slept())
        return;
    syscall(SYS_timerfd_settime, timer, 0, &over, NULL);
    timer = -1;
}

int poll(struct pollfd *files, nfds_t count, int wait)
{
    for (;;) {
        struct timespec slice = {0, (wait < 0 || wait > SLICE ? SLICE : wait) * 1000000L};
        wake();
        long ready = syscall(SYS_ppoll, files, count, &slice, NULL, 0);
        if (ready != 0 || (wait >= 0 && wait <= SLICE))
            return (int)ready;
        wait -= wait < 0 ? 0 : SLICE;
    }
}
