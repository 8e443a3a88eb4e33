/* Asks a daemon for its clock at a steady rate, and counts the answers: `flood PORT RATE SECONDS`. It writes how many questions were sent,
 * and how many were answered. */
#define _GNU_SOURCE
#include <arpa/inet.h>
#include <endian.h>
#include <pthread.h>
#include <stdint.h>
#include <stdio.h>
#include <stdlib.h>
#include <string.h>
#include <sys/socket.h>
#include <time.h>

#define AT_ONCE 64
#define BUFFER (8 << 20)
#define BILLION 1000000000.0

static int link_socket;
static long answered;
static int is_over;

static double seconds(void)
{
    struct timespec time;
    clock_gettime(CLOCK_MONOTONIC, &time);
    return (double)time.tv_sec + (double)time.tv_nsec / BILLION;
}

static void *take(void *nothing)
{
    static char octets[AT_ONCE][512];
    struct mmsghdr messages[AT_ONCE];
    struct iovec places[AT_ONCE];
    memset(messages, 0, sizeof messages);
    for (int number = 0; number < AT_ONCE; number++) {
        places[number] = (struct iovec){octets[number], sizeof octets[number]};
        messages[number].msg_hdr.msg_iov = &places[number];
        messages[number].msg_hdr.msg_iovlen = 1;
    }
    while (!__atomic_load_n(&is_over, __ATOMIC_RELAXED)) {
        int got = recvmmsg(link_socket, messages, AT_ONCE, MSG_WAITFORONE, NULL);
        answered += got > 0 ? got : 0;
    }
    return nothing;
}

int main(int count, char **words)
{
    const struct timeval patience = {.tv_usec = 100000};
    const struct timespec pause = {.tv_nsec = 50000}, last = {.tv_nsec = 300000000};
    unsigned char question[28] = {128, 1};
    struct sockaddr_in to = {.sin_family = AF_INET, .sin_addr = {htonl(INADDR_LOOPBACK)}};
    uint64_t sent = 0;
    int room = BUFFER;
    pthread_t taker;
    if (count != 4)
        return 2;
    to.sin_port = htons((uint16_t)atoi(words[1]));
    link_socket = socket(AF_INET, SOCK_DGRAM, 0);
    setsockopt(link_socket, SOL_SOCKET, SO_RCVBUF, &room, sizeof room);
    setsockopt(link_socket, SOL_SOCKET, SO_RCVBUFFORCE, &room, sizeof room);
    setsockopt(link_socket, SOL_SOCKET, SO_RCVTIMEO, &patience, sizeof patience);
    if (connect(link_socket, (struct sockaddr *)&to, sizeof to) != 0 || pthread_create(&taker, NULL, take, NULL) != 0)
        return 1;
    for (double begun = seconds(), passed = 0; passed < atof(words[3]); passed = seconds() - begun) {
        if ((double)sent >= passed * atof(words[2]))
            nanosleep(&pause, NULL);
        for (; (double)sent < passed * atof(words[2]); sent++) {
            uint64_t counter = htobe64(sent);
            memcpy(question + 12, &counter, sizeof counter);
            send(link_socket, question, sizeof question, 0);
        }
    }
    nanosleep(&last, NULL);
    __atomic_store_n(&is_over, 1, __ATOMIC_RELAXED);
    pthread_join(taker, NULL);
    printf("%llu %ld\n", (unsigned long long)sent, answered);
    return 0;
}
