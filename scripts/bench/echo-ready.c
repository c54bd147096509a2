/* An echo by readiness, beside which scripts/bench/station measures the station:
 *
 *   echo-ready    listens on a free port of 127.0.0.1, prints it, and sends back what connections
 *                 send, on one thread (epoll, edge-triggered), until its standard input ends
 */
#define _GNU_SOURCE
#include <arpa/inet.h>
#include <errno.h>
#include <fcntl.h>
#include <netinet/in.h>
#include <netinet/tcp.h>
#include <stdio.h>
#include <stdlib.h>
#include <sys/epoll.h>
#include <sys/socket.h>
#include <unistd.h>

enum { PIECE_OCTETS = 4096, EVENTS = 256 }; /* as the station reads and waits */

static void fail(const char *why)
{
    perror(why);
    exit(1);
}

static void watch(int poll, int file, unsigned events)
{
    struct epoll_event event = {.events = events, .data.fd = file};
    if (epoll_ctl(poll, EPOLL_CTL_ADD, file, &event) != 0)
        fail("echo-ready: can't watch");
}

static void accept_all(int poll, int listener)
{
    int one = 1, stream;
    while ((stream = accept4(listener, NULL, NULL, SOCK_NONBLOCK)) >= 0) {
        setsockopt(stream, IPPROTO_TCP, TCP_NODELAY, &one, sizeof one);
        watch(poll, stream, EPOLLIN | EPOLLOUT | EPOLLRDHUP | EPOLLET);
    }
}

/* Sends back what has come; a piece that isn't full was the last for now. */
static void echo_ready(int stream)
{
    static char piece[PIECE_OCTETS];
    ssize_t came;
    do {
        came = recv(stream, piece, sizeof piece, 0);
        if (came > 0 && send(stream, piece, came, MSG_NOSIGNAL) != came)
            fail("echo-ready: not taken");
    } while (came == sizeof piece);
    if (came == 0)
        close(stream);
}

int main(void)
{
    struct sockaddr_in here = {.sin_family = AF_INET};
    struct epoll_event events[EVENTS];
    socklen_t length = sizeof here;
    here.sin_addr.s_addr = htonl(INADDR_LOOPBACK);
    int listener = socket(AF_INET, SOCK_STREAM | SOCK_NONBLOCK, 0), poll = epoll_create1(0);
    if (listener < 0 || bind(listener, (struct sockaddr *)&here, sizeof here) != 0 ||
        listen(listener, 1024) != 0)
        fail("echo-ready: can't listen");
    getsockname(listener, (struct sockaddr *)&here, &length);
    printf("listening 127.0.0.1:%d\n", ntohs(here.sin_port));
    fflush(stdout);
    watch(poll, listener, EPOLLIN | EPOLLET);
    watch(poll, 0, EPOLLIN);
    for (;;) {
        int count = epoll_wait(poll, events, EVENTS, -1);
        for (int i = 0; i < count; i++) {
            if (events[i].data.fd == 0)
                return 0;
            if (events[i].data.fd == listener)
                accept_all(poll, listener);
            else if (events[i].events & EPOLLIN)
                echo_ready(events[i].data.fd);
        }
    }
}
