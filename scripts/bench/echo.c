/* An echo over loopback, beside which scripts/bench/server measures the server of sessions:
 *
 *   echo WORKERS SESSIONS    listens on a free port of 127.0.0.1, prints it, and serves so many
 *                            sessions by each of so many workers: what a connection sends is sent
 *                            back
 */
#include <arpa/inet.h>
#include <netinet/in.h>
#include <netinet/tcp.h>
#include <pthread.h>
#include <stdio.h>
#include <stdlib.h>
#include <sys/socket.h>
#include <unistd.h>

enum { PIECE_OCTETS = 4096, MOST_WORKERS = 128 }; /* a piece is what a session reads at most */

static int listener, sessions;

static void fail(const char *why)
{
    perror(why);
    exit(1);
}

/* Sends back what comes, until nothing comes or the connection fails. */
static void echo_one(int stream)
{
    static _Thread_local char piece[PIECE_OCTETS];
    ssize_t came, sent, more;
    while ((came = read(stream, piece, sizeof piece)) > 0)
        for (sent = 0; sent < came; sent += more)
            if ((more = write(stream, piece + sent, came - sent)) <= 0)
                return;
}

static void *serve_sessions(void *unused)
{
    int one = 1;
    for (int session = 0; session < sessions; session++) {
        int stream = accept(listener, NULL, NULL);
        if (stream < 0)
            fail("echo: accept");
        setsockopt(stream, IPPROTO_TCP, TCP_NODELAY, &one, sizeof one);
        echo_one(stream);
        close(stream);
    }
    return unused;
}

int main(int count, char **words)
{
    struct sockaddr_in here = {.sin_family = AF_INET};
    socklen_t length = sizeof here;
    pthread_t threads[MOST_WORKERS];
    int workers = count == 3 ? atoi(words[1]) : 0;
    sessions = count == 3 ? atoi(words[2]) : 0;
    if (workers < 1 || workers > MOST_WORKERS || sessions < 1) {
        fputs("echo: WORKERS SESSIONS\n", stderr);
        return 2;
    }
    here.sin_addr.s_addr = htonl(INADDR_LOOPBACK);
    listener = socket(AF_INET, SOCK_STREAM, 0);
    if (listener < 0 || bind(listener, (struct sockaddr *)&here, sizeof here) != 0 ||
        listen(listener, 128) != 0)
        fail("echo: can't listen");
    getsockname(listener, (struct sockaddr *)&here, &length);
    printf("listening 127.0.0.1:%d\n", ntohs(here.sin_port));
    fflush(stdout);
    for (int i = 0; i < workers; i++)
        if (pthread_create(&threads[i], NULL, serve_sessions, NULL) != 0)
            fail("echo: can't start a worker");
    for (int i = 0; i < workers; i++)
        pthread_join(threads[i], NULL);
    return 0;
}
