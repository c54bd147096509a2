/* What the clients of scripts/bench/server and scripts/bench/station share. */
#include <arpa/inet.h>
#include <netinet/in.h>
#include <netinet/tcp.h>
#include <stdio.h>
#include <stdlib.h>
#include <string.h>
#include <sys/socket.h>
#include <time.h>
#include <unistd.h>

static const char *program;
static int port;

static void fail(const char *why)
{
    fprintf(stderr, "%s: %s\n", program, why);
    exit(1);
}

static double read_clock(void)
{
    struct timespec t;
    clock_gettime(CLOCK_MONOTONIC, &t);
    return t.tv_sec + t.tv_nsec * 1e-9;
}

static int connect_here(void)
{
    struct sockaddr_in here = {.sin_family = AF_INET, .sin_port = htons(port)};
    int one = 1, s = socket(AF_INET, SOCK_STREAM, 0);
    here.sin_addr.s_addr = htonl(INADDR_LOOPBACK);
    if (s < 0 || connect(s, (struct sockaddr *)&here, sizeof here) != 0)
        fail("can't connect");
    setsockopt(s, IPPROTO_TCP, TCP_NODELAY, &one, sizeof one);
    return s;
}

/* Octets of a text in hexadecimal; returns how many. */
static int parse_octets(const char *text, unsigned char *to)
{
    int n = 0;
    for (unsigned value; sscanf(text, " %2x", &value) == 1; text += strspn(text, " "), text += 2)
        to[n++] = value;
    return n;
}

static int compare_times(const void *a, const void *b)
{
    int x = *(const int *)a, y = *(const int *)b;
    return (x > y) - (x < y);
}

/* Prints requests a second, and the microseconds that half, 99 of 100 and 999 of 1,000 of them took
 * at most. */
static void print_times(double rate, int *times, long sum)
{
    qsort(times, sum, sizeof(int), compare_times);
    printf("%.0f %.1f %.1f %.1f\n", rate, times[sum / 2] / 1e3, times[sum * 99 / 100] / 1e3,
           times[sum * 999 / 1000] / 1e3);
}
