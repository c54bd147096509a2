/* The clients of scripts/bench/server:
 *
 *   server reads PORT CLIENTS REQUESTS    tills that read a fuelling point each
 *   server echo PORT CLIENTS REQUESTS     the same octets, to a server that sends them back
 *   server ping PORT CLIENTS REQUESTS     PING, to Redis
 *   server sales PORT PAIRS CYCLES        pairs of a till and a dispenser that sell and clear
 *
 * Each client has one request outstanding, looks at every reply, and keeps how long it took.
 * Printed are requests a second of them all, and microseconds that half, 99 of 100 and 999 of 1,000
 * replies took at most.
 */
#include "bench.h"
#include <pthread.h>
#include <stdint.h>

enum { MOST = 128, CLIENTS = 16, WARMING = 200 };

struct client {
    int number;
    int *nanoseconds;
    double seconds;
};

static const char *kind;
static int clients, requests;
static pthread_barrier_t begin;

/* Sends a message, and looks whether the reply is the one that is wanted. */
static void ask(int s, const unsigned char *sent, int length, const unsigned char *wanted, int due)
{
    unsigned char got[MOST];
    if (send(s, sent, length, MSG_NOSIGNAL) != length)
        fail("a request wasn't taken");
    for (int n = 0; n < due;) {
        int more = recv(s, got + n, due - n, 0);
        if (more <= 0)
            fail("a connection ended");
        n += more;
    }
    if (memcmp(got, wanted, due) != 0)
        fail("a reply isn't the one that is wanted");
}

static void ask_text(int s, int node_place, int node, const char *request, const char *reply)
{
    unsigned char sent[MOST], wanted[MOST];
    int length = parse_octets(request, sent), due = parse_octets(reply, wanted);
    sent[node_place] = wanted[1] = node;
    ask(s, sent, length, wanted, due);
}

/* Reads of a point, the same octets to and fro, or pings. */
static void make_reads(struct client *c)
{
    unsigned char sent[MOST], wanted[MOST];
    int s = connect_here(), is_echo = strcmp(kind, "echo") == 0;
    int is_read = strcmp(kind, "reads") == 0;
    int length = parse_octets("01 01 02 01 00 00 00 02 01 21", sent), due = length;
    sent[3] = c->number;
    if (is_echo) {
        memcpy(wanted, sent, length);
    } else if (!is_read) {
        length = sprintf((char *)sent, "PING\r\n");
        due = sprintf((char *)wanted, "+PONG\r\n");
    } else {
        ask_text(s, 3, c->number, "01 01 02 01 00 41 00 04 01 01 31 00",
             "02 01 01 01 00 E1 00 08 01 01 01 01 00 03 01 00");
        due = parse_octets("02 01 01 01 00 20 00 1E 01 21 10 01 02 11 01 00 12 01 00 13 01 00"
                     " 72 04 00 00 00 00 73 08 00 00 00 00 00 00 00 00", wanted);
        wanted[1] = c->number;
    }
    double start = 0;
    for (int n = -WARMING; n < requests; n++) {
        if (n == 0) {
            pthread_barrier_wait(&begin);
            start = read_clock();
        }
        if (is_echo || is_read) {
            sent[5] = (unsigned)n % 32;
            wanted[5] = is_echo ? sent[5] : 0x20 | sent[5];
        }
        double before = read_clock();
        ask(s, sent, length, wanted, due);
        if (n >= 0)
            c->nanoseconds[n] = (read_clock() - before) * 1e9;
    }
    c->seconds = read_clock() - start;
    close(s);
}

/* The number n in packed decimal digits. */
static void write_digits(int n, unsigned char *to)
{
    to[0] = n / 1000 << 4 | n / 100 % 10;
    to[1] = n / 10 % 10 << 4 | n % 10;
}

static void write_reading(long n, unsigned char *to)
{
    for (int i = 7; i >= 0; i--, n >>= 8)
        to[i] = n & 255;
}

/* Sales at a point: release, lift, hang up with 1,000 ml more, lock, clear; each request behind the
 * reply to the one before it. */
static void make_sales(struct client *c)
{
    static const char *asked[] = {
        "01 01 02 00 00 40 00 04 01 00 3E 00",
        "01 01 03 00 00 60 00 11 01 00 62 00 70 01 01 71 08 00 00 00 00 00 00 00 00",
        "01 01 03 00 00 60 00 11 01 00 64 00 70 01 01 71 08 00 00 00 00 00 00 00 00",
        "01 01 02 00 00 40 00 07 04 00 21 00 00 80 00",
        "01 01 02 00 00 40 00 07 04 00 21 00 00 82 00",
    };
    static const char *replied[] = {
        "02 00 01 01 00 E0 00 08 01 00 01 01 00 03 01 00",
        "03 00 01 01 00 E0 00 0E 01 00 01 01 00 03 01 02 72 04 00 00 05 DC",
        "03 00 01 01 00 E0 00 16 01 00 01 01 00 03 01 06 73 08 00 00 00 00 00 00 03 E8 74 02 00 00",
        "02 00 01 01 00 E0 00 0B 04 00 21 00 00 01 01 00 03 01 09",
        "02 00 01 01 00 E0 00 15 04 00 21 00 00 01 01 00 03 01 0B 75 08 00 00 00 00 00 00 00 96",
    };
    unsigned char sent[5][MOST], wanted[5][MOST];
    int length[5], due[5], till = connect_here(), pump = connect_here();
    for (int i = 0; i < 5; i++) {
        length[i] = parse_octets(asked[i], sent[i]);
        due[i] = parse_octets(replied[i], wanted[i]);
        sent[i][3] = wanted[i][1] = c->number;
        sent[i][9] = wanted[i][9] = 0x20 + c->number;
    }
    ask_text(till, 3, c->number, "01 01 02 01 00 41 00 04 01 01 31 00",
             "02 01 01 01 00 E1 00 08 01 01 01 01 00 03 01 00");
    unsigned char open[MOST], opened[MOST];
    int n_open = parse_octets("01 01 02 00 00 42 00 04 01 00 3C 00", open);
    int n_opened = parse_octets("02 00 01 01 00 E2 00 08 01 00 01 01 00 03 01 00", opened);
    open[3] = opened[1] = c->number;
    open[9] = opened[9] = 0x20 + c->number;
    ask(till, open, n_open, opened, n_opened);
    pthread_barrier_wait(&begin);
    double start = read_clock();
    for (int n = 0; n < requests; n++) {
        write_reading(n * 1000L, sent[1] + 17);
        write_reading((n + 1) * 1000L, sent[2] + 17);
        write_digits(n + 1, wanted[2] + 28);
        for (int i = 3; i < 5; i++) {
            write_digits(n + 1, sent[i] + 11);
            write_digits(n + 1, wanted[i] + 11);
        }
        double before = read_clock();
        for (int i = 0; i < 5; i++)
            ask(i == 1 || i == 2 ? pump : till, sent[i], length[i], wanted[i], due[i]);
        c->nanoseconds[n] = (read_clock() - before) * 1e9;
    }
    c->seconds = read_clock() - start;
    close(till);
    close(pump);
}

static void *run(void *client)
{
    if (strcmp(kind, "sales") == 0)
        make_sales(client);
    else
        make_reads(client);
    return NULL;
}

int main(int count, char **words)
{
    program = "bench/server";
    if (count != 5)
        fail("reads|echo|ping|sales PORT CLIENTS REQUESTS");
    kind = words[1];
    port = atoi(words[2]);
    clients = atoi(words[3]);
    requests = atoi(words[4]);
    if (clients < 1 || clients > CLIENTS || requests < 1000)
        fail("1 to 16 clients, 1,000 requests at least");
    struct client all[CLIENTS];
    pthread_t threads[CLIENTS];
    int *times = malloc(sizeof(int) * clients * requests);
    if (!times)
        fail("no memory");
    pthread_barrier_init(&begin, NULL, clients);
    for (int i = 0; i < clients; i++) {
        all[i] = (struct client){.number = i + 1, .nanoseconds = times + (long)i * requests};
        if (pthread_create(&threads[i], NULL, run, &all[i]) != 0)
            fail("no thread");
    }
    double longest = 0;
    for (int i = 0; i < clients; i++) {
        pthread_join(threads[i], NULL);
        longest = all[i].seconds > longest ? all[i].seconds : longest;
    }
    long sum = (long)clients * requests;
    print_times(sum / longest, times, sum);
    return 0;
}
