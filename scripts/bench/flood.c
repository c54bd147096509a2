/* The clients of scripts/bench/flood, each kind a process of its own:
 *
 *   flood work PORT SECONDS      32 tills and 64 dispensers at work, a thread for each till and its
 *                                two points. A till begins a sale ten times a second: it releases a
 *                                point, whose dispenser is told, lifts, delivers and hangs up; then
 *                                it locks and clears the sale. Some dispensers come anew after
 *                                every fourth sale. Each reply is looked at
 *   flood send PORT SECONDS      200 connections that send requests as fast as they are taken: up
 *                                to three more sessions of each node at work, all of which make
 *                                rows. Whoever is closed comes again
 *   flood silent PORT SECONDS    1,024 connections that say nothing; 1,000 times a second the
 *                                oldest is closed and a new one comes
 *
 * Of the work are printed: its requests, the microseconds that half and 99 of 100 replies took at
 * most, its sales, how often a dispenser came anew, and the milliseconds that this took at most.
 */
#include "bench.h"
#include <errno.h>
#include <fcntl.h>
#include <pthread.h>
#include <signal.h>
#include <sys/epoll.h>

enum {
    TILLS = 32, POINTS = 64, MOST = 2048, REQUESTS = 60000, /* of a till and its points */
    SALES_A_SECOND = 10, SALES_A_STAY = 4, FIRST_TO_STAY = 36, LITRE = 1000,
    SENDERS = 200, TILL_SENDERS = 96, DISPENSER_SENDERS = 35, PIECE = 16384,
    SILENT = 1024, COMING = 1000, /* a second */
    READ = 0x00, WRITE = 0x40, REPORT = 0x60, NOTICE = 4, ACKNOWLEDGE = 7,
    SIGN_ON = 0x31, OPEN = 0x3C, RELEASE = 0x3E, ONLINE = 0x60, LIFT = 0x62, FLOW = 0x63,
    HANG_UP = 0x64, LOCK = 0x80, CLEAR = 0x82
};

static double until;

/* ---- messages */

static int put(unsigned char *to, int subnet, int node, int kind, const unsigned char *body,
               int length)
{
    unsigned char head[] = {1, 1, subnet, node, 0, kind | 2, length >> 8, length & 255};
    memcpy(to, head, sizeof head);
    memcpy(to + sizeof head, body, length);
    return sizeof head + length;
}

static int put_command(unsigned char *to, int till, int point, int command)
{
    unsigned char body[] = {1, point ? 0x20 + point : 1, command, 0};
    return put(to, 2, till, WRITE, body, sizeof body);
}

static int put_read(unsigned char *to, int till, int point)
{
    unsigned char body[] = {1, 0x20 + point};
    return put(to, 2, till, READ, body, sizeof body);
}

static int put_sale(unsigned char *to, int till, int point, int sale, int command)
{
    unsigned char high = sale / 1000 % 10 << 4 | sale / 100 % 10;
    unsigned char low = sale / 10 % 10 << 4 | sale % 10;
    unsigned char body[] = {4, 0x20 + point, 0x21, high, low, command, 0};
    return put(to, 2, till, WRITE, body, sizeof body);
}

static int put_report(unsigned char *to, int point, int command, long reading)
{
    unsigned char body[17] = {1, 0x20 + point, command, 0, 0x70, 1, 1, 0x71, 8};
    for (int i = 0; i < 8; i++)
        body[9 + i] = reading >> (56 - 8 * i);
    return put(to, 3, point, REPORT, body, command == ONLINE ? 4 : sizeof body);
}

/* ---- the work */

struct peer {
    int stream, came, released; /* notices of a release that came and weren't used */
    unsigned char octets[MOST];
};

struct unit {
    int till, sales[2], arrivals, count;
    struct peer tills, pumps[2];
    long readings[2];
    double slowest;
    int times[REQUESTS];
};

/* The length of the first whole message of a peer, once it has come. */
static int take_message(struct peer *p)
{
    for (;;) {
        if (p->came >= 8) {
            int length = 8 + (p->octets[6] << 8 | p->octets[7]);
            if (p->came >= length)
                return length;
        }
        int more = recv(p->stream, p->octets + p->came, MOST - p->came, 0);
        if (more <= 0)
            fail("a connection of the work ended");
        p->came += more;
    }
}

static void drop_message(struct peer *p, int length)
{
    p->came -= length;
    memmove(p->octets, p->octets + length, p->came);
}

/* Notes a notice; is it one? */
static int note_notice(struct peer *p, int length)
{
    if (p->octets[5] >> 5 != NOTICE)
        return 0;
    p->released += p->octets[10] == RELEASE;
    drop_message(p, length);
    return 1;
}

/* Sends a request, and returns the number of its reply. */
static int ask(struct unit *u, struct peer *p, const unsigned char *sent, int size)
{
    double before = read_clock();
    int length, number;
    if (send(p->stream, sent, size, MSG_NOSIGNAL) != size)
        fail("a request of the work wasn't taken");
    while (length = take_message(p), note_notice(p, length))
        ;
    if (u->count < REQUESTS)
        u->times[u->count++] = (read_clock() - before) * 1e9;
    number = p->octets[5] >> 5 == ACKNOWLEDGE ? p->octets[8 + 1 + p->octets[8] + 2] : 0;
    drop_message(p, length);
    return number;
}

static void expect(const char *what, int number, int wanted)
{
    if (number != wanted) {
        fprintf(stderr, "%s: %d\n", what, number);
        fail("a reply of the work isn't the one that is wanted");
    }
}

static void come(struct unit *u, int i)
{
    unsigned char sent[MOST];
    struct peer *pump = &u->pumps[i];
    double before = read_clock();
    pump->came = pump->released = 0;
    pump->stream = connect_here();
    expect("Online", ask(u, pump, sent, put_report(sent, 2 * u->till - 1 + i, ONLINE, 0)), 10);
    if (u->slowest < read_clock() - before)
        u->slowest = read_clock() - before;
}

static void sell(struct unit *u, int i)
{
    unsigned char sent[MOST];
    int point = 2 * u->till - 1 + i, n;
    struct peer *till = &u->tills, *pump = &u->pumps[i];
    expect("Release", ask(u, till, sent, put_command(sent, u->till, point, RELEASE)), 0);
    while (pump->released == 0)
        if (n = take_message(pump), !note_notice(pump, n))
            fail("a dispenser is told something else than a release");
    pump->released = 0;
    expect("Lift", ask(u, pump, sent, put_report(sent, point, LIFT, u->readings[i])), 0);
    u->readings[i] += LITRE;
    expect("Flow", ask(u, pump, sent, put_report(sent, point, FLOW, u->readings[i])), 0);
    u->readings[i] += LITRE;
    expect("HangUp", ask(u, pump, sent, put_report(sent, point, HANG_UP, u->readings[i])), 0);
    n = ++u->sales[i];
    expect("Lock", ask(u, till, sent, put_sale(sent, u->till, point, n, LOCK)), 0);
    expect("Clear", ask(u, till, sent, put_sale(sent, u->till, point, n, CLEAR)), 0);
    if (point >= FIRST_TO_STAY && n % SALES_A_STAY == 0) {
        close(pump->stream);
        come(u, i);
        u->arrivals++;
    }
}

static void *work(void *of)
{
    struct unit *u = of;
    unsigned char sent[MOST];
    u->tills.stream = connect_here();
    expect("SignOn", ask(u, &u->tills, sent, put_command(sent, u->till, 0, SIGN_ON)), 0);
    for (int i = 0; i < 2; i++) {
        come(u, i);
        int size = put_command(sent, u->till, 2 * u->till - 1 + i, OPEN);
        expect("Open", ask(u, &u->tills, sent, size), 0);
    }
    u->slowest = 0;
    double begun = read_clock() + u->till * 1.0 / SALES_A_SECOND / TILLS;
    for (int n = 0; read_clock() < until; n++) {
        double left = begun + n * 1.0 / SALES_A_SECOND - read_clock();
        if (left > 0)
            usleep(left * 1e6);
        sell(u, n % 2);
    }
    return NULL;
}

static void make_work(void)
{
    static struct unit units[TILLS];
    static int times[TILLS * REQUESTS];
    pthread_t threads[TILLS];
    int sum = 0, sales = 0, arrivals = 0;
    double slowest = 0;
    for (int t = 0; t < TILLS; t++) {
        units[t].till = t + 1;
        if (pthread_create(&threads[t], NULL, work, &units[t]) != 0)
            fail("no thread");
    }
    for (int t = 0; t < TILLS; t++) {
        struct unit *u = &units[t];
        pthread_join(threads[t], NULL);
        memcpy(times + sum, u->times, u->count * sizeof(int));
        sum += u->count, sales += u->sales[0] + u->sales[1], arrivals += u->arrivals;
        slowest = slowest < u->slowest ? u->slowest : slowest;
    }
    qsort(times, sum, sizeof(int), compare_times);
    printf("%d %.1f %.1f %d %d %.1f\n", sum, times[sum / 2] / 1e3, times[sum * 99L / 100] / 1e3,
           sales, arrivals, slowest * 1e3);
}

/* ---- the flood */

static int connect_softly(void)
{
    struct sockaddr_in here = {.sin_family = AF_INET, .sin_port = htons(port)};
    int s = socket(AF_INET, SOCK_STREAM, 0);
    here.sin_addr.s_addr = htonl(INADDR_LOOPBACK);
    if (s >= 0 && connect(s, (struct sockaddr *)&here, sizeof here) != 0) {
        close(s);
        s = -1;
    }
    if (s >= 0)
        fcntl(s, F_SETFL, O_NONBLOCK);
    return s;
}

struct sender {
    int stream, at;
    unsigned char piece[PIECE];
};

static struct sender senders[SENDERS];

/* A sender's connection, which begins with a whole request. */
static void begin_sender(int poll, int number)
{
    struct epoll_event event = {.events = EPOLLIN | EPOLLOUT, .data.u32 = number};
    struct sender *s = &senders[number];
    s->at = 0;
    s->stream = connect_softly();
    if (s->stream >= 0)
        epoll_ctl(poll, EPOLL_CTL_ADD, s->stream, &event);
}

/* Sends what is taken, takes what came; false where the connection is closed. */
static int drive_sender(struct sender *s, int size)
{
    static unsigned char got[1 << 16];
    int n = recv(s->stream, got, sizeof got, 0);
    if (n == 0 || (n < 0 && errno != EAGAIN))
        return 0;
    n = send(s->stream, s->piece + s->at, size - s->at, MSG_NOSIGNAL);
    if (n < 0 && errno != EAGAIN)
        return 0;
    if (n > 0)
        s->at = (s->at + n) % size;
    return 1;
}

static void make_senders(void)
{
    static int sizes[SENDERS];
    struct epoll_event events[SENDERS];
    int poll = epoll_create1(0);
    long again = 0;
    for (int n = 0; n < SENDERS; n++) {
        struct sender *s = &senders[n];
        int node = n < TILL_SENDERS ? n % TILLS + 1 : (n - TILL_SENDERS) % DISPENSER_SENDERS + 1;
        while (sizes[n] < PIECE - 64)
            sizes[n] += n < TILL_SENDERS ? put_read(s->piece + sizes[n], node, node)
                                         : put_report(s->piece + sizes[n], node, ONLINE, 0);
        begin_sender(poll, n);
    }
    while (read_clock() < until) {
        int count = epoll_wait(poll, events, SENDERS, 100);
        for (int i = 0; i < count; i++) {
            int n = events[i].data.u32;
            if (!drive_sender(&senders[n], sizes[n])) {
                close(senders[n].stream);
                begin_sender(poll, n);
                again++;
            }
        }
    }
    printf("%ld\n", again);
}

static void make_silent(void)
{
    static int streams[SILENT];
    double begun = read_clock();
    long n = 0;
    for (; n < SILENT; n++)
        streams[n] = connect_softly();
    while (read_clock() < until) {
        double left = begun + (n - SILENT) * 1.0 / COMING - read_clock();
        if (left > 0)
            usleep(left * 1e6);
        close(streams[n % SILENT]);
        streams[n % SILENT] = connect_softly();
        n++;
    }
    printf("%ld\n", n);
}

int main(int count, char **words)
{
    program = "bench/flood";
    signal(SIGPIPE, SIG_IGN);
    if (count != 4)
        fail("work|send|silent PORT SECONDS");
    port = atoi(words[2]);
    until = read_clock() + atof(words[3]);
    if (strcmp(words[1], "work") == 0)
        make_work();
    else if (strcmp(words[1], "send") == 0)
        make_senders();
    else
        make_silent();
    return 0;
}
