/* The clients of scripts/bench/station, all on one thread:
 *
 *   station reads PORT CLIENTS REQUESTS     tills that read a fuelling point; as they have no more
 *                                           than 128 sessions, the others are dispensers and nodes
 *                                           that no site has, whose reads are refused
 *   station closes PORT CLIENTS REQUESTS    tills that close a closed point: refusals, whose rows
 *                                           a history keeps
 *   station echo PORT CLIENTS REQUESTS      the same octets, to a server that sends them back
 *   station ping PORT CLIENTS REQUESTS      PING, to Redis
 *   station sets PORT CLIENTS REQUESTS      SET of a value as long as a request, to Redis
 *   station notices PORT 64 REQUESTS        a till that releases the points of 64 dispensers
 *   station changes PORT CLIENTS REQUESTS   a till that releases the point of one dispenser, beside
 *                                           as many clients with itself, of which the others, those
 *                                           of reads, say no more once they have read
 *
 * Each client has one request outstanding; each reply is looked at. Printed are requests a second
 * of them all, and microseconds that half, 99 of 100 and 999 of 1,000 replies took at most; of
 * notices what it took from the till's request until the dispenser was told.
 */
#include "bench.h"
#include <sys/epoll.h>

enum {
    MOST = 128, CLIENTS = 1000, EVENTS = 256,
    TILLS = 32, TILL_SESSIONS = 4 * TILLS, DISPENSERS = 63, DISPENSER_SESSIONS = 4 * DISPENSERS
};

struct client {
    int stream, came;
    double asked;
    unsigned char got[MOST];
};

static struct client all[CLIENTS];
static unsigned char request[MOST], reply[MOST], refusal[MOST];
static int size, due, refused_due;

static void receive(int s, unsigned char *got, int length)
{
    for (int n = 0, more; n < length; n += more)
        if ((more = recv(s, got + n, length - n, 0)) <= 0)
            fail("a connection ended");
}

/* Sends a message, and looks at the reply. */
static void ask(int s, const char *sent, const char *wanted, int node, int point)
{
    unsigned char a[MOST], b[MOST], got[MOST];
    int length = parse_octets(sent, a), n = parse_octets(wanted, b);
    a[3] = b[1] = node;
    if (point)
        a[9] = b[9] = 0x20 + point;
    if (send(s, a, length, MSG_NOSIGNAL) != length)
        fail("a request wasn't taken");
    receive(s, got, n);
    if (memcmp(got, b, n) != 0)
        fail("a reply isn't the one that is wanted");
}

/* The subnet and node of a client. A node has four sessions at most: they are the tills', then
 * those of each dispenser but the first one, and then those of nodes that no site has. */
static void put_node(unsigned char *to, int number)
{
    int dispenser = number - TILL_SESSIONS, other = dispenser - DISPENSER_SESSIONS;
    if (dispenser < 0)
        to[0] = 2, to[1] = number % TILLS + 1;
    else if (other < 0)
        to[0] = 3, to[1] = dispenser % DISPENSERS + 2;
    else
        to[0] = 4, to[1] = other / 4 + 1;
}

static const char *SIGN_ON = "01 01 02 01 00 41 00 04 01 01 31 00";
static const char *SIGNED_ON = "02 01 01 01 00 E1 00 08 01 01 01 01 00 03 01 00";

static void prepare(const char *kind, int number, struct client *c)
{
    c->stream = connect_here();
    if (strcmp(kind, "sets") == 0) {
        size = sprintf((char *)request, "SET client:%03d 01010201000000020121\r\n", number);
        due = sprintf((char *)reply, "+OK\r\n");
        return;
    }
    if (strcmp(kind, "ping") == 0) {
        size = sprintf((char *)request, "PING\r\n");
        due = sprintf((char *)reply, "+PONG\r\n");
        return;
    }
    size = parse_octets("01 01 02 01 00 00 00 02 01 21", request);
    if (strcmp(kind, "echo") == 0) {
        memcpy(reply, request, due = size);
        return;
    }
    if (number < TILLS)
        ask(c->stream, SIGN_ON, SIGNED_ON, number + 1, 0);
    if (strcmp(kind, "closes") == 0) {
        size = parse_octets("01 01 02 01 00 40 00 04 01 21 3D 00", request);
        due = parse_octets("02 01 01 01 00 E0 00 0F 01 21 01 01 0A 02 08 00 00 00 00 00 00 00 02",
                           reply);
        return;
    }
    due = parse_octets("02 01 01 01 00 20 00 1E 01 21 10 01 02 11 01 00 12 01 00 13 01 00"
                       " 72 04 00 00 00 00 73 08 00 00 00 00 00 00 00 00", reply);
    refused_due = parse_octets("03 01 01 01 00 E0 00 05 01 21 01 01 33", refusal);
}

/* Are these requests of nodes? */
static int is_of_nodes(const char *kind)
{
    return strcmp(kind, "reads") == 0 || strcmp(kind, "closes") == 0;
}

static void send_request(const char *kind, int number, struct client *c)
{
    if (is_of_nodes(kind))
        put_node(request + 2, number);
    c->came = 0;
    c->asked = read_clock();
    if (send(c->stream, request, size, MSG_NOSIGNAL) != size)
        fail("a request wasn't taken");
}

/* Has the whole reply come? */
static int takes_reply(const char *kind, int number, struct client *c)
{
    int is_refused = is_of_nodes(kind) && number >= TILL_SESSIONS;
    unsigned char *wanted = is_refused ? refusal : reply;
    int length = is_refused ? refused_due : due;
    int more = recv(c->stream, c->got + c->came, length - c->came, 0);
    if (more <= 0)
        fail("a connection ended");
    c->came += more;
    if (c->came < length)
        return 0;
    if (is_of_nodes(kind))
        put_node(wanted, number);
    if (memcmp(c->got, wanted, length) != 0)
        fail("a reply isn't the one that is wanted");
    return 1;
}

static double make_requests(const char *kind, int clients, int requests, int *times)
{
    struct epoll_event events[EVENTS];
    int poll = epoll_create1(0), sum = 0, left = 0;
    if (requests < clients)
        fail("fewer requests than clients");
    for (int i = 0; i < clients; i++) {
        struct epoll_event event = {.events = EPOLLIN, .data.u32 = i};
        prepare(kind, i, &all[i]);
        epoll_ctl(poll, EPOLL_CTL_ADD, all[i].stream, &event);
    }
    double start = read_clock();
    for (int i = 0; i < clients; i++, left++)
        send_request(kind, i, &all[i]);
    while (left > 0) {
        int count = epoll_wait(poll, events, EVENTS, -1);
        for (int i = 0; i < count; i++) {
            int number = events[i].data.u32;
            struct client *c = &all[number];
            if (!takes_reply(kind, number, c))
                continue;
            times[sum++] = (read_clock() - c->asked) * 1e9;
            if (sum + left <= requests)
                send_request(kind, number, c);
            else
                left--;
        }
    }
    return requests / (read_clock() - start);
}

/* Other clients begin a session each, and say no more; number 0 is the till that is signed on. */
static void begin_sessions(int others)
{
    struct client c;
    for (int number = 1; number <= others; number++) {
        prepare("reads", number, &c);
        send_request("reads", number, &c);
        while (!takes_reply("reads", number, &c))
            ;
    }
}

/* The till releases point after point, and ends it again; each dispenser listens. */
static double make_notices(int pumps, int others, int requests, int *times)
{
    static const char *done = "02 01 01 01 00 E2 00 08 01 21 01 01 00 03 01 00";
    unsigned char got[MOST], told[MOST];
    int till = connect_here(), n = parse_octets("03 01 01 01 00 80 00 04 01 21 3E 00", told);
    ask(till, SIGN_ON, SIGNED_ON, 1, 0);
    begin_sessions(others);
    for (int p = 1; p <= pumps; p++) {
        all[p - 1].stream = connect_here();
        ask(till, "01 01 02 01 00 42 00 04 01 21 3C 00", done, 1, p);
        ask(all[p - 1].stream, "01 01 03 01 00 63 00 04 01 21 60 00",
            "03 01 01 01 00 E3 00 0F 01 21 01 01 0A 02 08 00 00 00 00 00 00 00 03", p, p);
        receive(all[p - 1].stream, got, n);
    }
    double start = read_clock();
    for (int i = 0; i < requests; i++) {
        int p = i % pumps + 1;
        unsigned char sent[MOST];
        int length = parse_octets("01 01 02 01 00 42 00 04 01 21 3E 00", sent);
        sent[9] = 0x20 + p;
        double before = read_clock();
        if (send(till, sent, length, MSG_NOSIGNAL) != length)
            fail("a release wasn't taken");
        receive(all[p - 1].stream, got, n);
        times[i] = (read_clock() - before) * 1e9;
        told[1] = p, told[9] = 0x20 + p;
        if (memcmp(got, told, n) != 0)
            fail("a notice isn't the one that is wanted");
        receive(till, got, 16);
        ask(till, "01 01 02 01 00 42 00 04 01 21 3F 00",
            "02 01 01 01 00 E2 00 08 01 21 01 01 00 03 01 07", 1, p);
        receive(all[p - 1].stream, got, n);
    }
    return requests / (read_clock() - start);
}

int main(int count, char **words)
{
    program = "bench/station";
    if (count != 5)
        fail("reads|closes|echo|ping|sets|notices|changes PORT CLIENTS REQUESTS");
    const char *kind = words[1];
    port = atoi(words[2]);
    int clients = atoi(words[3]), requests = atoi(words[4]);
    int *times = malloc(sizeof(int) * (requests + 1L));
    if (!times || clients < 1 || clients > CLIENTS || requests < 100)
        fail("1 to 1,000 clients, 100 requests at least");
    double rate = strcmp(kind, "notices") == 0   ? make_notices(clients, 0, requests, times)
                  : strcmp(kind, "changes") == 0 ? make_notices(1, clients - 1, requests, times)
                                                 : make_requests(kind, clients, requests, times);
    print_times(rate, times, requests);
    return 0;
}
