/* Times requests over many connections at once: many_load PORT CONNECTIONS SECONDS LENGTH, the request on standard input. Each connection has
   one request on its way, whose reply has LENGTH bytes. One thread, by epoll. Prints the requests a second, and of their times the median,
   the least that 99 of 100 do not pass, and the longest, in microseconds. */
#include <arpa/inet.h>
#include <netinet/tcp.h>
#include <stdio.h>
#include <stdlib.h>
#include <string.h>
#include <sys/epoll.h>
#include <sys/socket.h>
#include <time.h>
#include <unistd.h>

enum { LONGEST = 4096, EVENTS = 1024, SAMPLES = 1 << 22 };

struct peer {
    int stream;
    int got;
    double asked;
};

static unsigned char request[LONGEST];
static ssize_t size;
static float samples[SAMPLES];

static double now(void)
{
    struct timespec time;
    clock_gettime(CLOCK_MONOTONIC, &time);
    return time.tv_sec * 1e6 + time.tv_nsec / 1e3;
}

static int by_size(const void *left, const void *right)
{
    float a = *(const float *)left, b = *(const float *)right;
    return (a > b) - (a < b);
}

static void fail(const char *what)
{
    perror(what);
    exit(1);
}

static void ask(struct peer *peer)
{
    peer->asked = now();
    if (write(peer->stream, request, size) != size)
        fail("write");
}

static void join(struct peer *peer, int port, int poll)
{
    int one = 1;
    struct sockaddr_in address = {.sin_family = AF_INET, .sin_port = htons(port), .sin_addr.s_addr = htonl(INADDR_LOOPBACK)};
    struct epoll_event event = {.events = EPOLLIN, .data.ptr = peer};
    peer->stream = socket(AF_INET, SOCK_STREAM, 0);
    if (peer->stream < 0 || connect(peer->stream, (struct sockaddr *)&address, sizeof address))
        fail("connect");
    setsockopt(peer->stream, IPPROTO_TCP, TCP_NODELAY, &one, sizeof one);
    epoll_ctl(poll, EPOLL_CTL_ADD, peer->stream, &event);
}

int main(int count_of_words, char **words)
{
    if (count_of_words != 5)
        return 2;
    int port = atoi(words[1]), count = atoi(words[2]), length = atoi(words[4]), poll = epoll_create1(0);
    if (length < 1 || length > LONGEST)
        return 2;
    struct peer *peers = calloc(count, sizeof *peers);
    size = fread(request, 1, LONGEST, stdin);
    for (int place = 0; place < count; place++)
        join(&peers[place], port, poll);
    double start = now(), stop = start + atof(words[3]) * 1e6;
    long done = 0, kept = 0;
    int on_the_way = count;
    for (int place = 0; place < count; place++)
        ask(&peers[place]);
    while (on_the_way) {
        struct epoll_event events[EVENTS];
        int found = epoll_wait(poll, events, EVENTS, 5000);
        if (found <= 0)
            fail("no reply within 5 seconds");
        for (int at = 0; at < found; at++) {
            struct peer *peer = events[at].data.ptr;
            char reply[LONGEST];
            ssize_t some = read(peer->stream, reply, length - peer->got);
            if (some <= 0)
                fail("read");
            peer->got += some;
            if (peer->got < length)
                continue;
            double came = now();
            peer->got = 0;
            samples[kept++ % SAMPLES] = came - peer->asked;
            done++;
            if (came < stop)
                ask(peer);
            else
                on_the_way--;
        }
    }
    double seconds = (now() - start) / 1e6;
    long many = kept < SAMPLES ? kept : SAMPLES;
    qsort(samples, many, sizeof *samples, by_size);
    printf("%.0f %.0f %.0f %.0f\n", done / seconds, samples[many / 2], samples[many * 99 / 100], samples[many - 1]);
    return 0;
}
