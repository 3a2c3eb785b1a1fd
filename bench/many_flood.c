/* Sends one request over and over on some connections: many_flood PORT CONNECTIONS SECONDS AHEAD [LENGTH], the request on standard input. Where
   AHEAD is 0, it sends without a pause and throws away what comes; else so many requests are on their way on each connection. A reply is a frame, or
   has LENGTH bytes. One thread, by epoll. Prints how many replies' bytes came. */
#include <arpa/inet.h>
#include <netinet/tcp.h>
#include <stdint.h>
#include <stdio.h>
#include <stdlib.h>
#include <string.h>
#include <fcntl.h>
#include <sys/epoll.h>
#include <sys/socket.h>
#include <time.h>
#include <unistd.h>

enum { EVENTS = 64, PIECE = 1 << 16, MOST = 1 << 22 };

struct peer {
    int stream;
    size_t at;          /* bytes of the request that were sent */
    long on_the_way;
    uint32_t length;    /* of the reply that comes, as far as its head came */
    size_t came;        /* bytes of that reply */
};

static unsigned char request[MOST], piece[PIECE];
static size_t size;
static long ahead, bytes, fixed;

static double now(void)
{
    struct timespec time;
    clock_gettime(CLOCK_MONOTONIC, &time);
    return time.tv_sec + time.tv_nsec / 1e9;
}

static void fail(const char *what)
{
    perror(what);
    exit(1);
}

static void join(struct peer *peer, int port, int poll)
{
    int one = 1;
    struct sockaddr_in address = {.sin_family = AF_INET, .sin_port = htons(port), .sin_addr.s_addr = htonl(INADDR_LOOPBACK)};
    struct epoll_event event = {.events = EPOLLIN | EPOLLOUT | EPOLLET, .data.ptr = peer};
    peer->stream = socket(AF_INET, SOCK_STREAM, 0);
    if (peer->stream < 0 || connect(peer->stream, (struct sockaddr *)&address, sizeof address))
        fail("connect");
    setsockopt(peer->stream, IPPROTO_TCP, TCP_NODELAY, &one, sizeof one);
    fcntl(peer->stream, F_SETFL, O_NONBLOCK);
    epoll_ctl(poll, EPOLL_CTL_ADD, peer->stream, &event);
}

/* Follows the heads of replies. */
static void count(struct peer *peer, const unsigned char *from, size_t some)
{
    for (size_t at = 0; at < some;) {
        if (fixed) {
            at++;
            if (++peer->came == (size_t)fixed) {
                peer->came = 0;
                peer->on_the_way--;
            }
        } else if (peer->came < 4) {
            peer->length = peer->length << 8 | from[at++];
            peer->came++;
        } else {
            size_t left = 4 + (size_t)peer->length - peer->came, step = left < some - at ? left : some - at;
            at += step;
            peer->came += step;
        }
        if (!fixed && peer->came >= 4 && peer->came == 4 + (size_t)peer->length) {
            peer->came = peer->length = 0;
            peer->on_the_way--;
        }
    }
}

static int writes(struct peer *peer)
{
    if (ahead && peer->at == 0 && peer->on_the_way >= ahead)
        return 0;
    ssize_t some = write(peer->stream, request + peer->at, size - peer->at);
    if (some <= 0)
        return 0;
    peer->at += some;
    if (peer->at == size) {
        peer->at = 0;
        peer->on_the_way++;
    }
    return 1;
}

static int reads(struct peer *peer)
{
    ssize_t some = read(peer->stream, piece, PIECE);
    if (some <= 0)
        return 0;
    bytes += some;
    count(peer, piece, some);
    return 1;
}

int main(int count_of_words, char **words)
{
    if (count_of_words != 5 && count_of_words != 6)
        return 2;
    fixed = count_of_words == 6 ? atol(words[5]) : 0;
    int port = atoi(words[1]), connections = atoi(words[2]), poll = epoll_create1(0);
    double stop = now() + atof(words[3]);
    ahead = atol(words[4]);
    size = fread(request, 1, MOST, stdin);
    if (!ahead)
        for (size_t one = size; size + one <= PIECE; size += one)
            memcpy(request + size, request, one);
    struct peer *peers = calloc(connections, sizeof *peers);
    for (int place = 0; place < connections; place++)
        join(&peers[place], port, poll);
    while (now() < stop) {
        struct epoll_event events[EVENTS];
        int moved = 0;
        for (int place = 0; place < connections; place++) {
            moved += writes(&peers[place]);
            moved += reads(&peers[place]);
        }
        if (!moved)
            epoll_wait(poll, events, EVENTS, 100);
    }
    printf("%ld\n", bytes);
    return 0;
}
