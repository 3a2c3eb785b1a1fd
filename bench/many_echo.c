/* Answers each frame over many connections with a reply of 9 bytes, its number repeated: what bench/many.py compares the server with. One
   thread, by epoll; frames are a length of 4 bytes and a body, as docs/PROTOCOL.md has them. Prints `listening ADDRESS`. */
#include <arpa/inet.h>
#include <netinet/tcp.h>
#include <stdio.h>
#include <stdlib.h>
#include <string.h>
#include <sys/epoll.h>
#include <sys/socket.h>
#include <unistd.h>

enum { PIECE = 65536, EVENTS = 1024, LONGEST = 6291456 };

/* what waits of a frame in part, and what is owed */
struct peer {
    int stream;
    size_t waiting, owed;
    unsigned char *part, *replies;
};

static unsigned char piece[PIECE + LONGEST + 4];

static void leave(struct peer *peer)
{
    close(peer->stream);
    free(peer->part);
    free(peer->replies);
    free(peer);
}

static int give(struct peer *peer)
{
    size_t sent = 0;
    while (sent < peer->owed) {
        ssize_t some = send(peer->stream, peer->replies + sent, peer->owed - sent, MSG_NOSIGNAL | MSG_DONTWAIT);
        if (some <= 0)
            break;
        sent += some;
    }
    memmove(peer->replies, peer->replies + sent, peer->owed - sent);
    peer->owed -= sent;
    if (!peer->owed) {
        free(peer->replies);
        peer->replies = NULL;
    }
    return 0;
}

/* answers the whole frames at the front, and tells how many bytes these were */
static size_t answer(struct peer *peer, size_t length)
{
    size_t at = 0;
    while (length - at >= 4) {
        size_t body = (size_t)piece[at] << 24 | piece[at + 1] << 16 | piece[at + 2] << 8 | piece[at + 3];
        if (body > LONGEST || length - at - 4 < body)
            break;
        peer->replies = realloc(peer->replies, peer->owed + 9);
        unsigned char *reply = peer->replies + peer->owed;
        memcpy(reply, "\0\0\0\5\17\0\0\0\0", 9);
        if (body >= 5)
            memcpy(reply + 5, piece + at + 5, 4);
        peer->owed += 9;
        at += 4 + body;
    }
    return at;
}

static int take(struct peer *peer)
{
    memcpy(piece, peer->part, peer->waiting);
    ssize_t some = recv(peer->stream, piece + peer->waiting, PIECE, MSG_DONTWAIT);
    if (some <= 0)
        return -1;
    size_t length = peer->waiting + some, passed = answer(peer, length);
    free(peer->part);
    peer->part = NULL;
    peer->waiting = length - passed;
    if (peer->waiting)
        peer->part = memcpy(malloc(peer->waiting), piece + passed, peer->waiting);
    return give(peer);
}

static void join(int listener, int poll)
{
    int one = 1;
    struct peer *peer = calloc(1, sizeof *peer);
    struct epoll_event event = {.events = EPOLLIN, .data.ptr = peer};
    peer->stream = accept(listener, NULL, NULL);
    if (peer->stream < 0) {
        free(peer);
        return;
    }
    setsockopt(peer->stream, IPPROTO_TCP, TCP_NODELAY, &one, sizeof one);
    epoll_ctl(poll, EPOLL_CTL_ADD, peer->stream, &event);
}

int main(void)
{
    int listener = socket(AF_INET, SOCK_STREAM, 0), poll = epoll_create1(0);
    struct sockaddr_in address = {.sin_family = AF_INET, .sin_addr.s_addr = htonl(INADDR_LOOPBACK)};
    socklen_t length = sizeof address;
    struct epoll_event event = {.events = EPOLLIN};
    if (bind(listener, (struct sockaddr *)&address, length) || listen(listener, 4096))
        return 1;
    getsockname(listener, (struct sockaddr *)&address, &length);
    epoll_ctl(poll, EPOLL_CTL_ADD, listener, &event);
    printf("listening 127.0.0.1:%d\n", ntohs(address.sin_port));
    fflush(stdout);
    for (;;) {
        struct epoll_event events[EVENTS];
        int found = epoll_wait(poll, events, EVENTS, -1);
        for (int at = 0; at < found; at++) {
            struct peer *peer = events[at].data.ptr;
            if (!peer)
                join(listener, poll);
            else if (take(peer))
                leave(peer);
        }
    }
}
