/* Makes calls of the C library fail in the program that it is loaded into by LD_PRELOAD, and counts them, for
   tests/refused_growths.py, tests/refused_client.py, tests/refused_listening.py, tests/refused_calls.py and tests/simulation.py.

   FAILING_KIND    memory (malloc, calloc, realloc), read (read, recv), write (write, writev, send), accept (accept4) or
                   poll (epoll_create1, epoll_ctl, epoll_wait)
   FAILING_AT      which call of that kind fails, from 1 on; 0 for none
   FAILING_ON      1: those behind it fail too; each: each further one of that distance fails too
   FAILING_WITHIN  where it is given, calls for memory count only once so many writes were made, and before the next one; odd: only while the
                   number of writes that were made is odd
   FAILING_COUNTS  a file of 40 bytes that holds how many calls of each kind there were so far, in this order

   Calls are counted from the program's own first one. Nothing is looked up by its name, which could itself take memory. */
#include <errno.h>
#include <fcntl.h>
#include <stddef.h>
#include <stdint.h>
#include <stdlib.h>
#include <string.h>
#include <sys/epoll.h>
#include <sys/mman.h>
#include <sys/socket.h>
#include <sys/syscall.h>
#include <sys/types.h>
#include <sys/uio.h>
#include <unistd.h>

enum kind { MEMORY, READ, WRITE, ACCEPT, POLL, KINDS };

extern void *__libc_malloc(size_t);
extern void *__libc_calloc(size_t, size_t);
extern void *__libc_realloc(void *, size_t);
extern long syscall(long, ...);

static const char *const NAMES[KINDS] = {"memory", "read", "write", "accept", "poll"};
static uint64_t own[KINDS];
static uint64_t *counts = own;
static uint64_t at;
static long within = -1;
static enum kind failing = KINDS;
static int goes_on, repeats, is_odd, is_ready;

__attribute__((constructor)) static void start(void) {
    const char *kind = getenv("FAILING_KIND"), *number = getenv("FAILING_AT");
    const char *on = getenv("FAILING_ON"), *file = getenv("FAILING_COUNTS");
    for (int k = 0; kind && k < KINDS; k++)
        if (!strcmp(kind, NAMES[k]))
            failing = k;
    at = number ? strtoull(number, NULL, 10) : 0;
    goes_on = on && *on == '1';
    repeats = on && !strcmp(on, "each");
    if (getenv("FAILING_WITHIN")) {
        is_odd = !strcmp(getenv("FAILING_WITHIN"), "odd");
        within = is_odd ? -1 : atol(getenv("FAILING_WITHIN"));
    }
    int fd = file ? open(file, O_RDWR) : -1;
    if (fd >= 0) {
        void *page = mmap(NULL, sizeof own, PROT_READ | PROT_WRITE, MAP_SHARED, fd, 0);
        if (page != MAP_FAILED)
            counts = page;
        close(fd);
    }
    is_ready = 1;
}

/* Whether calls for memory count now. */
static int is_within(void) {
    return is_odd ? counts[WRITE] % 2 == 1 : within < 0 || counts[WRITE] == (uint64_t)within;
}

/* Counts a call; whether it is to fail. */
static int fails(enum kind kind, int error) {
    if (!is_ready || (kind == MEMORY && !is_within()))
        return 0;
    uint64_t place = ++counts[kind];
    if (kind != failing || at == 0 || (repeats ? place % at != 0 : goes_on ? place < at : place != at))
        return 0;
    errno = error;
    return 1;
}

void *malloc(size_t size) {
    return fails(MEMORY, ENOMEM) ? NULL : __libc_malloc(size);
}

void *calloc(size_t count, size_t size) {
    return fails(MEMORY, ENOMEM) ? NULL : __libc_calloc(count, size);
}

void *realloc(void *old, size_t size) {
    return fails(MEMORY, ENOMEM) ? NULL : __libc_realloc(old, size);
}

ssize_t read(int fd, void *into, size_t size) {
    return fails(READ, EIO) ? -1 : syscall(SYS_read, fd, into, size);
}

ssize_t recv(int fd, void *into, size_t size, int flags) {
    return fails(READ, ECONNRESET) ? -1 : syscall(SYS_recvfrom, fd, into, size, flags, NULL, NULL);
}

ssize_t write(int fd, const void *from, size_t size) {
    return fails(WRITE, EIO) ? -1 : syscall(SYS_write, fd, from, size);
}

/* glibc's other name of it */
ssize_t __write(int fd, const void *from, size_t size) {
    return write(fd, from, size);
}

ssize_t writev(int fd, const struct iovec *parts, int count) {
    return fails(WRITE, EIO) ? -1 : syscall(SYS_writev, fd, parts, count);
}

ssize_t send(int fd, const void *from, size_t size, int flags) {
    return fails(WRITE, ECONNRESET) ? -1 : syscall(SYS_sendto, fd, from, size, flags, NULL, 0);
}

int accept4(int fd, struct sockaddr *restrict address, socklen_t *restrict length, int flags) {
    return fails(ACCEPT, EMFILE) ? -1 : syscall(SYS_accept4, fd, address, length, flags);
}

int epoll_create1(int flags) {
    return fails(POLL, EMFILE) ? -1 : syscall(SYS_epoll_create1, flags);
}

int epoll_ctl(int poll, int what, int fd, struct epoll_event *event) {
    return fails(POLL, ENOSPC) ? -1 : syscall(SYS_epoll_ctl, poll, what, fd, event);
}

int epoll_wait(int poll, struct epoll_event *events, int most, int timeout) {
    return fails(POLL, EBADF) ? -1 : syscall(SYS_epoll_wait, poll, events, most, timeout);
}
