/* Times rounds over one connection: rounds PORT REQUEST REPLY COUNT. A round sends the file REQUEST and reads as many bytes as the file
   REPLY has; those of the first round are compared with it. Prints the median and the least of COUNT rounds
   in microseconds. */
#include <arpa/inet.h>
#include <netinet/tcp.h>
#include <poll.h>
#include <stdio.h>
#include <stdlib.h>
#include <string.h>
#include <sys/socket.h>
#include <time.h>

static char *read_file(const char *name, size_t *length)
{
    FILE *file = fopen(name, "rb");
    if (!file || fseek(file, 0, SEEK_END)) {
        perror(name);
        exit(1);
    }
    *length = ftell(file);
    rewind(file);
    char *bytes = malloc(*length + 1);
    if (fread(bytes, 1, *length, file) != *length) {
        perror(name);
        exit(1);
    }
    fclose(file);
    return bytes;
}

static int connect_to(int port)
{
    int one = 1, stream = socket(AF_INET, SOCK_STREAM, 0);
    struct sockaddr_in address = {.sin_family = AF_INET, .sin_port = htons(port), .sin_addr.s_addr = htonl(INADDR_LOOPBACK)};
    if (connect(stream, (struct sockaddr *)&address, sizeof address)) {
        perror("rounds");
        exit(1);
    }
    setsockopt(stream, IPPROTO_TCP, TCP_NODELAY, &one, sizeof one);
    return stream;
}

static double now(void)
{
    struct timespec time;
    clock_gettime(CLOCK_MONOTONIC, &time);
    return time.tv_sec * 1e6 + time.tv_nsec / 1e3;
}

/* sends and reads side by side, so that neither end waits for the other's full buffers */
static void round_trip(int stream, const char *request, size_t to_send, char *reply, size_t to_read)
{
    size_t sent = 0, got = 0;
    while (sent < to_send || got < to_read) {
        if (sent < to_send) {
            ssize_t some = send(stream, request + sent, to_send - sent, MSG_NOSIGNAL | (to_send > 4096 ? MSG_DONTWAIT : 0));
            if (some > 0)
                sent += some;
        }
        if (got < to_read) {
            ssize_t some = recv(stream, reply + got, to_read - got, sent < to_send ? MSG_DONTWAIT : 0);
            if (some == 0) {
                fprintf(stderr, "rounds: the connection ended after %zu bytes of %zu\n", got, to_read);
                exit(1);
            }
            if (some > 0)
                got += some;
        }
        if (sent < to_send) {
            struct pollfd wanted = {.fd = stream, .events = POLLOUT | (got < to_read ? POLLIN : 0)};
            poll(&wanted, 1, -1);
        }
    }
}

static int compare(const void *left, const void *right)
{
    double a = *(const double *)left, b = *(const double *)right;
    return (a > b) - (a < b);
}

int main(int words, char **word)
{
    if (words != 5) {
        fprintf(stderr, "rounds PORT REQUEST REPLY COUNT\n");
        return 2;
    }
    size_t to_send, to_read;
    char *request = read_file(word[2], &to_send), *wanted = read_file(word[3], &to_read), *reply = malloc(to_read + 1);
    int count = atoi(word[4]), stream = connect_to(atoi(word[1]));
    double *times = malloc(count * sizeof *times);
    round_trip(stream, request, to_send, reply, to_read);
    if (memcmp(reply, wanted, to_read)) {
        fprintf(stderr, "rounds: another reply than that of %s\n", word[3]);
        return 1;
    }
    for (int at = 0; at < count; at++) {
        double begin = now();
        round_trip(stream, request, to_send, reply, to_read);
        times[at] = now() - begin;
    }
    qsort(times, count, sizeof *times, compare);
    printf("%.2f %.2f\n", times[count / 2], times[0]);
    return 0;
}
