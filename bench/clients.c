// Clients of a Unix socket that each send a request, wait for its reply and send the next.
//
// usage: clients SOCKET CLIENTS REQUESTS REQUEST
// REQUEST is sent with \r and \n replaced by their bytes; a reply ends with a line feed. Prints requests a second, and
// the median and the 99th percentile of a request's time in milliseconds. Exit status 1, with the reason on standard
// error, if a client is not served.

#include <errno.h>
#include <stdio.h>
#include <stdlib.h>
#include <string.h>
#include <sys/epoll.h>
#include <sys/resource.h>
#include <sys/socket.h>
#include <sys/un.h>
#include <time.h>
#include <unistd.h>

enum { MOST_EVENTS = 512, MOST_REPLY = 4096 };

static double now(void) {
    struct timespec time;
    clock_gettime(CLOCK_MONOTONIC, &time);
    return time.tv_sec + 1e-9 * time.tv_nsec;
}

static void fail(const char *what) {
    perror(what);
    exit(1);
}

// Replaces \r and \n by the bytes that they name.
static size_t unescape(char *text) {
    char *to = text;
    for (const char *from = text; *from; from++, to++) {
        if (from[0] == '\\' && (from[1] == 'r' || from[1] == 'n')) {
            *to = *++from == 'r' ? '\r' : '\n';
        } else {
            *to = *from;
        }
    }
    return to - text;
}

static int connected(const char *path) {
    struct sockaddr_un address = {.sun_family = AF_UNIX};
    if (strlen(path) >= sizeof address.sun_path) {
        errno = ENAMETOOLONG;
        fail(path);
    }
    strcpy(address.sun_path, path);
    int client = socket(AF_UNIX, SOCK_STREAM, 0);
    // The kernel asks for another try while the queue of connections is full.
    while (connect(client, (struct sockaddr *)&address, sizeof address) != 0) {
        if (errno != EAGAIN) {
            fail(path);
        }
        usleep(1000);
    }
    return client;
}

static int compare(const void *left, const void *right) {
    double difference = *(const double *)left - *(const double *)right;
    return (difference > 0) - (difference < 0);
}

int main(int count, char **words) {
    if (count != 5) {
        fprintf(stderr, "usage: clients SOCKET CLIENTS REQUESTS REQUEST\n");
        return 2;
    }
    int clients = atoi(words[2]), requests = atoi(words[3]);
    char *request = words[4], reply[MOST_REPLY];
    size_t length = unescape(request);
    struct rlimit descriptors = {.rlim_cur = 4096, .rlim_max = 4096};
    setrlimit(RLIMIT_NOFILE, &descriptors);
    double *sent = calloc(4096, sizeof *sent), *times = calloc(requests, sizeof *times);
    int poll = epoll_create1(0);
    if (clients < 1 || clients > 4000 || requests < clients || sent == NULL || times == NULL || poll < 0) {
        fprintf(stderr, "1 to 4,000 clients, and a request for each\n");
        return 2;
    }
    int *sockets = calloc(clients, sizeof *sockets);
    for (int each = 0; each < clients; each++) {
        sockets[each] = connected(words[1]);
        struct epoll_event event = {.events = EPOLLIN, .data.fd = sockets[each]};
        epoll_ctl(poll, EPOLL_CTL_ADD, sockets[each], &event);
    }
    int asked = 0, answered = 0;
    double begun = now();
    for (; asked < clients; asked++) {
        sent[sockets[asked]] = now();
        if (write(sockets[asked], request, length) != (ssize_t)length) {
            fail("write");
        }
    }
    while (answered < requests) {
        struct epoll_event events[MOST_EVENTS];
        int ready = epoll_wait(poll, events, MOST_EVENTS, 30000);
        if (ready <= 0) {
            fail("epoll_wait");
        }
        for (int each = 0; each < ready; each++) {
            int client = events[each].data.fd;
            ssize_t got = read(client, reply, sizeof reply);
            if (got <= 0) {
                fail("read");
            }
            if (reply[got - 1] != '\n') {
                continue;
            }
            double time = now();
            times[answered++] = time - sent[client];
            if (reply[0] == '?' || reply[0] == '-') {
                fprintf(stderr, "refused: %.*s", (int)got, reply);
                return 1;
            }
            if (asked < requests) {
                asked++;
                sent[client] = time;
                if (write(client, request, length) != (ssize_t)length) {
                    fail("write");
                }
            }
        }
    }
    double seconds = now() - begun;
    qsort(times, requests, sizeof *times, compare);
    printf("%.0f %.3f %.3f\n", requests / seconds, 1e3 * times[requests / 2], 1e3 * times[requests * 99L / 100]);
    return 0;
}
