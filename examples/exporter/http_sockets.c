#define _POSIX_C_SOURCE 200809L
#include "http.h"
#include <poll.h>
#include <pthread.h>
#include <semaphore.h>
#include <stdio.h>
#include <stdlib.h>
#include <string.h>
#include <sys/socket.h>
#include <time.h>
#include <unistd.h>

enum { MOST_AT_ONCE = 64, MOST_HEAD = 8192, MOST_SECONDS = 10 };

static Page metrics;
static int listener, stopping[2]; /* a pipe: closed at its writing end to stop */
static pthread_t acceptor;
static sem_t places; /* for connections */

static long long milliseconds(void) {
    struct timespec t;
    clock_gettime(CLOCK_MONOTONIC, &t);
    return t.tv_sec * 1000LL + t.tv_nsec / 1000000;
}

/* Whether the socket can be read or written before the time is over. */
static int ready(int s, short event, long long until) {
    struct pollfd p = {.fd = s, .events = event};
    long long left = until - milliseconds();
    return left > 0 && poll(&p, 1, (int)left) == 1;
}

static int send_all(int s, const char *bytes, size_t length, long long until) {
    while (length) {
        if (!ready(s, POLLOUT, until)) return 0;
        ssize_t n = send(s, bytes, length, MSG_NOSIGNAL | MSG_DONTWAIT);
        if (n <= 0) return 0;
        bytes += n;
        length -= (size_t)n;
    }
    return 1;
}

static void answer(int s, long long until, const char *status, const char *text, size_t length, int head_only) {
    char head[256];
    int n = snprintf(head, sizeof head, "HTTP/1.1 %s\r\nContent-Type: " HTTP_TYPE "\r\nContent-Length: %zu\r\n%sConnection: close\r\n\r\n",
                     status, length, *status == '4' && status[2] == '5' ? "Allow: GET, HEAD\r\n" : "");
    if (send_all(s, head, (size_t)n, until) && !head_only) send_all(s, text, length, until);
}

static void fixed(int s, long long until, const char *status, const char *text, int head_only) {
    answer(s, until, status, text, strlen(text), head_only);
}

/* Reads up to the empty line after the head; 1 when it is there. A body is not read: none has a meaning here. */
static int read_head(int s, char *head, long long until) {
    size_t length = 0;
    while (length < MOST_HEAD) {
        if (!ready(s, POLLIN, until)) return 0;
        ssize_t n = recv(s, head + length, MOST_HEAD - length, MSG_DONTWAIT);
        if (n <= 0) return 0;
        length += (size_t)n;
        head[length] = 0;
        if (strstr(head, "\r\n\r\n") || strstr(head, "\n\n")) return 1;
    }
    return 0;
}

static void respond(int s, const char *method, char *path, long long until) {
    int head_only = !strcmp(method, "HEAD");
    path[strcspn(path, "?")] = 0;
    if (strcmp(method, "GET") && !head_only) {
        fixed(s, until, "405 Method Not Allowed", "GET or HEAD\n", 0);
    } else if (!strcmp(path, "/")) {
        fixed(s, until, "200 OK", HTTP_ROOT, head_only);
    } else if (!strcmp(path, "/health")) {
        fixed(s, until, "200 OK", "ok\n", head_only);
    } else if (strcmp(path, "/metrics")) {
        fixed(s, until, "404 Not Found", "not found\n", head_only);
    } else {
        size_t length = 0;
        char *text = metrics(&length);
        if (text) answer(s, until, "200 OK", text, length, head_only);
        else fixed(s, until, "500 Internal Server Error", "no memory is left\n", head_only);
        free(text);
    }
}

static void *connection(void *argument) {
    int s = (int)(long)argument;
    char head[MOST_HEAD + 1], method[16], path[256], version[16];
    long long until = milliseconds() + 1000 * MOST_SECONDS;
    if (read_head(s, head, until)) {
        if (sscanf(head, "%15[A-Z] %255s HTTP/%15[0-9.]", method, path, version) == 3) respond(s, method, path, until);
        else fixed(s, until, "400 Bad Request", "no request\n", 0);
    }
    shutdown(s, SHUT_WR);
    while (ready(s, POLLIN, until) && recv(s, head, MOST_HEAD, MSG_DONTWAIT) > 0) continue; /* so that no reset overtakes the answer */
    close(s);
    sem_post(&places);
    return NULL;
}

static void *accepting(void *argument) {
    struct pollfd waits[] = {{.fd = listener, .events = POLLIN}, {.fd = stopping[0], .events = POLLIN}};
    const struct timespec pause = {.tv_nsec = 10000000};
    pthread_attr_t alone;
    pthread_attr_init(&alone);
    pthread_attr_setdetachstate(&alone, PTHREAD_CREATE_DETACHED);
    for (;;) {
        if (poll(waits, 2, -1) < 0) continue;
        if (waits[1].revents) return argument;
        int s = accept(listener, NULL, NULL);
        if (s < 0) nanosleep(&pause, NULL); /* no descriptor is left, say: others will be closed */
        if (s < 0) continue;
        pthread_t thread;
        if (sem_trywait(&places)) {
            close(s);
        } else if (pthread_create(&thread, &alone, connection, (void *)(long)s)) {
            close(s);
            sem_post(&places);
        }
    }
}

int http_start(int listening, Page page) {
    metrics = page;
    listener = listening;
    return !sem_init(&places, 0, MOST_AT_ONCE) && !pipe(stopping) && !pthread_create(&acceptor, NULL, accepting, NULL);
}

void http_stop(void) {
    close(stopping[1]);
    pthread_join(acceptor, NULL);
    close(listener);
}
