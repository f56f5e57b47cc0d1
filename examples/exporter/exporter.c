/* Runs a twin for each description and prints what its memory holds as Prometheus' text; README.md says how. */
#define _POSIX_C_SOURCE 200809L
#include "exposition.h"
#include "http.h"
#include <arpa/inet.h>
#include <errno.h>
#include <netinet/in.h>
#include <pthread.h>
#include <signal.h>
#include <stdarg.h>
#include <stdatomic.h>
#include <stdlib.h>
#include <string.h>
#include <sys/socket.h>
#include <time.h>
#include <unistd.h>

static const char usage[] = "exporter [--threads N] [--output FILE] DESCRIPTION...          runs each twin for its time and prints the metrics once\n"
                            "exporter [--threads N] --listen [ADDRESS:]PORT DESCRIPTION...  runs on at 1 MHz and hands them out at /metrics\n"
                            "status: 0; 1 where a twin was refused; 2 misuse, a bad description or bad S-records; 4 output not written whole";

static Twin **twins;
static pthread_mutex_t *locks; /* one a twin: held by whoever runs it or copies it */
static size_t count, threads;

#if defined(__GNUC__)
__attribute__((noreturn, format(printf, 2, 3)))
#endif
static void fail(int status, const char *words, ...) {
    va_list rest;
    va_start(rest, words);
    fputs("exporter: ", stderr);
    vfprintf(stderr, words, rest);
    fputc('\n', stderr);
    va_end(rest);
    exit(status);
}

/* A decimal number up to a million, or more than a million where it is none. */
static unsigned long number(const char *word) {
    size_t digits = strspn(word, "0123456789");
    return digits && digits < 7 && !word[digits] ? strtoul(word, NULL, 10) : 1000001;
}

/* ---- the pool: threads that each call a function with their number */

static pthread_t *pool;

static void pool_start(void *(*work)(void *)) {
    pool = calloc(threads, sizeof *pool);
    for (size_t i = 0; i < threads; i++)
        if (!pool || pthread_create(&pool[i], NULL, work, (void *)i)) fail(2, "no thread can be started");
}

static void pool_join(void) {
    for (size_t i = 0; i < threads; i++) pthread_join(pool[i], NULL);
}

/* ---- once */

static atomic_size_t next_twin;

/* Takes the next twin that nobody has taken, and runs it to its end. */
static void *run_once(void *unused) {
    for (size_t i; (i = atomic_fetch_add(&next_twin, 1)) < count;)
        twin_run(twins[i], twins[i]->from->run);
    return unused;
}

/* What stopped a twin, on standard error. */
static void say_refused(const Twin *t) {
    fprintf(stderr, "exporter: %s: %s at PC %04X is refused with %llu: %s; %llu instructions, %llu cycles after the reset\n", t->from->path,
            t->refused, t->twin.pc, (unsigned long long)t->answer, words_of(t->answer), (unsigned long long)t->twin.instructions,
            (unsigned long long)t->twin.cycles);
}

/* All of it or nothing: a collector that looks meanwhile finds the file as it was. */
static void write_once(const char *path) {
    char *beside = NULL;
    FILE *out = stdout;
    if (path) {
        beside = malloc(strlen(path) + 5);
        if (!beside) fail(4, "no memory is left");
        strcat(strcpy(beside, path), ".new");
        out = fopen(beside, "w");
        if (!out) fail(4, "cannot write %s: %s", beside, strerror(errno));
    }
    exposition(out, (const Twin *const *)twins, count);
    int bad = fflush(out) || ferror(out);
    if (path) bad = fclose(out) || bad || rename(beside, path);
    if (bad) fail(4, "output not written whole: %s", strerror(errno));
    free(beside);
}

static int once(const char *path) {
    pool_start(run_once);
    pool_join();
    write_once(path);
    int status = 0;
    for (size_t i = 0; i < count; i++) {
        if (!twins[i]->answer) continue;
        say_refused(twins[i]);
        status = 1;
    }
    return status;
}

/* ---- on and on */

enum { SLICE = 10000 }; /* cycles that a twin runs at a time: 10 ms */

static atomic_bool stop;
static struct timespec began;

/* Microseconds since the start: the clock that twins at 1 MHz follow. */
static uint64_t time_of_day(void) {
    struct timespec now;
    clock_gettime(CLOCK_MONOTONIC, &now);
    return (uint64_t)((now.tv_sec - began.tv_sec) * 1000000 + (now.tv_nsec - began.tv_nsec) / 1000);
}

/* Lets a twin run a slice, where its clock is behind; whether it is behind still. */
static bool advance(size_t i) {
    Twin *t = twins[i];
    pthread_mutex_lock(&locks[i]);
    uint64_t now = time_of_day(), clock = twin_clock(t);
    bool stood = t->answer;
    if (clock < now) twin_run(t, clock + SLICE < now ? clock + SLICE : now);
    t->behind = now > twin_clock(t) ? now - twin_clock(t) : 0;
    bool again = t->behind && !t->answer;
    if (t->answer && !stood) say_refused(t);
    pthread_mutex_unlock(&locks[i]);
    return again;
}

/* The thread's own twins, one in so many, slice by slice in turn. */
static void *run_on(void *argument) {
    const struct timespec slice = {.tv_nsec = SLICE * 1000};
    while (!atomic_load(&stop)) {
        bool behind = false;
        for (size_t i = (size_t)argument; i < count; i += threads) behind = advance(i) || behind;
        if (!behind) nanosleep(&slice, NULL);
    }
    return NULL;
}

/* The metrics of one moment for each twin: its copy is made between two of its steps. One page at a time, so that the copies are few. */
static char *page(size_t *length) {
    static pthread_mutex_t one = PTHREAD_MUTEX_INITIALIZER;
    pthread_mutex_lock(&one);
    char *text = NULL;
    Twin *copies = malloc(count * sizeof *copies);
    const Twin **list = malloc(count * sizeof *list);
    FILE *out = copies && list ? open_memstream(&text, length) : NULL;
    for (size_t i = 0; out && i < count; i++) {
        pthread_mutex_lock(&locks[i]);
        copies[i] = *twins[i];
        pthread_mutex_unlock(&locks[i]);
        list[i] = &copies[i];
    }
    if (out) exposition(out, list, count);
    if (out && fclose(out)) {
        free(text);
        text = NULL;
    }
    free(copies);
    free(list);
    pthread_mutex_unlock(&one);
    return text;
}

/* A socket at [ADDRESS:]PORT; it says where, so that port 0, any that is free, can be found. */
static int listening(char *where) {
    struct sockaddr_in at = {.sin_family = AF_INET};
    socklen_t length = sizeof at;
    char *colon = strrchr(where, ':'), *port = colon ? colon + 1 : where;
    if (colon) *colon = 0;
    unsigned long n = number(port);
    if (n > 65535) fail(2, "a port is a number up to 65535, and not %s", port);
    if (colon && inet_pton(AF_INET, where, &at.sin_addr) != 1) fail(2, "an address is four numbers with dots, and not %s", where);
    at.sin_port = htons((uint16_t)n);
    int s = socket(AF_INET, SOCK_STREAM, 0), yes = 1;
    if (s < 0 || setsockopt(s, SOL_SOCKET, SO_REUSEADDR, &yes, sizeof yes) || bind(s, (struct sockaddr *)&at, sizeof at) || listen(s, 64) ||
        getsockname(s, (struct sockaddr *)&at, &length))
        fail(2, "cannot listen at %s: %s", port, strerror(errno));
    char name[INET_ADDRSTRLEN];
    fprintf(stderr, "exporter: http://%s:%u/metrics\n", inet_ntop(AF_INET, &at.sin_addr, name, sizeof name), ntohs(at.sin_port));
    return s;
}

/* Until SIGINT or SIGTERM. */
static int serve(char *where) {
    sigset_t ends;
    int which;
    sigemptyset(&ends);
    sigaddset(&ends, SIGINT);
    sigaddset(&ends, SIGTERM);
    pthread_sigmask(SIG_BLOCK, &ends, NULL);
    signal(SIGPIPE, SIG_IGN);
    int s = listening(where);
    clock_gettime(CLOCK_MONOTONIC, &began);
    pool_start(run_on);
    if (!http_start(s, page)) fail(2, "the web server does not start");
    sigwait(&ends, &which);
    http_stop();
    atomic_store(&stop, true);
    pool_join();
    int status = 0;
    for (size_t i = 0; i < count; i++) status |= twins[i]->answer != 0;
    return status;
}

/* ---- the arguments */

static void load_all(char **paths) {
    twins = calloc(count, sizeof *twins);
    locks = calloc(count, sizeof *locks);
    if (!twins || !locks) fail(2, "no memory is left");
    for (size_t i = 0; i < count; i++) {
        twins[i] = twin_of(describe(paths[i]));
        pthread_mutex_init(&locks[i], NULL);
    }
    exposition_check((const Twin *const *)twins, count);
}

int main(int argc, char **argv) {
    char *where = NULL, *output = NULL, *wanted = NULL;
    int at = 1;
    for (; at < argc && !strncmp(argv[at], "--", 2); at++) {
        char **value = !strcmp(argv[at], "--listen")    ? &where
                       : !strcmp(argv[at], "--output")  ? &output
                       : !strcmp(argv[at], "--threads") ? &wanted
                                                        : NULL;
        if (!strcmp(argv[at], "--help")) return puts(usage) < 0 || fflush(stdout) ? 4 : 0;
        if (!value || at + 1 == argc) fail(2, "%s %s\n%s", argv[at], value ? "is followed by a word" : "is no option", usage);
        *value = argv[++at];
    }
    if (at == argc) fail(2, "no description is named\n%s", usage);
    if (where && output) fail(2, "--listen and --output do not go together");
    if (doorhawser_abi() != DOORHAWSER_ABI) fail(2, "the library is not the one that doorhawser.h declares");
    count = (size_t)(argc - at);
    long processors = sysconf(_SC_NPROCESSORS_ONLN);
    threads = wanted ? number(wanted) : processors > 0 ? (size_t)processors : 1;
    if (wanted && (!threads || threads > 1024)) fail(2, "--threads is from 1 to 1024, and not %s", wanted);
    if (threads > count) threads = count;
    load_all(argv + at);
    return where ? serve(where) : once(output);
}
