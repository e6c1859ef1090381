#define _GNU_SOURCE
// ping ROUNDS COUNT COMMAND FD..: sends a command over connections that are logged in, in a thread each, and waits for each answer.
// An @ in COMMAND becomes a number below COUNT, another each time. It prints how many round trips were made in how many seconds, and of
// the time of one, in microseconds, the middle, what 99 in 100 keep, and the greatest. An answer that isn't OK ends it with status 1.
#include <pthread.h>
#include <stdio.h>
#include <stdlib.h>
#include <string.h>
#include <sys/socket.h>
#include <time.h>

static long rounds, count;
static const char *command;
static pthread_barrier_t start;

struct session { int fd; unsigned random; double *times, begun, ended; };

static double now(void) {
    struct timespec it;
    clock_gettime(CLOCK_MONOTONIC, &it);
    return it.tv_sec * 1e6 + it.tv_nsec / 1e3;
}

// The command of one round, with its tag and CR LF. How long it is.
static int spell(char *line, size_t room, struct session *session) {
    const char *at = strchr(command, '@');
    session->random = session->random * 1664525u + 1013904223u;
    if (!at) return snprintf(line, room, "T %s\r\n", command);
    return snprintf(line, room, "T %.*s%ld%s\r\n", (int)(at - command), command, (long)((session->random >> 8) % count), at + 1);
}

// Whether these octets end with a whole line that completes the command.
static int is_completed(const char *octets, size_t length) {
    if (length < 2 || octets[length - 1] != '\n') return 0;
    const char *before = memrchr(octets, '\n', length - 1), *line = before ? before + 1 : octets;
    if (!strncmp(line, "T NO ", 5) || !strncmp(line, "T BAD ", 6)) {
        fprintf(stderr, "answered %.*s", (int)(octets + length - line), line);
        exit(1);
    }
    return !strncmp(line, "T OK ", 5);
}

static void round_trip(struct session *session) {
    char line[8192], answer[65536];
    int length = spell(line, sizeof line, session);
    size_t got = 0;
    if (send(session->fd, line, length, MSG_NOSIGNAL) != length) { perror("send"); exit(1); }
    do {
        ssize_t more = recv(session->fd, answer + got, sizeof answer - got, 0);
        if (more <= 0) { fprintf(stderr, "the server has closed, or its answer is too long\n"); exit(1); }
        got += more;
    } while (!is_completed(answer, got));
}

static void *run(void *given) {
    struct session *session = given;
    pthread_barrier_wait(&start);
    session->begun = session->ended = now();
    for (long round = 0; round < rounds; round++) {
        double begun = now();
        round_trip(session);
        session->ended = now();
        session->times[round] = session->ended - begun;
    }
    return NULL;
}

static int by_size(const void *left, const void *right) {
    double a = *(const double *)left, b = *(const double *)right;
    return (a > b) - (a < b);
}

int main(int argc, char **argv) {
    int sessions = argc - 4;
    if (sessions < 1) { fprintf(stderr, "usage: ping ROUNDS COUNT COMMAND FD..\n"); return 2; }
    rounds = atol(argv[1]), count = atol(argv[2]), command = argv[3];
    long all = rounds * sessions;
    double *times = malloc(all * sizeof *times);
    struct session *list = calloc(sessions, sizeof *list);
    pthread_t *threads = calloc(sessions, sizeof *threads);
    pthread_barrier_init(&start, NULL, sessions + 1);
    for (int i = 0; i < sessions; i++) {
        list[i] = (struct session){ atoi(argv[4 + i]), 1 + i * 7919u, times + i * rounds };
        if (pthread_create(&threads[i], NULL, run, &list[i])) { perror("pthread_create"); return 1; }
    }
    pthread_barrier_wait(&start);
    for (int i = 0; i < sessions; i++) pthread_join(threads[i], NULL);
    // (on a busy machine this thread may be woken long after the others have begun)
    double begun = list[0].begun, ended = list[0].ended;
    for (int i = 1; i < sessions; i++) {
        if (list[i].begun < begun) begun = list[i].begun;
        if (list[i].ended > ended) ended = list[i].ended;
    }
    double seconds = (ended - begun) / 1e6;
    qsort(times, all, sizeof *times, by_size);
    printf("%ld %f %f %f %f\n", all, seconds, times[(all - 1) / 2], times[(all - 1) * 99 / 100], times[all - 1]);
    return 0;
}
