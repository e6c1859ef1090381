#define _GNU_SOURCE
// rounds PROTOCOL SECONDS COUNT THREADS RANGE ROWS REQUEST EXPECTED FD..: sends a request over connections that are logged in, over each the next
// one once the answer to the last has come, until SECONDS have passed. With a COUNT it sends that many over the first connection in their order.
//
// PROTOCOL is acap, resp or ldap. REQUEST and EXPECTED are in hex, with the marks of frames.h: an entry is one below RANGE, another each time. Each
// answer must have ROWS rows (ENTRY lines, bulk strings, entries) and hold EXPECTED; else the program ends with status 1. It prints how
// many round trips were made in how many seconds, and of the time of one, in microseconds, the middle and what 99 in 100 keep.
// THREADS share the connections, by epoll; a single connection is read by a call that waits.
#include <pthread.h>
#include <sys/epoll.h>

#include "frames.h"

static long range, count, rows;
static double ends_at;
static pthread_barrier_t start;

struct part { struct talk *talks; int sessions, busy; struct times times; struct pattern request, expected; double begun, ended; };

static void ask_next(struct part *part, struct talk *talk) {
    unsigned random = next_random(talk);
    talk->entry = count ? talk->entry + 1 : (long)(random % range);
    talk->number = (talk->number + 1) | 0x1000000;  // four octets
    fill(&part->request, talk->entry, 1000000000LL + random, talk->number);
    ask(talk, &part->request);
}

static void check(struct part *part, struct talk *talk) {
    fill(&part->expected, talk->entry, 0, 0);
    if (talk->rows != rows) fail("another number of rows", talk->octets, talk->count);
    if (part->expected.length && !memmem(talk->octets, talk->count, part->expected.octets, part->expected.length))
        fail("not the answer that was expected", talk->octets, talk->count);
}

// Reads what has come. Where the answer has come as a whole, the next request is sent.
static void go_on(struct part *part, struct talk *talk, int flags) {
    const char *octets;
    int done;
    if (!hear(talk, flags)) return;
    while (talk->is_waiting && next_frame(talk, &octets, &done)) {
        if (!done) continue;
        part->ended = now();
        keep(&part->times, part->ended - talk->sent);
        talk->is_waiting = 0;
        check(part, talk);
        if (count ? talk->entry + 1 < count : part->ended < ends_at) ask_next(part, talk);
        else part->busy--;
    }
}

static int watch_all(struct part *part) {
    int epoll = epoll_create1(0);
    for (int i = 0; i < part->sessions; i++) {
        struct epoll_event event = { .events = EPOLLIN, .data.ptr = &part->talks[i] };
        if (epoll_ctl(epoll, EPOLL_CTL_ADD, part->talks[i].fd, &event)) fail("epoll_ctl", 0, 0);
    }
    return epoll;
}

static void *run(void *given) {
    struct part *part = given;
    int epoll = watch_all(part);
    pthread_barrier_wait(&start);
    part->begun = part->ended = now();
    part->busy = part->sessions;
    for (int i = 0; i < part->sessions; i++) ask_next(part, &part->talks[i]);
    while (part->busy) {
        struct epoll_event events[64];
        if (part->sessions == 1) { go_on(part, part->talks, 0); continue; }
        int ready = epoll_wait(epoll, events, 64, 30000);
        if (ready < 1) fail("no answer in 30 seconds", 0, 0);
        for (int i = 0; i < ready; i++) go_on(part, events[i].data.ptr, MSG_DONTWAIT);
    }
    return NULL;
}

static void print(const struct part *parts, int threads) {
    struct times all = { 0 };
    double begun = parts->begun, ended = parts->ended;
    for (int k = 0; k < threads; k++) {
        for (long i = 0; i < parts[k].times.count; i++) keep(&all, parts[k].times.at[i]);
        if (parts[k].begun < begun) begun = parts[k].begun;
        if (parts[k].ended > ended) ended = parts[k].ended;
    }
    sort(&all);
    printf("%ld %f %f %f\n", all.count, (ended - begun) / 1e6, kept_by(&all, 50), kept_by(&all, 99));
}

int main(int argc, char **argv) {
    int sessions = argc - 9;
    if (sessions < 1) { fprintf(stderr, "usage: rounds PROTOCOL SECONDS COUNT THREADS RANGE ROWS REQUEST EXPECTED FD..\n"); return 2; }
    choose_protocol(argv[1]);
    double seconds = atof(argv[2]);
    count = atol(argv[3]), range = atol(argv[5]), rows = atol(argv[6]);
    if (count) sessions = 1;
    int threads = atoi(argv[4]) < sessions ? atoi(argv[4]) : sessions;
    struct pattern *request = read_pattern(argv[7]), *expected = read_pattern(argv[8]);
    struct talk *talks = calloc(sessions, sizeof *talks);
    struct part *parts = calloc(threads, sizeof *parts);
    pthread_t *ids = calloc(threads, sizeof *ids);
    pthread_barrier_init(&start, NULL, threads);
    for (int i = 0; i < sessions; i++) talks[i] = (struct talk){ .fd = atoi(argv[9 + i]), .random = (unsigned)now() + i * 7919u, .entry = -1 };
    ends_at = now() + seconds * 1e6;
    for (int k = 0, at = 0; k < threads; at += parts[k++].sessions) {
        parts[k] = (struct part){ talks + at, sessions / threads + (k < sessions % threads), .request = *request, .expected = *expected };
        if (pthread_create(&ids[k], NULL, run, &parts[k])) { perror("pthread_create"); return 1; }
    }
    for (int k = 0; k < threads; k++) pthread_join(ids[k], NULL);
    print(parts, threads);
    return 0;
}
