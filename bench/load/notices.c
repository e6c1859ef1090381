#define _GNU_SOURCE
// notices PROTOCOL SECONDS RANGE REPLIES REQUEST WRITER FD..: writes over the connection WRITER until SECONDS have passed, and waits after each write
// until its REPLIES have come, and over each FD a whole frame that holds the value that was written.
//
// PROTOCOL and REQUEST are those of rounds.c; the value is another each time. It prints how many writes were made and, in microseconds from before
// a write was sent, the middle of the times until it was answered, and of the times until the last FD was notified, the middle and what 99 in
// 100 keep. Where an FD isn't notified in ten seconds, the program ends with status 1.
#include <sys/epoll.h>

#include "frames.h"

static struct talk writer, *watchers;
static int epoll, count, left, *notified;
static long range, replies;
static struct pattern *request;
static char value[11];
static struct times answered, last;

static void watch(int number, int fd) {
    struct epoll_event event = { .events = EPOLLIN, .data.u32 = number };
    if (epoll_ctl(epoll, EPOLL_CTL_ADD, fd, &event)) fail("epoll_ctl", 0, 0);
}

// Reads what has come for the writer, whose number is `count`, or for a watcher. Who has got all for this write waits no more.
static void go_on(int number) {
    struct talk *talk = number == count ? &writer : &watchers[number];
    const char *octets;
    size_t length;
    int done;
    if (!hear(talk, MSG_DONTWAIT)) return;
    while ((length = next_frame(talk, &octets, &done))) {
        if (talk == &writer ? !done || ++talk->replies != replies : notified[number] || !memmem(octets, length, value, 10)) continue;
        double time = now() - writer.sent;
        left--;
        if (talk == &writer) talk->is_waiting = 0, keep(&answered, time);
        else if (notified[number] = 1, --notified[count] == 0) keep(&last, time);
    }
}

static void write_once(long long number) {
    spell_digits(value, 10, number);
    writer.number = (writer.number + 1) | 0x1000000;
    fill(request, next_random(&writer) % range, number, writer.number);
    memset(notified, 0, count * sizeof *notified);
    notified[count] = count;  // how many watchers aren't notified yet
    left = count + 1;
    ask(&writer, request);
    while (left) {
        struct epoll_event events[64];
        int ready = epoll_wait(epoll, events, 64, 10000);
        if (ready < 1) fail("a watcher isn't notified in 10 seconds", 0, 0);
        for (int i = 0; i < ready; i++) go_on(events[i].data.u32);
    }
}

int main(int argc, char **argv) {
    count = argc - 7;
    if (count < 1) { fprintf(stderr, "usage: notices PROTOCOL SECONDS RANGE REPLIES REQUEST WRITER FD..\n"); return 2; }
    choose_protocol(argv[1]);
    range = atol(argv[3]), replies = atol(argv[4]), request = read_pattern(argv[5]);
    epoll = epoll_create1(0);
    watchers = calloc(count, sizeof *watchers);
    notified = calloc(count + 1, sizeof *notified);
    writer = (struct talk){ .fd = atoi(argv[6]), .random = (unsigned)now() };
    watch(count, writer.fd);
    for (int i = 0; i < count; i++) watch(i, watchers[i].fd = atoi(argv[7 + i]));
    double ends_at = now() + atof(argv[2]) * 1e6;
    long long number = 1000000000LL + (long long)now() % 1000000000LL;
    do write_once(++number); while (now() < ends_at);
    sort(&answered), sort(&last);
    printf("%ld %f %f %f\n", last.count, kept_by(&answered, 50), kept_by(&last, 50), kept_by(&last, 99));
    return 0;
}
