// Connections to servers of three protocols, ACAP, Redis's (RESP) and LDAP, for rounds.c and notices.c: requests with numbers put in,
// and what comes, frame by frame. A frame is a line of ACAP, a value of RESP, or a message of LDAP.
#include <errno.h>
#include <stdio.h>
#include <stdlib.h>
#include <string.h>
#include <sys/socket.h>
#include <time.h>

enum { ACAP, RESP, LDAP };
static int protocol;

static double now(void) {
    struct timespec it;
    clock_gettime(CLOCK_MONOTONIC, &it);
    return it.tv_sec * 1e6 + it.tv_nsec / 1e3;
}

// Says what is wrong, with the octets in which it is, and ends with status 1.
static void fail(const char *what, const char *octets, size_t length) {
    fprintf(stderr, "%s", what);
    if (length) fprintf(stderr, " in %zu octets: ", length);
    for (size_t i = 0; i < length && i < 400; i++)
        fprintf(stderr, octets[i] >= 32 && octets[i] < 127 ? "%c" : "\\x%02x", (unsigned char)octets[i]);
    fprintf(stderr, "\n");
    exit(1);
}

static void choose_protocol(const char *name) {
    protocol = !strcmp(name, "acap") ? ACAP : !strcmp(name, "resp") ? RESP : LDAP;
}

// ---- times in microseconds

struct times { double *at; long count, room; };

static void keep(struct times *times, double time) {
    if (times->count == times->room) {
        times->room = times->room ? 2 * times->room : 4096;
        if (!(times->at = realloc(times->at, times->room * sizeof *times->at))) fail("no memory", 0, 0);
    }
    times->at[times->count++] = time;
}

static int by_size(const void *left, const void *right) {
    double a = *(const double *)left, b = *(const double *)right;
    return (a > b) - (a < b);
}

static void sort(struct times *times) { qsort(times->at, times->count, sizeof *times->at, by_size); }

// The time that so many in 100 keep, of times that are sorted.
static double kept_by(const struct times *times, int percent) {
    return times->count ? times->at[(times->count - 1) * percent / 100] : 0;
}

// ---- requests

enum { ENTRY, VALUE, NUMBER };
static const char *const marks[] = { "@@@@@", "##########", "%%%%" };  // an entry's number, a value, the number of an LDAP message

struct place { int at, mark; };
struct pattern { char octets[2048]; int length, count; struct place places[16]; };

// Octets in hex, and where the marks are in them.
static struct pattern *read_pattern(const char *hex) {
    struct pattern *it = calloc(1, sizeof *it);
    it->length = strlen(hex) / 2;
    if (it->length > (int)sizeof it->octets) fail("a request is too long", 0, 0);
    for (int i = 0; i < it->length; i++) sscanf(hex + 2 * i, "%2hhx", (unsigned char *)it->octets + i);
    for (int i = 0; i < it->length; i++)
        for (int mark = ENTRY; mark <= NUMBER; mark++) {
            int size = strlen(marks[mark]);
            if (i + size > it->length || memcmp(it->octets + i, marks[mark], size)) continue;
            if (it->count == 16) fail("too many marks in a request", 0, 0);
            it->places[it->count++] = (struct place){ i, mark };
            i += size - 1;
            break;
        }
    return it;
}

static void spell_digits(char *to, int count, long long number) {
    while (count--) { to[count] = '0' + number % 10; number /= 10; }
}

static void fill(struct pattern *it, long entry, long long value, unsigned number) {
    for (int i = 0; i < it->count; i++) {
        char *to = it->octets + it->places[i].at;
        if (it->places[i].mark == ENTRY) spell_digits(to, 5, entry);
        if (it->places[i].mark == VALUE) spell_digits(to, 10, value);
        if (it->places[i].mark == NUMBER) for (int k = 0; k < 4; k++) to[k] = number >> (24 - 8 * k);
    }
}

// ---- connections

// What has come over a connection, up to `count`: the frame that is read begins at `begun`, and its octets up to `read` were looked at. Of the
// answer that is awaited, how many replies and rows have come.
struct talk {
    int fd, is_waiting;
    long replies, rows, entry, open;
    unsigned number, random;
    char *octets;
    size_t count, room, begun, read;
    double sent;
};

static unsigned next_random(struct talk *talk) {
    talk->random = talk->random * 1664525u + 1013904223u;
    return talk->random >> 8;
}

static void ask(struct talk *talk, const struct pattern *request) {
    if (talk->begun != talk->count) fail("more came than was asked", talk->octets + talk->begun, talk->count - talk->begun);
    talk->begun = talk->read = talk->count = talk->rows = talk->replies = 0;
    talk->is_waiting = 1;
    talk->sent = now();
    if (send(talk->fd, request->octets, request->length, MSG_NOSIGNAL) != request->length) fail("send", 0, 0);
}

// Reads what has come. Whether anything has.
static int hear(struct talk *talk, int flags) {
    if (!talk->is_waiting && talk->begun == talk->count) talk->begun = talk->read = talk->count = 0;
    if (talk->count == talk->room) {
        talk->room = talk->room ? 2 * talk->room : 65536;
        if (talk->room > 1 << 26 || !(talk->octets = realloc(talk->octets, talk->room))) fail("an answer is too long", 0, 0);
    }
    ssize_t got = recv(talk->fd, talk->octets + talk->count, talk->room - talk->count, flags);
    if (got < 0 && (errno == EAGAIN || errno == EINTR)) return 0;
    if (got <= 0) fail("the server has closed a connection", 0, 0);
    talk->count += got;
    return 1;
}

// The end of the line that holds `from`, after its CR LF; 0 where it hasn't come.
static size_t line_end(const struct talk *talk, size_t from) {
    const char *end = memmem(talk->octets + from, talk->count - from, "\r\n", 2);
    return end ? end - talk->octets + 2 : 0;
}

// Each of the next three gives the length of the next frame, 0 where it hasn't come as a whole. It counts rows, and sets `done` where the frame
// completes a reply. A refusal ends the program.

static size_t acap_frame(struct talk *talk, int *done) {
    size_t end = line_end(talk, talk->read);
    if (!end) { talk->read = talk->count - 1; return 0; }
    const char *line = talk->octets + talk->begun;
    size_t length = end - talk->begun;
    if (length > 2 && line[length - 3] == '}') fail("a literal", line, length);
    if (!strncmp(line, "A NO", 4) || !strncmp(line, "A BAD", 5) || !strncmp(line, "* B", 3) || !strncmp(line, "* ALERT", 7))
        fail("refused", line, length);
    talk->rows += !strncmp(line, "A ENTRY ", 8);
    *done = !strncmp(line, "A OK ", 5);
    return length;
}

static size_t resp_frame(struct talk *talk, int *done) {
    if (talk->read == talk->begun) talk->open = 1;
    while (talk->open > 0) {
        size_t end = line_end(talk, talk->read);
        if (!end) return 0;
        const char *line = talk->octets + talk->read;
        long count = atol(line + 1);
        if (!strchr("+:$*", *line)) fail("refused", line, end - talk->read);
        if (*line == '$' && count >= 0) {
            if (talk->count < end + count + 2) return 0;
            end += count + 2;
            talk->rows++;
        }
        if (*line == '*') talk->open += count;
        talk->read = end, talk->open--;
    }
    *done = 1;
    return talk->read - talk->begun;
}

// Where the content of what is encoded at `at` begins, and how long it is; 0 where that hasn't come.
static size_t content(const struct talk *talk, size_t at, size_t *length) {
    if (at + 2 > talk->count) return 0;
    const unsigned char *it = (const unsigned char *)talk->octets + at;
    int more = it[1] & 128 ? it[1] & 127 : 0;
    if (more > 4) fail("no BER", (const char *)it, talk->count - at);
    if (at + 2 + more > talk->count) return 0;
    *length = more ? 0 : it[1];
    for (int i = 0; i < more; i++) *length = *length << 8 | it[2 + i];
    return at + 2 + more;
}

enum { SEARCH_ENTRY = 0x64, SEARCH_REFERENCE = 0x73, INTERMEDIATE = 0x79 };

static size_t ldap_frame(struct talk *talk, int *done) {
    size_t length, part, at = content(talk, talk->begun, &length);
    if (!at || talk->count < at + length) return 0;
    const char *message = talk->octets + talk->begun;
    size_t whole = at + length - talk->begun, number_at = content(talk, at, &part), operation = number_at + part;
    unsigned number = 0;
    for (size_t i = 0; i < part; i++) number = number << 8 | (unsigned char)talk->octets[number_at + i];
    size_t result = content(talk, operation, &part);
    unsigned char tag = talk->octets[operation];
    if (talk->is_waiting && number != talk->number) fail("the number of another message", message, whole);
    if (tag == SEARCH_ENTRY) talk->rows++;
    else if (tag != INTERMEDIATE) {
        if (tag == SEARCH_REFERENCE || part < 3 || talk->octets[result + 2]) fail("refused", message, whole);
        *done = 1;
    }
    return whole;
}

// Takes out the next frame, if it has come: its octets and length, and whether it completes a reply.
static size_t next_frame(struct talk *talk, const char **octets, int *done) {
    *done = 0;
    if (talk->begun == talk->count) return 0;
    size_t length = protocol == ACAP ? acap_frame(talk, done) : protocol == RESP ? resp_frame(talk, done) : ldap_frame(talk, done);
    *octets = talk->octets + talk->begun;
    if (length) talk->read = talk->begun += length;
    return length;
}
