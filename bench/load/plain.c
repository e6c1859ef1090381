// plain: a server that answers a few ACAP commands in the simplest way, as a measure: a thread for each connection, and one map under one
// mutex. It prints its port. A line is a command; literals, rights, times and refusals are left out, and anybody may log in.
// A STORE has entries of one attribute, whose value is kept by the path. A SEARCH looks at each entry for the name that stands last.
#include <netinet/in.h>
#include <netinet/tcp.h>
#include <pthread.h>
#include <search.h>
#include <stdio.h>
#include <stdlib.h>
#include <string.h>
#include <sys/socket.h>
#include <unistd.h>

#define GREETING "* ACAP (IMPLEMENTATION \"acapd\") (SASL \"CRAM-MD5\") (CONTEXTLIMIT \"200\")\r\n"
enum { LINE = 8192, STRINGS = 1024 };

struct held { char *path, *value; };

static pthread_mutex_t lock = PTHREAD_MUTEX_INITIALIZER;
static void *map;           // entries by their paths, as tsearch keeps them
static const char *sought;  // while a SEARCH holds the lock: the name that it looks for,
static const struct held *match;  // and the entry that has it

static int by_path(const void *left, const void *right) {
    return strcmp(((const struct held *)left)->path, ((const struct held *)right)->path);
}

static void store(char *path, char *value) {
    struct held it = { path, NULL }, **found = tfind(&it, &map, by_path);
    if (found) {
        free((*found)->value);
        (*found)->value = strdup(value);
        return;
    }
    struct held *made = malloc(sizeof *made);
    *made = (struct held){ strdup(path), strdup(value) };
    tsearch(made, &map, by_path);
}

static void look(const void *node, VISIT visit, int depth) {
    (void)depth;
    if (visit != postorder && visit != leaf) return;
    const struct held *entry = *(struct held *const *)node;
    if (!strcmp(strrchr(entry->path, '/') + 1, sought)) match = entry;
}

// Finds the strings of a line, which have no escapes, and ends each. How many there are.
static int strings_of(char *line, char **strings) {
    int count = 0;
    for (char *at = strchr(line, '"'); at && count < STRINGS; at = strchr(at + 1, '"')) {
        strings[count++] = at + 1;
        at = strchr(at + 1, '"');
        if (!at) break;
        *at = 0;
    }
    return count;
}

// Writes what a command is answered. How long it is.
static int answer(char *line, char *to, size_t room) {
    static __thread char *strings[STRINGS];
    char *space = strchr(line, ' ');
    if (!space) return snprintf(to, room, "* BAD \"Bad tag\"\r\n");
    *space = 0;
    char *verb = space + 1;
    int verb_length = strcspn(verb, " "), count = strings_of(verb, strings), length = 0;
    if (!strncmp(verb, "AUTHENTICATE", verb_length)) return snprintf(to, room, "+ \"<0.0@localhost>\"\r\n");
    pthread_mutex_lock(&lock);
    if (!strncmp(verb, "STORE", verb_length))
        for (int i = 0; i + 2 < count; i += 3) store(strings[i], strings[i + 2]);
    if (!strncmp(verb, "SEARCH", verb_length) && count) {
        sought = strings[count - 1], match = NULL;
        twalk(map, look);
        if (match) length = snprintf(to, room, "%s ENTRY \"%s\" \"%s\"\r\n", line, sought, match->value);
        length += snprintf(to + length, room - length, "%s MODTIME \"19700101000000000000\"\r\n", line);
    }
    pthread_mutex_unlock(&lock);
    return length + snprintf(to + length, room - length, "%s OK \"%.*s done\"\r\n", line, verb_length, verb);
}

static void *serve(void *given) {
    int fd = (int)(long)given, is_login = 0;
    char line[LINE], reply[2 * LINE], tag[LINE];
    size_t got = 0;
    send(fd, GREETING, strlen(GREETING), MSG_NOSIGNAL);
    for (;;) {
        ssize_t more = recv(fd, line + got, LINE - 1 - got, 0);
        if (more <= 0) break;
        got += more;
        line[got] = 0;
        for (char *end; (end = strstr(line, "\r\n"));) {
            *end = 0;
            size_t taken = end + 2 - line;
            int length = is_login ? snprintf(reply, sizeof reply, "%s OK \"AUTHENTICATE done\"\r\n", tag) : answer(line, reply, sizeof reply);
            is_login = reply[0] == '+';
            if (is_login) strcpy(tag, line);
            if (send(fd, reply, length, MSG_NOSIGNAL) != length) break;
            memmove(line, line + taken, got + 1 - taken);
            got -= taken;
        }
    }
    close(fd);
    return NULL;
}

int main(void) {
    int door = socket(AF_INET, SOCK_STREAM, 0), yes = 1;
    struct sockaddr_in at = { .sin_family = AF_INET, .sin_addr.s_addr = htonl(INADDR_LOOPBACK) };
    socklen_t length = sizeof at;
    if (bind(door, (struct sockaddr *)&at, sizeof at) || listen(door, 128) || getsockname(door, (struct sockaddr *)&at, &length)) {
        perror("plain");
        return 1;
    }
    printf("%d\n", ntohs(at.sin_port));
    fflush(stdout);
    for (;;) {
        long fd = accept(door, NULL, NULL);
        pthread_t thread;
        if (fd < 0) continue;
        setsockopt(fd, IPPROTO_TCP, TCP_NODELAY, &yes, sizeof yes);
        if (pthread_create(&thread, NULL, serve, (void *)fd)) close(fd);
        else pthread_detach(thread);
    }
}
