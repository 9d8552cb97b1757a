/* Loads linked daemons on loopback, and prints how long what it asks takes and how much processor time it costs each of them, as NAME=VALUE.
   Processor time is that of /proc/PID/schedstat, in nanoseconds (each daemon has one thread).

   load ports COUNT                                         free ports, all different
   load burst PORT PID LINKS USERS PROGRAM FILE OTHER       users come to PORT and join channels of ten; PROGRAM is started with FILE, calls LINKS,
                                                            serves at OTHER, and is asked by LUSERS until it knows all; then the same bytes go
                                                            from one plain process to another
   load texts SPEAKER HEARER LINES WINDOW PID..             al at SPEAKER says so many texts in a channel, and ho at HEARER is shown them; so many
                                                            at most are under way
   load plain SPEAKER HEARER LINES WINDOW PID..             the same to relays, which are told of no names and no channels */
#define _GNU_SOURCE
#include <arpa/inet.h>
#include <netinet/in.h>
#include <netinet/tcp.h>
#include <poll.h>
#include <signal.h>
#include <stdarg.h>
#include <stdio.h>
#include <stdlib.h>
#include <string.h>
#include <sys/socket.h>
#include <sys/wait.h>
#include <time.h>
#include <unistd.h>

enum { TEN = 10, MOST = 16, ROOM = 65536, TURN = 250, BURST = 1 << 24 };

static const char TEXT[] = "PRIVMSG #c :what somebody says in a few words\r\n";

static pid_t child; /* ends with this one */

static void fail(const char *what) {
    fprintf(stderr, "bench/links: %s\n", what);
    if (child > 0) kill(child, SIGKILL);
    exit(1);
}

static void too_long(int signal) {
    (void)signal;
    fail("something that has to come does not within a minute");
}

static double now(void) {
    struct timespec t;
    clock_gettime(CLOCK_MONOTONIC, &t);
    return t.tv_sec + t.tv_nsec / 1e9;
}

static double busy(int pid) {
    char path[64], text[64] = "";
    snprintf(path, sizeof path, "/proc/%d/schedstat", pid);
    FILE *file = fopen(path, "r");
    if (!file || !fgets(text, sizeof text, file)) fail("a server has ended");
    fclose(file);
    return atoll(text) / 1e9;
}

/* who has nothing left to do waits, and its processor time is counted to the end */
static void rest(void) {
    struct timespec pause = {.tv_nsec = 5000000};
    nanosleep(&pause, NULL);
}

static int reach(int port) {
    int fd = socket(AF_INET, SOCK_STREAM, 0), one = 1;
    struct sockaddr_in at = {.sin_family = AF_INET, .sin_port = htons(port), .sin_addr.s_addr = htonl(INADDR_LOOPBACK)};
    if (fd < 0 || connect(fd, (struct sockaddr *)&at, sizeof at)) fail("a connection is refused");
    setsockopt(fd, IPPROTO_TCP, TCP_NODELAY, &one, sizeof one);
    return fd;
}

static void put(int fd, const char *text, size_t length) {
    for (size_t done = 0; done < length;) {
        ssize_t n = write(fd, text + done, length - done);
        if (n <= 0) fail("a connection is closed");
        done += n;
    }
}

__attribute__((format(printf, 2, 3))) static void say(int fd, const char *shape, ...) {
    char text[512];
    va_list rest;
    va_start(rest, shape);
    int n = vsnprintf(text, sizeof text, shape, rest);
    va_end(rest);
    put(fd, text, n);
}

/* what comes until this has come */
static const char *see(int fd, const char *mark) {
    static char text[ROOM];
    size_t got = 0;
    for (text[0] = 0; !strstr(text, mark); text[got] = 0) {
        ssize_t n = read(fd, text + got, sizeof text - 1 - got);
        if (n <= 0) fail("a connection is closed, or too much comes");
        got += n;
    }
    return text;
}

static int person(int port, const char *nick) {
    int fd = reach(port);
    say(fd, "NICK %s\r\nUSER %s 0 * :%s\r\n", nick, nick, nick);
    see(fd, " 422 ");
    return fd;
}

static void crowd(int port, int users) {
    int *fds = calloc(users + 1, sizeof *fds);
    for (int i = 0; i < users; i++) {
        fds[i] = reach(port);
        say(fds[i], "NICK n%d\r\nUSER user 0 * :Somebody\r\nJOIN #c%d\r\n", i, i / TEN);
        if (i % TURN == TURN - 1 || i == users - 1)
            for (int k = i - i % TURN; k <= i; k++) see(fds[k], " 366 ");
    }
    free(fds);
}

/* the numbers of an answer to LUSERS */
static int number(const char *text, const char *reply, const char *before) {
    const char *line = strstr(text, reply), *at = line ? strstr(line, before) : NULL;
    return at ? atoi(at + strlen(before)) : 0;
}

/* asks until so many users are there, and all their channels: a burst tells of the channels last, and of each in one line */
static void knows(int fd, int users) {
    for (;;) {
        say(fd, "LUSERS\r\nPING all\r\n");
        const char *text = see(fd, ":all");
        if (number(text, " 251 ", "There are ") >= users && number(text, " 254 ", " probe ") >= users / TEN) return;
        struct timespec pause = {.tv_nsec = 500000};
        nanosleep(&pause, NULL);
    }
}

/* the bytes of a burst, as a peer reads them: until nothing more comes */
static size_t bytes(int links, char *text, int *lines) {
    int fd = reach(links);
    size_t got = 0;
    say(fd, "PASS pw 0210010001 TREE|\r\nSERVER b.net 1 1 :B\r\n");
    for (struct pollfd p = {.fd = fd, .events = POLLIN}; poll(&p, 1, got ? 300 : 10000) == 1;) {
        ssize_t n = read(fd, text + got, BURST - got);
        if (n <= 0) fail("a peer is closed");
        got += n;
    }
    close(fd);
    *lines = 0;
    for (size_t i = 0; i < got; i++) *lines += text[i] == '\n';
    return got;
}

/* one process is asked by a byte, and writes these bytes; another reads them and counts the lines */
static void plainly(const char *text, size_t length, int lines) {
    int door = socket(AF_INET, SOCK_STREAM, 0), count = 0;
    struct sockaddr_in at = {.sin_family = AF_INET, .sin_addr.s_addr = htonl(INADDR_LOOPBACK)};
    socklen_t size = sizeof at;
    if (bind(door, (struct sockaddr *)&at, size) || listen(door, 1) || getsockname(door, (struct sockaddr *)&at, &size)) fail("no port");
    child = fork();
    if (child == 0) {
        char asked;
        int fd = reach(ntohs(at.sin_port));
        if (read(fd, &asked, 1) == 1) put(fd, text, length);
        pause();
    }
    int fd = accept(door, NULL, NULL);
    rest();
    double before = busy(child), own = clock() * 1.0 / CLOCKS_PER_SEC, start = now();
    put(fd, "?", 1);
    static char piece[ROOM];
    for (ssize_t n; count < lines && (n = read(fd, piece, sizeof piece)) > 0;)
        for (char *from = piece, *end; (end = memchr(from, '\n', piece + n - from)); from = end + 1) count++;
    double took = now() - start;
    own = clock() * 1.0 / CLOCKS_PER_SEC - own;
    rest();
    printf("plain_time=%f plain_a=%f plain_b=%f\n", took, busy(child) - before, own);
    kill(child, SIGKILL);
    waitpid(child, NULL, 0);
}

static void burst(char **words) {
    int port = atoi(words[0]), pid = atoi(words[1]), links = atoi(words[2]), users = atoi(words[3]), other = atoi(words[6]), out[2], lines;
    double first = busy(pid);
    crowd(port, users);
    if (pipe(out)) fail("no pipe");
    rest();
    double before = busy(pid), start = now();
    child = fork();
    if (child == 0) {
        dup2(out[1], 1);
        for (int fd = 3; fd < users + 64; fd++) close(fd);
        execl(words[4], words[4], "serve", words[5], NULL);
        _exit(127);
    }
    char ready[8];
    if (read(out[0], ready, sizeof ready) < 1) fail("the server that calls does not start");
    double is_ready = now();
    int fd = person(other, "probe");
    knows(fd, users + 1);
    double end = now();
    rest();
    printf("time=%f ready=%f a=%f b=%f crowd=%f\n", end - start, is_ready - start, busy(pid) - before, busy(child), before - first);
    kill(child, SIGKILL);
    waitpid(child, NULL, 0);
    char *text = malloc(BURST);
    size_t length = bytes(links, text, &lines);
    printf("bytes=%zu lines=%d\n", length, lines);
    plainly(text, length, lines);
}

/* one channel for both, and each knows that the other is there */
static void meet(int speaker, int hearer) {
    say(speaker, "JOIN #c\r\n");
    see(speaker, " 366 ");
    say(hearer, "JOIN #c\r\n");
    see(hearer, " 366 ");
    see(speaker, ":ho!");
}

static void texts(char **words, int count, int is_plain) {
    int lines = atoi(words[2]), window = atoi(words[3]), pids = count - 4;
    int speaker = is_plain ? reach(atoi(words[0])) : person(atoi(words[0]), "al");
    int hearer = is_plain ? reach(atoi(words[1])) : person(atoi(words[1]), "ho");
    if (!is_plain) meet(speaker, hearer);
    int step = window > 4 ? window / 4 : 1;
    char *block = malloc(step * (sizeof TEXT - 1)), piece[ROOM];
    for (int i = 0; i < step; i++) memcpy(block + i * (sizeof TEXT - 1), TEXT, sizeof TEXT - 1);
    double before[MOST];
    long heard = 0, shown = 0;
    /* one line ahead, so that what is done once is not on the clock */
    put(speaker, TEXT, sizeof TEXT - 1);
    see(hearer, "few words\r\n");
    rest();
    for (int i = 0; i < pids; i++) before[i] = busy(atoi(words[4 + i]));
    double start = now();
    for (int said = 0; heard < lines;) {
        for (; said < lines && said + step - heard <= window; said += step) put(speaker, block, step * (sizeof TEXT - 1));
        ssize_t n = read(hearer, piece, sizeof piece);
        if (n <= 0) fail("the hearer is closed");
        shown += n;
        for (char *from = piece, *end; (end = memchr(from, '\n', piece + n - from)); from = end + 1) heard++;
    }
    double took = now() - start, all = 0;
    rest();
    printf("bytes=%ld", shown);
    for (int i = 0; i < pids; i++) {
        double cost = (busy(atoi(words[4 + i])) - before[i]) / lines;
        all += cost;
        printf(" server%d=%.2f", i, cost * 1e6);
    }
    printf(" all=%.2f us=%.2f\n", all * 1e6, took / lines * 1e6);
}

/* below those that the system gives to who connects, and others for each run */
static void ports(int count) {
    int port = 17000 + getpid() % 1000 * 15;
    for (int found = 0; found < count; port++) {
        struct sockaddr_in at = {.sin_family = AF_INET, .sin_port = htons(port), .sin_addr.s_addr = htonl(INADDR_LOOPBACK)};
        int fd = socket(AF_INET, SOCK_STREAM, 0);
        if (bind(fd, (struct sockaddr *)&at, sizeof at) == 0) found += printf("%d ", port) > 0;
        close(fd);
    }
    puts("");
}

int main(int count, char **words) {
    signal(SIGALRM, too_long);
    signal(SIGPIPE, SIG_IGN);
    alarm(60);
    if (count == 3 && !strcmp(words[1], "ports")) ports(atoi(words[2]));
    else if (count == 9 && !strcmp(words[1], "burst")) burst(words + 2);
    else if (count > 6 && count < 6 + MOST && !strcmp(words[1], "texts")) texts(words + 2, count - 2, 0);
    else if (count > 6 && count < 6 + MOST && !strcmp(words[1], "plain")) texts(words + 2, count - 2, 1);
    else return 2;
    return 0;
}
