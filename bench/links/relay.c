/* A bare relay: what a daemon in a line of daemons reads and writes of a text in a channel, and nothing else is looked at or kept.
   One thread, epoll without edges, one read and at most one write a turn, as bench/sockets/relay.c.
   relay PORT NEXT MAKE: lines come by the first connection to PORT, and leave to port NEXT, or by the second connection to PORT where NEXT is 0.
   MAKE says what a line begins with behind it: enter (a client's line becomes a server's), pass, leave (a server's becomes what a client is shown), or both. */
#define _GNU_SOURCE
#include <arpa/inet.h>
#include <netinet/in.h>
#include <netinet/tcp.h>
#include <stdio.h>
#include <stdlib.h>
#include <string.h>
#include <sys/epoll.h>
#include <sys/socket.h>
#include <unistd.h>

enum { ROOM = 65536 };

static const char *begins, *drops;
static char in[ROOM], out[ROOM * 2];
static size_t got;

static struct sockaddr_in at(const char *port) {
    return (struct sockaddr_in){.sin_family = AF_INET, .sin_port = htons(atoi(port)), .sin_addr.s_addr = htonl(INADDR_LOOPBACK)};
}

/* makes the whole lines of what has come, and keeps what is left of the last one */
static size_t make(void) {
    size_t made = 0, from = 0, dropped = strlen(drops), put = strlen(begins);
    for (char *end; (end = memchr(in + from, '\n', got - from)); from = end + 1 - in) {
        size_t length = end + 1 - (in + from) - dropped;
        if (made + put + length > sizeof out) break;
        memcpy(out + made, begins, put);
        memcpy(out + made + put, in + from + dropped, length);
        made += put + length;
    }
    memmove(in, in + from, got - from);
    got -= from;
    return made;
}

static void put(int fd, size_t made) {
    for (size_t done = 0; done < made;) {
        ssize_t n = write(fd, out + done, made - done);
        if (n <= 0) exit(0);
        done += n;
    }
}

int main(int count, char **words) {
    if (count != 4) return 2;
    begins = !strcmp(words[3], "enter") ? ":al " : !strcmp(words[3], "pass") ? "" : ":al!al@127.0.0.1 ";
    drops = !strcmp(words[3], "leave") ? ":al " : "";
    int door = socket(AF_INET, SOCK_STREAM, 0), one = 1;
    setsockopt(door, SOL_SOCKET, SO_REUSEADDR, &one, sizeof one);
    struct sockaddr_in own = at(words[1]), to = at(words[2]);
    if (bind(door, (struct sockaddr *)&own, sizeof own) || listen(door, 16)) return 1;
    /* who is next knows this one before it is ready, and so before it is reached by whoever reads what it shows */
    int next = atoi(words[2]) ? socket(AF_INET, SOCK_STREAM, 0) : -1;
    if (next >= 0 && connect(next, (struct sockaddr *)&to, sizeof to)) return 1;
    puts("ready");
    fflush(stdout);
    int before = accept(door, NULL, NULL);
    if (next < 0) next = accept(door, NULL, NULL);
    setsockopt(next, IPPROTO_TCP, TCP_NODELAY, &one, sizeof one);
    int poller = epoll_create1(0);
    struct epoll_event e = {.events = EPOLLIN, .data.fd = before};
    epoll_ctl(poller, EPOLL_CTL_ADD, before, &e);
    for (;;) {
        if (epoll_wait(poller, &e, 1, -1) < 1) continue;
        ssize_t n = read(before, in + got, sizeof in - got);
        if (n <= 0) return 0;
        got += n;
        put(next, make());
    }
}
