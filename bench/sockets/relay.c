/* A bare relay, to compare ircd with: it keeps just enough of the protocol for bench/sockets/load.py, and checks nothing.
   One thread, epoll without edges, one read and at most one write a socket and turn. relay PORT */
#define _GNU_SOURCE
#include <arpa/inet.h>
#include <errno.h>
#include <netinet/in.h>
#include <netinet/tcp.h>
#include <stdio.h>
#include <stdlib.h>
#include <string.h>
#include <sys/epoll.h>
#include <sys/socket.h>
#include <unistd.h>

enum { MOST = 20000, ROOM = 65536, LINE = 512, EVENTS = 1024, BUCKETS = 32768 };

struct client {
    int fd, in_room, is_dirty;
    size_t got, waiting, room;
    char nick[32], line[LINE], *out;
    struct client *next; /* of those whose nicknames have this hash value */
};

static struct client *clients[MOST], *by_nick[BUCKETS];
static int dirty[MOST], dirty_count, room[MOST], room_count, poller;

static void put(struct client *c, const char *text, size_t length) {
    if (c->waiting + length > ROOM) return; /* a real server closes it */
    if (c->waiting + length > c->room) {
        c->room = c->waiting + length + 4096;
        c->out = realloc(c->out, c->room);
    }
    memcpy(c->out + c->waiting, text, length);
    c->waiting += length;
    if (!c->is_dirty) {
        c->is_dirty = 1;
        dirty[dirty_count++] = c->fd;
    }
}

static void flush_all(void) {
    for (int i = 0; i < dirty_count; i++) {
        struct client *c = clients[dirty[i]];
        if (!c) continue;
        c->is_dirty = 0;
        ssize_t n = write(c->fd, c->out, c->waiting);
        if (n > 0) {
            memmove(c->out, c->out + n, c->waiting - n);
            c->waiting -= n;
        }
        struct epoll_event e = {.events = EPOLLIN | (c->waiting ? EPOLLOUT : 0), .data.fd = c->fd};
        if (c->waiting) epoll_ctl(poller, EPOLL_CTL_MOD, c->fd, &e);
    }
    dirty_count = 0;
}

static struct client **bucket(const char *nick) {
    unsigned hash = 2166136261u;
    for (; *nick; nick++) hash = (hash ^ (unsigned char)*nick) * 16777619u;
    return &by_nick[hash % BUCKETS];
}

static struct client *named(const char *nick) {
    struct client *c = *bucket(nick);
    while (c && strcmp(c->nick, nick)) c = c->next;
    return c;
}

static void forget_name(struct client *c) {
    struct client **at = bucket(c->nick);
    while (*at && *at != c) at = &(*at)->next;
    if (*at) *at = c->next;
}

static void rename_to(struct client *c, const char *nick) {
    forget_name(c);
    snprintf(c->nick, sizeof c->nick, "%s", nick);
    struct client **at = bucket(c->nick);
    c->next = *at;
    *at = c;
}

static void obey(struct client *c, char *line) {
    char text[1024], *word = strchr(line, ' ');
    int n = 0;
    if (!strncmp(line, "NICK ", 5)) {
        rename_to(c, line + 5);
    } else if (!strncmp(line, "USER ", 5)) {
        n = snprintf(text, sizeof text,
                     ":a.net 001 %s :Welcome to the Internet Relay Network %s!u@127.0.0.1\r\n"
                     ":a.net 002 %s :Your host is a.net, running version treeircd-1\r\n"
                     ":a.net 003 %s :This server was created 2024-01-01\r\n"
                     ":a.net 004 %s a.net treeircd-1 i biklmnopstv\r\n"
                     ":a.net 422 %s :MOTD File is missing\r\n",
                     c->nick, c->nick, c->nick, c->nick, c->nick, c->nick);
        put(c, text, n);
    } else if (!strncmp(line, "JOIN ", 5)) {
        if (!c->in_room) room[room_count++] = c->fd;
        c->in_room = 1;
        n = snprintf(text, sizeof text, ":a.net 366 %s #c :End of NAMES list\r\n", c->nick);
        put(c, text, n);
    } else if (!strncmp(line, "PING ", 5)) {
        n = snprintf(text, sizeof text, ":a.net PONG a.net :%s\r\n", line + 5);
        put(c, text, n);
    } else if (!strncmp(line, "PRIVMSG ", 8) && word) {
        n = snprintf(text, sizeof text, ":%s!u@127.0.0.1 %s\r\n", c->nick, line);
        if (line[8] == '#') {
            for (int i = 0; i < room_count; i++)
                if (room[i] != c->fd && clients[room[i]]) put(clients[room[i]], text, n);
        } else {
            char *end = strchr(line + 8, ' ');
            if (!end) return;
            *end = 0;
            struct client *to = named(line + 8);
            if (to) put(to, text, n);
        }
    }
}

static void lose(struct client *c) {
    clients[c->fd] = NULL;
    forget_name(c);
    for (int i = 0; i < room_count; i++)
        if (room[i] == c->fd) room[i--] = room[--room_count];
    close(c->fd);
    free(c->out);
    free(c);
}

static void take(struct client *c) {
    char piece[4096];
    ssize_t n = read(c->fd, piece, sizeof piece);
    if (n <= 0) {
        if (n == 0 || errno != EAGAIN) lose(c);
        return;
    }
    for (ssize_t i = 0; i < n; i++) {
        if (piece[i] == '\n' || piece[i] == '\r') {
            c->line[c->got] = 0;
            if (c->got) obey(c, c->line);
            c->got = 0;
        } else if (c->got < LINE - 2) {
            c->line[c->got++] = piece[i];
        }
    }
}

int main(int count, char **words) {
    int door = socket(AF_INET, SOCK_STREAM | SOCK_NONBLOCK, 0), one = 1;
    setsockopt(door, SOL_SOCKET, SO_REUSEADDR, &one, sizeof one);
    struct sockaddr_in at = {.sin_family = AF_INET, .sin_port = htons(count > 1 ? atoi(words[1]) : 16699), .sin_addr.s_addr = htonl(INADDR_LOOPBACK)};
    if (bind(door, (struct sockaddr *)&at, sizeof at) || listen(door, 4096)) return 1;
    poller = epoll_create1(0);
    struct epoll_event e = {.events = EPOLLIN, .data.fd = door}, events[EVENTS];
    epoll_ctl(poller, EPOLL_CTL_ADD, door, &e);
    puts("ready");
    fflush(stdout);
    for (;;) {
        int ready = epoll_wait(poller, events, EVENTS, -1);
        for (int i = 0; i < ready; i++) {
            int fd = events[i].data.fd;
            if (fd == door) {
                int new = accept4(door, NULL, NULL, SOCK_NONBLOCK);
                if (new < 0 || new >= MOST) continue;
                setsockopt(new, IPPROTO_TCP, TCP_NODELAY, &one, sizeof one);
                clients[new] = calloc(1, sizeof **clients);
                clients[new]->fd = new;
                e = (struct epoll_event){.events = EPOLLIN, .data.fd = new};
                epoll_ctl(poller, EPOLL_CTL_ADD, new, &e);
            } else if (clients[fd]) {
                if (events[i].events & EPOLLOUT) {
                    e = (struct epoll_event){.events = EPOLLIN, .data.fd = fd};
                    epoll_ctl(poller, EPOLL_CTL_MOD, fd, &e);
                    put(clients[fd], "", 0);
                }
                if (events[i].events & ~EPOLLOUT) take(clients[fd]);
            }
        }
        flush_all();
    }
}
