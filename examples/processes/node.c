/* The node of node.py in C: the same words, the same lines, the same log.
 *
 *     node NAME LOG [OFFSET]
 */
#define _DEFAULT_SOURCE
#include "hlc.h"
#include "hlc_clock.h"

#include <arpa/inet.h>
#include <fcntl.h>
#include <inttypes.h>
#include <netinet/in.h>
#include <netinet/tcp.h>
#include <poll.h>
#include <stdarg.h>
#include <stdio.h>
#include <stdlib.h>
#include <string.h>
#include <sys/socket.h>
#include <unistd.h>

enum { BITS = 16, LIMIT = 500, MOST_PEERS = 16, MOST_CONNECTIONS = 64, MOST_KEYS = 1024, LINE = 1024, WORD = 128 };

struct write {
    char key[WORD], value[WORD], node[WORD];
    uint64_t stamp;
};

struct connection {
    int socket; /* -1, where the place is free */
    size_t length;
    char line[LINE];
};

static const char *node_name;
static int log_file;
static int64_t offset;
static uint64_t node_clock;

static struct write table[MOST_KEYS];
static size_t keys;

static struct {
    char name[WORD];
    int socket;
} peers[MOST_PEERS];
static size_t peer_count;
static uint64_t sent;

static struct connection connections[MOST_CONNECTIONS];

static void need(bool holds, const char *what)
{
    if (!holds) {
        perror(what);
        exit(1);
    }
}

static hlc_text text_of(const char *word)
{
    return (hlc_text){word, strlen(word)};
}

/* The stamp of the node's next event; the message of a receive carried one. The event has its row before the next one is stamped. */
static hlc_status next_stamp(hlc_log_event event, uint64_t carried)
{
    char row[LINE];
    event.node = text_of(node_name);
    event.reading = hlc_clock_ms() + (uint64_t)offset;
    hlc_status status = event.kind == HLC_RECEIVE ? hlc_packed_merge(&node_clock, carried, BITS, event.reading, LIMIT)
                                                  : hlc_packed_tick(&node_clock, BITS, event.reading, LIMIT);
    if (status == HLC_OK) {
        size_t length = hlc_packed_log_row(row, sizeof row, &event, node_clock, carried);
        need(length > 0 && length <= sizeof row && write(log_file, row, length) == (ssize_t)length, "log");
    }
    return status;
}

/* Sends a line, whole: a socket that blocks may take a part of it. */
static void say(int to, const char *form, ...)
{
    char line[LINE];
    va_list values;
    va_start(values, form);
    int length = vsnprintf(line, sizeof line, form, values);
    va_end(values);
    need(length >= 0 && length < LINE, "line");
    for (int done = 0; done < length;) {
        ssize_t part = send(to, line + done, (size_t)(length - done), MSG_NOSIGNAL);
        if (part < 0)
            return; /* whoever it was has gone */
        done += (int)part;
    }
}

/* Keeps the write with the greater stamp, or of equal ones that of the greater node. */
static void keep(const struct write *new)
{
    size_t at = 0;
    while (at < keys && strcmp(table[at].key, new->key) != 0)
        at++;
    need(at < MOST_KEYS, "keys");
    if (at == keys)
        keys++;
    else if (new->stamp < table[at].stamp || (new->stamp == table[at].stamp && strcmp(new->node, table[at].node) <= 0))
        return;
    table[at] = *new;
}

/* A write of this node, and a message about it to each other one. */
static void put(int client, const char *key, const char *value)
{
    char text[2 * WORD + 8];
    struct write new = {.stamp = 0};
    snprintf(text, sizeof text, "put %s", key);
    hlc_status status = next_stamp((hlc_log_event){.kind = HLC_LOCAL, .label = text_of(text)}, 0);
    if (status != HLC_OK) {
        say(client, "refused\t%s\n", hlc_status_text(status));
        return;
    }
    snprintf(new.key, sizeof new.key, "%s", key);
    snprintf(new.value, sizeof new.value, "%s", value);
    snprintf(new.node, sizeof new.node, "%s", node_name);
    new.stamp = node_clock;
    keep(&new);
    for (size_t i = 0; i < peer_count; i++) {
        char message[WORD + 24];
        snprintf(message, sizeof message, "%s-%" PRIu64, node_name, ++sent);
        snprintf(text, sizeof text, "%.127s to %.127s", key, peers[i].name);
        if (next_stamp((hlc_log_event){.kind = HLC_SEND, .message = text_of(message), .label = text_of(text)}, 0) == HLC_OK)
            say(peers[i].socket, "write\t%s\t%" PRIu64 "\t%s\t%s\t%" PRIu64 "\t%s\n", message, node_clock, key, value, new.stamp, node_name);
    }
    say(client, "ok\t%" PRIu64 "\n", new.stamp);
}

/* A write of another node. One that is refused is lost, as if it had never come. */
static void receive(const char *message, uint64_t carried, const struct write *new)
{
    hlc_status status = next_stamp((hlc_log_event){.kind = HLC_RECEIVE, .message = text_of(message)}, carried);
    if (status == HLC_OK)
        keep(new);
    else
        fprintf(stderr, "%s: %s is refused: %s\n", node_name, message, hlc_status_text(status));
}

static int by_key(const void *a, const void *b)
{
    return strcmp(((const struct write *)a)->key, ((const struct write *)b)->key);
}

static void tell_table(int client)
{
    qsort(table, keys, sizeof *table, by_key);
    for (size_t i = 0; i < keys; i++)
        say(client, "%s\t%s\t%" PRIu64 "\t%s\n", table[i].key, table[i].value, table[i].stamp, table[i].node);
    say(client, "\n");
}

static void answer(int client, char *line)
{
    char message[WORD];
    uint64_t carried;
    struct write new;
    if (sscanf(line, "write\t%127[^\t]\t%" SCNu64 "\t%127[^\t]\t%127[^\t]\t%" SCNu64 "\t%127[^\t]", message, &carried, new.key, new.value, &new.stamp,
               new.node) == 6)
        receive(message, carried, &new);
    else if (sscanf(line, "put\t%127[^\t]\t%127[^\t]", new.key, new.value) == 2)
        put(client, new.key, new.value);
    else if (strcmp(line, "table") == 0)
        tell_table(client);
}

/* Answers each line that has come whole. */
static void read_more(struct connection *from)
{
    ssize_t got = recv(from->socket, from->line + from->length, LINE - from->length, 0);
    if (got <= 0) {
        close(from->socket);
        from->socket = -1;
        return;
    }
    from->length += (size_t)got;
    char *end, *begin = from->line;
    while ((end = memchr(begin, '\n', from->length))) {
        *end = '\0';
        answer(from->socket, begin);
        from->length -= (size_t)(end + 1 - begin);
        begin = end + 1;
    }
    need(from->length < LINE, "line");
    memmove(from->line, begin, from->length);
}

static void accept_one(int listener)
{
    for (size_t i = 0; i < MOST_CONNECTIONS; i++)
        if (connections[i].socket < 0) {
            connections[i] = (struct connection){.socket = accept(listener, NULL, NULL)};
            return;
        }
    need(false, "connections");
}

/* Answers until standard input ends. */
static void serve(int listener)
{
    struct pollfd ready[MOST_CONNECTIONS + 2];
    for (;;) {
        ready[0] = (struct pollfd){.fd = STDIN_FILENO, .events = POLLIN};
        ready[1] = (struct pollfd){.fd = listener, .events = POLLIN};
        for (size_t i = 0; i < MOST_CONNECTIONS; i++)
            ready[i + 2] = (struct pollfd){.fd = connections[i].socket, .events = POLLIN};
        need(poll(ready, MOST_CONNECTIONS + 2, -1) > 0, "poll");
        if (ready[0].revents)
            return;
        for (size_t i = 0; i < MOST_CONNECTIONS; i++)
            if (ready[i + 2].revents)
                read_more(&connections[i]);
        if (ready[1].revents)
            accept_one(listener);
    }
}

static struct sockaddr_in loopback(uint16_t port)
{
    return (struct sockaddr_in){.sin_family = AF_INET, .sin_port = htons(port), .sin_addr = {htonl(INADDR_LOOPBACK)}};
}

static int listen_somewhere(void)
{
    struct sockaddr_in at = loopback(0);
    socklen_t length = sizeof at;
    int listener = socket(AF_INET, SOCK_STREAM, 0);
    need(listener >= 0 && bind(listener, (struct sockaddr *)&at, sizeof at) == 0 && listen(listener, 16) == 0, "listen");
    need(getsockname(listener, (struct sockaddr *)&at, &length) == 0, "port");
    printf("%u\n", ntohs(at.sin_port));
    fflush(stdout);
    return listener;
}

/* Connects to the nodes that a line names. It is read byte by byte, so that nothing after it is taken from standard input. */
static void meet_peers(void)
{
    char line[LINE] = "";
    for (size_t at = 0; at + 1 < LINE && read(STDIN_FILENO, line + at, 1) == 1 && line[at] != '\n'; at++)
        ;
    for (char *word = strtok(line, " \n"); word; word = strtok(NULL, " \n")) {
        int one = 1, port, to = socket(AF_INET, SOCK_STREAM, 0);
        need(peer_count < MOST_PEERS && sscanf(word, "%127[^=]=%d", peers[peer_count].name, &port) == 2, "peers");
        struct sockaddr_in at = loopback((uint16_t)port);
        need(to >= 0 && connect(to, (struct sockaddr *)&at, sizeof at) == 0, "connect");
        setsockopt(to, IPPROTO_TCP, TCP_NODELAY, &one, sizeof one);
        peers[peer_count++].socket = to;
    }
}

int main(int count, char **words)
{
    if (count < 3) {
        fputs("usage: node NAME LOG [OFFSET]\n", stderr);
        return 2;
    }
    node_name = words[1];
    log_file = open(words[2], O_WRONLY | O_CREAT | O_APPEND, 0666);
    offset = count > 3 ? atoll(words[3]) : 0;
    need(log_file >= 0 && write(log_file, HLC_LOG_HEADER, strlen(HLC_LOG_HEADER)) > 0, words[2]);
    for (size_t i = 0; i < MOST_CONNECTIONS; i++)
        connections[i].socket = -1;
    int listener = listen_somewhere();
    meet_peers();
    serve(listener);
    return 0;
}
