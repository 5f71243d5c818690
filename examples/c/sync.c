/*
 * sync - a session between two processes, over a link that loses, repeats and
 * reorders messages.
 *
 *     sync A B
 *
 * The sender holds the content of file A. The receiver holds that of file B,
 * builds A's, and compares what it was handed over with A. Each end writes a
 * line for every message that reaches it: direction, type, level, bytes, and
 * what it answered. The link writes a line for every message that it loses,
 * repeats or holds back. At the end come the totals of both directions.
 *
 * The status is 0 if the string is equal to A, 1 if it is not or the session
 * was refused, 2 if the program could not run.
 */
#define _POSIX_C_SOURCE 200809L

#include "rcds.h"

#include <errno.h>
#include <inttypes.h>
#include <poll.h>
#include <stdio.h>
#include <stdlib.h>
#include <string.h>
#include <sys/socket.h>
#include <sys/wait.h>
#include <unistd.h>

/* The settings, which both ends must have alike. The width is odd: sketches of
 * width 16, 32 or 64 open less often (docs/GUIDE.md). */
#define WINDOW 4
#define FAN_OUT 4
#define LEVELS 3
#define NOMINAL 4096
#define WIDTH 61

#define SESSION 1

/* What the link does to how many of 100 messages. One that is held back
 * arrives after the next of its direction. */
#define LOST 10
#define REPEATED 10
#define HELD_BACK 10

/* Where the link's draws begin. */
#define SEED 3

/* How long the receiver waits for a reply before it repeats its query. */
#define WAIT_MILLISECONDS 20

/* The bytes of the longest message, a literal of the longest string: six words
 * for head, level, id and end, and a word for each three bytes. */
#define MESSAGE_BYTES (4 * (6 + (RCDS_MAX_STRING + 2) / 3))

/* A file's content, with room for one byte more than the library takes, which
 * shows that the file is too long. */
struct file {
    uint8_t bytes[RCDS_MAX_STRING + 1];
    size_t length;
};

/* One direction of the link. */
struct direction {
    const char *name;
    int socket;
    uint32_t draw;
    uint8_t held[MESSAGE_BYTES];
    size_t held_length; /* 0 while no message is held back */
    size_t messages, bytes, lost, repeated, held_back;
};

/* Each process has these for itself: the sender works with `a` and the sender's
 * state, the receiver with `b`, its own state and the output. */
static struct file a, b;
static uint8_t nodes[RCDS_NODES_BYTES];
static uint8_t shingles[RCDS_SHINGLES_BYTES];
static uint8_t cells[RCDS_CELLS_BYTES(WIDTH)];
static uint8_t sender_state[RCDS_SENDER_STATE_BYTES];
static uint8_t receiver_state[RCDS_RECEIVER_STATE_BYTES];
static uint8_t output[RCDS_MAX_STRING];
static uint8_t incoming[MESSAGE_BYTES];
static uint8_t outgoing[MESSAGE_BYTES];
static struct direction to_sender, to_receiver;

static void fail(const char *what)
{
    fprintf(stderr, "sync: %s: %s\n", what, strerror(errno));
    exit(2);
}

static void expect_accepted(const char *call, uint64_t answer)
{
    if (!RCDS_ACCEPTED(answer)) {
        fprintf(stderr, "sync: %s refused, %s\n", call,
                rcds_question_words(answer));
        exit(1);
    }
}

static void read_file(const char *name, struct file *into)
{
    FILE *file = fopen(name, "rb");

    if (file == NULL)
        fail(name);
    into->length = fread(into->bytes, 1, sizeof into->bytes, file);
    if (ferror(file))
        fail(name);
    fclose(file);
    if (into->length > RCDS_MAX_STRING) {
        fprintf(stderr, "sync: %s has more than %d bytes\n", name,
                RCDS_MAX_STRING);
        exit(2);
    }
}

/* The level that a message of types 2, 4, 5 and 6 names: the lowest 28 bits of
 * its second word. */
static uint32_t message_level(const uint8_t *message)
{
    return (uint32_t)(message[4] & 15) << 24 | (uint32_t)message[5] << 16
        | (uint32_t)message[6] << 8 | message[7];
}

static void print_message(const char *direction, const uint8_t *message,
                          size_t length, const char *words)
{
    static const char *const types[] = {
        "no message", "opening query", "node query", "opening",
        "composition", "literal", "none"
    };
    uint64_t answer = rcds_message_type(message, length);
    size_t type = RCDS_ACCEPTED(answer) ? (size_t)RCDS_COUNT(answer) : 0;
    char level[20] = "";

    if (type == 2 || type >= 4)
        snprintf(level, sizeof level, "level %" PRIu32, message_level(message));
    printf("%s  %-13s  %-7s  %5zu bytes  %s\n", direction, types[type], level,
           length, words);
}

static void print_totals(const struct direction *way)
{
    printf("%s: %zu bytes in %zu messages, the file has %zu bytes; "
           "%zu lost, %zu repeated, %zu held back\n",
           way->name, way->bytes, way->messages, a.length, way->lost,
           way->repeated, way->held_back);
}

/* A number from 0 to 99, the next of the direction's own row of draws. */
static unsigned draw(struct direction *way)
{
    way->draw = way->draw * UINT32_C(1664525) + UINT32_C(1013904223);
    return (way->draw >> 16) % 100;
}

static void lose(struct direction *way, const uint8_t *message, size_t length)
{
    way->lost++;
    print_message(way->name, message, length, "link: lost");
}

/* Hands a message to the other process. A full link loses it: if an end waited
 * for room, both could wait for each other. That the other process has closed
 * its side is told by the next `receive`. */
static void pass(struct direction *way, const uint8_t *message, size_t length)
{
    int flags = MSG_NOSIGNAL | MSG_DONTWAIT;

    if (send(way->socket, message, length, flags) >= 0)
        return;
    if (errno == EAGAIN || errno == EWOULDBLOCK || errno == ENOBUFS)
        lose(way, message, length);
    else if (errno != EPIPE && errno != ECONNRESET)
        fail("send");
}

static void hold_back(struct direction *way, const uint8_t *message,
                      size_t length)
{
    way->held_back++;
    print_message(way->name, message, length, "link: held back");
    memcpy(way->held, message, length);
    way->held_length = length;
}

static void send_message(struct direction *way, const uint8_t *message,
                         size_t length)
{
    unsigned drawn = draw(way);

    way->messages++;
    way->bytes += length;
    if (drawn < LOST) {
        lose(way, message, length);
        return;
    }
    if (drawn >= 100 - HELD_BACK && way->held_length == 0) {
        hold_back(way, message, length);
        return;
    }
    pass(way, message, length);
    if (drawn < LOST + REPEATED) {
        way->repeated++;
        print_message(way->name, message, length, "link: repeated");
        pass(way, message, length);
    }
    if (way->held_length > 0) {
        pass(way, way->held, way->held_length);
        way->held_length = 0;
    }
}

/* Reads the next message into `incoming`; answers its length, or 0 if the other
 * process has closed its side. */
static size_t receive(int socket)
{
    ssize_t length = recv(socket, incoming, sizeof incoming, 0);

    if (length < 0 && errno != ECONNRESET)
        fail("recv");
    return length < 0 ? 0 : (size_t)length;
}

/* The sender replies to each message that it accepts, until the link closes. */
static void run_sender(void)
{
    uint64_t answer;
    size_t length;

    answer = rcds_sender_setup(WINDOW, FAN_OUT, LEVELS, NOMINAL, WIDTH,
                               a.bytes, a.length, nodes, sizeof nodes,
                               shingles, sizeof shingles, cells, sizeof cells,
                               sender_state, sizeof sender_state);
    expect_accepted("setup of the sender", answer);
    while ((length = receive(to_receiver.socket)) > 0) {
        answer = rcds_reply(sender_state, sizeof sender_state,
                            a.bytes, a.length, nodes, sizeof nodes,
                            shingles, sizeof shingles, cells, sizeof cells,
                            incoming, length, outgoing, sizeof outgoing);
        print_message(to_sender.name, incoming, length,
                      rcds_question_words(answer));
        if (RCDS_ACCEPTED(answer))
            send_message(&to_receiver, outgoing, (size_t)RCDS_COUNT(answer));
    }
    print_totals(&to_receiver);
}

/* Sends the outstanding query. */
static void ask(void)
{
    uint64_t answer = rcds_query(receiver_state, sizeof receiver_state,
                                 b.bytes, b.length, nodes, sizeof nodes,
                                 shingles, sizeof shingles,
                                 cells, sizeof cells,
                                 outgoing, sizeof outgoing);

    expect_accepted("query", answer);
    send_message(&to_sender, outgoing, (size_t)RCDS_COUNT(answer));
}

/* Waits for a reply. While none comes, the query is sent again: the query or
 * its reply may be lost, and a second reply does no harm. */
static size_t await_reply(void)
{
    struct pollfd side;
    size_t length;

    side.fd = to_sender.socket;
    side.events = POLLIN;
    while (poll(&side, 1, WAIT_MILLISECONDS) <= 0)
        ask();
    length = receive(to_sender.socket);
    if (length == 0) {
        fprintf(stderr, "sync: the sender has closed the link\n");
        exit(1);
    }
    return length;
}

/* Answers what the message was answered that ended the session. */
static uint64_t run_receiver(void)
{
    uint64_t answer;
    size_t length;

    answer = rcds_receiver_setup(WINDOW, FAN_OUT, LEVELS, NOMINAL, WIDTH,
                                 SESSION, b.bytes, b.length,
                                 nodes, sizeof nodes,
                                 shingles, sizeof shingles,
                                 cells, sizeof cells,
                                 receiver_state, sizeof receiver_state);
    expect_accepted("setup of the receiver", answer);
    ask();
    /* 0: the session goes on with a new query. 1 to 11: nothing has changed.
     * 12 to 19, or accepted from 2^32 on: the session has ended. */
    do {
        length = await_reply();
        answer = rcds_take(receiver_state, sizeof receiver_state,
                           b.bytes, b.length, nodes, sizeof nodes,
                           shingles, sizeof shingles, cells, sizeof cells,
                           incoming, length, output, sizeof output);
        print_message(to_receiver.name, incoming, length,
                      rcds_question_words(answer));
        if (answer == 0)
            ask();
    } while (answer < 12);
    return answer;
}

/* Answers the program's status, from what ended the session. */
static int compare(uint64_t answer)
{
    if (!RCDS_ACCEPTED(answer)) {
        fprintf(stderr, "sync: session refused, %s\n",
                rcds_question_words(answer));
        if (answer == 14)
            fprintf(stderr, "sync: the files differ in too many blocks for a "
                    "sketch of width %d, or in blocks that it cannot tell "
                    "apart\n", WIDTH);
        return 1;
    }
    if (RCDS_COUNT(answer) != a.length
        || memcmp(output, a.bytes, a.length) != 0) {
        fprintf(stderr, "sync: what was handed over is not the file\n");
        return 1;
    }
    printf("handed over: %zu bytes, equal to the file\n", a.length);
    return 0;
}

/* Gives each direction the side of the socket pair that it is sent from. */
static void open_link(int sides[2])
{
    if (socketpair(AF_UNIX, SOCK_SEQPACKET, 0, sides) < 0)
        fail("socketpair");
    to_sender.name = "receiver to sender";
    to_sender.socket = sides[0];
    to_sender.draw = SEED;
    to_receiver.name = "sender to receiver";
    to_receiver.socket = sides[1];
    to_receiver.draw = SEED + 1;
}

int main(int argc, char **argv)
{
    int sides[2];
    uint64_t answer;
    pid_t sender;

    if (argc != 3) {
        fprintf(stderr, "usage: sync A B\n");
        return 2;
    }
    read_file(argv[1], &a);
    read_file(argv[2], &b);
    /* Whole lines, so that those of the two processes do not mix. */
    setvbuf(stdout, NULL, _IOLBF, BUFSIZ);
    open_link(sides);
    sender = fork();
    if (sender < 0)
        fail("fork");
    if (sender == 0) {
        close(sides[0]);
        run_sender();
        return 0;
    }
    close(sides[1]);
    answer = run_receiver();
    close(sides[0]);
    waitpid(sender, NULL, 0);
    print_totals(&to_sender);
    return compare(answer);
}
