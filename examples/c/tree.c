/*
 * tree - print the tree of blocks of a file, or the blocks that a worn flash
 * page holds bytes of.
 *
 *     tree [FILE [W P LEVELS NOMINAL [FIRST LENGTH]]]
 *
 * FILE is "-", or absent, for standard input. Without settings they are
 * 4 4 3 4096. A line for each node: level, start, length, id. With the page's
 * first byte and its length, a line for each node that shares a byte with it:
 * place in the tree's table, place of the parent there, level, start, length,
 * id. A refusal goes to standard error with the number and the words of the
 * question, and the status is 1.
 */
#include "rcds.h"

#include <errno.h>
#include <inttypes.h>
#include <stdio.h>
#include <stdlib.h>
#include <string.h>

/* One byte more than the library takes, so that a file that is too long is
 * refused by question 6 and not cut off. */
static uint8_t string[RCDS_MAX_STRING + 1];
static uint8_t nodes[RCDS_NODES_BYTES];
static uint8_t crossed[RCDS_CROSSED_BYTES * RCDS_MAX_NODES];

/* A number of the command line. Any whole number goes to the library, which
 * is the one to refuse it. */
static uint64_t setting(const char *text)
{
    char *end;
    unsigned long long value;

    errno = 0;
    value = strtoull(text, &end, 10);
    if (text[0] < '0' || text[0] > '9' || *end != '\0' || errno != 0) {
        fprintf(stderr, "tree: not a number: %s\n", text);
        exit(2);
    }
    return value;
}

/* Reads the file into `string`; answers how many bytes it has. */
static size_t read_string(const char *name)
{
    int standard = strcmp(name, "-") == 0;
    FILE *file = standard ? stdin : fopen(name, "rb");
    size_t length;

    if (file == NULL) {
        fprintf(stderr, "tree: cannot open %s\n", name);
        exit(2);
    }
    length = fread(string, 1, sizeof string, file);
    if (ferror(file)) {
        fprintf(stderr, "tree: cannot read %s\n", name);
        exit(2);
    }
    if (!standard)
        fclose(file);
    return length;
}

/* Ends the program where a call was refused; else how many nodes it answered. */
static uint64_t accepted(uint64_t answer)
{
    if (!RCDS_ACCEPTED(answer)) {
        fprintf(stderr, "tree: refused, %s\n", rcds_question_words(answer));
        exit(1);
    }
    return RCDS_COUNT(answer);
}

/* The end of a line: level, start, length and id of node k. */
static void print_node(size_t k)
{
    printf("%" PRIu64 " %" PRIu64 " %" PRIu64 " %016" PRIx64 "\n",
           rcds_node_level(nodes, k), rcds_node_start(nodes, k),
           rcds_node_length(nodes, k), rcds_node_id(nodes, k));
}

static void print_tree(uint64_t count)
{
    size_t k;

    printf("level start length id\n");
    for (k = 0; k < count; k++)
        print_node(k);
}

static void print_page(size_t length, uint64_t first, uint64_t bytes)
{
    uint64_t count = accepted(rcds_crossed(string, length, nodes, sizeof nodes,
                                           first, bytes, crossed, sizeof crossed));
    size_t k;

    printf("place parent level start length id\n");
    for (k = 0; k < count; k++) {
        printf("%" PRIu64 " %" PRIu64 " ", rcds_crossed_node(crossed, k),
               rcds_crossed_parent(crossed, k));
        print_node((size_t)rcds_crossed_node(crossed, k));
    }
}

int main(int argc, char **argv)
{
    uint64_t w = 4, p = 4, levels = 3, nominal = 4096;
    uint64_t count;
    size_t length;

    if (argc > 2 && argc != 6 && argc != 8) {
        fprintf(stderr, "usage: tree [FILE [W P LEVELS NOMINAL [FIRST LENGTH]]]\n");
        return 2;
    }
    if (argc >= 6) {
        w = setting(argv[2]);
        p = setting(argv[3]);
        levels = setting(argv[4]);
        nominal = setting(argv[5]);
    }
    length = read_string(argc > 1 ? argv[1] : "-");

    count = accepted(rcds_tree(w, p, levels, nominal, string, length, nodes, sizeof nodes));
    if (argc == 8)
        print_page(length, setting(argv[6]), setting(argv[7]));
    else
        print_tree(count);
    return 0;
}
