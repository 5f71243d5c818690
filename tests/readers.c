/*
 * readers - what include/rcds.h works out without the library: its readers over
 * entries worked out by hand, the words of an answer, and numbers that follow
 * from others. The status is 1 at the first that differs.
 */
#include "rcds.h"

#include <inttypes.h>
#include <stdio.h>
#include <stdlib.h>
#include <string.h>

static void expect(const char *what, uint64_t given, uint64_t expected)
{
    if (given == expected)
        return;
    printf("%s: %" PRIu64 ", expected %" PRIu64 "\n", what, given, expected);
    exit(1);
}

static void expect_words(uint64_t answer, const char *begin)
{
    const char *words = rcds_question_words(answer);

    if (strncmp(words, begin, strlen(begin)) == 0)
        return;
    printf("words of %" PRIu64 ": %s\n", answer, words);
    exit(1);
}

/* Two entries. Of the second, level 4, length 65,536, start 65,535, parent
 * 0xabc and place 21: 4 + 2^3 * 65,536 + 2^20 * 65,535 is 0xffff80004, 2^37 *
 * 0xabc is 0x1578000000000 and 2^49 * 21 is 0x2a000000000000. The first has
 * every bit of its second row set. */
static const uint8_t nodes[2 * RCDS_NODE_BYTES] = {
    0, 0, 0, 0, 0, 0, 0, 1, 255, 255, 255, 255, 255, 255, 255, 255,
    1, 2, 3, 4, 5, 6, 7, 8, 0x00, 0x2b, 0x57, 0x8f, 0xff, 0xf8, 0x00, 0x04
};

static void expect_nodes(void)
{
    expect("id", rcds_node_id(nodes, 1), UINT64_C(0x0102030405060708));
    expect("level", rcds_node_level(nodes, 1), 4);
    expect("length", rcds_node_length(nodes, 1), 65536);
    expect("start", rcds_node_start(nodes, 1), 65535);
    expect("parent", rcds_node_parent(nodes, 1), 0xabc);
    expect("place", rcds_node_place(nodes, 1), 21);
    expect("first id", rcds_node_id(nodes, 0), 1);
    expect("largest level", rcds_node_level(nodes, 0), 7);
    expect("largest length", rcds_node_length(nodes, 0), 131071);
    expect("largest start", rcds_node_start(nodes, 0), 131071);
    expect("largest parent", rcds_node_parent(nodes, 0), 4095);
    expect("largest place", rcds_node_place(nodes, 0), 31);
}

/* Two entries of crossed nodes. */
static const uint8_t crossed[2 * RCDS_CROSSED_BYTES] = {
    0, 0, 0, 0, 0, 0, 0, 0, 0, 0, 0, 0, 0, 0, 0, 0,
    8, 7, 6, 5, 4, 3, 2, 1, 0, 0, 0, 0, 0, 0, 0x0f, 0xff
};

static void expect_crossed(void)
{
    expect("node", rcds_crossed_node(crossed, 1), UINT64_C(0x0807060504030201));
    expect("its parent", rcds_crossed_parent(crossed, 1), 4095);
    expect("root", rcds_crossed_node(crossed, 0), 0);
    expect("its own parent", rcds_crossed_parent(crossed, 0), 0);
}

/* A table of strata: 16 of 12 cells, and the last value of the last cell ends
 * with the table. */
static void expect_strata(void)
{
    static uint8_t strata[RCDS_STRATA_BYTES];

    expect("bytes of strata", RCDS_STRATA_BYTES, 192 * RCDS_CELL_BYTES);
    strata[12 * RCDS_CELL_BYTES + 7] = 5;
    strata[RCDS_STRATA_BYTES - 1] = 6;
    expect("number of stratum 1", rcds_cell_value(strata, 12, 0), 5);
    expect("last of stratum 15", rcds_cell_value(strata, 12 * 15 + 11, 4), 6);
}

/* Answers about a trail: 2^32 and a small number, and bit 33 where it is the
 * only one. */
static void expect_trails(void)
{
    uint64_t only = (UINT64_C(3) << 32) + 5, other = (UINT64_C(1) << 32) + 4096;

    expect("the only trail", RCDS_ONLY_TRAIL(only), 1);
    expect("its count", RCDS_COUNT(only), 5);
    expect("it is accepted", RCDS_ACCEPTED(only), 1);
    expect("another trail", RCDS_ONLY_TRAIL(other), 0);
    expect("its number", RCDS_COUNT(other), 4096);
    expect("a refusal", RCDS_ONLY_TRAIL(17), 0);
    expect_words(only, "accepted");
}

/* The rule that an opening carries; and the call that answers the most blocks,
 * which is lent nothing. It is not made: the size of its answer is asked. */
static void expect_rule(void)
{
    expect("rule", RCDS_RULE, 3);
    expect("bytes of an answer", sizeof rcds_most_blocks(9, 2, 2), 8);
}

/* The largest distance of all fan-outs and levels with the longest nominal
 * length, which is as long as the longest string: that of fan-out 2, level 1. */
static void expect_distance(void)
{
    uint64_t fan_out, level, distance, largest = 0;

    for (fan_out = 2; fan_out <= 8; fan_out++) {
        distance = RCDS_MAX_STRING;
        for (level = 1; level <= 4; level++) {
            distance /= fan_out;
            if (distance > largest)
                largest = distance;
        }
    }
    expect("largest distance", RCDS_MAX_DISTANCE, largest);
    expect("half of the longest", RCDS_MAX_DISTANCE, RCDS_MAX_STRING / 2);
}

int main(void)
{
    char begin[8];
    uint64_t question;

    expect_nodes();
    expect_crossed();
    expect_strata();
    expect_trails();
    expect_rule();
    expect_distance();
    for (question = 1; question <= 24; question++) {
        snprintf(begin, sizeof begin, "%" PRIu64 ": ", question);
        expect_words(question, begin);
    }
    expect_words(0, "accepted");
    expect_words(UINT64_C(1) << 32, "accepted");
    expect_words(25, "no such question");
    expect_words((UINT64_C(1) << 32) - 1, "no such question");
    return 0;
}
