/*
 * rcds.h - reconciliation of byte strings by content-dependent recursive
 * partition (RCDS): the calls for firmware in C.
 *
 * A string is cut into blocks where its own bytes say so, each block is cut
 * again, level by level, and the blocks form a tree. Equal stretches of two
 * strings are cut into equal blocks, which have equal ids. The order of a
 * node's children travels as the multiset of their pairs and, where these have
 * several orders, one number, in messages that are rows of 32-bit words.
 *
 * What holds for every call:
 *
 * - It allocates nothing, keeps nothing between calls, and needs no function
 *   of the C library but memcpy and memset.
 * - It reads and writes only the pieces that it is lent, ends for any content
 *   of them, and relies on nothing that its caller has checked.
 * - The caller answers for two things: each piece is there in full, with as
 *   many bytes as the length says; and no piece lent for writing overlaps
 *   another piece. A piece may stand at any address, aligned or not. A piece
 *   of 0 bytes may be null: nothing is read there. Pieces lent for reading
 *   only may overlap each other.
 *
 * Answers. A call answers a uint64_t. From 1 to 2^32 - 1 it is the number of
 * the first question that had a no, and the call is refused. Otherwise the
 * call is accepted, and the low 32 bits are a count, or the small number that
 * the call is made for. RCDS_ACCEPTED and RCDS_COUNT tell them apart.
 *
 * Questions. They are asked in this order, and the first no is the answer:
 *
 *   1  w from 2 to 12?
 *   2  p from 2 to 8?
 *   3  levels from 1 to 4?
 *   4  nominal from p to the power of levels, to 65,536?
 *   5  width from 1 to 64?
 *   6  string of at most RCDS_MAX_STRING bytes?
 *   7  what is lent long enough: node table of RCDS_NODES_BYTES bytes, shingle
 *      table of RCDS_SHINGLES_BYTES, cell table of RCDS_CELLS_BYTES(width),
 *      at a setup the state of RCDS_SENDER_STATE_BYTES or
 *      RCDS_RECEIVER_STATE_BYTES, each table of strata of RCDS_STRATA_BYTES?
 *      Asked of those that the call is lent.
 *   8  tree of at most RCDS_MAX_NODES nodes?
 *   9  session still running: not ended, at most RCDS_MAX_PENDING pending
 *      nodes, none of them of a level above levels, and at least one after the
 *      opening?
 *  10  message well formed: whole words, kinds, order, fixed bits, first part
 *      of a 64-bit value at most 255, cells as many as its q, reference counts
 *      1 to 32, each reference's index above the one before it, end right,
 *      nothing after it?
 *  11  sender: message is a query, type 1 or 2? Receiver: message is a reply,
 *      type 3 to 6, of this session, to the outstanding query: an opening, or a
 *      node reply of its level and id?
 *  12  opening: its rule is RCDS_RULE, and its settings are the own?
 *  13  announced length at most RCDS_MAX_STRING and at most the output lent now?
 *  14  sketch opens?
 *  15  fewer than RCDS_MAX_NODES node replies taken before?
 *  16  reply is not a none?
 *  17  composition: node's level below levels, references in the shingle list at
 *      the next level, counts within the list's, their sum 1 to
 *      RCDS_MAX_CHILDREN, number at most RCDS_MAX_TRAIL_NUMBER, a trail of that
 *      number, the number carried if there are other trails and omitted if there
 *      are none, and pending nodes then at most RCDS_MAX_PENDING?
 *      order: whole ids, 1 to RCDS_MAX_CHILDREN of them, none of them 0?
 *      multiset: whole entries, at most RCDS_MAX_CHILDREN of them, counts that
 *      add up to 1 to RCDS_MAX_CHILDREN, number at most RCDS_MAX_TRAIL_NUMBER,
 *      and a trail of that number?
 *  18  output within the announced length?
 *  19  nothing pending any more: length right, and id of the output's first
 *      bytes, worked out afresh, right?
 *  20  room for what is written?
 *  21  range inside the string: start plus length, a true sum that never wraps,
 *      at most the string's length?
 *  22  room for the nodes crossed?
 *  23  is asked no more: no call answers it.
 *  24  w from 2 to 12, h from 1 to RCDS_MAX_DISTANCE and n at most
 *      RCDS_MAX_STRING?
 *
 * Every call of an end after its setup asks 1 to 7 again, of the settings that
 * its state holds and of what it is lent. What a sender's state lacks reads as
 * 0, so one that is too short is refused by 1 to 5, the first setting that it
 * lacks. A receiver's state that is too short is refused by 1; the two calls on
 * strata read the settings of either state as a sender's.
 */
#ifndef RCDS_H
#define RCDS_H

#include <stddef.h>
#include <stdint.h>

#ifdef __cplusplus
extern "C" {
#endif

/* The longest string that a call takes, in bytes. */
#define RCDS_MAX_STRING 65536

/* The most nodes that a tree may have. */
#define RCDS_MAX_NODES 4096

/* The bytes of one entry of a node table. */
#define RCDS_NODE_BYTES 16

/* The bytes that a node table needs: RCDS_MAX_NODES entries. */
#define RCDS_NODES_BYTES 65536

/* The bytes of one entry of a table of crossed nodes. */
#define RCDS_CROSSED_BYTES 16

/* The most children that a node has. */
#define RCDS_MAX_CHILDREN 32

/*
 * The number of the rule by which strings are cut here, which an opening carries.
 * Ends that cut by another rule meet 12: both ends are changed together.
 */
#define RCDS_RULE 3

/* The largest h, the least distance between two cuts, that settings give. */
#define RCDS_MAX_DISTANCE 32768

/* The largest number that the order of a node's children is sent with. */
#define RCDS_MAX_TRAIL_NUMBER 4095

/* The bytes of one id. */
#define RCDS_ID_BYTES 8

/* The bytes that are always enough for the ids of a node's children. */
#define RCDS_TRAIL_IDS_BYTES 256

/* The bytes of one pair with its count. */
#define RCDS_PAIR_BYTES 24

/* The most bytes that a multiset of pairs may have: RCDS_MAX_CHILDREN pairs. */
#define RCDS_TRAIL_PAIRS_BYTES 768

/* The most shingles that a shingle table holds. */
#define RCDS_MAX_SHINGLES 4096

/* The bytes of one entry of a shingle table. */
#define RCDS_SHINGLE_BYTES 24

/* The bytes that a shingle table needs: RCDS_MAX_SHINGLES entries. */
#define RCDS_SHINGLES_BYTES 98304

/* The bytes of one cell of a sketch. */
#define RCDS_CELL_BYTES 40

/* The bytes that the cell table of a sketch of width q needs: 3 * q cells. */
#define RCDS_CELLS_BYTES(q) (120 * (q))

/* The bytes that a table of strata needs: 16 strata of 12 cells. */
#define RCDS_STRATA_BYTES 7680

/* The bytes that a sender's state needs. */
#define RCDS_SENDER_STATE_BYTES 40

/* The bytes that a receiver's state needs. */
#define RCDS_RECEIVER_STATE_BYTES 2144

/* The most nodes that a receiver may have pending. */
#define RCDS_MAX_PENDING 128

/* The bytes that are always enough for a receiver's query. */
#define RCDS_QUERY_BYTES 24

/*
 * Whether the answer r says that the call was accepted: r is 0, or at least
 * 2^32. (Below 0 comes the largest number, so that one comparison is enough.)
 */
#define RCDS_ACCEPTED(r) ((uint64_t)(r) - 1u >= UINT64_C(0xffffffff))

/* The count of an accepted answer r. Of a refusal, the question's number. */
#define RCDS_COUNT(r) ((uint64_t)(r) & UINT64_C(0xffffffff))

/*
 * 1 if an answer r about a trail says that there is no other over its pairs:
 * bit 33. Else, and of a refusal, 0.
 */
#define RCDS_ONLY_TRAIL(r) ((uint64_t)(r) >> 33 & 1)

/*
 * rcds_question_words - the words of an answer, for logs.
 *
 * answer       what a call answered.
 *
 * "accepted" for an accepted answer, of a refusal by 1 to 24 the number of the
 * question and its no, "no such question" for any other. The text is constant
 * and stays valid.
 */
static inline const char *rcds_question_words(uint64_t answer)
{
    static const char *const words[] = {
        "accepted",
        "1: window not 2 to 12",
        "2: fan-out not 2 to 8",
        "3: levels not 1 to 4",
        "4: nominal not p to the power of levels, to 65,536",
        "5: width not 1 to 64",
        "6: string over 65,536 bytes",
        "7: table or state lent too short",
        "8: tree over 4,096 nodes",
        "9: session not running",
        "10: message not well formed",
        "11: no query, or no reply to the outstanding query",
        "12: rule or settings of the opening not the own",
        "13: announced length over 65,536 or over the output lent",
        "14: sketch does not open",
        "15: 4,096 node replies taken before",
        "16: reply is a none",
        "17: composition, order or multiset not usable",
        "18: output over the announced length",
        "19: length or id of the output wrong",
        "20: no room for what is written",
        "21: range past the string's end",
        "22: no room for the nodes crossed",
        "23: asked no more",
        "24: w not 2 to 12, h not 1 to 32,768, or n over 65,536"
    };

    if (RCDS_ACCEPTED(answer))
        return words[0];
    return answer <= 24 ? words[answer] : "no such question";
}

/*
 * rcds_tree - cut a string into its tree of blocks.
 *
 * w            bytes of a window. The value of a window decides where a cut
 *              may come.
 * p            fan-out: by how much the distance between cuts falls from one
 *              level to the next.
 * levels       levels of cutting. The whole string is the node of level 0.
 * nominal      the length of string that the distances are worked out for. At
 *              level l cuts are at least nominal / p^l bytes apart.
 * string       the string, string_len bytes. Not changed.
 * nodes        the node table, nodes_len bytes. What it holds before the call
 *              does not matter.
 *
 * With h = nominal / p^l, rounded down, a cut of level l comes only where the
 * value of a window is smaller than each of the h values before it and not
 * greater than the h after it. So inside a run of equal bytes there is none. Two
 * trees can be compared only if they were cut with the same w, p, levels and
 * nominal, by the same RCDS_RULE.
 *
 * Asks 1, 2, 3, 4, 6, 7, 8.
 *
 * Accepted: RCDS_COUNT of the answer is the number of nodes, 2 to
 * RCDS_MAX_NODES. The table holds them from its start, each before its
 * children, and a child with all its descendants before its next sibling, from
 * the left. Every node above the last level has 1 to 32 children, and these
 * fill it end to end. Each node names its parent's place in the table, and its
 * own place among that parent's children, counted from 0 on the left; the root
 * names itself, at place 0. So the nodes one level down that name a node fill
 * it end to end, in order of place. Every lent byte of the table past the last
 * node is zero.
 *
 * Refused by 1 to 7: the table is unchanged. Refused by 8: every lent byte of
 * it is zero.
 *
 * The call ends for every string. How long it takes was measured and is not
 * proved: at most 27 plain FNV-1a passes over the string for the slowest
 * settings and files of 65,536 bytes found, 59 for strings that were made to be
 * slow.
 */
uint64_t rcds_tree(uint64_t w, uint64_t p, uint64_t levels, uint64_t nominal,
                   const uint8_t *string, size_t string_len,
                   uint8_t *nodes, size_t nodes_len);

/*
 * Reading a node table.
 *
 * An entry is two rows of 64 bits, most significant byte first. The first is
 * the id. The second holds, from its lowest bit on, level in 3 bits, length in
 * 17, start in 17, parent in 12 and place in 5; the 10 bits above them are 0.
 * The readers below take the table and the place k of an entry, counted from 0;
 * the table must hold RCDS_NODE_BYTES * (k + 1) bytes. Any content of the entry
 * is read, and the 10 highest bits of its second row are not looked at.
 */

/* Row r of a table: eight bytes as a number. */
static inline uint64_t rcds_row(const uint8_t *table, size_t r)
{
    uint64_t row = 0;
    size_t i;

    for (i = 8 * r; i < 8 * r + 8; i++)
        row = row << 8 | table[i];
    return row;
}

/* The id of node k: FNV-1a (64 bits) of its bytes, or 1 where that is 0. An
 * entry that is not used has id 0. */
static inline uint64_t rcds_node_id(const uint8_t *nodes, size_t k)
{
    return rcds_row(nodes, 2 * k);
}

/* The level of node k: 0 for the whole string, up to `levels`. */
static inline uint64_t rcds_node_level(const uint8_t *nodes, size_t k)
{
    return rcds_row(nodes, 2 * k + 1) & 7;
}

/* How many bytes of the string node k has. */
static inline uint64_t rcds_node_length(const uint8_t *nodes, size_t k)
{
    return rcds_row(nodes, 2 * k + 1) >> 3 & 0x1ffff;
}

/* The place of node k's first byte, counted from the start of the string. */
static inline uint64_t rcds_node_start(const uint8_t *nodes, size_t k)
{
    return rcds_row(nodes, 2 * k + 1) >> 20 & 0x1ffff;
}

/* The place of node k's parent in the node table; the root's is 0, its own. */
static inline uint64_t rcds_node_parent(const uint8_t *nodes, size_t k)
{
    return rcds_row(nodes, 2 * k + 1) >> 37 & 0xfff;
}

/* The place of node k among its parent's children, counted from 0 on the left;
 * the root's is 0. */
static inline uint64_t rcds_node_place(const uint8_t *nodes, size_t k)
{
    return rcds_row(nodes, 2 * k + 1) >> 49 & 0x1f;
}

/*
 * rcds_crossed - the nodes that share a byte with a range of the string.
 *
 * string       the string that the tree was cut from, string_len bytes, of any
 *              length. Only the length is used. Not changed.
 * nodes        the node table, nodes_len bytes, as rcds_tree or a setup left it.
 *              Not changed.
 * start        the place of the range's first byte, counted from the start of
 *              the string.
 * length       how many bytes the range has, which may be 0.
 * crossed      where the nodes crossed go, crossed_len bytes:
 *              RCDS_CROSSED_BYTES for each. As many bytes as the node table has
 *              are enough for every answer.
 *
 * Asks 21, then 22, and no other.
 *
 * Accepted: RCDS_COUNT of the answer is the number of nodes crossed. They stand
 * at the start of crossed in the order of the node table, each with its parent.
 * The bytes after them are unchanged. An empty range crosses no node, and a node
 * without bytes is crossed by none.
 *
 * Refused: crossed is unchanged.
 *
 * Any length and content of the node table is taken. It is read up to its first
 * id 0, else to its last whole entry, also past RCDS_MAX_NODES entries. An entry
 * whose start plus length is past the string's length is passed over; every
 * other is read as given, and its parent is answered as the entry says it.
 *
 * The call ends for every content of the node table. How long it takes is not
 * proved.
 */
uint64_t rcds_crossed(const uint8_t *string, size_t string_len,
                      const uint8_t *nodes, size_t nodes_len,
                      uint64_t start, uint64_t length,
                      uint8_t *crossed, size_t crossed_len);

/*
 * Reading a table of crossed nodes.
 *
 * An entry is two rows of 64 bits, most significant byte first: the node's place
 * in the node table, and its parent's. The readers below take the table and the
 * place k of an entry, counted from 0; the table must hold
 * RCDS_CROSSED_BYTES * (k + 1) bytes. Any content of the entry is read.
 */

/* The place of crossed node k in the node table. */
static inline uint64_t rcds_crossed_node(const uint8_t *crossed, size_t k)
{
    return rcds_row(crossed, 2 * k);
}

/* The place of its parent in the node table; the root's is 0, its own. */
static inline uint64_t rcds_crossed_parent(const uint8_t *crossed, size_t k)
{
    return rcds_row(crossed, 2 * k + 1);
}

/*
 * rcds_most_blocks - the most blocks that one cutting can give.
 *
 * n            the length of a string, in bytes.
 * w            bytes of a window, as for rcds_tree.
 * h            the least distance between two cuts. A node of level l - 1 is cut
 *              with the h of level l: nominal / p^l, rounded down.
 *
 * Asks 24, and no other.
 *
 * Accepted: RCDS_COUNT of the answer is the larger of 1 and (n - w) / h, rounded
 * down, and at most RCDS_MAX_CHILDREN; it is 1 where n is below w. No string of n
 * bytes has more blocks from one cutting by w and h, whatever p and levels are. A
 * string of equal bytes has one block.
 *
 * One cutting is that of one node into its children, not a whole tree.
 */
uint64_t rcds_most_blocks(uint64_t n, uint64_t w, uint64_t h);

/*
 * Trails.
 *
 * A node's children, from the left, are an order of ids. Each child gives the
 * pair of its left sibling's id, 0 for the first child, and its own id. A trail
 * over a multiset of pairs is an order whose pairs are exactly these. Trails
 * are sorted by ids, first id first, unsigned; the number of a trail is how
 * many come before it. So the pairs, in any order, and the number give the
 * order again. The pairs of most nodes' children have one trail, and then they
 * give the order by themselves.
 *
 * Ids and counts are rows of 64 bits, most significant byte first.
 */

/*
 * rcds_trail_number - the number of an order of ids.
 *
 * ids          the ids in their order, RCDS_ID_BYTES each, ids_len bytes in
 *              all. Not changed.
 *
 * Asks 17.
 *
 * Accepted: RCDS_COUNT of the answer is the order's number among the trails
 * over its own pairs, or 4,096 for every number above RCDS_MAX_TRAIL_NUMBER.
 * Such an order cannot be sent by its number. RCDS_ONLY_TRAIL of the answer is 1
 * if no other order has these pairs, which is then number 0; else it is 0.
 */
uint64_t rcds_trail_number(const uint8_t *ids, size_t ids_len);

/*
 * rcds_trail_order - the order of a number.
 *
 * pairs        the multiset, pairs_len bytes: entries of RCDS_PAIR_BYTES bytes,
 *              which are three rows, previous id, own id and count. Entries
 *              come in any order, the counts of equal pairs add up, and an
 *              entry of count 0 holds nothing. Any ids are taken, 0 too. Not
 *              changed.
 * number       the number of the trail.
 * ids          where the ids go, ids_len bytes. RCDS_TRAIL_IDS_BYTES are
 *              enough for every answer.
 *
 * Asks 17, then 20: RCDS_ID_BYTES for each of the ids.
 *
 * Accepted: RCDS_COUNT of the answer is how many ids there are, the sum of the
 * counts, 1 to RCDS_MAX_CHILDREN. They stand at the start of ids, in their
 * order. The bytes after them are unchanged. RCDS_ONLY_TRAIL of the answer is 1
 * if there is no other trail over these pairs, else 0.
 *
 * Refused: ids is unchanged.
 *
 * The call ends for every content of pairs. How long it takes was measured and
 * is not proved: at most 10 ms for the slowest multisets found.
 */
uint64_t rcds_trail_order(const uint8_t *pairs, size_t pairs_len,
                          uint64_t number, uint8_t *ids, size_t ids_len);

/*
 * rcds_message_type - whether bytes are a message, and of which type.
 *
 * message      the bytes, message_len of them: the message and nothing else.
 *              Not changed.
 *
 * Asks 10.
 *
 * Accepted: RCDS_COUNT of the answer is the type: 1 opening query, 2 node
 * query, 3 opening, 4 composition, 5 literal, 6 none.
 *
 * A message is well formed whatever its numbers mean. Whether its settings,
 * levels, lengths and trail number can be used is asked by the end that takes
 * it.
 *
 * The call ends for all bytes. How long it takes is not proved.
 */
uint64_t rcds_message_type(const uint8_t *message, size_t message_len);

/*
 * rcds_sender_setup - set a sender up for a string.
 *
 * w, p, levels, nominal
 *              as for rcds_tree.
 * width        sketch width: the sketch has 3 * width cells.
 * string       the string, string_len bytes. Not changed.
 * nodes        the node table, nodes_len bytes.
 * shingles     the shingle table, shingles_len bytes.
 * cells        the cell table, cells_len bytes.
 * state        the sender's state, state_len bytes.
 *
 * What the tables and the state hold before the call does not matter.
 *
 * Asks 1 to 8, in this order. 7 is asked of all three tables and of the state
 * before anything is written.
 *
 * Accepted: RCDS_COUNT of the answer is the number of nodes, 2 to
 * RCDS_MAX_NODES. The node table holds the string's tree, as after rcds_tree.
 * The shingle table holds the tree's shingles from its start, sorted by level,
 * previous id and own id, unsigned; there are no more of them than nodes. The
 * cell table holds the 3 * width cells of that list from its start. Every lent
 * byte of a table past its last entry is zero. The first
 * RCDS_SENDER_STATE_BYTES bytes of the state are the five settings, rows of 64
 * bits, most significant byte first: w, p, levels, nominal, width. The bytes
 * of the state after them are unchanged.
 *
 * Refused by 1 to 7: tables and state are unchanged. Refused by 8: every lent
 * byte of the three tables is zero, and the state is unchanged.
 */
uint64_t rcds_sender_setup(uint64_t w, uint64_t p, uint64_t levels,
                           uint64_t nominal, uint64_t width,
                           const uint8_t *string, size_t string_len,
                           uint8_t *nodes, size_t nodes_len,
                           uint8_t *shingles, size_t shingles_len,
                           uint8_t *cells, size_t cells_len,
                           uint8_t *state, size_t state_len);

/*
 * rcds_reply - a sender's reply to a message.
 *
 * state        the sender's state, as its setup left it. Not changed.
 * string, nodes, shingles, cells
 *              the string that the setup took and the tables that it left. Not
 *              changed. Other content is met without stepping outside it; what
 *              is then replied is no reply of that setup.
 * message      the message, message_len bytes, and nothing else. Not changed.
 * out          what the reply is written to, out_len bytes.
 *
 * To an opening query the reply is the opening: settings, the string's length,
 * the id of the whole string, and the sketch's cells. To a node query it is a
 * composition (the children of the first node with that level and id, as
 * references to the shingle list, rising by index, and the number of their
 * order, which is omitted where no other order has their pairs), a literal (the
 * node's bytes: at the last level, or where that number is above
 * RCDS_MAX_TRAIL_NUMBER), or a none (there is no such node). The session is the
 * message's. To the same node query every sender that was set up over the
 * same string with the same settings replies the same bytes.
 *
 * Asks 1 to 7, 10, 11, 20, in this order.
 *
 * Accepted: RCDS_COUNT of the answer is the number of bytes written, from the
 * start of out. The bytes after them are unchanged.
 *
 * Refused: out is unchanged.
 */
uint64_t rcds_reply(const uint8_t *state, size_t state_len,
                    const uint8_t *string, size_t string_len,
                    const uint8_t *nodes, size_t nodes_len,
                    const uint8_t *shingles, size_t shingles_len,
                    const uint8_t *cells, size_t cells_len,
                    const uint8_t *message, size_t message_len,
                    uint8_t *out, size_t out_len);

/*
 * rcds_receiver_setup - set a receiver up for its own string.
 *
 * w, p, levels, nominal, width
 *              as for rcds_sender_setup. Both ends need the same.
 * session      session number; its lowest 24 bits are used.
 * own          the receiver's own string, own_len bytes. Not changed.
 * nodes, shingles, cells
 *              the three tables.
 * state        the receiver's state, state_len bytes.
 *
 * What the tables and the state hold before the call does not matter.
 *
 * Asks 1 to 8, in this order. 7 is asked of all three tables and of the state
 * before anything is written.
 *
 * Accepted: RCDS_COUNT of the answer is the number of nodes. The tables are as
 * after rcds_sender_setup. The first RCDS_RECEIVER_STATE_BYTES bytes of the
 * state are those of a new session, and the bytes after them are unchanged.
 *
 * Refused by 1 to 7: tables and state are unchanged. Refused by 8: every lent
 * byte of the three tables is zero, and the state is unchanged.
 */
uint64_t rcds_receiver_setup(uint64_t w, uint64_t p, uint64_t levels,
                             uint64_t nominal, uint64_t width,
                             uint64_t session,
                             const uint8_t *own, size_t own_len,
                             uint8_t *nodes, size_t nodes_len,
                             uint8_t *shingles, size_t shingles_len,
                             uint8_t *cells, size_t cells_len,
                             uint8_t *state, size_t state_len);

/*
 * rcds_query - a receiver's outstanding query.
 *
 * state        the receiver's state. Not changed.
 * own, nodes, shingles, cells
 *              the own string, and the tables as the last call left them. Not
 *              changed.
 * out          what the query is written to, out_len bytes. RCDS_QUERY_BYTES
 *              are enough.
 *
 * While no opening is taken the query asks for the opening, then for the node on
 * top of the pile of pending nodes. It may be written as often as it is wanted.
 *
 * Asks 1 to 7, 9, 20, in this order.
 *
 * Accepted: RCDS_COUNT of the answer is the number of bytes written, from the
 * start of out. The bytes after them are unchanged.
 *
 * Refused: out is unchanged.
 */
uint64_t rcds_query(const uint8_t *state, size_t state_len,
                    const uint8_t *own, size_t own_len,
                    const uint8_t *nodes, size_t nodes_len,
                    const uint8_t *shingles, size_t shingles_len,
                    const uint8_t *cells, size_t cells_len,
                    uint8_t *out, size_t out_len);

/*
 * rcds_take - take a message.
 *
 * state        the receiver's state, as its setup or the last call left it.
 * own, nodes, cells
 *              the own string, and the tables that the setup left. Not changed.
 * shingles     the shingle table: the own list until an opening is taken, then
 *              the sender's.
 * message      the message, message_len bytes, and nothing else. Not changed.
 * output       where the sender's string is built, output_len bytes. The same
 *              content is lent again to the next call.
 *
 * An opening that is accepted puts the root on the pile; a composition replaces
 * the node on top by its children; a literal's bytes go to the end of what is
 * built, and its node leaves the pile. Then, as long as the node on top has the
 * id of an own node, that node's bytes are copied from the own string and it
 * leaves the pile. When the pile is empty the string is handed over.
 *
 * Asks 1 to 7, 9, 10, 11, then 12 to 19, in this order: 12 and 14 of an opening,
 * 15 to 17 of a node reply, the others of both.
 *
 * Accepted with answer 0: the session goes on, and the query is a new one. The
 * bytes that the call built stand in output after those built before. The other
 * bytes of output are unchanged.
 *
 * Accepted with an answer from 2^32 on: the sender's string is handed over. It
 * stands at the start of output, RCDS_COUNT of the answer is its length, which
 * may be 0, and the session has ended. The bytes after it are unchanged.
 *
 * An accepted opening, whatever it answers, leaves the new list at the start of
 * the shingle table, and every lent byte past it is zero. An accepted node reply
 * leaves the shingle table unchanged.
 *
 * Refused by 1 to 11: nothing is changed. Refused by 12 to 19: the session has
 * ended, every lent byte of output is zero, and the shingle table is unchanged.
 *
 * Unless refused by 1 to 11, each of the first RCDS_RECEIVER_STATE_BYTES bytes of
 * the state is written: places of the pile that are not in use are zero, and a
 * state that has ended is zero but for its settings, session and phase. The bytes
 * after them are unchanged.
 */
uint64_t rcds_take(uint8_t *state, size_t state_len,
                   const uint8_t *own, size_t own_len,
                   const uint8_t *nodes, size_t nodes_len,
                   uint8_t *shingles, size_t shingles_len,
                   const uint8_t *cells, size_t cells_len,
                   const uint8_t *message, size_t message_len,
                   uint8_t *output, size_t output_len);

/*
 * rcds_sketch_open - open a sketch over the own shingle list.
 *
 * levels       levels of cutting, of both ends.
 * width        sketch width, of both ends.
 * theirs       the other end's cell table, theirs_len bytes. Not changed.
 * own          the own cell table, own_len bytes. Not changed.
 * shingles     the own shingle table, shingles_len bytes: its list goes up to
 *              the first count 0.
 *
 * The own cells are subtracted from theirs, and while a cell holds a single
 * shingle, the first such cell is emptied of it. The sketch opens if all cells
 * end at zero, no shingle was found twice, those that only the own end has are
 * in the own list and the others are not, and the list that results has at
 * most RCDS_MAX_SHINGLES entries and no pair twice at one level.
 *
 * As long as each cell that seems to hold a single shingle does, emptying such
 * cells in any other order gives the same answer and the same list, after at
 * most 3 * width cells. Two lists within the limits that differ in one shingle
 * always open.
 *
 * Asks 3, 5, 7, 14.
 *
 * Accepted: RCDS_COUNT of the answer is the number of shingles in the new
 * list. It stands at the start of the shingle table, sorted by level, previous
 * id and own id, unsigned, and every lent byte past it is zero.
 *
 * Refused: nothing is changed.
 */
uint64_t rcds_sketch_open(uint64_t levels, uint64_t width,
                          const uint8_t *theirs, size_t theirs_len,
                          const uint8_t *own, size_t own_len,
                          uint8_t *shingles, size_t shingles_len);

/*
 * Strata.
 *
 * Two ends that have not chosen a sketch width yet can estimate how many of
 * their shingles differ. A shingle whose check hash ends in i zero bits goes to
 * stratum i, one with more than 15 of them to stratum 15: about half of a list to
 * stratum 0, a quarter to stratum 1, and so on. Each stratum is a sketch of
 * width 4, 12 cells; stratum i has cells 12 * i to 12 * i + 11 of the table,
 * which rcds_cell_value reads.
 *
 * Each end builds its own strata with the same w, p, levels and nominal; the
 * width of its setup does not matter. One sends them to the other, as bytes of
 * a message of your own, and the other estimates.
 */

/*
 * rcds_strata_build - the strata of a shingle list.
 *
 * state        the state of a sender or of a receiver, as its setup left it: the
 *              settings in its first RCDS_SENDER_STATE_BYTES bytes are used. Not
 *              changed.
 * string, nodes, shingles, cells
 *              the string that the setup took and the tables that it left. Not
 *              changed. The strata are those of the shingle table's list,
 *              whatever it holds.
 * strata       where the strata go, strata_len bytes. What it holds before the
 *              call does not matter.
 *
 * Asks 1 to 7, in this order.
 *
 * Accepted: the answer is 0, and the first RCDS_STRATA_BYTES bytes of strata are
 * the strata of the list. The bytes after them are unchanged.
 *
 * Refused: strata is unchanged.
 */
uint64_t rcds_strata_build(const uint8_t *state, size_t state_len,
                           const uint8_t *string, size_t string_len,
                           const uint8_t *nodes, size_t nodes_len,
                           const uint8_t *shingles, size_t shingles_len,
                           const uint8_t *cells, size_t cells_len,
                           uint8_t *strata, size_t strata_len);

/*
 * rcds_strata_estimate - about how many shingles of two lists differ.
 *
 * state, string, nodes, shingles, cells
 *              as for rcds_strata_build. The shingle table is the own one, as the
 *              setup left it: a receiver that has taken an opening has the
 *              sender's list there.
 * theirs       the other end's strata, theirs_len bytes. Not changed.
 * own          the own strata, own_len bytes. Not changed.
 *
 * From stratum 15 down, each stratum is opened as a sketch is (see
 * rcds_sketch_open), with the own list's shingles of that stratum for the own
 * list; how long the new list gets, and whether it has a pair twice, is not
 * asked. The shingles found are counted, those that only one end has, of either
 * end. At the first stratum i that does not open the estimate is the count so
 * far times 2^(i + 1). If all open it is the count.
 *
 * The estimate is rough: docs/GUIDE.md says how rough, and how to use it.
 *
 * Asks 1 to 7, in this order. Any content of theirs and own is taken.
 *
 * Accepted: RCDS_COUNT of the answer is the estimate, at most 393,216.
 *
 * Nothing that is lent is changed.
 */
uint64_t rcds_strata_estimate(const uint8_t *state, size_t state_len,
                              const uint8_t *string, size_t string_len,
                              const uint8_t *nodes, size_t nodes_len,
                              const uint8_t *shingles, size_t shingles_len,
                              const uint8_t *cells, size_t cells_len,
                              const uint8_t *theirs, size_t theirs_len,
                              const uint8_t *own, size_t own_len);

/*
 * Reading a shingle table.
 *
 * A shingle is a pair of ids at a level, of a node and of its left sibling, and
 * how many nodes of the level give that pair. An entry is three rows of 64
 * bits, most significant byte first: previous id, own id, and
 * level * 65,536 + count. The readers below take the table and the place k of
 * an entry, counted from 0; the table must hold RCDS_SHINGLE_BYTES * (k + 1)
 * bytes. Any content of the entry is read.
 */

/* The id of the left sibling; 0 for a first child and for the whole string. */
static inline uint64_t rcds_shingle_previous(const uint8_t *shingles, size_t k)
{
    return rcds_row(shingles, 3 * k);
}

/* The own id. */
static inline uint64_t rcds_shingle_own(const uint8_t *shingles, size_t k)
{
    return rcds_row(shingles, 3 * k + 1);
}

/* The level. */
static inline uint64_t rcds_shingle_level(const uint8_t *shingles, size_t k)
{
    return rcds_row(shingles, 3 * k + 2) >> 16;
}

/* How many nodes of the level give the pair. An entry that is not used has
 * count 0, and a list ends before the first of these. */
static inline uint64_t rcds_shingle_count(const uint8_t *shingles, size_t k)
{
    return rcds_row(shingles, 3 * k + 2) & 0xffff;
}

/*
 * Reading a cell table.
 *
 * A cell is five rows of 64 bits, most significant byte first, each a sum
 * modulo 2^64 over the shingles that lie in it: how many they are, their
 * previous ids, their own ids, their level * 65,536 + count, their check
 * hashes.
 */

/* Value m, 0 to 4, of cell i, counted from 0. The table must hold
 * RCDS_CELL_BYTES * (i + 1) bytes. */
static inline uint64_t rcds_cell_value(const uint8_t *cells, size_t i, size_t m)
{
    return rcds_row(cells, 5 * i + m);
}

#ifdef __cplusplus
}
#endif

#endif
