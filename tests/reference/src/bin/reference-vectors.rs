//! Prints what the program `vectors` must print, worked out by the reference.
//!
//! Every line ends in one line feed; words are parted by one space; numbers are decimal.
//!
//! 1. `fnv LENGTH VALUE`, FNV-1a of an input and the input's length, 269 lines: the texts "", "a",
//!    "b", "c", "d", "e", "f", "fo", "foo", "foob", "fooba", "foobar"; the 256 strings of one byte,
//!    00 to ff; the eight bytes d5 6b b9 53 42 87 08 36.
//! 2. `id VALUE`, one line: the block id of those eight bytes.
//! 3. `W P L M KIND LENGTH ANSWER DIGEST`, 413 lines. ANSWER is the answer of `rcds_tree` with
//!    these settings over the string of this kind and length, and a node table of 65,536 bytes
//!    that are all 170 before the call. DIGEST is FNV-1a of the table's 65,536 bytes after it.
//!    - For each of the settings 2 2 1 2, 2 2 4 16, 3 4 2 64, 12 8 1 8, 4 2 3 65536, 5 3 4 1000,
//!      2 8 4 4096, 7 5 2 300: for each kind 0 to 5, for each length of 0, 1, 5, 17, 100, 1000,
//!      4527, 20000, a line; then, of the same settings, kind 0 length 65536 and kind 2 length
//!      65536.
//!    - Then ten lines that are refused: kind 2 length 100 with the settings 1 2 1 2, 13 2 1 2,
//!      2 1 1 2, 2 9 1 9, 2 2 0 2, 2 2 5 32, 2 2 1 1, 2 2 4 15, 2 2 1 65537; and kind 0 length
//!      65537 with the settings 2 2 1 2.
//!    - Then three lines with the settings 2 8 4 4096: kind 6 of the lengths 6670, 6671, 9000.
//! 4. `setup W P L M Q KIND LENGTH ANSWER NODES SHINGLES CELLS STATE`, 107 lines. ANSWER is the
//!    answer of `rcds_sender_setup` with these settings over such a string, tables of 65,536, 98,304
//!    and 7,680 bytes and a state of 48 bytes that are all 170 before the call. The other four are
//!    FNV-1a of each of them after it.
//!    - For each of the settings 2 2 1 2 64, 2 2 4 16 1, 4 4 3 4096 17, 12 8 4 16384 33, 2 8 4 4096
//!      63: for each length of 0, 6, 100, 4527, 20000, for each kind of 0, 2, 4, 5, a line.
//!    - Then five lines that are refused: kind 2 length 100 with the settings 2 2 1 2 0, 2 2 1 2 65,
//!      2 2 1 1 65; kind 0 length 65537 with the settings 2 2 1 2 64, 2 2 1 2 65.
//!    - Then two lines with the settings 2 8 4 4096 63: kind 6 of the lengths 6670, 9000.
//! 5. `open W P L M Q KIND LENGTH ANSWER SHINGLES`, 103 lines. Two senders are set up with these settings,
//!    each over tables and a state of zeros: for such a string, and for the same one with byte LENGTH / 2
//!    one more, 0 after 255 (the empty string stays as it is). ANSWER is the answer of `rcds_sketch_open`
//!    over the second's cells, the first's cells and the first's shingle table; SHINGLES is FNV-1a of that
//!    table after it. A setup that is refused leaves zeros.
//!    - The settings, lengths and kinds of the first hundred setups above, in the same order, a line each.
//!    - Then three lines that are refused: kind 2 length 100 with the settings 2 2 0 2 64, 2 2 5 32 64,
//!      2 2 1 2 65.
//! 6. The nodes of three trees and the ranges that cross them, 61 lines: kind 6 length 8 with the settings
//!    2 2 1 2; kind 2 length 27 with 2 2 4 16; kind 0 length 0 with 2 2 4 16. Each is cut as under 3. Of each
//!    in turn:
//!    - `node LEVEL START LENGTH PARENT PLACE`, a line for each node, in table order.
//!    - `crossed START LENGTH ROOM ANSWER`, eleven lines. ANSWER is the answer of `rcds_crossed` with this start
//!      and length, the string, the node table's 65,536 bytes, and a table with room for so many entries,
//!      16 bytes each, that are all 170 before the call. Where it is accepted, `NODE PARENT` of each entry
//!      of the answer follow on the same line. START, LENGTH and ROOM are 0 0 0, 0 1 64, 2 2 64, 3 2 64,
//!      0 8 4, 0 8 3, 8 0 0, 26 1 5, 26 2 64, 0 27 64, 18446744073709551615 2 64.
//! 7. `strata W P L M Q KIND OTHER LENGTH OWN THEIRS ANSWER`, 47 lines. Two senders are set up with these
//!    settings, each over tables and a state of zeros (tables of 65,536, 98,304 and 7,680 bytes, a state of
//!    40): for the string of KIND and LENGTH, and for the string of OTHER and LENGTH, which where OTHER
//!    equals KIND has byte LENGTH / 2 one more, 0 after 255. Each builds its strata with `rcds_strata_build`
//!    into a table of 7,688 bytes that are all 170 before the call. OWN and THEIRS are FNV-1a of the first's
//!    and of the second's 7,688 bytes after it. ANSWER is the answer of `rcds_strata_estimate` with the
//!    first's state, string and tables over the second's strata and the first's, all 7,688 bytes of each.
//!    A setup that is refused leaves zeros, the state's too.
//!    - For each of the settings 2 2 1 2 64, 4 4 3 4096 17, 2 8 4 4096 63: for each length of 100, 4527,
//!      20000, for each KIND OTHER of 2 2, 4 4, 5 5, 2 3, 4 2, a line.
//!    - Then two lines that are refused: 2 2 and length 100 with the settings 2 2 1 2 65, 2 2 5 32 64.
//! 8. `most N W H ANSWER`, 18 lines. ANSWER is the answer of `rcds_most_blocks` with this n, w and h. N, W and H
//!    are 0 2 1, 1 12 32768, 5 2 2, 6 2 2, 9 2 2, 100 3 7, 66 2 2, 68 2 2, 65536 12 32768, 65536 2 32767,
//!    65536 12 2, 65537 2 1, 7 1 1, 7 13 1, 7 2 0, 7 2 32769, 7 13 0, 18446744073709551615 2 1.
//!
//! Strings. The random bytes of a string: x starts at 8 × length + kind; for each byte first
//! x = (x × 6364136223846793005 + 1442695040888963407) mod 2^64, then the byte is x / 2^56.
//! - Kind 0: every byte 0.
//! - Kind 1: every byte 7.
//! - Kind 2: the random bytes.
//! - Kind 3: each random byte divided by 64, rounded down.
//! - Kind 4: samples of two bytes, high byte first: byte 2k is v / 256 and byte 2k + 1 is v mod
//!   256, where t = k mod 1000 and v = 8 × t if t < 500, else 8 × (1000 − t).
//! - Kind 5: the first 37 random bytes, over and over: byte i is byte i − 37 from 37 on.
//! - Kind 6: a ruler: byte i is 98 where 560 divides i, else 249 where 80 does, else 215 where 10 does, else
//!   122 where 2 does, else 230.

use reference::vectors::{
    crossed_lines, fnv_lines, most_lines, opening_lines, setup_lines, strata_lines, tree_lines,
};

fn main() {
    let lines = fnv_lines().into_iter().chain(tree_lines());
    let lines = lines.chain(setup_lines()).chain(opening_lines());
    let lines = lines.chain(crossed_lines()).chain(strata_lines());
    for line in lines.chain(most_lines()) {
        println!("{line}");
    }
}
