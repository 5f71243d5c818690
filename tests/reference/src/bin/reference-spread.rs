//! Prints what the program `spread_table` must print, worked out by the reference: the table by which rule 3 spreads
//! the byte values, "in decimal, one a line from entry 0" (document 02, request 12).

use reference::spread::table;

fn main() {
    for entry in table() {
        println!("{entry}");
    }
}
