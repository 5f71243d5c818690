//! The memory of one end: as the library is lent it, between guard bytes, and as the reference has it.

use crate::failure::Difference;
use crate::lent::Lent;
use crate::random::Random;
use reference::lent::Lent as Memory;

/// String, tables and state of one end.
pub struct End {
    pub string: Lent,
    pub nodes: Lent,
    pub shingles: Lent,
    pub cells: Lent,
    pub state: Lent,
    /// The same string and tables as the reference has them, and the state.
    pub memory: Memory,
    pub state_bytes: Vec<u8>,
}

/// A piece at any address.
pub fn piece(name: &'static str, bytes: &[u8], random: &mut Random) -> Lent {
    let shift = random.between(0, 15) as usize;
    Lent::new(name, bytes, shift, random)
}

impl End {
    pub fn new(memory: Memory, state_bytes: Vec<u8>, random: &mut Random) -> End {
        End {
            string: piece("string", &memory.string, random),
            nodes: piece("node table", &memory.nodes, random),
            shingles: piece("shingle table", &memory.shingles, random),
            cells: piece("cell table", &memory.cells, random),
            state: piece("state", &state_bytes, random),
            memory,
            state_bytes,
        }
    }

    /// Every piece of the library, and what the reference has there.
    fn pieces(&mut self) -> [(&mut Lent, &'static str, &[u8]); 5] {
        [
            (&mut self.string, "string", &self.memory.string),
            (&mut self.nodes, "node table", &self.memory.nodes),
            (&mut self.shingles, "shingle table", &self.memory.shingles),
            (&mut self.cells, "cell table", &self.memory.cells),
            (&mut self.state, "state", &self.state_bytes),
        ]
    }

    /// Lends the library anew, at other addresses, what is no longer as the reference has it.
    pub fn lend_again(&mut self, random: &mut Random) {
        for (lent, name, bytes) in self.pieces() {
            if lent.bytes() != bytes {
                *lent = piece(name, bytes, random);
            }
        }
    }

    /// That every byte of the library's pieces is the reference's, and none beside them is changed.
    pub fn expect(&mut self) -> Result<(), Difference> {
        self.pieces()
            .iter()
            .try_for_each(|(lent, _, bytes)| lent.expect(bytes))
    }
}
