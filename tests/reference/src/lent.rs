//! What the calls of either end are lent: a string and three tables; and the questions that every
//! call asks of them first.

use crate::questions;
use crate::rcds::rcds_sender_setup;
use crate::settings::Settings;
use crate::shingle::Shingle;
use crate::sketch::Cell;
use crate::tree::Node;
use crate::{cell_table, node_table, sender, shingle_table};

/// The string of one end and its tables, as bytes.
#[derive(Clone, Debug, PartialEq, Eq)]
pub struct Lent {
    pub string: Vec<u8>,
    pub nodes: Vec<u8>,
    pub shingles: Vec<u8>,
    pub cells: Vec<u8>,
}

impl Lent {
    /// A setup of either end: 1 to 8, the answer of `rcds_sender_setup`, and the tables as it leaves
    /// them.
    pub fn set_up(&mut self, settings: &Settings, width: u64) -> u64 {
        rcds_sender_setup(
            settings,
            width,
            &self.string,
            &mut self.nodes,
            &mut self.shingles,
            &mut self.cells,
            &mut [0; sender::STATE_BYTES],
        )
    }

    /// "Every later call of either end first asks 1 to 7 again, of the settings it holds and of what
    /// is lent". The first of them that has a no.
    pub fn refused(&self, settings: &Settings, width: u64) -> Option<u64> {
        let questions: [(u64, &dyn Fn() -> bool); 7] = [
            (1, &|| questions::window_allowed(settings)),
            (2, &|| questions::fan_out_allowed(settings)),
            (3, &|| questions::levels_allowed(settings.levels)),
            (4, &|| questions::nominal_allowed(settings)),
            (5, &|| questions::width_allowed(width)),
            (6, &|| questions::string_allowed(&self.string)),
            (7, &|| self.tables_allowed(width)),
        ];
        let no = questions.iter().find(|(_, yes)| !yes());
        no.map(|(question, _)| *question)
    }

    /// "7 lent tables long enough for 4,096 nodes, 4,096 shingles, 3q cells?"
    fn tables_allowed(&self, width: u64) -> bool {
        questions::node_table_allowed(&self.nodes)
            && questions::shingle_table_allowed(&self.shingles)
            && questions::cell_table_allowed(&self.cells, width)
    }

    /// "A node table is read up to its first id 0".
    pub fn node_list(&self) -> Vec<Node> {
        node_table::read(&self.nodes)
    }

    /// "A node entry that points outside the lent string is passed over".
    pub fn holds(&self, node: &Node) -> bool {
        node.start + node.length <= self.string.len()
    }

    /// The bytes of a node that the string holds.
    pub fn bytes(&self, node: &Node) -> &[u8] {
        &self.string[node.start..node.start + node.length]
    }

    /// "a shingle table up to its first count 0"
    pub fn shingle_list(&self) -> Vec<Shingle> {
        shingle_table::read(&self.shingles)
    }

    /// The first 3q cells.
    pub fn cell_list(&self, width: u64) -> Vec<Cell> {
        cell_table::read(&self.cells, width)
    }
}
