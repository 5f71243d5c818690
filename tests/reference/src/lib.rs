//! Document 01 and its change requests stated a second time: brute force, in the documents' own words and
//! order, with no regard to speed. What the library answers is compared with what stands here.
//!
//! One module for each word of the documents. A sentence of a document stands in quotation marks
//! above the lines that say it.

pub mod any_order;
pub mod cell_table;
pub mod crossed;
pub mod eulerian;
pub mod fnv;
pub mod lent;
pub mod listing;
pub mod message;
pub mod most_blocks;
pub mod node_table;
pub mod opening;
pub mod partition;
pub mod questions;
pub mod random;
pub mod rcds;
pub mod receiver;
pub mod receiver_state;
pub mod reply;
pub mod row;
pub mod sender;
pub mod settings;
pub mod shingle;
pub mod shingle_table;
pub mod sketch;
pub mod spread;
pub mod strata;
pub mod trail;
pub mod tree;
pub mod vectors;
pub mod word;
