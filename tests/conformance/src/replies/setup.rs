//! A sender that is set up: its settings, and the tables that its setup left. The reference makes
//! them; that the library makes the same is tested with `rcds_sender_setup`.

use crate::random::Random;
use reference::lent::Lent;
use reference::node_table;
use reference::rcds::ACCEPTED;
use reference::reply::reply;
use reference::sender;
pub use reference::sender::held;
use reference::settings::Settings;
use reference::tree::Node;
use reference::vectors::RULED;

/// More bytes than any reply has.
const ENOUGH: usize = 90_000;

/// Settings, string and tables.
pub struct Sender {
    pub settings: Settings,
    pub width: u64,
    pub lent: Lent,
}

impl Sender {
    /// A sender of this string, if question 8 allows it; else of the string's first 4,000 bytes with
    /// settings that allow it. Tables are as long as they have to be, or a little longer.
    pub fn new(settings: Settings, width: u64, string: Vec<u8>, random: &mut Random) -> Sender {
        let mut longer = |entry: usize| random.one_of(&[0, 0, 0, 1, entry - 1, entry, 3 * entry]);
        let mut sender = Sender {
            settings,
            width,
            lent: Lent {
                string,
                nodes: vec![1; 65_536 + longer(16)],
                shingles: vec![1; 98_304 + longer(24)],
                cells: vec![1; 120 * width as usize + longer(40)],
            },
        };
        if sender.lent.set_up(&settings, width) < ACCEPTED {
            sender.settings = RULED;
            sender.lent.string.truncate(4_000);
            let answer = sender.lent.set_up(&sender.settings, width);
            assert!(answer >= ACCEPTED, "a setup that is allowed: {answer}");
        }
        sender
    }

    /// The bytes of its state.
    pub fn state(&self) -> Vec<u8> {
        let mut state = vec![0; sender::STATE_BYTES];
        sender::write(&self.settings, self.width, &mut state);
        state
    }

    pub fn nodes(&self) -> Vec<Node> {
        node_table::read(&self.lent.nodes)
    }

    /// How many bytes the reply to a message has; of a refused one, none.
    pub fn reply_length(&self, message: &[u8]) -> usize {
        let mut buffer = vec![0; ENOUGH];
        let answer = reply(&self.settings, self.width, &self.lent, message, &mut buffer);
        answer.saturating_sub(ACCEPTED) as usize
    }
}
