//! What is cut after an accepted call, and what its nodes must be: n equal bytes, of which every node has one block,
//! however many the call answers, and another string of n bytes, of which no node has more than one cutting can give.

use super::numbers::{length, Numbers, LONGEST, MOST_DISTANCE};
use crate::clock::timed;
use crate::content::{self, Content, KINDS};
use crate::failure::Difference;
use crate::lent::Lent;
use crate::random::Random;
use crate::settings::{any_allowed, any_length};
use crate::tree::Tree;
use reference::most_blocks::bound;
use reference::node_table;
use reference::partition::window_value;
use reference::rcds::ACCEPTED;
use reference::settings::{Rule, Settings};
use reference::tree::Node;
use reference::vectors::{ruler, FULL_RULER, LONG_RULER, RULED};

/// What the other string holds.
#[derive(Clone, Copy, Debug, PartialEq, Eq)]
pub enum Text {
    Of(Content),
    /// Any bytes, and at every place of so many a window of the byte whose runs have the least value.
    Spaced(u64),
    /// So many bytes over and over.
    Period(u64),
}

/// The settings that both are cut by, the byte that is equal in the one, and the other.
pub struct Cutting {
    pub settings: Settings,
    pub byte: u8,
    pub text: Text,
    pub string: Vec<u8>,
}

/// The bytes of a node table.
const TABLE: usize = 65_536;

/// The longest strings that are cut by more than one level: with four, each byte is looked at four times.
const LONGEST_OF_LEVELS: usize = 8_000;

impl Cutting {
    /// n, w and h of the whole string's cutting, with which the call is made.
    pub fn numbers(&self) -> Numbers {
        Numbers {
            n: self.string.len() as u64,
            w: self.settings.window,
            h: self.settings.rule(1).distance as u64,
        }
    }
}

/// Settings of one level with this h: any p and M that give it.
fn of_one_level(window: u64, h: u64, random: &mut Random) -> Settings {
    let fan_out = random.between(2, (LONGEST / h).min(8));
    let over = random.between(0, fan_out - 1);
    Settings {
        window,
        fan_out,
        levels: 1,
        nominal: (fan_out * h + over).min(LONGEST),
    }
}

/// A cutting by one level.
pub fn one_level(place: usize, random: &mut Random) -> Cutting {
    let h = match place % 10 {
        0 => random.one_of(&[1, 2, MOST_DISTANCE - 1, MOST_DISTANCE]),
        _ => random.by_size(1, MOST_DISTANCE),
    };
    let settings = of_one_level(random.between(2, 12), h, random);
    let n = match place % 25 {
        1 => LONGEST,
        _ => length(settings.window, h, LONGEST, random),
    };
    cutting(settings, n as usize, place, random)
}

/// A cutting by any number of levels; every twentieth of a ruler of about as many nodes as 8 allows.
pub fn levels(place: usize, random: &mut Random) -> Cutting {
    if place % 20 == 0 {
        let n = random.between(FULL_RULER as u64 - 20, LONG_RULER as u64) as usize;
        return of_text(RULED, Text::Of(Content::Ruler), ruler(n));
    }
    let settings = any_allowed(random);
    let n = any_length(&settings, 0, LONGEST_OF_LEVELS, random);
    cutting(settings, n, place / 20, random)
}

/// Zeros stand beside the text.
fn of_text(settings: Settings, text: Text, string: Vec<u8>) -> Cutting {
    Cutting {
        settings,
        byte: 0,
        text,
        string,
    }
}

fn cutting(settings: Settings, n: usize, place: usize, random: &mut Random) -> Cutting {
    let h = settings.rule(1).distance as u64;
    let about = random.one_of(&[h + 1, h + 1, h + 2, h, (h - 1).max(1)]);
    let text = match place % 4 {
        0 => Text::Spaced(about),
        1 => Text::Period(about),
        _ => Text::Of(random.one_of(&KINDS)),
    };
    let string = match text {
        Text::Of(content) => content::string(content, n, random),
        Text::Spaced(distance) => spaced(distance as usize, &settings.rule(1), n, random),
        Text::Period(length) => {
            let bytes = random.bytes(length as usize);
            bytes.iter().copied().cycle().take(n).collect()
        }
    };
    let any = random.number() as u8;
    Cutting {
        byte: random.one_of(&[0, 0, 7, any]),
        ..of_text(settings, text, string)
    }
}

/// The byte whose runs have the least value: with entries in place of bytes it is seldom 0.
fn lowest(rule: &Rule) -> u8 {
    let value = |&byte: &u8| window_value(&vec![byte; rule.window], 0, rule);
    (0..=u8::MAX).min_by_key(value).expect("256 bytes")
}

fn spaced(distance: usize, rule: &Rule, n: usize, random: &mut Random) -> Vec<u8> {
    let (mut string, byte) = (random.bytes(n), lowest(rule));
    for start in (0..n).step_by(distance) {
        let end = n.min(start + rule.window);
        string[start..end].fill(byte);
    }
    string
}

/// What the cuttings of a string's nodes came to.
#[derive(Debug, Default)]
pub struct Cut {
    /// Whether 8 refused the tree.
    pub refused: bool,
    /// Nodes that could have more than one block, and how many of them have as many as one cutting can give.
    pub could: usize,
    pub have: usize,
}

/// Cuts a string, of equal bytes or another, and compares the blocks of each node with the most that it can have.
pub fn cut(
    settings: &Settings,
    string: &[u8],
    equal: bool,
    function: Tree,
    random: &mut Random,
) -> Result<Cut, Difference> {
    let (given, nodes) = call(settings, string, function, random);
    if given < ACCEPTED {
        return refused(settings, given);
    }
    if settings.levels == 1 {
        // The nodes are the string and its blocks.
        let blocks = (given - ACCEPTED).saturating_sub(1);
        expect(settings, 0, 0, string.len(), blocks, equal)?;
    }
    let expected = ACCEPTED + nodes.len() as u64;
    if given != expected {
        return Err(Difference::Answer { expected, given });
    }
    each_node(settings, &nodes, equal)
}

/// The answer, and the nodes that the table then holds.
fn call(
    settings: &Settings,
    string: &[u8],
    function: Tree,
    random: &mut Random,
) -> (u64, Vec<Node>) {
    let [shift, table_shift] = [0; 2].map(|_: u8| random.between(0, 15) as usize);
    let mut lent = Lent::new("string", string, shift, random);
    let mut table = Lent::new("node table", &[0; TABLE], table_shift, random);
    // Both pieces are there in full, and each stands in memory of its own.
    let given = timed(|| unsafe {
        function(
            settings.window,
            settings.fan_out,
            settings.levels,
            settings.nominal,
            lent.pointer(),
            lent.length(),
            table.pointer(),
            table.length(),
        )
    });
    (given, node_table::read(table.bytes()))
}

/// 8 may refuse a tree of several levels. Of one level there are at most 33 nodes.
fn refused(settings: &Settings, given: u64) -> Result<Cut, Difference> {
    match given {
        8 if settings.levels > 1 => Ok(Cut {
            refused: true,
            ..Cut::default()
        }),
        _ => Err(Difference::NotItsOwn { given }),
    }
}

/// That a node of this level and length has one block, if its bytes are equal, and else no more than one cutting can
/// give. As many as it can give.
fn expect(
    settings: &Settings,
    node: usize,
    level: u64,
    length: usize,
    given: u64,
    equal: bool,
) -> Result<u64, Difference> {
    let h = settings.rule(level + 1).distance as u64;
    let bound = bound(length as u64, settings.window, h);
    let most = if equal { 1 } else { bound };
    match (1..=most).contains(&given) {
        true => Ok(bound),
        false => Err(Difference::Blocks { node, most, given }),
    }
}

fn each_node(settings: &Settings, nodes: &[Node], equal: bool) -> Result<Cut, Difference> {
    let mut blocks = vec![0; nodes.len()];
    for node in &nodes[1..] {
        // Whether a node names one that there is, is asked by the cases of `rcds_tree`.
        if let Some(count) = blocks.get_mut(node.parent) {
            *count += 1;
        }
    }
    let mut cut = Cut::default();
    for (k, node) in nodes.iter().enumerate() {
        if node.level < settings.levels {
            let most = expect(settings, k, node.level, node.length, blocks[k], equal)?;
            cut.could += usize::from(most > 1);
            cut.have += usize::from(most > 1 && blocks[k] == most);
        }
    }
    Ok(cut)
}
