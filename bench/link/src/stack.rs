//! How deep each call's stack goes: a thread runs it on a painted stack.

use crate::calls::{self, End, Settings, MAX_STRING, QUERY_BYTES, REPLY_BYTES, STRATA_BYTES};
use crate::settings::recommended;
use crate::strings::{content, pair, Random, CHANGES, CONTENTS};
use std::ffi::{c_int, c_void};

const STACK: usize = 1 << 20;
const PAINT: u8 = 0xa5;

/// Room for a pthread_attr_t.
#[repr(C, align(16))]
struct Attributes([u8; 256]);

extern "C" {
    fn pthread_attr_init(attributes: *mut Attributes) -> c_int;
    fn pthread_attr_setstack(attributes: *mut Attributes, at: *mut c_void, size: usize) -> c_int;
    fn pthread_create(
        thread: *mut usize,
        attributes: *const Attributes,
        start: extern "C" fn(*mut c_void) -> *mut c_void,
        argument: *mut c_void,
    ) -> c_int;
    fn pthread_join(thread: usize, answer: *mut *mut c_void) -> c_int;
}

extern "C" fn start(argument: *mut c_void) -> *mut c_void {
    // The argument is the reference that `touched` passes, which outlives the thread.
    let work = unsafe { &mut *argument.cast::<&mut dyn FnMut()>() };
    work();
    std::ptr::null_mut()
}

/// Bytes of the stack that are touched, those of the thread itself included.
fn touched(work: &mut dyn FnMut()) -> usize {
    let mut memory = vec![PAINT; STACK + 4_096];
    let skip = memory.as_ptr().align_offset(4_096);
    let mut attributes = Attributes([0; 256]);
    let (mut thread, mut work) = (0, work);
    // The stack is there in full, and the thread has ended before it is looked at.
    unsafe {
        assert_eq!(pthread_attr_init(&mut attributes), 0);
        let at = memory[skip..].as_mut_ptr();
        assert_eq!(pthread_attr_setstack(&mut attributes, at.cast(), STACK), 0);
        let argument = (&mut work as *mut &mut dyn FnMut()).cast();
        assert_eq!(pthread_create(&mut thread, &attributes, start, argument), 0);
        assert_eq!(pthread_join(thread, std::ptr::null_mut()), 0);
    }
    let stack = &memory[skip..skip + STACK];
    let clean = stack.iter().take_while(|byte| **byte == PAINT).count();
    assert!(clean > 0, "the stack was too small");
    STACK - clean
}

/// The deepest stack of each call so far.
struct Depths(Vec<(&'static str, usize)>);

impl Depths {
    /// Runs a call on a painted stack and keeps its depth if it is the deepest.
    fn run<T>(&mut self, name: &'static str, mut call: impl FnMut() -> T) -> T {
        let mut answer = None;
        let depth = touched(&mut || answer = Some(call())) - touched(&mut || {});
        match self.0.iter_mut().find(|(known, _)| *known == name) {
            Some((_, deepest)) => *deepest = depth.max(*deepest),
            None => self.0.push((name, depth)),
        }
        answer.expect("the call has run")
    }
}

/// The strata of both ends, and the receiver's estimate.
fn strata(depths: &mut Depths, sender: &End, receiver: &End) {
    let [mut theirs, mut own] = [(); 2].map(|()| vec![0; STRATA_BYTES]);
    for (end, table) in [(sender, &mut theirs), (receiver, &mut own)] {
        let _ = depths.run("rcds_strata_build", || calls::strata_build(end, table));
    }
    let _ = depths.run("rcds_strata_estimate", || {
        calls::strata_estimate(receiver, &theirs, &own)
    });
}

/// A whole session, each call on a painted stack.
fn session(depths: &mut Depths, settings: &Settings, string: &[u8], own: &[u8]) {
    let mut nodes = vec![0; 65_536];
    let _ = depths.run("rcds_tree", || calls::tree(settings, string, &mut nodes));
    let mut table = vec![0; 65_536];
    let _ = depths.run("rcds_crossed", || {
        calls::crossed(string, &nodes, [0, string.len() as u64], &mut table)
    });
    let _ = depths.run("rcds_most_blocks", || {
        let [w, p, _, nominal, _] = settings.0;
        calls::most_blocks(string.len() as u64, w, nominal / p)
    });
    let sender = depths.run("rcds_sender_setup", || calls::sender(settings, string));
    let receiver = depths.run("rcds_receiver_setup", || calls::receiver(settings, 1, own));
    let (Ok(sender), Ok(mut receiver)) = (sender, receiver) else {
        return;
    };
    let mut opened = receiver.shingles.clone();
    let _ = depths.run("rcds_sketch_open", || {
        let [_, _, levels, _, width] = settings.0;
        calls::sketch_open(levels, width, &sender.cells, &receiver.cells, &mut opened)
    });
    strata(depths, &sender, &receiver);
    let (mut asking, mut replying) = (vec![0; QUERY_BYTES], vec![0; REPLY_BYTES]);
    let mut output = vec![0; MAX_STRING];
    for _ in 0..40 {
        let Ok(asked) = depths.run("rcds_query", || calls::query(&receiver, &mut asking)) else {
            return;
        };
        let replied = depths.run("rcds_reply", || {
            calls::reply(&sender, &asking[..asked], &mut replying)
        });
        let replied = replied.expect("a reply to a query");
        let _ = depths.run("rcds_message_type", || {
            calls::message_type(&replying[..replied])
        });
        let taken = depths.run("rcds_take", || {
            calls::take(&mut receiver, &replying[..replied], &mut output)
        });
        if taken != Ok(None) {
            return;
        }
    }
}

/// Trails of up to 32 ids: a path, one id only, and stars of 15 points, the first and the last trail.
fn trails(depths: &mut Depths) {
    let path: Vec<u64> = (1..=32).collect();
    let star: Vec<u64> = (0..31u64)
        .map(|place| if place % 2 == 0 { 100 } else { 1 + place })
        .collect();
    let falling: Vec<u64> = star.iter().rev().copied().collect();
    for order in [path, vec![7; 32], star, falling] {
        let ids: Vec<u8> = order.iter().flat_map(|id| id.to_be_bytes()).collect();
        let _ = depths.run("rcds_trail_number", || calls::trail_number(&ids));
        let mut pairs = Vec::new();
        let mut previous = 0u64;
        for id in &order {
            pairs.extend([previous, *id, 1].iter().flat_map(|row| row.to_be_bytes()));
            previous = *id;
        }
        let mut out = vec![0; 256];
        for number in [0, 4_095] {
            let _ = depths.run("rcds_trail_order", || {
                calls::trail_order(&pairs, number, &mut out)
            });
        }
    }
}

/// Strings with 32 blocks at every level, and strings of few different blocks, so that a
/// composition has many references and the number of its order is searched for at length.
fn wide(depths: &mut Depths) {
    for name in ["random", "preallocated"] {
        let string = content(name, &mut Random::new(5), 16_384);
        let mut own = string.clone();
        own[100] ^= 1;
        session(depths, &Settings([4, 2, 4, 64, 64]), &string, &own);
    }
    for seed in 0..40 {
        let mut random = Random::new(seed);
        let kinds = content("random", &mut random, 6 * 40);
        let mut string = Vec::new();
        for _ in 0..60 {
            let at = 40 * random.below(6);
            string.extend_from_slice(&kinds[at..at + 40]);
        }
        session(depths, &Settings([12, 8, 1, 80, 64]), &string, &kinds);
        session(depths, &Settings([12, 8, 2, 800, 64]), &string, &kinds);
    }
}

/// Measures and prints.
pub fn run() {
    let mut depths = Depths(Vec::new());
    for settings in [
        recommended(4),
        recommended(64),
        Settings([12, 7, 4, 22_000, 64]),
        Settings([12, 8, 4, 65_536, 64]),
    ] {
        for name in CONTENTS {
            for change in CHANGES {
                for length in [1_024, 16_384, 65_536] {
                    let (string, own) = pair(name, change, length, 1);
                    session(&mut depths, &settings, &string, &own);
                }
            }
        }
    }
    wide(&mut depths);
    trails(&mut depths);
    println!();
    println!("| call | deepest stack, bytes |");
    println!("|---|---:|");
    for (name, depth) in &depths.0 {
        println!("| `{name}` | {depth} |");
    }
}
