//! Whole sessions between the reference's two ends, and demand 3's claims about them.
//!
//!     reference-sessions SEED SESSIONS
//!
//! The first part takes genuine messages, compositions whose references do not rise or which have a trail
//! number where they may not, and openings of other rules; the second one also other forged and damaged
//! messages, and lends altered memory. Prints what was counted, and fails where a claim was broken, or one of
//! those that every run has never came up.

mod alter;
mod conditions;
mod counts;
mod forged;
mod forgery;
mod forms;
mod link;
mod run;
mod sender_end;
mod strings;

use counts::Counts;
use link::Ends;
use reference::random::Random;

fn main() {
    let arguments: Vec<String> = std::env::args().skip(1).collect();
    let number = |k: usize, otherwise: u64| match arguments.get(k) {
        Some(text) => text.parse().expect("seed and sessions are whole numbers"),
        None => otherwise,
    };
    let (seed, sessions) = (number(0, 1), number(1, 6_000));

    let mut genuine = Counts::default();
    let mut random = Random::of_case(seed, u64::MAX);
    link::most_replies(&mut random, &mut genuine);
    link::two_trails(&mut random, &mut genuine);
    for k in 0..sessions / 2 {
        let mut random = Random::of_case(seed, k);
        let label = format!("seed {seed} session {k}");
        let ends = match k % 16 {
            0 => Ends::many_trails(label, &mut random),
            _ => Ends::any(label, &mut random),
        };
        let finished = random.percent(75);
        link::session(&ends, finished, &mut random, &mut genuine);
    }
    genuine.print("genuine messages");

    let mut forged = Counts::default();
    forged::endless(&mut random, &mut forged);
    for k in sessions / 2..sessions {
        let mut random = Random::of_case(seed, k);
        let ends = Ends::any(format!("seed {seed} session {k}"), &mut random);
        forged::session(&ends, &mut random, &mut forged);
    }
    forged.print("forged messages and altered memory");

    let unseen = genuine.unseen();
    if !unseen.is_empty() {
        println!("no case of {unseen:?}");
    }
    if genuine.broken() || forged.broken() || !unseen.is_empty() {
        std::process::exit(1);
    }
}
