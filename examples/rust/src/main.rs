//! A session in memory: the receiver, which holds the content of file B, gets that of file A.
//!
//!     session A B
//!
//! Prints the messages and bytes of both directions. The status is 0 only if the string that is
//! handed over is equal to A.

use rcds::{Receiver, Refusal, Sender, Settings, Taken};
use std::error::Error;
use std::process::ExitCode;

/// The width is odd: sketches of width 16, 32 or 64 open less often (docs/GUIDE.md).
const SETTINGS: Settings = Settings {
    window: 4,
    fan_out: 4,
    levels: 3,
    nominal: 4_096,
    width: 61,
};

const SESSION: u64 = 1;

/// How many messages went each way, and their bytes.
#[derive(Default)]
struct Totals {
    messages: usize,
    queried: usize,
    replied: usize,
}

/// Runs the session to its end. The string handed over.
fn run(sender: &Sender, receiver: &mut Receiver, totals: &mut Totals) -> Result<Vec<u8>, Refusal> {
    loop {
        let query = receiver.query()?;
        let reply = sender.reply(&query)?;
        totals.messages += 1;
        totals.queried += query.len();
        totals.replied += reply.len();
        if let Taken::HandedOver(string) = receiver.take(&reply)? {
            return Ok(string.to_vec());
        }
    }
}

fn session(a: &str, b: &str) -> Result<bool, Box<dyn Error>> {
    let file = std::fs::read(a)?;
    let sender = Sender::new(&SETTINGS, file.clone())?;
    let mut receiver = Receiver::new(&SETTINGS, SESSION, std::fs::read(b)?)?;
    let mut totals = Totals::default();
    let string = run(&sender, &mut receiver, &mut totals)?;
    println!(
        "{} queries of {} bytes, as many replies of {} bytes; the file has {} bytes",
        totals.messages,
        totals.queried,
        totals.replied,
        file.len()
    );
    Ok(string == file)
}

fn main() -> ExitCode {
    let arguments: Vec<String> = std::env::args().skip(1).collect();
    let [a, b] = arguments.as_slice() else {
        eprintln!("usage: session A B");
        return ExitCode::from(2);
    };
    match session(a, b) {
        Ok(true) => return ExitCode::SUCCESS,
        Ok(false) => eprintln!("session: what was handed over is not the file"),
        Err(error) => eprintln!("session: {error}"),
    }
    ExitCode::FAILURE
}
