//! Compares what the program `messages` finds in messages with the reference.
//!
//!     messages-program PROGRAM STORED [SEED]
//!
//! PROGRAM is the compiled program, STORED the file with what it prints before it reads. Every message
//! of the cases of `rcds_message_type`, of at most 65,536 bytes, is sent to it behind its length in four
//! bytes, and every line that it prints is compared.

use conformance::messages::messages;
use reference::listing::read_line;
use std::io::{BufRead, BufReader, BufWriter, Write};
use std::process::{Command, ExitCode, Stdio};

const SEED: u64 = 20_250_101;
const LONGEST: usize = 65_536;

fn sent(seed: u64) -> impl Iterator<Item = Vec<u8>> {
    messages(seed).filter(|message| message.len() <= LONGEST)
}

fn main() -> ExitCode {
    let arguments: Vec<String> = std::env::args().skip(1).collect();
    let [program, stored, rest @ ..] = arguments.as_slice() else {
        eprintln!("usage: messages-program PROGRAM STORED [SEED]");
        return ExitCode::from(2);
    };
    let seed = rest
        .first()
        .map_or(SEED, |text| text.parse().expect("a seed is a number"));
    let stored = std::fs::read_to_string(stored).expect("the stored output is there");
    let mut child = Command::new(program)
        .stdin(Stdio::piped())
        .stdout(Stdio::piped())
        .spawn()
        .expect("the program starts");
    let mut input = BufWriter::new(child.stdin.take().expect("its input is piped"));
    let output = BufReader::new(child.stdout.take().expect("its output is piped"));
    let writer = std::thread::spawn(move || {
        for message in sent(seed) {
            let length = (message.len() as u32).to_be_bytes();
            input
                .write_all(&length)
                .expect("the program reads a length");
            input
                .write_all(&message)
                .expect("the program reads a message");
        }
    });
    let mut lines = output
        .lines()
        .map(|line| line.expect("the program writes text"));
    for (number, expected) in stored.lines().enumerate() {
        if lines.next().as_deref() != Some(expected) {
            eprintln!("messages: line {number} is not the stored one");
            return ExitCode::FAILURE;
        }
    }
    let mut refused = 0;
    let mut read = 0;
    for (number, message) in sent(seed).enumerate() {
        let expected = read_line(&message);
        let line = lines.next().unwrap_or_default();
        if line != expected {
            eprintln!("messages, seed {seed}, message {number}: {line:?} instead of {expected:?}");
            return ExitCode::FAILURE;
        }
        read += 1;
        refused += usize::from(expected == "read 10");
    }
    assert!(lines.next().is_none(), "the program writes nothing more");
    writer.join().expect("every message is sent");
    child.wait().expect("the program ends");
    assert!(read >= 200_000 && refused > 0 && refused < read);
    println!("messages, seed {seed}: {read} messages read as the reference has them, {refused} of them refused by 10");
    ExitCode::SUCCESS
}
