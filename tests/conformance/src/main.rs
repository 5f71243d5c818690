//! Compares the calls of the static library with the reference.
//!
//!     conformance [GROUP...] [SEED [CASE]]
//!     conformance [GROUP...] campaign SECONDS SEED
//!
//! The groups are `tree`, `crossed`, `most_blocks`, `trails`, `messages`, `setups`, `replies`, `openings`,
//! `strata` and `sessions`; none stands for all that are built in. Without a case it runs all of them, the cases
//! of each on two threads, and prints a line for each call; it stops at the first that differs. With a case, and
//! then with one group, it runs that case alone.
//!
//! A campaign draws cases of fresh seeds, the first of which is given, for so many seconds, and stops also
//! at a call that takes longer than a second (not so with RCDS_LENT=heap, which is for valgrind). The words
//! of the case that runs, with which it is repeated, stand in the file that RCDS_CASE names: the process
//! itself cannot say them when it is ended. `tests/hostile.sh` runs it. For RCDS_LENT see `src/lent.rs`.
//!
//! A group is built in by the feature of its name. All are, unless cargo is told otherwise.

use conformance::campaign::{self, Bounds, Group};
use conformance::lent::{place, Place};
use std::fs::File;
use std::os::unix::fs::FileExt;
use std::process::ExitCode;
use std::time::Duration;

const SEED: u64 = 20_250_101;

/// How long a call may take in a campaign.
const LONGEST_CALL: Duration = Duration::from_secs(1);

const GROUPS: &[Group] = &[
    #[cfg(feature = "tree")]
    Group {
        name: "tree",
        count: conformance::tree::count,
        run: tree::run,
    },
    #[cfg(feature = "crossed")]
    Group {
        name: "crossed",
        count: conformance::crossed::count,
        run: crossed::run,
    },
    #[cfg(feature = "most_blocks")]
    Group {
        name: "most_blocks",
        count: conformance::most_blocks::count,
        run: most_blocks::run,
    },
    #[cfg(feature = "trails")]
    Group {
        name: "trails",
        count: conformance::trails::count,
        run: trails::run,
    },
    #[cfg(feature = "messages")]
    Group {
        name: "messages",
        count: conformance::messages::count,
        run: messages::run,
    },
    #[cfg(feature = "setups")]
    Group {
        name: "setups",
        count: conformance::setups::count,
        run: setups::run,
    },
    #[cfg(feature = "replies")]
    Group {
        name: "replies",
        count: conformance::replies::count,
        run: replies::run,
    },
    #[cfg(feature = "openings")]
    Group {
        name: "openings",
        count: conformance::openings::count,
        run: openings::run,
    },
    #[cfg(feature = "strata")]
    Group {
        name: "strata",
        count: conformance::strata::count,
        run: strata::run,
    },
    #[cfg(feature = "sessions")]
    Group {
        name: "sessions",
        count: conformance::sessions::count,
        run: sessions::run,
    },
];

#[cfg(feature = "tree")]
mod tree {
    use calls::rcds_tree;
    use conformance::failure::Failure;
    use conformance::tree::{run_all, run_one};

    pub fn run(seed: u64, case: Option<usize>) -> Result<Vec<String>, Failure> {
        match case {
            None => run_all(seed, rcds_tree),
            Some(number) => run_one(seed, number, rcds_tree),
        }
    }
}

#[cfg(feature = "crossed")]
mod crossed {
    use calls::rcds_crossed;
    use conformance::crossed::{run_all, run_one};
    use conformance::failure::Failure;

    pub fn run(seed: u64, case: Option<usize>) -> Result<Vec<String>, Failure> {
        match case {
            None => run_all(seed, rcds_crossed),
            Some(number) => run_one(seed, number, rcds_crossed),
        }
    }
}

#[cfg(feature = "most_blocks")]
mod most_blocks {
    use calls::{rcds_most_blocks, rcds_tree};
    use conformance::failure::Failure;
    use conformance::most_blocks::{run_all, run_one, Calls};

    const CALLS: Calls = Calls {
        most_blocks: rcds_most_blocks,
        tree: rcds_tree,
    };

    pub fn run(seed: u64, case: Option<usize>) -> Result<Vec<String>, Failure> {
        match case {
            None => run_all(seed, CALLS),
            Some(number) => run_one(seed, number, CALLS),
        }
    }
}

#[cfg(feature = "trails")]
mod trails {
    use calls::{rcds_trail_number, rcds_trail_order};
    use conformance::failure::Failure;
    use conformance::trails::{run_all, run_one, Calls};

    const CALLS: Calls = Calls {
        number: rcds_trail_number,
        order: rcds_trail_order,
    };

    pub fn run(seed: u64, case: Option<usize>) -> Result<Vec<String>, Failure> {
        match case {
            None => run_all(seed, CALLS),
            Some(number) => run_one(seed, number, CALLS),
        }
    }
}

#[cfg(feature = "messages")]
mod messages {
    use calls::rcds_message_type;
    use conformance::failure::Failure;
    use conformance::messages::{run_all, run_one};

    pub fn run(seed: u64, case: Option<usize>) -> Result<Vec<String>, Failure> {
        match case {
            None => run_all(seed, rcds_message_type),
            Some(number) => run_one(seed, number, rcds_message_type),
        }
    }
}

#[cfg(feature = "setups")]
mod setups {
    use calls::rcds_sender_setup;
    use conformance::failure::Failure;
    use conformance::setups::{run_all, run_one};

    pub fn run(seed: u64, case: Option<usize>) -> Result<Vec<String>, Failure> {
        match case {
            None => run_all(seed, rcds_sender_setup),
            Some(number) => run_one(seed, number, rcds_sender_setup),
        }
    }
}

#[cfg(feature = "replies")]
mod replies {
    use calls::rcds_reply;
    use conformance::failure::Failure;
    use conformance::replies::{run_all, run_one};

    pub fn run(seed: u64, case: Option<usize>) -> Result<Vec<String>, Failure> {
        match case {
            None => run_all(seed, rcds_reply),
            Some(number) => run_one(seed, number, rcds_reply),
        }
    }
}

#[cfg(feature = "openings")]
mod openings {
    use calls::rcds_sketch_open;
    use conformance::failure::Failure;
    use conformance::openings::{run_all, run_one};

    pub fn run(seed: u64, case: Option<usize>) -> Result<Vec<String>, Failure> {
        match case {
            None => run_all(seed, rcds_sketch_open),
            Some(number) => run_one(seed, number, rcds_sketch_open),
        }
    }
}

#[cfg(feature = "strata")]
mod strata {
    use calls::{rcds_strata_build, rcds_strata_estimate};
    use conformance::failure::Failure;
    use conformance::strata::{run_all, run_one, Calls};

    const CALLS: Calls = Calls {
        build: rcds_strata_build,
        estimate: rcds_strata_estimate,
    };

    pub fn run(seed: u64, case: Option<usize>) -> Result<Vec<String>, Failure> {
        match case {
            None => run_all(seed, CALLS),
            Some(number) => run_one(seed, number, CALLS),
        }
    }
}

#[cfg(feature = "sessions")]
mod sessions {
    use calls::{
        rcds_message_type, rcds_query, rcds_receiver_setup, rcds_reply, rcds_sender_setup,
        rcds_take,
    };
    use conformance::failure::Failure;
    use conformance::sessions::{run_all, run_one, Calls};

    const CALLS: Calls = Calls {
        sender_setup: rcds_sender_setup,
        reply: rcds_reply,
        receiver_setup: rcds_receiver_setup,
        query: rcds_query,
        take: rcds_take,
        message_type: rcds_message_type,
    };

    pub fn run(seed: u64, case: Option<usize>) -> Result<Vec<String>, Failure> {
        match case {
            None => run_all(seed, CALLS),
            Some(number) => run_one(seed, number, CALLS),
        }
    }
}

/// The groups of these names, or all. A name that is not built in ends the program.
fn chosen(names: &[String]) -> Vec<Group> {
    let group = |name: &String| match GROUPS.iter().find(|group| group.name == name) {
        Some(&group) => group,
        None => panic!("{name}: no group of this name is built in"),
    };
    match names {
        [] => GROUPS.to_vec(),
        _ => names.iter().map(group).collect(),
    }
}

/// All cases of the seed, or one.
fn compare(groups: &[Group], seed: u64, case: Option<usize>) -> Result<(), String> {
    assert!(
        case.is_none() || groups.len() == 1,
        "a case is one of a group"
    );
    for group in groups {
        let lines = (group.run)(seed, case).map_err(|failure| failure.to_string())?;
        lines.iter().for_each(|line| println!("{line}"));
    }
    Ok(())
}

/// Cases of fresh seeds for so many seconds.
fn campaign(groups: &[Group], seconds: u64, seed: u64) -> Result<(), String> {
    let file =
        std::env::var("RCDS_CASE").map(|name| File::create(name).expect("a file for the case"));
    let begins = |case: &str| {
        if let Ok(file) = &file {
            // Blanks cover what is left of a longer one.
            let line = format!("{case:<60}\n");
            file.write_all_at(line.as_bytes(), 0)
                .expect("the case is written");
        }
    };
    let bounds = Bounds {
        time: Duration::from_secs(seconds),
        call: (place() != Place::Alone).then_some(LONGEST_CALL),
    };
    let lines =
        campaign::run(groups, seed, &bounds, begins).map_err(|stopped| stopped.to_string())?;
    lines.iter().for_each(|line| println!("{line}"));
    Ok(())
}

fn main() -> ExitCode {
    let arguments: Vec<String> = std::env::args().skip(1).collect();
    let is_name = |text: &&String| text.parse::<u64>().is_err();
    let (names, numbers) = arguments.split_at(arguments.iter().take_while(is_name).count());
    let number = |text: &String| text.parse::<u64>().expect("a number");
    let numbers: Vec<u64> = numbers.iter().map(number).collect();
    let done = match (names, numbers.as_slice()) {
        ([names @ .., word], &[seconds, seed]) if word == "campaign" => {
            campaign(&chosen(names), seconds, seed)
        }
        (_, numbers) => {
            let seed = numbers.first().copied().unwrap_or(SEED);
            let case = numbers.get(1).map(|&case| case as usize);
            compare(&chosen(names), seed, case)
        }
    };
    match done {
        Ok(()) => ExitCode::SUCCESS,
        Err(words) => {
            println!("{words}");
            ExitCode::FAILURE
        }
    }
}
