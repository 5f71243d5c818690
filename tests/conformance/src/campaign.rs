//! A hostile campaign: cases of every group over fresh seeds, for so many seconds.

use crate::clock::{self, Calls};
use crate::failure::Failure;
use crate::random::Random;
use std::fmt;
use std::time::{Duration, Instant};

/// How long a group has its turn. It has at least one case in it.
const TURN: Duration = Duration::from_millis(300);

/// A group of calls: how many cases a seed has, and how all of them or one are run.
#[derive(Clone, Copy)]
pub struct Group {
    pub name: &'static str,
    pub count: fn() -> usize,
    pub run: fn(u64, Option<usize>) -> Result<Vec<String>, Failure>,
}

/// What a group came to.
#[derive(Default)]
struct Done {
    cases: u64,
    calls: Calls,
}

impl Done {
    fn add(&mut self, calls: Calls) {
        self.cases += 1;
        self.calls.count += calls.count;
        self.calls.refused += calls.refused;
        self.calls.longest = self.calls.longest.max(calls.longest);
    }
}

impl fmt::Display for Done {
    fn fmt(&self, f: &mut fmt::Formatter) -> fmt::Result {
        let Calls {
            count,
            refused,
            longest,
        } = self.calls;
        write!(
            f,
            "{} cases, {count} calls, {refused} of them refused, the longest {:.1} ms",
            self.cases,
            1_000.0 * longest.as_secs_f64()
        )
    }
}

/// Why a campaign stopped.
pub enum Stopped {
    Differs(Failure),
    /// A call of this case took longer than it may.
    TooLong {
        case: String,
        taken: Duration,
    },
}

impl fmt::Display for Stopped {
    fn fmt(&self, f: &mut fmt::Formatter) -> fmt::Result {
        match self {
            Stopped::Differs(failure) => write!(f, "{failure}"),
            Stopped::TooLong { case, taken } => write!(f, "{case}: a call took {taken:?}"),
        }
    }
}

/// How far a campaign goes.
pub struct Bounds {
    pub time: Duration,
    /// How long a call may take; without it, any time.
    pub call: Option<Duration>,
}

/// Gives the groups their turns, a new seed in each round, until the time is used up; every group has one
/// turn at least. `begins` is told each case before it is run, since one that touches what is not lent
/// ends the process.
pub fn run(
    groups: &[Group],
    seed: u64,
    bounds: &Bounds,
    mut begins: impl FnMut(&str),
) -> Result<Vec<String>, Stopped> {
    let start = Instant::now();
    let mut done: Vec<Done> = groups.iter().map(|_| Done::default()).collect();
    let mut rounds = 0;
    while rounds == 0 || start.elapsed() < bounds.time {
        let seed = seed.wrapping_add(rounds);
        for (group, done) in groups.iter().zip(&mut done) {
            if rounds == 0 || start.elapsed() < bounds.time {
                turn(group, seed, bounds, done, &mut begins)?;
            }
        }
        rounds += 1;
    }
    let line = |(group, done): (&Group, &Done)| format!("{}: {done}", group.name);
    let mut lines: Vec<String> = groups.iter().zip(&done).map(line).collect();
    lines.push(format!(
        "{rounds} rounds in {:.1} s",
        start.elapsed().as_secs_f64()
    ));
    Ok(lines)
}

/// Cases of one group and one seed, drawn from all that it has.
fn turn(
    group: &Group,
    seed: u64,
    bounds: &Bounds,
    done: &mut Done,
    begins: &mut impl FnMut(&str),
) -> Result<(), Stopped> {
    let start = Instant::now();
    let last = (group.count)() as u64 - 1;
    let mut random = Random::of_case(seed, 0);
    loop {
        let number = random.between(0, last);
        let case = format!("{} {seed} {number}", group.name);
        begins(&case);
        clock::calls();
        (group.run)(seed, Some(number as usize)).map_err(Stopped::Differs)?;
        let calls = clock::calls();
        done.add(calls);
        let taken = calls.longest;
        if bounds.call.is_some_and(|most| taken > most) {
            return Err(Stopped::TooLong { case, taken });
        }
        if start.elapsed() >= TURN {
            return Ok(());
        }
    }
}

#[cfg(test)]
mod tests {
    use super::{run, Bounds, Group, Stopped};
    use crate::clock::timed;
    use crate::failure::{Difference, Failure};
    use std::time::{Duration, Instant};

    fn quick(_: u64, _: Option<usize>) -> Result<Vec<String>, Failure> {
        timed(|| 0);
        Ok(Vec::new())
    }

    fn slow(_: u64, _: Option<usize>) -> Result<Vec<String>, Failure> {
        let start = Instant::now();
        timed(|| {
            while start.elapsed() < Duration::from_millis(200) {}
            0
        });
        Ok(Vec::new())
    }

    fn wrong(seed: u64, number: Option<usize>) -> Result<Vec<String>, Failure> {
        Err(Failure {
            call: "a call",
            seed,
            number: number.expect("one case"),
            case: String::new(),
            difference: Difference::NoReply,
        })
    }

    fn groups(second: fn(u64, Option<usize>) -> Result<Vec<String>, Failure>) -> [Group; 2] {
        [("quick", quick as _), ("second", second)].map(|(name, run)| Group {
            name,
            count: || 1_000,
            run,
        })
    }

    /// No time at all, so one turn of each group.
    fn bounds(call: Option<Duration>) -> Bounds {
        let time = Duration::ZERO;
        Bounds { time, call }
    }

    #[test]
    fn every_group_has_a_turn_and_every_case_is_told() {
        let mut told = Vec::new();
        let lines = run(&groups(slow), 5, &bounds(None), |case| {
            told.push(case.to_string())
        });
        assert!(lines.is_ok_and(|lines| lines.len() == 3));
        for name in ["quick 5 ", "second 5 "] {
            assert!(told.iter().any(|case| case.starts_with(name)));
        }
    }

    #[test]
    fn a_call_that_takes_too_long_stops_it() {
        let most = Some(Duration::from_millis(1));
        match run(&groups(slow), 5, &bounds(most), |_| {}) {
            Err(Stopped::TooLong { case, .. }) => assert!(case.starts_with("second 5 ")),
            _ => panic!("a slow call goes through"),
        }
    }

    #[test]
    fn a_case_that_differs_stops_it() {
        match run(&groups(wrong), 5, &bounds(None), |_| {}) {
            Err(Stopped::Differs(failure)) => assert_eq!(failure.seed, 5),
            _ => panic!("a wrong call goes through"),
        }
    }
}
