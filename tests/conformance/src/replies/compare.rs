//! One call and one comparison.

use super::cases::Case;
use super::form::{form, Form};
use super::setup::held;
use crate::clock::timed;
use crate::failure::{Difference, Failure};
use crate::lent::{for_reading, Lent};
use crate::random::Random;
use reference::message::{parse, Body, Message};
use reference::opening::MOST_SHINGLES;
use reference::rcds::ACCEPTED;
use reference::reply::reply;

/// `rcds_reply` as C declares it.
pub type Reply = unsafe extern "C" fn(
    *const u8,
    usize,
    *const u8,
    usize,
    *const u8,
    usize,
    *const u8,
    usize,
    *const u8,
    usize,
    *const u8,
    usize,
    *mut u8,
    usize,
) -> u64;

/// What a reply is compared with.
#[derive(Clone, Copy, Debug, PartialEq, Eq, PartialOrd, Ord)]
pub enum Compared {
    /// Every byte with the reference's.
    Exact,
    /// What is replied over tables that no setup left is free.
    Altered,
    /// The same, and indexes of the list that have more than 12 bits: then it need not be a message.
    LongList,
}

/// What a case came to.
#[derive(Debug)]
pub struct Done {
    pub answer: u64,
    /// The type of the reply; 0 of a refused message, and of bytes that are no message.
    pub reply_type: u32,
    /// A literal of a node above the last level.
    pub high_number: bool,
    /// The form of a composition that is compared with the reference's.
    pub form: Option<Form>,
    /// References of a composition, and the largest of their counts.
    pub references: usize,
    pub largest_count: u32,
    /// Bytes of a literal.
    pub bytes: usize,
    /// Whether the reply is compared with the reference's, or why not.
    pub compared: Compared,
    /// Whether answer and buffer are the reference's.
    pub same: bool,
}

/// Runs a case through the function and through the reference. What it came to, if all is equal.
pub fn compare(case: &Case, function: Reply) -> Result<Done, Failure> {
    call(case, function).map_err(|difference| Failure {
        call: "rcds_reply",
        seed: case.seed,
        number: case.number,
        case: case.to_string(),
        difference,
    })
}

fn call(case: &Case, function: Reply) -> Result<Done, Difference> {
    let mut random = Random::of_case(case.seed ^ 1, case.number);
    let random = &mut random;
    let before = random.bytes(case.room);
    let [of_state, of_string, of_nodes, of_shingles, of_cells, of_message, of_out] = case.shifts;
    let mut state = Lent::new("state", &case.state, of_state, random);
    let mut string = Lent::new("string", &case.lent.string, of_string, random);
    let mut nodes = Lent::new("node table", &case.lent.nodes, of_nodes, random);
    let mut shingles = Lent::new("shingle table", &case.lent.shingles, of_shingles, random);
    let mut cells = Lent::new("cell table", &case.lent.cells, of_cells, random);
    let mut message = Lent::new("message", &case.message, of_message, random);
    let mut out = Lent::new("buffer", &before, of_out, random);
    let read = for_reading([
        &mut state,
        &mut string,
        &mut nodes,
        &mut shingles,
        &mut cells,
        &mut message,
    ]);
    // All pieces are there in full, and the one for writing stands in memory of its own.
    let given = timed(|| unsafe {
        function(
            read[0],
            state.length(),
            read[1],
            string.length(),
            read[2],
            nodes.length(),
            read[3],
            shingles.length(),
            read[4],
            cells.length(),
            read[5],
            message.length(),
            out.pointer(),
            out.length(),
        )
    });
    let (settings, width) = held(&case.state);
    let mut expected_out = before.clone();
    let expected = reply(
        &settings,
        width,
        &case.lent,
        &case.message,
        &mut expected_out,
    );
    let compared = match expected == 20 || expected >= ACCEPTED {
        true => compared(case),
        false => Compared::Exact,
    };
    let same = given == expected && out.bytes() == expected_out;
    if compared != Compared::Exact {
        expected_out = one_of_its_own(case, compared, given, &before, out.bytes())?;
    } else if given != expected {
        return Err(Difference::Answer { expected, given });
    }
    out.expect(&expected_out)?;
    for lent in [&state, &string, &nodes, &shingles, &cells, &message] {
        lent.expect_unchanged()?;
    }
    Ok(Done {
        same,
        ..done(case, given, &expected_out, compared)
    })
}

/// What the reply to a query is compared with.
fn compared(case: &Case) -> Compared {
    match (
        case.altered(),
        case.lent.shingle_list().len() > MOST_SHINGLES,
    ) {
        (false, _) => Compared::Exact,
        (true, false) => Compared::Altered,
        (true, true) => Compared::LongList,
    }
}

/// Where the reply is free: refused by 20, or a well-formed message of type 3 to 6 with the query's
/// session. What the buffer has to hold then: the reply, and after it what it held before.
fn one_of_its_own(
    case: &Case,
    compared: Compared,
    given: u64,
    before: &[u8],
    out: &[u8],
) -> Result<Vec<u8>, Difference> {
    let mut expected = before.to_vec();
    if given == 20 {
        return Ok(expected);
    }
    let written = given.wrapping_sub(ACCEPTED);
    if written > out.len() as u64 {
        return Err(Difference::NotItsOwn { given });
    }
    let reply = &out[..written as usize];
    let session = parse(&case.message).map(|query| query.session);
    let is_reply = |message: &Message| message.body.message_type() >= 3;
    let replied = parse(reply).filter(is_reply).map(|reply| reply.session);
    if compared != Compared::LongList && (replied.is_none() || replied != session) {
        return Err(Difference::NoReply);
    }
    expected[..reply.len()].copy_from_slice(reply);
    Ok(expected)
}

/// What the case came to.
fn done(case: &Case, answer: u64, out: &[u8], compared: Compared) -> Done {
    let mut done = Done {
        answer,
        reply_type: 0,
        high_number: false,
        form: None,
        references: 0,
        largest_count: 0,
        bytes: 0,
        compared,
        same: true,
    };
    if answer < ACCEPTED {
        return done;
    }
    let Some(reply) = parse(&out[..(answer - ACCEPTED) as usize]) else {
        return done;
    };
    done.reply_type = reply.body.message_type();
    match reply.body {
        Body::Composition {
            number, references, ..
        } => {
            let list = case.lent.shingle_list();
            done.form = match compared {
                Compared::Exact => Some(form(number, &references, &list)),
                _ => None,
            };
            done.references = references.len();
            let counts = references.iter().map(|reference| reference.count);
            done.largest_count = counts.max().unwrap_or(0);
        }
        Body::Literal { level, bytes, .. } => {
            let (settings, _) = held(&case.state);
            let above = u64::from(level) < settings.levels;
            done.high_number = compared == Compared::Exact && above;
            done.bytes = bytes.len();
        }
        _ => {}
    }
    done
}
