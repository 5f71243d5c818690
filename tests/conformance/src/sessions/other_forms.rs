//! "A composition that omits the number where two trails exist, or carries one where only one does, fails
//! question 17." (document 02, request 5) Such compositions, and others whose number is not the right one or
//! stands elsewhere, at every call that reads one, before the genuine one is taken.

use super::counts::Call;
use super::lockstep::{Lockstep, Outcome};
use super::named::named;
use crate::messages::numbers::{misplaced, Misplaced, MISPLACED};
use crate::random::Random;
use reference::eulerian::trails_from;
use reference::lent::Lent as Memory;
use reference::message::{encode, parse, Body, Message};
use reference::rcds::{self, ACCEPTED};
use reference::shingle::Shingle;
use reference::trail::MOST_NUMBER;
use reference::word::Reference;

/// The bytes of the buffers for a reply, which there is none of, and for a query.
const ROOM: usize = 100;

/// How a composition's number is not the genuine one.
#[derive(Clone, Copy, Debug, PartialEq, Eq, PartialOrd, Ord)]
pub enum OtherForm {
    /// Of the only trail: number 0, 1, and any other.
    Added0,
    Added1,
    AddedAny,
    /// Of one of several trails: without its number, 0 or another; with the number after the last trail's; with
    /// a number of which its own is the low 12 bits; and with another trail's.
    Dropped0,
    DroppedAbove0,
    NoSuchNumber,
    Wrapped,
    OtherTrail,
    /// Of no trail, since no child is the first: without a number, and with number 0.
    NoTrailOmitted,
    NoTrailCarried,
    /// A number word twice, or in another place.
    Misplaced(Misplaced),
}

/// All of them.
pub fn other_forms() -> impl Iterator<Item = OtherForm> {
    let of_numbers = [
        OtherForm::Added0,
        OtherForm::Added1,
        OtherForm::AddedAny,
        OtherForm::Dropped0,
        OtherForm::DroppedAbove0,
        OtherForm::NoSuchNumber,
        OtherForm::Wrapped,
        OtherForm::OtherTrail,
        OtherForm::NoTrailOmitted,
        OtherForm::NoTrailCarried,
    ];
    let of_places = MISPLACED.map(OtherForm::Misplaced);
    of_numbers.into_iter().chain(of_places)
}

impl OtherForm {
    /// Whether a receiver that would take the genuine composition may answer so.
    fn allows(self, answer: u64) -> bool {
        match self {
            OtherForm::Misplaced(_) => answer == 10,
            // What comes of the other children is another matter.
            OtherForm::OtherTrail => ![10, 11, 17].contains(&answer),
            _ => answer == 17,
        }
    }
}

/// Lends a composition in every other form that it has to the type, the sender and the receiver, each over what
/// was there before. How many there were, where the genuine one would be taken.
pub fn lend(ends: &mut Lockstep, genuine: &[u8], random: &mut Random) -> Outcome<usize> {
    let list = ends.receiver.memory.shingle_list();
    let accepted = is_accepted(ends, genuine);
    let mut lent = 0;
    for (form, changed) in in_other_forms(genuine, &list, random) {
        let before = Kept::of(ends);
        ends.message_type(&changed)?;
        ends.reply(&changed, ROOM)?;
        let answer = ends.take(&changed)?;
        if accepted {
            assert!(form.allows(answer), "the reference: {form:?}, {answer}");
            *ends.counts.other_forms.entry(form).or_default() += 1;
            lent += 1;
        }
        if answer == 17 {
            ended(ends, genuine)?;
        }
        before.set_right(ends);
    }
    Ok(lent)
}

/// After 17 there is no query, and the genuine composition comes too late.
fn ended(ends: &mut Lockstep, genuine: &[u8]) -> Outcome<()> {
    let before = ends.counts.of(Call::Query, 9);
    ends.query(ROOM)?;
    let answer = ends.take(genuine)?;
    let by_9 = ends.counts.of(Call::Query, 9) == before + 1 && answer == 9;
    assert!(by_9, "the reference after 17: {answer}");
    Ok(())
}

/// Whether the receiver would take a message now, as the reference has it.
fn is_accepted(ends: &Lockstep, message: &[u8]) -> bool {
    let Kept {
        mut state,
        mut memory,
        mut output,
    } = Kept::of(ends);
    let answer = rcds::rcds_take(&mut state, &mut memory, message, &mut output);
    answer == 0 || answer >= ACCEPTED
}

/// What the receiver has before a call.
struct Kept {
    state: Vec<u8>,
    memory: Memory,
    output: Vec<u8>,
}

impl Kept {
    fn of(ends: &Lockstep) -> Kept {
        Kept {
            state: ends.receiver.state_bytes.clone(),
            memory: ends.receiver.memory.clone(),
            output: ends.output_bytes.clone(),
        }
    }

    fn set_right(self, ends: &mut Lockstep) {
        ends.receiver.state_bytes = self.state;
        ends.receiver.memory = self.memory;
        ends.output_bytes = self.output;
        ends.lend_again();
    }
}

/// The other forms that a genuine composition has, over the list that it names; of the places of a number two
/// at random. None of another message.
fn in_other_forms(
    genuine: &[u8],
    list: &[Shingle],
    random: &mut Random,
) -> Vec<(OtherForm, Vec<u8>)> {
    let Some(message) = parse(genuine) else {
        return Vec::new();
    };
    let Body::Composition {
        number, references, ..
    } = &message.body
    else {
        return Vec::new();
    };
    let mut forms = other_numbers(*number, references, list, random);
    let without_first: Vec<Reference> = references
        .iter()
        .copied()
        .filter(|reference| {
            let named = list.get(reference.index as usize);
            named.is_some_and(|shingle| shingle.previous != 0)
        })
        .collect();
    if !without_first.is_empty() {
        forms.push((OtherForm::NoTrailOmitted, None, without_first.clone()));
        forms.push((OtherForm::NoTrailCarried, Some(0), without_first));
    }
    let with = |(form, number, references)| (form, with_number(&message, number, references));
    let mut forms: Vec<(OtherForm, Vec<u8>)> = forms.into_iter().map(with).collect();
    for kind in [(); 2].map(|()| random.one_of(&MISPLACED)) {
        let changed = misplaced(genuine, kind, random);
        forms.extend(changed.map(|changed| (OtherForm::Misplaced(kind), changed)));
    }
    forms
}

/// A form with its number and its references.
type Formed = (OtherForm, Option<u32>, Vec<Reference>);

/// The forms with other numbers than the genuine one, and the same references.
fn other_numbers(
    number: Option<u32>,
    references: &[Reference],
    list: &[Shingle],
    random: &mut Random,
) -> Vec<Formed> {
    let any = random.one_of(&[2, 4_095, 4_096, (1 << 28) - 1]);
    let Some(genuine) = number else {
        let added = [
            (OtherForm::Added0, 0),
            (OtherForm::Added1, 1),
            (OtherForm::AddedAny, any),
        ];
        return added
            .map(|(form, n)| (form, Some(n), references.to_vec()))
            .to_vec();
    };
    let dropped = match genuine {
        0 => OtherForm::Dropped0,
        _ => OtherForm::DroppedAbove0,
    };
    let trails = named(references, list).map_or(0, |over| trails_from(0, &over));
    let above = MOST_NUMBER as u32 + 1;
    // The first number that no trail has, or the first that is too large.
    let past = trails.min(u128::from(above)) as u32;
    let mut forms = vec![
        (dropped, None, references.to_vec()),
        (OtherForm::NoSuchNumber, Some(past), references.to_vec()),
        (
            OtherForm::Wrapped,
            Some(genuine + above),
            references.to_vec(),
        ),
    ];
    if past > 1 {
        let other = (genuine + random.between(1, u64::from(past) - 1) as u32) % past;
        forms.push((OtherForm::OtherTrail, Some(other), references.to_vec()));
    }
    forms
}

/// The bytes of a composition with another number and other references.
fn with_number(message: &Message, other: Option<u32>, others: Vec<Reference>) -> Vec<u8> {
    let mut message = message.clone();
    if let Body::Composition {
        number, references, ..
    } = &mut message.body
    {
        (*number, *references) = (other, others);
    }
    encode(&message)
}
