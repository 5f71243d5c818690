//! Both forms of a composition, with its number and without it, and openings of other rules: document 02,
//! requests 5 and 7.

use crate::counts::{Claim, Counts};
use crate::run::Run;
use crate::sender_end::{looked_at_reply, SenderEnd, REPLY_BYTES};
use reference::lent::Lent;
use reference::message::{encode, parse, Body, Message};
use reference::rcds::{rcds_message_type, ACCEPTED};
use reference::receiver::{running, take, Answer};
use reference::trail::{multiset_of_entries, trail, Multiset};
use reference::word::Reference;

/// The numbers that are put where none belongs: the first, the next, and the last that can be sent.
const ADDED: [u32; 3] = [0, 1, 4_095];

/// Rule numbers that are not 3: the smallest, those of the rules before, the next, and the largest that a word holds.
pub const OTHER_RULES: [u32; 5] = [0, 1, 2, 4, (1 << 28) - 1];

/// The types of an opening and of a composition.
const OPENING: u64 = 3;
const COMPOSITION: u64 = 4;

/// The pairs that references name, with their counts.
fn named(list: &Lent, references: &[Reference]) -> Option<Multiset> {
    let list = list.shingle_list();
    let mut pairs = Vec::new();
    for reference in references {
        let shingle = list.get(reference.index as usize)?;
        pairs.push(((shingle.previous, shingle.own), u64::from(reference.count)));
    }
    multiset_of_entries(&pairs)
}

/// "A composition whose trail is the only one omits the number word, and one with others carries it":
/// looked at in a reply that the sender of this memory wrote. There are others when a second one exists.
pub fn look_at_form(lent: &Lent, reply: &[u8], counts: &mut Counts) {
    let Some(Message { body, .. }) = parse(reply) else {
        return;
    };
    let Body::Composition {
        number, references, ..
    } = body
    else {
        return;
    };
    let over = named(lent, &references).expect("a genuine composition's pairs");
    let (claim, right) = match trail(&over, 1) {
        None => (Claim::OmittedWhereOnly, number.is_none()),
        Some(_) => (Claim::CarriedWhereOthers, number.is_some()),
    };
    counts.claim(claim, right, || format!("{number:?} over {over:x?}"));
}

/// A composition in its other form: without the number that it carries, or with some that it omits.
/// Nothing of another message.
fn other_forms(genuine: &[u8]) -> Vec<(Claim, Vec<u8>)> {
    let with = |claim: Claim, other: Option<u32>| {
        let mut message = parse(genuine)?;
        let Body::Composition { number, .. } = &mut message.body else {
            return None;
        };
        *number = other;
        Some((claim, encode(&message)))
    };
    let carries = |message: Message| match message.body {
        Body::Composition { number, .. } => number.is_some(),
        _ => false,
    };
    let forms = match parse(genuine).is_some_and(carries) {
        true => vec![with(Claim::DroppedGets17, None)],
        false => ADDED
            .map(|added| with(Claim::AddedGets17, Some(added)))
            .to_vec(),
    };
    forms.into_iter().flatten().collect()
}

/// An opening with other rule numbers. Nothing of another message.
fn other_rules(genuine: &[u8]) -> Vec<Vec<u8>> {
    let with = |rule: u32| {
        let mut message = parse(genuine)?;
        let Body::Opening(opening) = &mut message.body else {
            return None;
        };
        opening.rule = rule;
        Some(encode(&message))
    };
    OTHER_RULES.into_iter().filter_map(with).collect()
}

/// "A composition that omits the number where two trails exist, or carries one where only one does, fails
/// question 17." "rule 2 meets refusal 12"
pub fn look_at_other_forms(run: &mut Run, sender: &SenderEnd, genuine: &[u8]) {
    for (claim, other) in other_forms(genuine) {
        look_at_end(run, sender, claim, &other, (17, COMPOSITION));
    }
    for other in other_rules(genuine) {
        look_at_end(run, sender, Claim::OtherRuleGets12, &other, (12, OPENING));
    }
}

/// A message that this question refuses, taken over copies, since that ends the session. It is well formed,
/// so that a sender asks 11 of it, and it has its type.
fn look_at_end(
    run: &mut Run,
    sender: &SenderEnd,
    claim: Claim,
    other: &[u8],
    (question, message_type): (u64, u64),
) {
    let mut state = run.receiver.clone();
    let (mut lent, mut output) = (run.lent.clone(), run.output.clone());
    let taken = take(&mut state, &mut lent, other, &mut output);
    let ends = (&sender.settings, sender.width);
    let replied = looked_at_reply(ends, &sender.lent, other, REPLY_BYTES, run.counts);
    let read = rcds_message_type(other);
    let refused = (Answer::Refused(question), &Err(11), ACCEPTED + message_type);
    let zeroed = lent == run.lent && output.iter().all(|&byte| byte == 0);
    let right = (taken, &replied, read) == refused && !running(&state) && zeroed;
    let what = format!("{taken:?}, {replied:?} and {read} for {other:02x?}");
    run.claim(claim, right, &what);
}
