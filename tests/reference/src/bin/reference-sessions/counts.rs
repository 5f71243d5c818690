//! What a run counts, and the claims that it found broken.

use std::collections::BTreeMap;

/// The claims of demand 3, and what the questions say that a call leaves.
#[derive(Clone, Copy, Debug, PartialEq, Eq, PartialOrd, Ord)]
pub enum Claim {
    /// "each reply delivered while its query is outstanding is accepted"
    DeliveredIsAccepted,
    /// "at most 4,097 replies are"
    AtMost4097,
    /// The case that is known to reach 4,097 does so.
    BoundIsReached,
    /// "the sender's string is handed over, and no other"
    SendersString,
    /// "exactly when each query has had one so delivered"
    ExactlyWhen,
    /// "any string handed over has the length and id of the sender's"
    LengthAndId,
    /// The same, of what any accepted opening announced.
    AsAnnounced,
    /// An accepted message is of type 3 to 5, of this session, with the query's kind, level and id.
    AcceptedFitsTheQuery,
    /// A genuine message that is no reply to the outstanding query is refused by 9 or 11.
    OthersGet9Or11,
    /// The queries are those of the sender's tree without what the own tree has.
    QueriesOfTheTree,
    /// "A no at 9 to 11 changes no state and no buffer"; the same of 1 to 7 and 20.
    NoChangesNothing,
    /// "A no at 12 to 19 ends the session and zeroes the whole output buffer."
    NoEndsAndZeroes,
    /// No call answers a question that is not its own.
    OwnQuestions,
    /// "No other later call changes a table"; "Bytes ... after the output, are untouched".
    AcceptedLeavesTheRest,
    /// What the sender writes is a reply to the query; nothing after it changes.
    Replies,
    /// After a hand-over or an end there is no query, and nothing is accepted.
    EndedStays,
    /// "a setup's node has at most one genuine composition a session"
    OneComposition,
    /// "A sender of the old kind is met by number 10 when its order falls", at either end and by the
    /// type of the message.
    FallingGets10,
    /// And the genuine composition is accepted after that.
    GenuineAfterFalling,
    /// "A composition whose trail is the only one omits the number word"
    OmittedWhereOnly,
    /// "and one with others carries it"
    CarriedWhereOthers,
    /// "A composition that omits the number where two trails exist ... fails question 17"
    DroppedGets17,
    /// The same of one that "carries one where only one does".
    AddedGets17,
    /// "rule 2 meets refusal 12" (document 02, request 12), and so does any other number that is not 3.
    OtherRuleGets12,
}

/// All claims.
pub const CLAIMS: [Claim; 24] = [
    Claim::DeliveredIsAccepted,
    Claim::AtMost4097,
    Claim::BoundIsReached,
    Claim::SendersString,
    Claim::ExactlyWhen,
    Claim::LengthAndId,
    Claim::AsAnnounced,
    Claim::AcceptedFitsTheQuery,
    Claim::OthersGet9Or11,
    Claim::QueriesOfTheTree,
    Claim::NoChangesNothing,
    Claim::NoEndsAndZeroes,
    Claim::OwnQuestions,
    Claim::AcceptedLeavesTheRest,
    Claim::Replies,
    Claim::EndedStays,
    Claim::OneComposition,
    Claim::FallingGets10,
    Claim::GenuineAfterFalling,
    Claim::OmittedWhereOnly,
    Claim::CarriedWhereOthers,
    Claim::DroppedGets17,
    Claim::AddedGets17,
    Claim::OtherRuleGets12,
];

/// Claims about what comes in every run, however few sessions it has: one of which no case was looked
/// at says nothing.
const ALWAYS: [Claim; 8] = [
    Claim::OneComposition,
    Claim::FallingGets10,
    Claim::GenuineAfterFalling,
    Claim::OmittedWhereOnly,
    Claim::CarriedWhereOthers,
    Claim::DroppedGets17,
    Claim::AddedGets17,
    Claim::OtherRuleGets12,
];

/// How often a claim was looked at, in how many cases it did not hold, and the first of them.
#[derive(Default)]
pub struct Looked {
    pub cases: u64,
    pub broken: u64,
    pub first: String,
}

/// The counts of one part of a run.
#[derive(Default)]
pub struct Counts {
    pub sessions: u64,
    pub setups_refused: u64,
    pub met: u64,
    pub taken: u64,
    pub accepted: u64,
    pub delivered: u64,
    pub handed: u64,
    pub handed_after_own_opening: u64,
    pub most: u64,
    pub takes_refused: BTreeMap<u64, u64>,
    pub writes_refused: BTreeMap<u64, u64>,
    pub replies_refused: BTreeMap<u64, u64>,
    pub types_accepted: BTreeMap<u32, u64>,
    /// Literals of nodes above level L, and literals without bytes.
    pub literals_above: u64,
    pub literals_empty: u64,
    pub claims: BTreeMap<Claim, Looked>,
}

impl Counts {
    /// Looks at one case of a claim.
    pub fn claim(&mut self, claim: Claim, holds: bool, case: impl FnOnce() -> String) {
        let looked = self.claims.entry(claim).or_default();
        looked.cases += 1;
        if !holds {
            looked.broken += 1;
            if looked.broken == 1 {
                looked.first = case();
            }
        }
    }

    pub fn broken(&self) -> bool {
        self.claims.values().any(|looked| looked.broken > 0)
    }

    /// Claims of which no case came, though one comes in every run of genuine messages.
    pub fn unseen(&self) -> Vec<Claim> {
        let unseen = |claim: &Claim| !self.claims.contains_key(claim);
        ALWAYS.into_iter().filter(unseen).collect()
    }

    /// Prints the counts of a part.
    pub fn print(&self, part: &str) {
        println!("{part}");
        println!(
            "  sessions {}, setups refused {}, conditions met {}",
            self.sessions, self.setups_refused, self.met
        );
        println!(
            "  messages taken {}, replies accepted {} (delivered in sessions that met the conditions {}), most in one {}",
            self.taken, self.accepted, self.delivered, self.most
        );
        println!(
            "  handed over {}, of these after the sender's own opening {}",
            self.handed, self.handed_after_own_opening
        );
        println!(
            "  accepted by type: {}; literals above level L {}, without bytes {}",
            row(&self.types_accepted),
            self.literals_above,
            self.literals_empty
        );
        println!("  refused, taking a message: {}", row(&self.takes_refused));
        println!("  refused, writing a query: {}", row(&self.writes_refused));
        println!("  refused, replying: {}", row(&self.replies_refused));
        for claim in CLAIMS {
            let Some(looked) = self.claims.get(&claim) else {
                continue;
            };
            println!(
                "  {claim:?}: {} cases, {} broken",
                looked.cases, looked.broken
            );
            if looked.broken > 0 {
                println!("    first: {}", looked.first);
            }
        }
    }
}

/// Numbers with how often they came.
fn row<K: std::fmt::Display>(counts: &BTreeMap<K, u64>) -> String {
    let one = |(number, count): (&K, &u64)| format!("{number}×{count}");
    counts.iter().map(one).collect::<Vec<_>>().join(" ")
}
