//! Both ends, question by question, over strings that can be followed by hand.

use reference::fnv::block_id;
use reference::lent::Lent;
use reference::message::{encode, parse, Body, Message, Opening};
use reference::rcds::{rcds_message_type, ACCEPTED};
use reference::receiver::{
    outstanding, running, set_up, take, write_query, Answer, Pending, Receiver, Stage,
};
use reference::reply::reply;
use reference::settings::Settings;
use reference::word::Reference;

/// "With w=2, p=2, L=1, M=2"
const SMALLEST: Settings = Settings {
    window: 2,
    fan_out: 2,
    levels: 1,
    nominal: 2,
};

const WIDTH: u64 = 64;

/// Two blocks: the first byte, and the other five.
const SIX: [u8; 6] = [0x00, 0x03, 0x00, 0x00, 0x01, 0x00];

/// Five blocks: four of two bytes each, a a b a, and the other three. Their pairs are those of a b a a and the
/// other three too. In the first string a b a a comes after the true order, in the second before it.
const FIRST_OF_TWO: [u8; 11] = [1, 0, 1, 0, 1, 3, 1, 0, 1, 0, 1];
const SECOND_OF_TWO: [u8; 11] = [1, 3, 1, 3, 1, 0, 1, 3, 1, 0, 1];

/// 01 00 and 00 01 have the values 2 and 3, so that the blocks are 01 00, 01 00, 01 00 and 01 00 01.
const TURNS: [u8; 9] = [1, 0, 1, 0, 1, 0, 1, 0, 1];

fn memory(string: &[u8]) -> Lent {
    Lent {
        string: string.to_vec(),
        nodes: vec![170; 65_536],
        shingles: vec![170; 98_304],
        cells: vec![170; 7_680],
    }
}

fn sender(string: &[u8]) -> Lent {
    let mut lent = memory(string);
    assert!(lent.set_up(&SMALLEST, WIDTH) > ACCEPTED);
    lent
}

fn receiver(string: &[u8], session: u64) -> (Receiver, Lent) {
    let mut lent = memory(string);
    let state = set_up(&SMALLEST, WIDTH, session, &mut lent);
    (state.expect("the setup is accepted"), lent)
}

fn message(body: Body) -> Vec<u8> {
    encode(&Message { session: 5, body })
}

fn query(level: u32, id: u64) -> Vec<u8> {
    message(Body::NodeQuery { level, id })
}

fn literal(level: u32, id: u64, bytes: &[u8]) -> Vec<u8> {
    let bytes = bytes.to_vec();
    message(Body::Literal { level, id, bytes })
}

/// A composition that carries this number, or omits it.
fn composition(id: u64, number: Option<u32>, references: &[(u32, u32)]) -> Vec<u8> {
    let reference = |&(index, count)| Reference { index, count };
    message(Body::Composition {
        level: 0,
        id,
        number,
        references: references.iter().map(reference).collect(),
    })
}

/// What the sender of a string replies, as a message.
fn replied(lent: &Lent, query: &[u8]) -> Vec<u8> {
    let mut buffer = vec![170; 100_000];
    let answer = reply(&SMALLEST, WIDTH, lent, query, &mut buffer);
    assert!(answer > ACCEPTED, "refused by {answer}");
    let length = (answer - ACCEPTED) as usize;
    assert!(buffer[length..].iter().all(|&byte| byte == 170));
    buffer.truncate(length);
    buffer
}

/// A receiver of session 5 with own bytes ff ff ff that has taken the opening of the six bytes, and
/// six bytes of output and two more.
fn opened() -> (Receiver, Lent, Vec<u8>) {
    opened_of(&SIX)
}

/// The same of another string.
fn opened_of(string: &[u8]) -> (Receiver, Lent, Vec<u8>) {
    let (mut state, mut lent) = receiver(&[0xff; 3], 5);
    let before = vec![9; string.len() + 2];
    let mut output = before.clone();
    let opening = replied(&sender(string), &message(Body::OpeningQuery));
    let answer = take(&mut state, &mut lent, &opening, &mut output);
    assert_eq!((answer, &output), (Answer::Waiting, &before));
    (state, lent, output)
}

/// The same after the composition.
fn composed() -> (Receiver, Lent, Vec<u8>) {
    let (mut state, mut lent, mut output) = opened();
    let reply = replied(&sender(&SIX), &query(0, block_id(&SIX)));
    let answer = take(&mut state, &mut lent, &reply, &mut output);
    assert_eq!(answer, Answer::Waiting);
    (state, lent, output)
}

/// Takes a message that must be refused by this question, and looks at what that leaves.
fn refused_by(question: u64, (state, lent, output): (Receiver, Lent, Vec<u8>), message: &[u8]) {
    let (mut after, mut lent_after, mut output_after) =
        (state.clone(), lent.clone(), output.clone());
    let answer = take(&mut after, &mut lent_after, message, &mut output_after);
    assert_eq!(answer, Answer::Refused(question));
    assert_eq!(lent_after, lent);
    if question < 12 {
        assert_eq!((after, output_after), (state, output));
    } else {
        assert_eq!(output_after, vec![0; output.len()]);
        assert!(!running(&after) && outstanding(&after).is_none());
    }
}

#[test]
fn replies_over_six_bytes() {
    let lent = sender(&SIX);
    let (root, left, right) = (block_id(&SIX), block_id(&SIX[..1]), block_id(&SIX[1..]));
    let opening = message(Body::Opening(Opening {
        rule: 3,
        window: 2,
        fan_out: 2,
        levels: 1,
        nominal: 2,
        width: 64,
        length: 6,
        root,
        cells: lent.cell_list(WIDTH),
    }));
    assert_eq!(replied(&lent, &message(Body::OpeningQuery)), opening);
    // The list: the root's pair, then 0 and the left block, then the left block and the right one.
    let order = composition(root, None, &[(1, 1), (2, 1)]);
    assert_eq!(replied(&lent, &query(0, root)), order);
    assert_eq!(replied(&lent, &query(1, left)), literal(1, left, &SIX[..1]));
    assert_eq!(
        replied(&lent, &query(1, right)),
        literal(1, right, &SIX[1..])
    );
    for (level, id) in [
        (1, root),
        (0, left),
        (2, left),
        (1, 0),
        ((1 << 28) - 1, left),
    ] {
        assert_eq!(
            replied(&lent, &query(level, id)),
            message(Body::None { level, id })
        );
    }
}

#[test]
fn references_count_these_children_only() {
    let lent = sender(&TURNS);
    let list = lent.shingle_list();
    let [two, three] = [2, 3].map(|count| block_id(&TURNS[..count]));
    let index = |pair| list.iter().position(|s| s.pair() == pair).expect("listed") as u32;
    let mut references = [
        (index((1, 0, two)), 1),
        (index((1, two, two)), 2),
        (index((1, two, three)), 1),
    ];
    // "References now rise by index" (document 02, request 2).
    references.sort();
    let root = block_id(&TURNS);
    let order = composition(root, None, &references);
    assert_eq!(replied(&lent, &query(0, root)), order);
}

/// The references of a string's blocks, rising by index, with their counts.
fn references_of(string: &[u8]) -> Vec<(u32, u32)> {
    let lent = sender(string);
    let list = lent.shingle_list();
    let places = (0..list.len()).filter(|&k| list[k].level == 1);
    places.map(|k| (k as u32, list[k].count as u32)).collect()
}

/// "A composition whose trail is the only one omits the number word, and one with others carries it."
/// (document 02, request 5)
#[test]
fn a_number_where_there_are_others() {
    let cases: [(&[u8], Option<u32>); 8] = [
        (&FIRST_OF_TWO, Some(0)),
        (&SECOND_OF_TWO, Some(1)),
        (&SIX, None),
        // One block, of some bytes or of none; equal blocks, and then one that is longer.
        (&[1, 2], None),
        (&[], None),
        (&TURNS[..5], None),
        (&TURNS, None),
        // The first of the two without its end is a, a and the other three.
        (&FIRST_OF_TWO[..7], None),
    ];
    for (string, number) in cases {
        let root = block_id(string);
        let order = composition(root, number, &references_of(string));
        assert_eq!(
            replied(&sender(string), &query(0, root)),
            order,
            "{string:?}"
        );
    }
}

/// The answer of a reply that must leave its buffer as it is.
fn refused(settings: &Settings, width: u64, lent: &Lent, message: &[u8], bytes: usize) -> u64 {
    let mut buffer = vec![170; bytes];
    let answer = reply(settings, width, lent, message, &mut buffer);
    assert_eq!(buffer, vec![170; bytes]);
    answer
}

#[test]
fn a_sender_asks_1_to_7_again() {
    let with = |change: fn(&mut Settings)| {
        let mut settings = SMALLEST;
        change(&mut settings);
        settings
    };
    let settings = [
        with(|s| (s.window, s.fan_out) = (13, 9)),
        with(|s| (s.fan_out, s.levels) = (9, 5)),
        with(|s| (s.levels, s.nominal) = (5, 1)),
        with(|s| s.nominal = 1),
    ];
    let mut lent = memory(&[0; 65_537]);
    lent.cells.truncate(7_679);
    for (settings, question) in settings.iter().zip(1..) {
        assert_eq!(refused(settings, 0, &lent, &[], 0), question);
    }
    assert_eq!(refused(&SMALLEST, 65, &lent, &[], 0), 5);
    assert_eq!(refused(&SMALLEST, 64, &lent, &[], 0), 6);
    lent.string.truncate(65_536);
    assert_eq!(refused(&SMALLEST, 64, &lent, &[], 0), 7);
}

#[test]
fn a_sender_asks_10_11_20() {
    let lent = sender(&SIX);
    let none = query(1, 77);
    assert_eq!(refused(&SMALLEST, 64, &lent, &[], 0), 10);
    assert_eq!(refused(&SMALLEST, 64, &lent, &none[..20], 0), 10);
    for message in [literal(1, 1, &[1]), message(Body::None { level: 0, id: 1 })] {
        assert_eq!(refused(&SMALLEST, 64, &lent, &message, 0), 11);
    }
    assert_eq!(refused(&SMALLEST, 64, &lent, &none, 23), 20);
    let mut buffer = [170; 25];
    let answer = reply(&SMALLEST, 64, &lent, &none, &mut buffer);
    assert_eq!((answer, buffer[24]), (ACCEPTED + 24, 170));
}

#[test]
fn a_node_outside_the_lent_string_is_passed_over() {
    let mut lent = sender(&SIX);
    lent.string.truncate(5);
    let (root, left, right) = (block_id(&SIX), block_id(&SIX[..1]), block_id(&SIX[1..]));
    let none = |level, id| message(Body::None { level, id });
    assert_eq!(replied(&lent, &query(0, root)), none(0, root));
    assert_eq!(replied(&lent, &query(1, right)), none(1, right));
    assert_eq!(replied(&lent, &query(1, left)), literal(1, left, &SIX[..1]));
    let opening = parse(&replied(&lent, &message(Body::OpeningQuery))).expect("well formed");
    let Body::Opening(opening) = opening.body else {
        panic!("an opening query has an opening");
    };
    assert_eq!((opening.length, opening.root), (5, root));
}

#[test]
fn a_session_of_six_bytes() {
    let (mut state, mut lent, mut output) = composed();
    let (left, right) = (block_id(&SIX[..1]), block_id(&SIX[1..]));
    assert_eq!(lent.shingle_list(), sender(&SIX).shingle_list());
    for (id, block, answer) in [
        (left, &SIX[..1], Answer::Waiting),
        (right, &SIX[1..], Answer::Handed(6)),
    ] {
        let mut buffer = [170; 25];
        assert_eq!(write_query(&state, &lent, &mut buffer), ACCEPTED + 24);
        assert_eq!((&buffer[..24], buffer[24]), (query(1, id).as_slice(), 170));
        assert_eq!(write_query(&state, &lent, &mut [0; 23]), 20);
        let reply = literal(1, id, block);
        assert_eq!(take(&mut state, &mut lent, &reply, &mut output), answer);
    }
    assert_eq!(output, [0, 3, 0, 0, 1, 0, 9, 9]);
    assert_eq!(write_query(&state, &lent, &mut [0; 24]), 9);
    refused_by(9, (state, lent, output), &literal(1, right, &SIX[1..]));
}

#[test]
fn own_blocks_of_any_level_are_copied() {
    // The sender's right block is the receiver's whole string.
    let (mut state, mut lent) = receiver(&SIX[1..], 5);
    let mut output = vec![9; 6];
    let theirs = sender(&SIX);
    let opening = replied(&theirs, &message(Body::OpeningQuery));
    assert_eq!(
        take(&mut state, &mut lent, &opening, &mut output),
        Answer::Waiting
    );
    let order = replied(&theirs, &query(0, block_id(&SIX)));
    assert_eq!(
        take(&mut state, &mut lent, &order, &mut output),
        Answer::Waiting
    );
    let left = literal(1, block_id(&SIX[..1]), &SIX[..1]);
    assert_eq!(
        take(&mut state, &mut lent, &left, &mut output),
        Answer::Handed(6)
    );
    assert_eq!(output, SIX);
    // The sender's whole string is a block of the receiver's.
    let (mut state, mut lent) = receiver(&SIX, 5);
    let opening = replied(&sender(&SIX[..1]), &message(Body::OpeningQuery));
    assert_eq!(
        take(&mut state, &mut lent, &opening, &mut output),
        Answer::Handed(1)
    );
}

#[test]
fn empty_strings() {
    let theirs = sender(&[]);
    let opening = replied(&theirs, &message(Body::OpeningQuery));
    let (mut state, mut lent) = receiver(&[], 5);
    assert_eq!(
        take(&mut state, &mut lent, &opening, &mut []),
        Answer::Handed(0)
    );
    let (mut state, mut lent) = receiver(&[1], 5);
    let id = block_id(&[]);
    for (reply, answer) in [
        (opening, Answer::Waiting),
        (replied(&theirs, &query(0, id)), Answer::Waiting),
        (literal(1, id, &[]), Answer::Handed(0)),
    ] {
        assert_eq!(take(&mut state, &mut lent, &reply, &mut []), answer);
    }
}

#[test]
fn a_session_number_is_taken_modulo_2_24() {
    let (state, lent) = receiver(&SIX, (7 << 24) + 5);
    let mut buffer = [0; 8];
    assert_eq!(write_query(&state, &lent, &mut buffer), ACCEPTED + 8);
    assert_eq!(buffer, [0x11, 0, 0, 5, 0x60, 0, 0, 2]);
}

#[test]
fn question_9() {
    let (state, lent, output) = composed();
    let reply = literal(1, block_id(&SIX[..1]), &SIX[..1]);
    let top = *state.pile.last().expect("two are pending");
    let with = |change: &dyn Fn(&mut Receiver)| {
        let mut state = state.clone();
        change(&mut state);
        (state, lent.clone(), output.clone())
    };
    refused_by(9, with(&|state| state.stage = Stage::Ended), &reply);
    refused_by(9, with(&|state| state.pile.clear()), &reply);
    refused_by(9, with(&|state| state.pile.resize(129, top)), &reply);
    let (mut full, mut lent_now, mut output_now) = with(&|state| state.pile.resize(128, top));
    assert!(running(&full));
    assert_eq!(
        take(&mut full, &mut lent_now, &reply, &mut output_now),
        Answer::Waiting
    );
    let above = Pending { level: 2, id: 1 };
    refused_by(9, with(&|state| state.pile[0] = above), &reply);
    // The odd states are asked before the opening too, but for the empty pile.
    let (mut early, _) = receiver(&SIX, 5);
    assert!(running(&early));
    early.pile = vec![above];
    assert!(!running(&early));
}

#[test]
fn questions_10_and_11() {
    let (left, right) = (block_id(&SIX[..1]), block_id(&SIX[1..]));
    let reply = literal(1, left, &SIX[..1]);
    refused_by(10, composed(), &reply[..reply.len() - 4]);
    refused_by(10, composed(), &[]);
    refused_by(11, composed(), &query(1, left));
    refused_by(11, composed(), &literal(0, left, &SIX[..1]));
    refused_by(11, composed(), &literal(1, right, &SIX[1..]));
    let opening = replied(&sender(&SIX), &message(Body::OpeningQuery));
    refused_by(11, composed(), &opening);
    let (state, lent) = receiver(&SIX, 5);
    refused_by(11, (state, lent, vec![9; 6]), &reply);
    let (state, lent) = receiver(&SIX, 6);
    refused_by(11, (state, lent, vec![9; 6]), &opening);
}

/// The composition of the six bytes with references that do not rise: exchanged, or one a second time,
/// with the same and another count, beside itself and apart. Without a number, and with one.
fn not_rising() -> Vec<Vec<u8>> {
    let references: [&[(u32, u32)]; 6] = [
        &[(2, 1), (1, 1)],
        &[(1, 1), (1, 1)],
        &[(1, 1), (1, 2)],
        &[(1, 1), (2, 1), (2, 1)],
        &[(1, 1), (2, 2), (2, 1)],
        &[(1, 1), (2, 1), (1, 1)],
    ];
    let formed =
        |references| [None, Some(0)].map(|number| composition(block_id(&SIX), number, references));
    references.into_iter().flat_map(formed).collect()
}

/// "A sender of the old kind is met by number 10 when its order falls." (document 02, request 2) "A no
/// at 9 to 11 changes no state and no buffer", so the session goes on.
#[test]
fn a_receiver_meets_references_that_do_not_rise_by_10() {
    let (mut state, mut lent, mut output) = opened();
    for order in not_rising() {
        assert_eq!(rcds_message_type(&order), 10);
        let before = (state.clone(), lent.clone(), output.clone());
        let answer = take(&mut state, &mut lent, &order, &mut output);
        assert_eq!(answer, Answer::Refused(10));
        assert_eq!((&state, &lent, &output), (&before.0, &before.1, &before.2));
    }
    let (left, right) = (block_id(&SIX[..1]), block_id(&SIX[1..]));
    for (reply, answer) in [
        (
            replied(&sender(&SIX), &query(0, block_id(&SIX))),
            Answer::Waiting,
        ),
        (literal(1, left, &SIX[..1]), Answer::Waiting),
        (literal(1, right, &SIX[1..]), Answer::Handed(6)),
    ] {
        assert_eq!(take(&mut state, &mut lent, &reply, &mut output), answer);
    }
    assert_eq!(output[..6], SIX);
}

/// 9 comes before 10, and 10 before 11.
#[test]
fn references_that_do_not_rise_between_9_and_11() {
    for order in not_rising() {
        // No query of this node is outstanding, or none of this session.
        refused_by(10, composed(), &order);
        let (state, lent) = receiver(&SIX, 5);
        refused_by(10, (state, lent, vec![9; 6]), &order);
        let (mut state, lent, output) = opened();
        state.session = 6;
        refused_by(10, (state.clone(), lent.clone(), output.clone()), &order);
        state.stage = Stage::Ended;
        refused_by(9, (state, lent, output), &order);
    }
    let rising = composition(block_id(&SIX), None, &[(1, 1), (2, 1)]);
    refused_by(11, composed(), &rising);
}

/// The sender asks 10 "as above", before 11: a composition that rises is none of types 1 and 2.
#[test]
fn a_sender_meets_references_that_do_not_rise_by_10() {
    let lent = sender(&SIX);
    for bytes in [0, 200] {
        for order in not_rising() {
            assert_eq!(refused(&SMALLEST, WIDTH, &lent, &order, bytes), 10);
        }
        for references in [
            &[][..],
            &[(4_095, 1)],
            &[(1, 1), (2, 1)],
            &[(1, 2), (4_095, 1)],
        ] {
            let rising = composition(block_id(&SIX), None, references);
            assert_eq!(refused(&SMALLEST, WIDTH, &lent, &rising, bytes), 11);
        }
    }
}

/// "a setup's node has at most one genuine composition a session" (document 02, request 2): whatever the
/// memory held before the setup.
#[test]
fn one_composition_of_a_node() {
    let root = query(0, block_id(&SIX));
    let mut other = Lent {
        string: SIX.to_vec(),
        nodes: vec![3; 65_536 + 16],
        shingles: vec![3; 98_304 + 24],
        cells: vec![3; 7_680 + 40],
    };
    assert!(other.set_up(&SMALLEST, WIDTH) > ACCEPTED);
    assert_eq!(replied(&other, &root), replied(&sender(&SIX), &root));
}

/// The opening of the six bytes with a change.
fn other_opening(change: impl FnOnce(&mut Opening)) -> Vec<u8> {
    let mut message = parse(&replied(&sender(&SIX), &message(Body::OpeningQuery)))
        .expect("an opening is well formed");
    if let Body::Opening(opening) = &mut message.body {
        change(opening);
    }
    encode(&message)
}

#[test]
fn questions_12_to_14_of_an_opening() {
    let fresh = |bytes: usize| {
        let (state, lent) = receiver(&[0xff; 3], 5);
        (state, lent, vec![9; bytes])
    };
    let wrong = |opening: &mut Opening| (opening.length, opening.cells[0][0]) = (65_537, 5);
    let nominal = |opening: &mut Opening| opening.nominal = 3;
    refused_by(12, fresh(6), &other_opening(|o| (wrong(o), nominal(o)).1));
    refused_by(13, fresh(6), &other_opening(wrong));
    refused_by(13, fresh(70_000), &other_opening(wrong));
    refused_by(13, fresh(5), &other_opening(|_| ()));
    refused_by(14, fresh(6), &other_opening(|o| o.cells[0][0] = 5));
}

/// "ends with rule 1 meet refusal 12" (document 02, request 7); "The rule number becomes 3, rule 2 meets refusal 12"
/// (request 12). Of an opening that has nothing else wrong, and of one that 13 and 14 would refuse: 12 comes first.
#[test]
fn rules_that_are_not_3() {
    for rule in [0, 1, 2, 4, (1 << 28) - 1] {
        let other = other_opening(|opening| opening.rule = rule);
        assert_eq!(rcds_message_type(&other), ACCEPTED + 3);
        let (mut state, mut lent) = receiver(&[0xff; 3], 5);
        refused_by(12, (state.clone(), lent.clone(), vec![9; 6]), &other);
        let worse = other_opening(|opening| {
            (opening.rule, opening.length, opening.cells[0][0]) = (rule, 65_537, 5);
        });
        refused_by(12, (state.clone(), lent.clone(), vec![9; 6]), &worse);
        let own = other_opening(|opening| opening.rule = 3);
        let answer = take(&mut state, &mut lent, &own, &mut [9; 6]);
        assert_eq!(answer, Answer::Waiting);
    }
}

#[test]
fn an_opening_refused_at_18_or_19_leaves_the_table() {
    // The root is an own block, so that it is copied at once.
    let other =
        |length: u32| other_opening(|o| (o.length, o.root) = (length, block_id(&[0xff; 3])));
    let fresh = || {
        let (state, lent) = receiver(&[0xff; 3], 5);
        (state, lent, vec![9; 6])
    };
    refused_by(18, fresh(), &other(2));
    refused_by(19, fresh(), &other(4));
    let (mut state, mut lent, mut output) = fresh();
    let answer = take(&mut state, &mut lent, &other(3), &mut output);
    assert_eq!(
        (answer, output),
        (Answer::Handed(3), vec![255, 255, 255, 9, 9, 9])
    );
    assert_eq!(lent.shingle_list(), sender(&SIX).shingle_list());
}

#[test]
fn questions_13_15_and_16_of_a_node_reply() {
    let left = block_id(&SIX[..1]);
    let none = message(Body::None { level: 1, id: left });
    let (mut state, lent, output) = composed();
    refused_by(16, (state.clone(), lent.clone(), output.clone()), &none);
    state.replies = 4_096;
    refused_by(15, (state.clone(), lent.clone(), output.clone()), &none);
    refused_by(13, (state.clone(), lent.clone(), vec![9; 5]), &none);
    state.length = 65_537;
    refused_by(13, (state.clone(), lent.clone(), vec![9; 70_000]), &none);
    (state.length, state.replies) = (6, 4_095);
    let (mut lent, mut output) = (lent, output);
    let reply = literal(1, left, &SIX[..1]);
    assert_eq!(
        take(&mut state, &mut lent, &reply, &mut output),
        Answer::Waiting
    );
    assert_eq!(state.replies, 4_096);
}

#[test]
fn question_17() {
    let root = block_id(&SIX);
    // With a number and without it.
    let refused = |references: &[(u32, u32)]| {
        for number in [None, Some(0), Some(1), Some(4_096)] {
            refused_by(17, opened(), &composition(root, number, references));
        }
    };
    refused(&[]);
    refused(&[(0, 1)]);
    refused(&[(1, 1), (3, 1)]);
    refused(&[(1, 1), (2, 2)]);
    refused(&[(2, 1)]);
    // At level L.
    let left = block_id(&SIX[..1]);
    let reference = Reference { index: 1, count: 1 };
    let body = Body::Composition {
        level: 1,
        id: left,
        number: None,
        references: vec![reference],
    };
    refused_by(17, composed(), &message(body));
    // Two children in place of one node, on a pile that is full.
    let order = composition(root, None, &[(1, 1), (2, 1)]);
    let (mut state, mut lent, mut output) = opened();
    let below = Pending { level: 1, id: 1 };
    state.pile.splice(0..0, vec![below; 127]);
    refused_by(17, (state.clone(), lent.clone(), output.clone()), &order);
    state.pile.remove(0);
    assert_eq!(
        take(&mut state, &mut lent, &order, &mut output),
        Answer::Waiting
    );
    assert_eq!(state.pile.len(), 128);
    assert_eq!(state.pile[127], Pending { level: 1, id: left });
}

/// "A composition that ... carries one where only one does, fails question 17." (document 02, request 5)
#[test]
fn a_number_where_one_trail_exists() {
    let root = block_id(&SIX);
    for number in [0, 1, 2, 4_095, 4_096, (1 << 28) - 1] {
        let order = composition(root, Some(number), &[(1, 1), (2, 1)]);
        assert_eq!(rcds_message_type(&order), ACCEPTED + 4);
        refused_by(17, opened(), &order);
        assert_eq!(refused(&SMALLEST, WIDTH, &sender(&SIX), &order, 200), 11);
    }
    let order = composition(root, None, &[(1, 1), (2, 1)]);
    let (mut state, mut lent, mut output) = opened();
    let answer = take(&mut state, &mut lent, &order, &mut output);
    assert_eq!(answer, Answer::Waiting);
}

/// "A composition that omits the number where two trails exist ... fails question 17."
#[test]
fn no_number_where_two_trails_exist() {
    for (string, number) in [(FIRST_OF_TWO, 0), (SECOND_OF_TWO, 1)] {
        let (root, references) = (block_id(&string), references_of(&string));
        let formed = |number: Option<u32>| composition(root, number, &references);
        refused_by(17, opened_of(&string), &formed(None));
        for other in [2, 3, 4_095, 4_096] {
            refused_by(17, opened_of(&string), &formed(Some(other)));
        }
        // Either trail is taken, and the true one leads to the string.
        for taken in [0, 1] {
            let (mut state, mut lent, mut output) = opened_of(&string);
            let answer = take(&mut state, &mut lent, &formed(Some(taken)), &mut output);
            assert_eq!(answer, Answer::Waiting);
            let ids: Vec<u64> = state.pile.iter().rev().map(|node| node.id).collect();
            let [a, b] = [&string[..2], &string[4..6]].map(block_id);
            let order = match taken == number {
                true => [a, a, b, a],
                false => [a, b, a, a],
            };
            assert_eq!(ids[..4], order);
        }
    }
}

/// Where no trail exists, 17 with a number and without it; a second number is 10, before 17.
#[test]
fn numbers_where_no_trail_exists_and_two_numbers() {
    let root = block_id(&FIRST_OF_TWO);
    let references = references_of(&FIRST_OF_TWO);
    for number in [None, Some(0), Some(1)] {
        // Without the pair that starts from 0.
        let order = composition(root, number, &references[1..]);
        refused_by(17, opened_of(&FIRST_OF_TWO), &order);
    }
    for (string, number) in [(&FIRST_OF_TWO[..], 0), (&SIX, 0)] {
        let mut order = composition(block_id(string), Some(number), &references_of(string));
        let again = order[20..24].to_vec();
        order.splice(20..20, again);
        let words = order.len() / 4;
        order[4 * words - 1] = words as u8;
        assert_eq!(rcds_message_type(&order), 10);
        refused_by(10, opened_of(string), &order);
        assert_eq!(refused(&SMALLEST, WIDTH, &sender(string), &order, 200), 10);
    }
}

/// A session of each of the two, to its end.
#[test]
fn sessions_of_two_trails() {
    for string in [FIRST_OF_TWO, SECOND_OF_TWO] {
        let (mut state, mut lent, mut output) = opened_of(&string);
        let theirs = sender(&string);
        let mut answer = Answer::Waiting;
        while answer == Answer::Waiting {
            let query = encode(&outstanding(&state).expect("the session goes on"));
            answer = take(
                &mut state,
                &mut lent,
                &replied(&theirs, &query),
                &mut output,
            );
        }
        let length = string.len();
        assert_eq!(
            (answer, &output[..length]),
            (Answer::Handed(length as u64), &string[..])
        );
    }
}

#[test]
fn questions_18_and_19_of_a_node_reply() {
    let (left, right) = (block_id(&SIX[..1]), block_id(&SIX[1..]));
    refused_by(18, composed(), &literal(1, left, &[1; 7]));
    let root = block_id(&SIX);
    refused_by(19, opened(), &literal(0, root, &SIX[..5]));
    refused_by(19, opened(), &literal(0, root, &[7; 6]));
    let (mut state, mut lent, mut output) = composed();
    let reply = literal(1, left, &SIX[..1]);
    assert_eq!(
        take(&mut state, &mut lent, &reply, &mut output),
        Answer::Waiting
    );
    // A byte that was built before is changed by the caller.
    output[0] ^= 1;
    refused_by(19, (state, lent, output), &literal(1, right, &SIX[1..]));
}
