//! The receiver's state as bytes, and the three calls over them, followed by hand.

use reference::fnv::block_id;
use reference::lent::Lent;
use reference::message::{encode, Body, Message};
use reference::rcds::{rcds_query, rcds_receiver_setup, rcds_take, ACCEPTED};
use reference::receiver::{running, Pending, Receiver, Stage};
use reference::receiver_state::{ended, read, write, HEADER_ROWS, STATE_BYTES};
use reference::reply::reply;
use reference::settings::Settings;
use reference::vectors::{ruler, LONG_RULER, RULED};

/// "With w=2, p=2, L=1, M=2"
const SMALLEST: Settings = Settings {
    window: 2,
    fan_out: 2,
    levels: 1,
    nominal: 2,
};

const WIDTH: u64 = 64;

/// Two blocks: the first two bytes, and the other four.
const SIX: [u8; 6] = [0x00, 0x03, 0x00, 0x00, 0x01, 0x00];

fn memory(string: &[u8]) -> Lent {
    Lent {
        string: string.to_vec(),
        nodes: vec![170; 65_536],
        shingles: vec![170; 98_304],
        cells: vec![170; 7_680],
    }
}

/// Row k of a state.
fn row(state: &[u8], k: usize) -> u64 {
    u64::from_be_bytes(state[8 * k..8 * k + 8].try_into().expect("8 bytes"))
}

/// A state of three more bytes, after a setup with this number.
fn receiver(string: &[u8], session: u64) -> (Vec<u8>, Lent) {
    let mut state = vec![170; STATE_BYTES + 3];
    let mut lent = memory(string);
    let answer = rcds_receiver_setup(&SMALLEST, WIDTH, session, &mut lent, &mut state);
    assert_eq!(answer, ACCEPTED + lent.node_list().len() as u64);
    (state, lent)
}

fn replied(string: &[u8], query: &[u8]) -> Vec<u8> {
    let mut lent = memory(string);
    assert!(lent.set_up(&SMALLEST, WIDTH) > ACCEPTED);
    let mut buffer = vec![0; 20_000];
    let answer = reply(&SMALLEST, WIDTH, &lent, query, &mut buffer);
    buffer.truncate((answer - ACCEPTED) as usize);
    buffer
}

fn query(state: &[u8], lent: &Lent) -> Vec<u8> {
    let mut buffer = vec![0; 24];
    let answer = rcds_query(state, lent, &mut buffer);
    buffer.truncate((answer - ACCEPTED) as usize);
    buffer
}

#[test]
fn a_setup_leaves_settings_and_number_and_zeros() {
    assert_eq!(STATE_BYTES, 2_144);
    let (state, _) = receiver(&SIX, (7 << 24) + 5);
    let first: Vec<u64> = (0..6).map(|k| row(&state, k)).collect();
    assert_eq!(first, [2, 2, 1, 2, 64, 5]);
    assert!(state[48..STATE_BYTES].iter().all(|&byte| byte == 0));
    assert_eq!(state[STATE_BYTES..], [170; 3]);
}

#[test]
fn a_setup_asks_for_the_state_with_the_tables() {
    let mut lent = memory(&SIX);
    let before = lent.clone();
    let mut state = vec![170; STATE_BYTES - 1];
    let mut answer = |width: u64, lent: &mut Lent| {
        let answer = rcds_receiver_setup(&SMALLEST, width, 5, lent, &mut state);
        assert!(state.iter().all(|&byte| byte == 170));
        answer
    };
    assert_eq!(answer(64, &mut lent), 7);
    assert_eq!(answer(65, &mut lent), 5);
    assert_eq!(lent, before);
    // More nodes than are allowed: 7 comes first.
    let mut lent = memory(&ruler(LONG_RULER));
    assert_eq!(rcds_receiver_setup(&RULED, 64, 5, &mut lent, &mut state), 7);
    assert_eq!(lent.nodes, vec![170; 65_536]);
    let mut state = vec![170; STATE_BYTES];
    assert_eq!(rcds_receiver_setup(&RULED, 64, 5, &mut lent, &mut state), 8);
    assert_eq!(
        (lent.nodes, state),
        (vec![0; 65_536], vec![170; STATE_BYTES])
    );
}

#[test]
fn what_is_written_is_read_again() {
    let pending = |k: u64| Pending {
        level: k % 3,
        id: u64::MAX - k,
    };
    for count in [0, 1, 2, 127, 128] {
        for stage in [Stage::BeforeOpening, Stage::AfterOpening, Stage::Ended] {
            let state = Receiver {
                settings: SMALLEST,
                width: WIDTH,
                session: 5,
                stage,
                length: 6,
                root: 1 << 63,
                built: 2,
                replies: 3,
                pile: (0..count).map(pending).collect(),
            };
            let mut bytes = vec![170; STATE_BYTES];
            write(&state, &mut bytes);
            assert_eq!(read(&bytes), state);
            let unused = 8 * HEADER_ROWS + 16 * count as usize;
            assert!(bytes[unused..].iter().all(|&byte| byte == 0));
        }
    }
}

#[test]
fn any_bytes_are_a_state() {
    let mut bytes = vec![0xff; STATE_BYTES];
    let state = read(&bytes);
    assert_eq!((state.stage, state.pile.len()), (Stage::Ended, 129));
    bytes[48..56].fill(0);
    assert!(!running(&read(&bytes)));
    bytes.pop();
    assert_eq!(read(&bytes), read(&[0; STATE_BYTES]));
    let (_, lent) = receiver(&SIX, 5);
    assert_eq!(rcds_query(&bytes, &lent, &mut [0; 24]), 1);
}

#[test]
fn a_session_of_six_bytes() {
    let (mut state, mut lent) = receiver(&[0xff; 3], 5);
    let mut output = vec![9; 8];
    let [root, left, right] = [&SIX[..], &SIX[..1], &SIX[1..]].map(block_id);
    let mut take = |state: &mut [u8], output: &mut [u8]| {
        let reply = replied(&SIX, &query(state, &lent));
        rcds_take(state, &mut lent, &reply, output)
    };

    assert_eq!(take(&mut state, &mut output), 0);
    let header: Vec<u64> = (6..14).map(|k| row(&state, k)).collect();
    assert_eq!(header, [1, 6, root, 0, 0, 1, 0, root]);

    // The right block under the left one, which is the top.
    assert_eq!(take(&mut state, &mut output), 0);
    let header: Vec<u64> = (6..16).map(|k| row(&state, k)).collect();
    assert_eq!(header, [1, 6, root, 0, 1, 2, 1, right, 1, left]);

    assert_eq!(take(&mut state, &mut output), 0);
    let header: Vec<u64> = (6..14).map(|k| row(&state, k)).collect();
    assert_eq!(header, [1, 6, root, 1, 2, 1, 1, right]);

    assert_eq!(take(&mut state, &mut output), ACCEPTED + 6);
    assert_eq!(output, [0, 3, 0, 0, 1, 0, 9, 9]);
    let expected = ended(&read(&receiver(&[], 5).0));
    assert_eq!(read(&state), expected);
    assert!(state[56..STATE_BYTES].iter().all(|&byte| byte == 0));
    assert_eq!(state[STATE_BYTES..], [170; 3]);
}

#[test]
fn a_no_from_12_on_ends_and_one_before_leaves_the_bytes() {
    let (mut state, mut lent) = receiver(&[0xff; 3], 5);
    let opening = replied(&SIX, &query(&state, &lent));
    let mut output = vec![9; 8];
    assert_eq!(rcds_take(&mut state, &mut lent, &opening, &mut output), 0);
    // Places that no node has may hold anything.
    state[STATE_BYTES - 16..STATE_BYTES].fill(77);
    let before = state.clone();
    assert_eq!(rcds_take(&mut state, &mut lent, &opening, &mut output), 11);
    assert_eq!((&state, &output), (&before, &vec![9; 8]));
    let none = encode(&Message {
        session: 5,
        body: Body::None {
            level: 0,
            id: block_id(&SIX),
        },
    });
    assert_eq!(rcds_take(&mut state, &mut lent, &none, &mut output), 16);
    assert_eq!(output, [0; 8]);
    assert_eq!(row(&state, 6), 2);
    assert!(state[56..STATE_BYTES].iter().all(|&byte| byte == 0));
    assert_eq!(rcds_take(&mut state, &mut lent, &none, &mut output), 9);
}
