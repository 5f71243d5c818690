//! What the two types pass on from the calls.

use rcds::{Receiver, Refusal, Sender, Settings, Taken};

const SETTINGS: Settings = Settings {
    window: 4,
    fan_out: 4,
    levels: 3,
    nominal: 4_096,
    width: 61,
};

fn refused(question: u64) -> Refusal {
    Refusal { question }
}

#[test]
fn a_string_is_handed_over_and_the_session_has_ended() {
    let sender = Sender::new(&SETTINGS, b"a string".to_vec()).unwrap();
    let mut receiver = Receiver::new(&SETTINGS, 5, Vec::new()).unwrap();
    let opening = sender.reply(&receiver.query().unwrap()).unwrap();
    assert_eq!(receiver.take(&opening), Ok(Taken::GoesOn));
    assert_eq!(receiver.take(&opening), Err(refused(11)));
    for _ in 0..SETTINGS.levels {
        let reply = sender.reply(&receiver.query().unwrap()).unwrap();
        assert_eq!(receiver.take(&reply), Ok(Taken::GoesOn));
    }
    let literal = sender.reply(&receiver.query().unwrap()).unwrap();
    assert_eq!(receiver.take(&literal), Ok(Taken::HandedOver(b"a string")));
    assert_eq!(receiver.query(), Err(refused(9)));
}

#[test]
fn an_empty_string_is_handed_over() {
    let sender = Sender::new(&SETTINGS, Vec::new()).unwrap();
    let mut receiver = Receiver::new(&SETTINGS, 5, Vec::new()).unwrap();
    let opening = sender.reply(&receiver.query().unwrap()).unwrap();
    assert_eq!(receiver.take(&opening), Ok(Taken::HandedOver(b"")));
}

#[test]
fn refusals_have_the_question() {
    let wide = Settings {
        width: u64::MAX,
        ..SETTINGS
    };
    assert_eq!(Sender::new(&wide, Vec::new()).err(), Some(refused(5)));
    let long = vec![0; 65_537];
    assert_eq!(Receiver::new(&SETTINGS, 5, long).err(), Some(refused(6)));
    let sender = Sender::new(&SETTINGS, Vec::new()).unwrap();
    assert_eq!(sender.reply(b"no message"), Err(refused(10)));
    assert!(refused(12).ends_session() && !refused(11).ends_session());
}
