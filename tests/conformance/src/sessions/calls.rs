//! The five calls of a session and the type of its messages, as C declares them.

pub use crate::messages::MessageType;
pub use crate::replies::Reply;
pub use crate::setups::SenderSetup;

/// `rcds_receiver_setup`
pub type ReceiverSetup = unsafe extern "C" fn(
    u64,
    u64,
    u64,
    u64,
    u64,
    u64,
    *const u8,
    usize,
    *mut u8,
    usize,
    *mut u8,
    usize,
    *mut u8,
    usize,
    *mut u8,
    usize,
) -> u64;

/// `rcds_query`
pub type Query = unsafe extern "C" fn(
    *const u8,
    usize,
    *const u8,
    usize,
    *const u8,
    usize,
    *const u8,
    usize,
    *const u8,
    usize,
    *mut u8,
    usize,
) -> u64;

/// `rcds_take`
pub type Take = unsafe extern "C" fn(
    *mut u8,
    usize,
    *const u8,
    usize,
    *const u8,
    usize,
    *mut u8,
    usize,
    *const u8,
    usize,
    *const u8,
    usize,
    *mut u8,
    usize,
) -> u64;

/// What is compared with the reference.
#[derive(Clone, Copy)]
pub struct Calls {
    pub sender_setup: SenderSetup,
    pub reply: Reply,
    pub receiver_setup: ReceiverSetup,
    pub query: Query,
    pub take: Take,
    pub message_type: MessageType,
}
