//! The calls of `include/rcds.h` that the two ends need, and the sizes of what they are lent.

pub const MAX_STRING: usize = 65_536;
pub const NODES_BYTES: usize = 65_536;
pub const SHINGLES_BYTES: usize = 98_304;
pub const CELLS_BYTES_PER_WIDTH: usize = 120;
pub const MAX_WIDTH: u64 = 64;
pub const SENDER_STATE_BYTES: usize = 40;
pub const RECEIVER_STATE_BYTES: usize = 2_144;
pub const QUERY_BYTES: usize = 24;

/// The bytes of the longest reply, a literal of the longest string: six words for head, level, id
/// and end, and a word for each three bytes.
pub const REPLY_BYTES: usize = 4 * (6 + MAX_STRING.div_ceil(3));

extern "C" {
    pub fn rcds_sender_setup(
        w: u64,
        p: u64,
        levels: u64,
        nominal: u64,
        width: u64,
        string: *const u8,
        string_len: usize,
        nodes: *mut u8,
        nodes_len: usize,
        shingles: *mut u8,
        shingles_len: usize,
        cells: *mut u8,
        cells_len: usize,
        state: *mut u8,
        state_len: usize,
    ) -> u64;

    pub fn rcds_reply(
        state: *const u8,
        state_len: usize,
        string: *const u8,
        string_len: usize,
        nodes: *const u8,
        nodes_len: usize,
        shingles: *const u8,
        shingles_len: usize,
        cells: *const u8,
        cells_len: usize,
        message: *const u8,
        message_len: usize,
        out: *mut u8,
        out_len: usize,
    ) -> u64;

    pub fn rcds_receiver_setup(
        w: u64,
        p: u64,
        levels: u64,
        nominal: u64,
        width: u64,
        session: u64,
        own: *const u8,
        own_len: usize,
        nodes: *mut u8,
        nodes_len: usize,
        shingles: *mut u8,
        shingles_len: usize,
        cells: *mut u8,
        cells_len: usize,
        state: *mut u8,
        state_len: usize,
    ) -> u64;

    pub fn rcds_query(
        state: *const u8,
        state_len: usize,
        own: *const u8,
        own_len: usize,
        nodes: *const u8,
        nodes_len: usize,
        shingles: *const u8,
        shingles_len: usize,
        cells: *const u8,
        cells_len: usize,
        out: *mut u8,
        out_len: usize,
    ) -> u64;

    pub fn rcds_take(
        state: *mut u8,
        state_len: usize,
        own: *const u8,
        own_len: usize,
        nodes: *const u8,
        nodes_len: usize,
        shingles: *mut u8,
        shingles_len: usize,
        cells: *const u8,
        cells_len: usize,
        message: *const u8,
        message_len: usize,
        output: *mut u8,
        output_len: usize,
    ) -> u64;
}
