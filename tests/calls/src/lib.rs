//! The calls of `include/rcds.h`, as the archive `librcds.a` has them. Nothing compares these declarations with
//! the header: each follows it parameter by parameter. A program that uses them links the archive.

extern "C" {
    pub fn rcds_tree(
        w: u64,
        p: u64,
        levels: u64,
        nominal: u64,
        string: *const u8,
        string_len: usize,
        nodes: *mut u8,
        nodes_len: usize,
    ) -> u64;

    pub fn rcds_crossed(
        string: *const u8,
        string_len: usize,
        nodes: *const u8,
        nodes_len: usize,
        start: u64,
        length: u64,
        crossed: *mut u8,
        crossed_len: usize,
    ) -> u64;

    pub fn rcds_most_blocks(n: u64, w: u64, h: u64) -> u64;

    pub fn rcds_trail_number(ids: *const u8, ids_len: usize) -> u64;

    pub fn rcds_trail_order(
        pairs: *const u8,
        pairs_len: usize,
        number: u64,
        ids: *mut u8,
        ids_len: usize,
    ) -> u64;

    pub fn rcds_message_type(message: *const u8, message_len: usize) -> u64;

    pub fn rcds_sender_setup(
        w: u64,
        p: u64,
        levels: u64,
        nominal: u64,
        width: u64,
        string: *const u8,
        string_len: usize,
        nodes: *mut u8,
        nodes_len: usize,
        shingles: *mut u8,
        shingles_len: usize,
        cells: *mut u8,
        cells_len: usize,
        state: *mut u8,
        state_len: usize,
    ) -> u64;

    pub fn rcds_reply(
        state: *const u8,
        state_len: usize,
        string: *const u8,
        string_len: usize,
        nodes: *const u8,
        nodes_len: usize,
        shingles: *const u8,
        shingles_len: usize,
        cells: *const u8,
        cells_len: usize,
        message: *const u8,
        message_len: usize,
        out: *mut u8,
        out_len: usize,
    ) -> u64;

    pub fn rcds_sketch_open(
        levels: u64,
        width: u64,
        theirs: *const u8,
        theirs_len: usize,
        own: *const u8,
        own_len: usize,
        shingles: *mut u8,
        shingles_len: usize,
    ) -> u64;

    pub fn rcds_strata_build(
        state: *const u8,
        state_len: usize,
        string: *const u8,
        string_len: usize,
        nodes: *const u8,
        nodes_len: usize,
        shingles: *const u8,
        shingles_len: usize,
        cells: *const u8,
        cells_len: usize,
        strata: *mut u8,
        strata_len: usize,
    ) -> u64;

    pub fn rcds_strata_estimate(
        state: *const u8,
        state_len: usize,
        string: *const u8,
        string_len: usize,
        nodes: *const u8,
        nodes_len: usize,
        shingles: *const u8,
        shingles_len: usize,
        cells: *const u8,
        cells_len: usize,
        theirs: *const u8,
        theirs_len: usize,
        own: *const u8,
        own_len: usize,
    ) -> u64;

    pub fn rcds_receiver_setup(
        w: u64,
        p: u64,
        levels: u64,
        nominal: u64,
        width: u64,
        session: u64,
        own: *const u8,
        own_len: usize,
        nodes: *mut u8,
        nodes_len: usize,
        shingles: *mut u8,
        shingles_len: usize,
        cells: *mut u8,
        cells_len: usize,
        state: *mut u8,
        state_len: usize,
    ) -> u64;

    pub fn rcds_query(
        state: *const u8,
        state_len: usize,
        own: *const u8,
        own_len: usize,
        nodes: *const u8,
        nodes_len: usize,
        shingles: *const u8,
        shingles_len: usize,
        cells: *const u8,
        cells_len: usize,
        out: *mut u8,
        out_len: usize,
    ) -> u64;

    pub fn rcds_take(
        state: *mut u8,
        state_len: usize,
        own: *const u8,
        own_len: usize,
        nodes: *const u8,
        nodes_len: usize,
        shingles: *mut u8,
        shingles_len: usize,
        cells: *const u8,
        cells_len: usize,
        message: *const u8,
        message_len: usize,
        output: *mut u8,
        output_len: usize,
    ) -> u64;
}
