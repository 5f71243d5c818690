//! The calls of `include/rcds.h`, on slices, and the two ends with the memory that they lend.

/// RCDS_MAX_STRING.
pub const MAX_STRING: usize = 65_536;

/// RCDS_QUERY_BYTES.
pub const QUERY_BYTES: usize = 24;

/// RCDS_STRATA_BYTES.
pub const STRATA_BYTES: usize = 7_680;

/// Bytes that are enough for every reply: a literal of the longest string.
pub const REPLY_BYTES: usize = 24 + 4 * MAX_STRING.div_ceil(3);

/// w, p, L, M and q.
#[derive(Clone, Copy, Debug)]
pub struct Settings(pub [u64; 5]);

impl std::fmt::Display for Settings {
    fn fmt(&self, f: &mut std::fmt::Formatter<'_>) -> std::fmt::Result {
        let [w, p, levels, nominal, width] = self.0;
        write!(f, "{w} {p} {levels} {nominal} {width}")
    }
}

/// An answer's count, or the number of the question that refused.
fn answered(answer: u64) -> Result<usize, u64> {
    match answer {
        1..=0xffff_ffff => Err(answer),
        _ => Ok((answer & 0xffff_ffff) as usize),
    }
}

/// The memory that an end lends, but for messages and output.
pub struct End {
    pub string: Vec<u8>,
    pub nodes: Vec<u8>,
    pub shingles: Vec<u8>,
    pub cells: Vec<u8>,
    pub state: Vec<u8>,
}

impl End {
    fn new(string: &[u8], width: u64, state: usize) -> End {
        End {
            string: string.to_vec(),
            nodes: vec![0; 65_536],
            shingles: vec![0; 98_304],
            cells: vec![0; 120 * width as usize],
            state: vec![0; state],
        }
    }
}

// In every call below the slices are there in full and those lent for writing overlap no other.

/// A sender after its setup, or the question that refused it.
pub fn sender(settings: &Settings, string: &[u8]) -> Result<End, u64> {
    let [w, p, levels, nominal, width] = settings.0;
    let mut end = End::new(string, width, 40);
    answered(unsafe {
        ::calls::rcds_sender_setup(
            w,
            p,
            levels,
            nominal,
            width,
            end.string.as_ptr(),
            end.string.len(),
            end.nodes.as_mut_ptr(),
            end.nodes.len(),
            end.shingles.as_mut_ptr(),
            end.shingles.len(),
            end.cells.as_mut_ptr(),
            end.cells.len(),
            end.state.as_mut_ptr(),
            end.state.len(),
        )
    })?;
    Ok(end)
}

/// A receiver after its setup, or the question that refused it.
pub fn receiver(settings: &Settings, session: u64, own: &[u8]) -> Result<End, u64> {
    let [w, p, levels, nominal, width] = settings.0;
    let mut end = End::new(own, width, 2_144);
    answered(unsafe {
        ::calls::rcds_receiver_setup(
            w,
            p,
            levels,
            nominal,
            width,
            session,
            end.string.as_ptr(),
            end.string.len(),
            end.nodes.as_mut_ptr(),
            end.nodes.len(),
            end.shingles.as_mut_ptr(),
            end.shingles.len(),
            end.cells.as_mut_ptr(),
            end.cells.len(),
            end.state.as_mut_ptr(),
            end.state.len(),
        )
    })?;
    Ok(end)
}

/// The sender's reply to a message, its length.
pub fn reply(end: &End, message: &[u8], out: &mut [u8]) -> Result<usize, u64> {
    answered(unsafe {
        ::calls::rcds_reply(
            end.state.as_ptr(),
            end.state.len(),
            end.string.as_ptr(),
            end.string.len(),
            end.nodes.as_ptr(),
            end.nodes.len(),
            end.shingles.as_ptr(),
            end.shingles.len(),
            end.cells.as_ptr(),
            end.cells.len(),
            message.as_ptr(),
            message.len(),
            out.as_mut_ptr(),
            out.len(),
        )
    })
}

/// The receiver's outstanding query, its length.
pub fn query(end: &End, out: &mut [u8]) -> Result<usize, u64> {
    answered(unsafe {
        ::calls::rcds_query(
            end.state.as_ptr(),
            end.state.len(),
            end.string.as_ptr(),
            end.string.len(),
            end.nodes.as_ptr(),
            end.nodes.len(),
            end.shingles.as_ptr(),
            end.shingles.len(),
            end.cells.as_ptr(),
            end.cells.len(),
            out.as_mut_ptr(),
            out.len(),
        )
    })
}

/// Takes a message: nothing while the session goes on, else the length of what is handed over.
pub fn take(end: &mut End, message: &[u8], output: &mut [u8]) -> Result<Option<usize>, u64> {
    let answer = unsafe {
        ::calls::rcds_take(
            end.state.as_mut_ptr(),
            end.state.len(),
            end.string.as_ptr(),
            end.string.len(),
            end.nodes.as_ptr(),
            end.nodes.len(),
            end.shingles.as_mut_ptr(),
            end.shingles.len(),
            end.cells.as_ptr(),
            end.cells.len(),
            message.as_ptr(),
            message.len(),
            output.as_mut_ptr(),
            output.len(),
        )
    };
    let length = answered(answer)?;
    Ok((answer != 0).then_some(length))
}

/// Opens a sketch; the length of the new list.
pub fn sketch_open(
    levels: u64,
    width: u64,
    theirs: &[u8],
    own: &[u8],
    shingles: &mut [u8],
) -> Result<usize, u64> {
    answered(unsafe {
        ::calls::rcds_sketch_open(
            levels,
            width,
            theirs.as_ptr(),
            theirs.len(),
            own.as_ptr(),
            own.len(),
            shingles.as_mut_ptr(),
            shingles.len(),
        )
    })
}

/// Builds the strata of an end's shingle list.
pub fn strata_build(end: &End, strata: &mut [u8]) -> Result<usize, u64> {
    answered(unsafe {
        ::calls::rcds_strata_build(
            end.state.as_ptr(),
            end.state.len(),
            end.string.as_ptr(),
            end.string.len(),
            end.nodes.as_ptr(),
            end.nodes.len(),
            end.shingles.as_ptr(),
            end.shingles.len(),
            end.cells.as_ptr(),
            end.cells.len(),
            strata.as_mut_ptr(),
            strata.len(),
        )
    })
}

/// About how many shingles differ, from the other end's strata and the own ones.
pub fn strata_estimate(end: &End, theirs: &[u8], own: &[u8]) -> Result<usize, u64> {
    answered(unsafe {
        ::calls::rcds_strata_estimate(
            end.state.as_ptr(),
            end.state.len(),
            end.string.as_ptr(),
            end.string.len(),
            end.nodes.as_ptr(),
            end.nodes.len(),
            end.shingles.as_ptr(),
            end.shingles.len(),
            end.cells.as_ptr(),
            end.cells.len(),
            theirs.as_ptr(),
            theirs.len(),
            own.as_ptr(),
            own.len(),
        )
    })
}

/// Cuts a string; how many nodes its tree has.
pub fn tree(settings: &Settings, string: &[u8], nodes: &mut [u8]) -> Result<usize, u64> {
    let [w, p, levels, nominal, _] = settings.0;
    answered(unsafe {
        ::calls::rcds_tree(
            w,
            p,
            levels,
            nominal,
            string.as_ptr(),
            string.len(),
            nodes.as_mut_ptr(),
            nodes.len(),
        )
    })
}

/// How many nodes a range of the string crosses.
pub fn crossed(
    string: &[u8],
    nodes: &[u8],
    [start, length]: [u64; 2],
    table: &mut [u8],
) -> Result<usize, u64> {
    answered(unsafe {
        ::calls::rcds_crossed(
            string.as_ptr(),
            string.len(),
            nodes.as_ptr(),
            nodes.len(),
            start,
            length,
            table.as_mut_ptr(),
            table.len(),
        )
    })
}

/// The most blocks of so many bytes from one cutting.
pub fn most_blocks(length: u64, w: u64, h: u64) -> Result<usize, u64> {
    answered(unsafe { ::calls::rcds_most_blocks(length, w, h) })
}

/// The type of a message.
pub fn message_type(message: &[u8]) -> Result<usize, u64> {
    answered(unsafe { ::calls::rcds_message_type(message.as_ptr(), message.len()) })
}

/// The number of an order.
pub fn trail_number(ids: &[u8]) -> Result<usize, u64> {
    answered(unsafe { ::calls::rcds_trail_number(ids.as_ptr(), ids.len()) })
}

/// The order of a number; how many ids it has.
pub fn trail_order(pairs: &[u8], number: u64, ids: &mut [u8]) -> Result<usize, u64> {
    answered(unsafe {
        ::calls::rcds_trail_order(
            pairs.as_ptr(),
            pairs.len(),
            number,
            ids.as_mut_ptr(),
            ids.len(),
        )
    })
}
