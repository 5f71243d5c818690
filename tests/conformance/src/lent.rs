//! Buffers that are lent to a call, between guard bytes. `RCDS_LENT` in the environment says where they
//! stand otherwise; what is drawn, and so every case, stays the same. A buffer of 0 bytes is lent as null,
//! and buffers for reading that hold the same bytes are lent as one memory.

use crate::failure::Difference;
use crate::pages::Pages;
use crate::random::Random;
use std::ptr::{null, null_mut};
use std::sync::OnceLock;

/// Bytes on each side of a lent buffer that no call may change.
const GUARD: usize = 64;

/// What fills the rest of the pages beside a lent buffer.
const BESIDE: u8 = 0xa5;

/// Where lent buffers stand.
#[derive(Clone, Copy, Debug, PartialEq, Eq)]
pub enum Place {
    /// Between guard bytes.
    Guarded,
    /// `after`: the pages after the buffer's last byte may not be touched.
    FlushWithTheEnd,
    /// `before`: the pages before the buffer's first byte may not be touched.
    FlushWithTheStart,
    /// `heap`: in a block of the heap of exactly its length, around which valgrind keeps watch.
    Alone,
}

/// Where this process lends its buffers.
pub fn place() -> Place {
    static PLACE: OnceLock<Place> = OnceLock::new();
    *PLACE.get_or_init(|| match std::env::var("RCDS_LENT").as_deref() {
        Err(_) => Place::Guarded,
        Ok("after") => Place::FlushWithTheEnd,
        Ok("before") => Place::FlushWithTheStart,
        Ok("heap") => Place::Alone,
        Ok(other) => panic!("RCDS_LENT={other}: after, before or heap"),
    })
}

/// The bytes of a buffer and those beside it that may be looked at.
enum Memory {
    Vector(Vec<u8>),
    Pages(Pages),
}

impl Memory {
    fn bytes(&self) -> &[u8] {
        match self {
            Memory::Vector(bytes) => bytes,
            Memory::Pages(pages) => pages.bytes(),
        }
    }
}

/// A lent buffer, and what is beside it.
pub struct Lent {
    name: &'static str,
    before: Vec<u8>,
    memory: Memory,
    start: usize,
    length: usize,
}

impl Lent {
    /// Lends `bytes`; between guard bytes, at an address that is `shift` past the allocation's guard.
    pub fn new(name: &'static str, bytes: &[u8], shift: usize, random: &mut Random) -> Lent {
        let mut guarded = random.bytes(GUARD + shift);
        guarded.extend(bytes);
        guarded.extend(random.bytes(GUARD));
        let in_pages = |at_end: bool| {
            let mut pages = Pages::holding(bytes.len());
            let all = pages.bytes_mut();
            let start = if at_end { all.len() - bytes.len() } else { 0 };
            all.fill(BESIDE);
            all[start..start + bytes.len()].copy_from_slice(bytes);
            (start, Memory::Pages(pages))
        };
        let (start, memory) = match place() {
            Place::Guarded => (GUARD + shift, Memory::Vector(guarded)),
            Place::FlushWithTheEnd => in_pages(true),
            Place::FlushWithTheStart => in_pages(false),
            Place::Alone => (0, Memory::Vector(bytes.to_vec())),
        };
        Lent {
            name,
            before: memory.bytes().to_vec(),
            memory,
            start,
            length: bytes.len(),
        }
    }

    /// Where the buffer stands; null, if it has no bytes.
    pub fn pointer(&mut self) -> *mut u8 {
        if self.length == 0 {
            return null_mut();
        }
        let first = match &mut self.memory {
            Memory::Vector(bytes) => bytes.as_mut_ptr(),
            Memory::Pages(pages) => pages.pointer(),
        };
        // The start lies inside the memory or at its end, and the pointer may reach both sides of it.
        unsafe { first.add(self.start) }
    }

    pub fn length(&self) -> usize {
        self.length
    }

    pub fn bytes(&self) -> &[u8] {
        &self.memory.bytes()[self.start..self.start + self.length]
    }

    /// That the buffer holds these bytes, and that nothing beside it is changed.
    pub fn expect(&self, expected: &[u8]) -> Result<(), Difference> {
        match first_difference(expected, self.bytes()) {
            Some(place) => Err(Difference::Byte {
                buffer: self.name,
                place,
                expected: expected[place],
                given: self.bytes()[place],
            }),
            None => self.outside(),
        }
    }

    /// That the buffer, which was lent for reading, and what is beside it are as before.
    pub fn expect_unchanged(&self) -> Result<(), Difference> {
        self.expect(&self.before[self.start..self.start + self.length])
    }

    /// That every byte outside the buffer is as before.
    fn outside(&self) -> Result<(), Difference> {
        let (memory, end) = (self.memory.bytes(), self.start + self.length);
        let mut outside = (0..self.start).chain(end..memory.len());
        match outside.find(|&i| memory[i] != self.before[i]) {
            Some(place) => Err(Difference::Outside {
                buffer: self.name,
                place: place as isize - self.start as isize,
            }),
            None => Ok(()),
        }
    }
}

/// Where buffers stand that a call is lent for reading: those with the same bytes in the first one's memory.
pub fn for_reading<const N: usize>(lent: [&mut Lent; N]) -> [*const u8; N] {
    let mut pointers = [null(); N];
    for k in 0..N {
        let same = (0..k).find(|&i| lent[i].bytes() == lent[k].bytes());
        pointers[k] = lent[same.unwrap_or(k)].pointer();
    }
    pointers
}

/// Whether two of the buffers stand in one memory.
pub fn is_shared(pointers: &[*const u8]) -> bool {
    let again = |k: usize| !pointers[k].is_null() && pointers[..k].contains(&pointers[k]);
    (0..pointers.len()).any(again)
}

/// A lent piece as a function sees it that is wrong on purpose: null stands for no bytes.
#[cfg(test)]
pub(crate) unsafe fn part<'a>(at: *const u8, length: usize) -> &'a [u8] {
    match at.is_null() {
        true => &[],
        false => std::slice::from_raw_parts(at, length),
    }
}

/// The same of one that is lent for writing.
#[cfg(test)]
pub(crate) unsafe fn part_mut<'a>(at: *mut u8, length: usize) -> &'a mut [u8] {
    match at.is_null() {
        true => &mut [],
        false => std::slice::from_raw_parts_mut(at, length),
    }
}

/// The first place in which two buffers of one length differ.
fn first_difference(expected: &[u8], given: &[u8]) -> Option<usize> {
    if expected == given {
        return None;
    }
    (0..expected.len()).find(|&i| expected[i] != given[i])
}

#[cfg(test)]
mod tests {
    use super::{for_reading, is_shared, Lent};
    use crate::random::Random;
    use std::os::unix::process::ExitStatusExt;
    use std::process::Command;

    const SIGSEGV: i32 = 11;

    /// Reads or writes, in this process, one byte at so many from the start of a lent buffer.
    fn touch(length: usize, at: isize, write: bool) {
        let mut lent = Lent::new("piece", &vec![7; length], 3, &mut Random::of_case(1, 1));
        // Outside the buffer this is what no call may do.
        unsafe {
            let byte = lent.pointer().wrapping_offset(at);
            match write {
                true => byte.write_volatile(1),
                false => assert!(byte.read_volatile() == 7),
            }
        }
    }

    /// The signal that ends a process of its own which does the same.
    fn signal(place: &str, length: usize, at: isize, write: bool) -> Option<i32> {
        let mut child = Command::new(std::env::current_exe().expect("this test's program"));
        child.args(["--exact", "lent::tests::a_byte_outside_ends_the_process"]);
        child.env("RCDS_LENT", place);
        child.env("RCDS_TOUCH", format!("{length} {at} {write}"));
        let status = child.output().expect("it can be run").status;
        assert!(status.success() || status.signal().is_some(), "{status}");
        status.signal()
    }

    #[test]
    fn no_bytes_are_null_and_equal_ones_stand_in_one_memory() {
        let mut random = Random::of_case(1, 1);
        let mut lend = |bytes: &[u8]| Lent::new("piece", bytes, 3, &mut random);
        let [mut none, mut one, mut other, mut same] = [&[][..], &[7], &[8], &[7]].map(&mut lend);
        let mut also_none = lend(&[]);
        assert!(none.pointer().is_null());
        let pointers = for_reading([&mut none, &mut one, &mut other, &mut same, &mut also_none]);
        assert!(pointers[0].is_null() && pointers[4].is_null());
        assert_eq!(pointers[1], pointers[3]);
        assert_ne!(pointers[1], pointers[2]);
        assert!(is_shared(&pointers));
        assert!(!is_shared(&for_reading([
            &mut none,
            &mut one,
            &mut other,
            &mut also_none
        ])));
    }

    #[test]
    fn a_byte_outside_ends_the_process() {
        if let Ok(text) = std::env::var("RCDS_TOUCH") {
            let words: Vec<&str> = text.split(' ').collect();
            let (length, at) = (words[0].parse().unwrap(), words[1].parse().unwrap());
            return touch(length, at, words[2] == "true");
        }
        for length in [0, 40, 65_536] {
            let end = length as isize;
            for write in [false, true] {
                assert_eq!(signal("after", length, end, write), Some(SIGSEGV));
                assert_eq!(signal("before", length, -1, write), Some(SIGSEGV));
                if length > 0 {
                    for place in ["after", "before"] {
                        assert_eq!(signal(place, length, 0, write), None);
                        assert_eq!(signal(place, length, end - 1, write), None);
                    }
                }
            }
        }
    }
}
