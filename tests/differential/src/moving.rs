//! W-214: what moving the index costs a run of whole appends, from its images alone.

use crate::images::{get64, listed};

/// The entries that a whole append between these two images has copied: those listed before, where it
/// has moved the index. That has more slots then, but may lie where it lay: one without slots takes no
/// room.
pub fn copied(before: &[u8], after: &[u8]) -> u64 {
    if slots(after) == slots(before) {
        0
    } else {
        listed(before)
    }
}

fn slots(image: &[u8]) -> u64 {
    get64(image, 16)
}

/// A run of whole appends, refused ones among them, so far.
pub struct Moving {
    /// Slots at the start.
    first: u64,
    moved: bool,
    /// All that the appends say they copy.
    sum: u64,
}

impl Moving {
    /// From any image that opens.
    pub fn from(start: &[u8]) -> Moving {
        Moving { first: slots(start), moved: false, sum: 0 }
    }

    /// Adds an append with what it says it copies, 0 where it is refused. The sum "is at most the
    /// final slots less the first slots, and, if the index has moved at all, fewer than twice the
    /// entries listed at the end".
    pub fn add(&mut self, before: &[u8], after: &[u8], copied: u64) -> Result<(), String> {
        self.moved |= slots(after) != slots(before);
        self.sum += copied;
        let (first, sum, last, listed) = (self.first, self.sum, slots(after), listed(after));
        if first + sum > last {
            return Err(format!("{sum} entries copied in all, slots from {first} to {last}"));
        }
        if self.moved && sum >= 2 * listed {
            return Err(format!("{sum} entries copied in all, {listed} listed at the end"));
        }
        Ok(())
    }
}
