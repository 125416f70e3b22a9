//! Small records, placed without the lock.

/// A piece of the log that one call placed, from which records are taken without the lock: the usual way to place small
/// ones. [`Pass::lease`](crate::Pass::lease) makes it. It gives no right: each store still asks the pass. What is left of
/// it may be dropped, since nobody else gets its words.
///
/// ```
/// use hl::{Log, Sizes};
///
/// let log = Log::open(Sizes::checked(16, 2, 1, 4)?)?;
/// let mut pass = log.acquire(0)?;
/// let mut lease = pass.lease(8)?;
/// assert_eq!([lease.take(3), lease.take(3), lease.take(3)], [Some(0), Some(3), None]);
/// assert_eq!(lease.left(), 2);
/// # Ok::<(), hl::Fault>(())
/// ```
#[derive(Debug, Default)]
pub struct Lease {
    next: u64,
    end: u64,
}

impl Lease {
    pub(crate) fn of(address: u64, words: u64) -> Lease {
        Lease {
            next: address,
            end: address + words,
        }
    }

    /// Takes a record of so many words from the front of what is left: its address. None, and nothing is taken, of no
    /// words, or of more than are left.
    pub fn take(&mut self, words: u64) -> Option<u64> {
        if words == 0 || words > self.left() {
            return None;
        }
        let address = self.next;
        self.next += words;
        Some(address)
    }

    /// How many words are left.
    pub fn left(&self) -> u64 {
        self.end - self.next
    }
}
