//! Random numbers, and a journal stepped through by a core and a plain row of words.

pub mod journal;
pub mod noted;

use hl::{Core, Done, Fault, Sizes, Snapshot};
use journal::{Entry, Reply, Step};
use std::collections::HashMap;
use std::fmt::Write;

/// Words a page, frames, slots, places in the drain list.
pub const SIZES: [[u64; 4]; 6] = [
    [4, 2, 4, 1],
    [4, 3, 5, 64],
    [8, 4, 4, 4],
    [16, 5, 6, 8],
    [64, 7, 64, 3],
    [32, 33, 17, 9],
];

/// The sizes of a round.
pub fn sizes(round: u64) -> Sizes {
    let [page_size, frames, slots, drain] = SIZES[(round % SIZES.len() as u64) as usize];
    Sizes::checked(page_size, frames, slots, drain).expect("sizes in range")
}

/// Marsaglia's xorshift, 64 bits.
pub struct Random(u64);

impl Random {
    pub fn new(seed: u64) -> Random {
        Random(seed.wrapping_mul(0x9E37_79B9_7F4A_7C15) | 1)
    }

    pub fn next(&mut self) -> u64 {
        self.0 ^= self.0 << 13;
        self.0 ^= self.0 >> 7;
        self.0 ^= self.0 << 17;
        self.0.wrapping_mul(0x2545_F491_4F6C_DD1D) >> 7
    }

    /// A number below this one, and 0 for 0.
    pub fn below(&mut self, bound: u64) -> u64 {
        self.next() % bound.max(1)
    }

    pub fn one_of(&mut self, from: &[u64]) -> u64 {
        from.get(self.below(from.len() as u64) as usize)
            .copied()
            .unwrap_or(0)
    }

    /// A number near this one.
    pub fn near(&mut self, number: u64) -> u64 {
        (number + self.below(5)).saturating_sub(2)
    }
}

/// What the core and the words tell of a step.
fn told(core: &Core, words: &mut HashMap<u64, u64>, step: &Step) -> Result<Reply, Fault> {
    Ok(match *step {
        Step::Acquire { slot } => Reply::Entered(core.enter(slot)?),
        Step::Refresh { slot } => Reply::Entered(core.refresh(slot)?),
        Step::Release { slot } => core.release(slot).map(|()| Reply::Left)?,
        Step::Bump { tag } => Reply::Ticket(core.bump(tag)?),
        Step::Settle => Reply::Ticket(core.settle()?),
        Step::Close => Reply::Ticket(core.close()?),
        Step::Bare => Reply::Bumped(core.bare()?),
        Step::Take => Reply::Taken(core.take()?.ticket),
        Step::Done { ticket } => Reply::Done(core.done(ticket)?),
        Step::Raise { to } => Reply::Raised(core.raise(to)?),
        Step::Shift { to } => Reply::Shifted(core.shift(to)?),
        Step::Allocate { slot, words } => Reply::At(core.allocate(slot, words)?),
        Step::Look {
            slot,
            read_only,
            head,
        } => Reply::Looked(core.look(slot, read_only, head)?),
        Step::Store { slot, address, word } => {
            core.may_write(slot, address)?;
            words.insert(address, word);
            Reply::Stored
        }
        Step::Load { slot, address } => {
            core.may_read(slot, address)?;
            Reply::Loaded(words.get(&address).copied().unwrap_or(0))
        }
        Step::FlushTake => Reply::Page(core.flush_take()?),
        Step::FlushDone { page, ok } => Reply::Flushed(core.flush_done(page, ok)?),
        Step::CleanTake => Reply::Page(core.clean_take()?),
        Step::CleanDone { page } => Reply::Freed(core.clean_done(page)?),
    })
}

/// Steps a fresh core, and words by address, through a journal: each answer is to be the journal's, and all quantities
/// at the end the log's.
pub fn replay(sizes: Sizes, journal: &[Entry], last: Snapshot) {
    let core = Core::open(sizes).expect("memory");
    let mut words = HashMap::new();
    for (number, entry) in journal.iter().enumerate() {
        let wanted = told(&core, &mut words, &entry.step);
        assert_eq!(wanted, entry.reply, "step {number} {:?} at {sizes:?}", entry.step);
    }
    assert_eq!(core.snapshot(), last);
}

/// Writes a journal as a script and its text into the folder that `HL_JOURNALS` names, if it does, so that
/// `./hl run` can be asked for the text, too.
pub fn write_script(name: &str, sizes: Sizes, journal: &[Entry]) {
    let Some(folder) = std::env::var_os("HL_JOURNALS") else {
        return;
    };
    let (page_size, frames) = (sizes.page_size(), sizes.frames());
    let mut script = format!(
        "config {page_size} {frames} {} {}\n",
        sizes.slots(),
        sizes.drain_places()
    );
    let mut text = String::from("opened\n");
    for Entry { step, reply } in journal {
        writeln!(script, "{step}").expect("a string takes it");
        match (step, reply) {
            // The program's jobs answer their tag and their ticket.
            (Step::Done { ticket }, Ok(Reply::Done(Done::Job(tag)))) => {
                writeln!(text, "answer {}", tag + ticket)
            }
            (_, Ok(reply)) => writeln!(text, "{reply}"),
            (_, Err(fault)) => writeln!(text, "{fault}"),
        }
        .expect("a string takes it");
    }
    let path = std::path::Path::new(&folder).join(name);
    std::fs::write(path.with_extension("script"), script).expect("the folder takes it");
    std::fs::write(path.with_extension("expected"), text).expect("the folder takes it");
}
