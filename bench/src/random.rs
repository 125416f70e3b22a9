//! Random steps that often stand at a border.

use crate::rules::{Reply, Six, Sizes, Step, View};
use crate::twin::Twin;

/// Marsaglia's xorshift, 64 bits.
pub struct Random {
    state: u64,
}

impl Random {
    pub fn new(seed: u64) -> Random {
        Random {
            state: seed.wrapping_mul(0x9E37_79B9_7F4A_7C15) | 1,
        }
    }

    pub fn next(&mut self) -> u64 {
        self.state ^= self.state << 13;
        self.state ^= self.state >> 7;
        self.state ^= self.state << 17;
        self.state.wrapping_mul(0x2545_F491_4F6C_DD1D) >> 7
    }

    /// A number below this one.
    pub fn below(&mut self, bound: u64) -> u64 {
        self.next() % bound.max(1)
    }

    fn one_of(&mut self, from: &[u64]) -> u64 {
        let place = self.below(from.len() as u64) as usize;
        from.get(place).copied().unwrap_or(0)
    }

    /// One of these numbers, the one before it or after it; seldom any number.
    fn near(&mut self, borders: &[u64]) -> u64 {
        let border = self.one_of(borders);
        match self.below(40) {
            0 => self.next() << 7,
            1 => u64::MAX - self.below(2),
            2..=8 => border.wrapping_sub(1),
            9..=15 => border.wrapping_add(1),
            _ => border,
        }
    }
}

/// What the steps so far have left open, so that dones can name it.
#[derive(Default)]
pub struct Open {
    tickets: Vec<u64>,
    flights: Vec<u64>,
    cleanings: Vec<u64>,
}

impl Open {
    /// Takes in what a step was told.
    pub fn note(&mut self, step: &Step, reply: &Reply) {
        match (step, reply) {
            (Step::Take, Reply::Taken(waiting)) => self.tickets.push(waiting.ticket),
            (Step::FlushTake, Reply::Page(page)) => self.flights.push(*page),
            (Step::CleanTake, Reply::Page(page)) => self.cleanings.push(*page),
            (Step::Done { ticket }, _) => self.tickets.retain(|held| held != ticket),
            (Step::FlushDone { page, .. }, _) => self.flights.retain(|held| held != page),
            (Step::CleanDone { page }, _) => self.cleanings.retain(|held| held != page),
            _ => {}
        }
    }
}

/// How a round's steps are weighed: slots that are `still` hardly ever move on, so that epochs pile up to the window.
#[derive(Clone, Copy)]
pub struct Mood {
    pub still: bool,
}

fn slot(random: &mut Random, sizes: Sizes) -> u64 {
    match random.below(50) {
        0 => sizes.slots,
        1 => random.next() << 7,
        _ => random.below(sizes.slots),
    }
}

fn words(random: &mut Random, sizes: Sizes) -> u64 {
    match random.below(8) {
        0 => random.near(&[0, sizes.page_size]),
        1 => sizes.page_size,
        2 => 1,
        _ => 1 + random.below(sizes.page_size),
    }
}

/// An address at a border of what a slot sees, or anywhere in it.
fn address(random: &mut Random, view: View, six: &Six) -> u64 {
    if random.below(3) == 0 {
        return view.head + random.below(view.tail.saturating_sub(view.head));
    }
    random.near(&[
        view.read_only,
        view.head,
        view.tail,
        six.read_only,
        six.tail,
        six.head,
    ])
}

/// The next step.
pub fn step(random: &mut Random, twin: &Twin, open: &Open, sizes: Sizes, mood: Mood) -> Step {
    let six = twin.six();
    let slot = slot(random, sizes);
    let view = twin.view(slot).unwrap_or_default();
    let stays = mood.still && random.below(4000) != 0;
    match random.below(64) {
        0..=3 => Step::Acquire { slot },
        4..=12 | 46..=50 if stays => Step::Bare,
        4..=11 => Step::Refresh { slot },
        12 => Step::Release { slot },
        13..=15 => Step::Bump { tag: random.next() },
        16..=18 => Step::Settle,
        19..=21 => Step::Close,
        22 => Step::Bare,
        23..=28 => Step::Take,
        29..=34 => done(random, twin, open),
        35..=37 => raise(random, &six, sizes),
        38..=40 => shift(random, &six, sizes),
        41..=45 => {
            let words = words(random, sizes);
            Step::Allocate { slot, words }
        }
        46 => Step::Look {
            slot,
            read_only: random.near(&[view.read_only, six.read_only, six.tail]),
            head: random.near(&[view.head, six.head]),
        },
        47..=48 => Step::Write {
            slot,
            address: address(random, view, &six),
            value: random.next(),
        },
        49..=50 => Step::Read {
            slot,
            address: address(random, view, &six),
        },
        51..=54 => Step::FlushTake,
        55..=58 => Step::FlushDone {
            page: page(random, &open.flights, six.flushed / sizes.page_size),
            ok: random.below(5) != 0,
        },
        59..=61 => Step::CleanTake,
        _ => Step::CleanDone {
            page: page(random, &open.cleanings, six.closed / sizes.page_size),
        },
    }
}

fn done(random: &mut Random, twin: &Twin, open: &Open) -> Step {
    let ticket = if random.below(8) == 0 || open.tickets.is_empty() {
        let front = twin.pending().next().map_or(1, |waiting| waiting.ticket);
        random.near(&[front, twin.snapshot().epoch, 0])
    } else {
        random.one_of(&open.tickets)
    };
    Step::Done { ticket }
}

fn raise(random: &mut Random, six: &Six, sizes: Sizes) -> Step {
    let to = match random.below(4) {
        0 => random.near(&[six.read_only, six.tail]),
        1 => six.tail / sizes.page_size * sizes.page_size,
        2 => six.tail,
        _ => six.read_only + 1 + random.below(six.tail - six.read_only),
    };
    Step::Raise { to }
}

fn shift(random: &mut Random, six: &Six, sizes: Sizes) -> Step {
    let pages = (six.flushed - six.head) / sizes.page_size;
    let to = match random.below(4) {
        0 => random.near(&[six.head, six.flushed, six.flushed + sizes.page_size]),
        1 => six.flushed,
        _ => six.head + (1 + random.below(pages)) * sizes.page_size,
    };
    Step::Shift { to }
}

fn page(random: &mut Random, out: &[u64], border: u64) -> u64 {
    if random.below(8) == 0 || out.is_empty() {
        random.near(&[border, 0])
    } else {
        random.one_of(out)
    }
}
