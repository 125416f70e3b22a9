//! Steps the twin and the door side by side, and compares what they tell.

use crate::door::{Door, Outcome};
use crate::random::{self, Mood, Open, Random};
use crate::rules::{Sizes, Step};
use crate::told;
use crate::twin::Twin;

/// Words a page, frames, slots, places in the drain list.
const SIZES: [[u64; 4]; 10] = [
    [4, 2, 1, 1],
    [4, 2, 2, 2],
    [4, 3, 3, 64],
    [8, 4, 4, 4],
    [16, 5, 2, 8],
    [64, 7, 64, 3],
    [4096, 2, 5, 5],
    [4, 256, 8, 64],
    [32, 33, 17, 9],
    [4096, 256, 64, 64],
];
/// The steps of a round, after which both are opened anew.
const ROUND: u64 = 20_000;
/// All that can be asked is compared after so many steps; after each of them one of each query.
const WHOLE: u64 = 64;

/// How often each number was told, by kind of step and number.
struct Met {
    counts: [[u64; 33]; 19],
}

/// Runs so many steps of this seed. The answer is whether no difference was found.
pub fn run(steps: u64, seed: u64) -> bool {
    if !opens() {
        return false;
    }
    let mut random = Random::new(seed);
    let mut met = Met {
        counts: [[0; 33]; 19],
    };
    let mut made = 0;
    for round in 0.. {
        if made == steps {
            break;
        }
        let length = ROUND.min(steps - made);
        if let Err(difference) = one_round(&mut random, round, length, &mut met) {
            println!("difference in round {round} of seed {seed}: {difference}");
            return false;
        }
        made += length;
    }
    met.print();
    println!("{steps} steps of seed {seed}: no difference");
    true
}

/// Both at the same sizes, through a round.
fn one_round(random: &mut Random, round: u64, length: u64, met: &mut Met) -> Result<(), String> {
    let [page_size, frames, slots, drain] = SIZES[(round % SIZES.len() as u64) as usize];
    let sizes = Sizes::checked(page_size, frames, slots, drain).expect("sizes in range");
    let mood = Mood {
        still: random.below(3) == 0,
    };
    let (mut twin, mut door, mut open) = (Twin::open(sizes), Door::open(sizes), Open::default());
    for number in 0..length {
        let step = random::step(random, &twin, &open, sizes, mood);
        let wanted = twin.step(&step);
        if let Ok(reply) = &wanted {
            open.note(&step, reply);
        }
        let wanted = told::of_step(&wanted);
        same(
            &format!("step {number} {step:?} at {sizes:?}"),
            wanted,
            door.step(&step),
        )?;
        met.note(&step, &wanted);
        sampled(random, &twin, &mut door, sizes)
            .map_err(|what| format!("after step {number} {step:?}: {what}"))?;
        if number % WHOLE == 0 {
            whole(&twin, &mut door, sizes).map_err(|what| format!("after step {number} {step:?}: {what}"))?;
        }
    }
    whole(&twin, &mut door, sizes)
}

fn same<T: PartialEq + std::fmt::Debug>(what: &str, twin: T, door: T) -> Result<(), String> {
    if twin == door {
        Ok(())
    } else {
        Err(format!("{what}: the twin tells {twin:?}, the core {door:?}"))
    }
}

/// One of each query.
fn sampled(random: &mut Random, twin: &Twin, door: &mut Door, sizes: Sizes) -> Result<(), String> {
    same("six", told::of_six(&twin.six()), door.six())?;
    same("snapshot", told::of_snapshot(&twin.snapshot()), door.snapshot())?;
    let place = random.below(twin.pending().len() as u64 + 2);
    same("pending", told::of_pending(twin, place), door.pending(place))?;
    let frame = random.below(sizes.frames + 1);
    same("frame", told::of_frame(twin.frame(frame)), door.frame(frame))?;
    let slot = random.below(sizes.slots + 1);
    same(
        "view",
        told::of_view(sizes.slots, slot, twin.view(slot)),
        door.view(slot),
    )
}

/// Everything that can be asked.
fn whole(twin: &Twin, door: &mut Door, sizes: Sizes) -> Result<(), String> {
    for place in (0..=twin.pending().len() as u64).chain([u64::MAX]) {
        same("pending", told::of_pending(twin, place), door.pending(place))?;
    }
    for frame in (0..=sizes.frames).chain([u64::MAX]) {
        same("frame", told::of_frame(twin.frame(frame)), door.frame(frame))?;
    }
    for slot in (0..=sizes.slots).chain([u64::MAX]) {
        same(
            "view",
            told::of_view(sizes.slots, slot, twin.view(slot)),
            door.view(slot),
        )?;
    }
    Ok(())
}

/// A door that is closed or open already, and sizes out of range.
fn opens() -> bool {
    let mut door = Door::closed();
    let closed = door.free() == 255 && door.step(&Step::Take).number == 255 && door.six().number == 255;
    let borders = [
        3,
        4,
        5,
        6,
        8,
        2048,
        4096,
        4097,
        8192,
        0,
        1,
        2,
        64,
        65,
        256,
        257,
        u64::MAX,
    ];
    let mut agree = closed;
    for page_size in borders {
        for other in borders {
            for [frames, slots, drain] in [[other, 2, 2], [2, other, 2], [2, 2, other]] {
                let wanted = if Sizes::checked(page_size, frames, slots, drain).is_some() {
                    0
                } else {
                    254
                };
                agree &= door.try_open(page_size, frames, slots, drain) == wanted;
                agree &= door.free() == if wanted == 0 { 0 } else { 255 };
            }
        }
    }
    agree &= door.try_open(4, 2, 2, 2) == 0
        && door.step(&Step::Bare)
            == Outcome {
                a: 1,
                ..Outcome::default()
            };
    agree &= door.try_open(4, 2, 2, 2) == 255 && door.snapshot().epoch == 2;
    if !agree {
        println!("difference in opening or freeing");
    }
    agree
}

const KINDS: [&str; 19] = [
    "acquire",
    "refresh",
    "release",
    "bump",
    "settle",
    "close",
    "bare",
    "take",
    "done",
    "raise",
    "shift",
    "allocate",
    "look",
    "write",
    "read",
    "flush take",
    "flush done",
    "clean take",
    "clean done",
];

impl Met {
    fn note(&mut self, step: &Step, told: &Outcome) {
        let kind = match step {
            Step::Acquire { .. } => 0,
            Step::Refresh { .. } => 1,
            Step::Release { .. } => 2,
            Step::Bump { .. } => 3,
            Step::Settle => 4,
            Step::Close => 5,
            Step::Bare => 6,
            Step::Take => 7,
            Step::Done { .. } => 8,
            Step::Raise { .. } => 9,
            Step::Shift { .. } => 10,
            Step::Allocate { .. } => 11,
            Step::Look { .. } => 12,
            Step::Write { .. } => 13,
            Step::Read { .. } => 14,
            Step::FlushTake => 15,
            Step::FlushDone { .. } => 16,
            Step::CleanTake => 17,
            Step::CleanDone { .. } => 18,
        };
        self.counts[kind][told.number as usize] += 1;
    }

    /// What was met: accepted steps, and refused ones by their fault's number.
    fn print(&self) {
        for (kind, counts) in KINDS.iter().zip(&self.counts) {
            let faults = counts.iter().enumerate().skip(1).filter(|(_, count)| **count > 0);
            let faults: Vec<String> = faults.map(|(fault, count)| format!("{fault}: {count}")).collect();
            println!("{kind:>10}: {} accepted, faults {}", counts[0], faults.join(", "));
        }
    }
}
