//! Random tables and calls: sound tables with numbers near the ends, damaged, cut and overlong ones, and calls that often succeed.

use crate::model::{Block, Call, Interval, LARGEST, LAST_EPOCH, MOST_MAKES, Phase, Sizes, State, Task};
use crate::random::Random;

/// Sizes within their limits: mostly small, sometimes up to the largest.
pub fn sizes(random: &mut Random) -> Sizes {
    let (tasks, blocks, slots) = match random.between(0, 39) {
        0 => (LARGEST.tasks, LARGEST.blocks, LARGEST.slots),
        1 => (random.between(1, LARGEST.tasks), random.between(1, LARGEST.blocks), random.between(1, LARGEST.slots)),
        2..=9 => (1, random.between(1, 2), 1),
        _ => (random.between(1, 4), random.between(1, 8), random.between(1, 3)),
    };
    let makes_per_epoch = match random.between(0, 9) {
        0 => LARGEST.makes_per_epoch,
        1 => random.between(1, LARGEST.makes_per_epoch),
        _ => random.between(1, 4),
    };
    let retirements_per_sweep = match random.between(0, 9) {
        0 => LARGEST.retirements_per_sweep,
        1 => random.between(1, LARGEST.retirements_per_sweep),
        _ => random.between(1, 4),
    };
    Sizes { tasks, blocks, slots, makes_per_epoch, retirements_per_sweep }
}

/// Sizes of which one may be 0, just past its limit or any word.
pub fn any_sizes(random: &mut Random) -> Sizes {
    let mut s = sizes(random);
    let (size, largest) = match random.between(0, 9) {
        0 => (&mut s.tasks, LARGEST.tasks),
        1 => (&mut s.blocks, LARGEST.blocks),
        2 => (&mut s.slots, LARGEST.slots),
        3 => (&mut s.makes_per_epoch, LARGEST.makes_per_epoch),
        4 => (&mut s.retirements_per_sweep, LARGEST.retirements_per_sweep),
        _ => return s,
    };
    let word = random.word();
    *size = random.of(&[0, largest, largest + 1, word]);
    s
}

/// A number up to the limit: often the limit itself or just below it.
fn up_to(random: &mut Random, limit: u32) -> u32 {
    match random.between(0, 3) {
        0 => limit,
        1 => limit.saturating_sub(random.between(0, 3)),
        2 => random.between(0, limit.min(3)),
        _ => random.between(0, limit),
    }
}

fn task(random: &mut Random, sizes: Sizes, epoch: u32) -> Task {
    // The makes that are one short of raising the epoch, as far up as they go.
    let before_rise = MOST_MAKES / sizes.makes_per_epoch * sizes.makes_per_epoch - 1;
    let makes = match random.between(0, 4) {
        0 => MOST_MAKES - random.between(0, 2),
        1 => before_rise,
        2 => sizes.makes_per_epoch - 1,
        _ => random.word(),
    };
    let upper = up_to(random, epoch);
    let interval = Interval { lower: up_to(random, upper), upper };
    let phase = match random.between(0, 4) {
        0 => Phase::Idle,
        1 | 2 => Phase::Working(interval),
        _ => Phase::Looking(interval, random.between(0, sizes.blocks)),
    };
    Task { makes, phase }
}

fn block(random: &mut Random, sizes: Sizes, epoch: u32, none_free: bool) -> Block {
    let task = random.between(0, sizes.tasks - 1);
    match random.between(u32::from(none_free), 4) {
        0 => Block::Free,
        1 => Block::Made { maker: task, birth: up_to(random, epoch) },
        2 => Block::Shown { birth: up_to(random, epoch) },
        _ => {
            let retire = up_to(random, epoch);
            Block::Retired { retirer: task, birth: up_to(random, retire), retire }
        }
    }
}

/// A sound state, its epoch and makes often near their ends.
pub fn state(random: &mut Random) -> State {
    let sizes = sizes(random);
    let epoch = up_to(random, LAST_EPOCH);
    let none_free = random.one_in(4);
    let tasks = (0..sizes.tasks).map(|_| task(random, sizes, epoch)).collect();
    let blocks: Vec<Block> = (0..sizes.blocks).map(|_| block(random, sizes, epoch, none_free)).collect();
    let mut named = wished(1, &blocks, |b| matches!(b, Block::Shown { .. }));
    named.push(0);
    let slots = (0..sizes.slots).map(|_| random.of(&named)).collect();
    State { sizes, epoch, tasks, blocks, slots }
}

/// What was done to a sound table's words before they were lent.
#[derive(Clone, Copy, PartialEq)]
pub enum Harm {
    None,
    Damaged,
    Cut,
    Overlong,
}

pub const HARMS: [Harm; 4] = [Harm::None, Harm::Damaged, Harm::Cut, Harm::Overlong];

/// Does the harm to the words.
pub fn harm(random: &mut Random, words: &mut Vec<u32>, harm: Harm) {
    match harm {
        Harm::None => {}
        Harm::Damaged => damage(random, words),
        Harm::Cut => {
            let gone = if random.one_in(2) { 1 } else { random.between(1, words.len() as u32) };
            words.truncate(words.len() - gone as usize);
        }
        Harm::Overlong => {
            let extra = if random.one_in(2) { 1 } else { random.between(1, 20) };
            words.extend((0..extra).map(|_| random.of(&[0, 1, u32::MAX])));
        }
    }
}

/// Changes one word: by one, to its neighbour's content, or to any word. The table may be sound still.
fn damage(random: &mut Random, words: &mut [u32]) {
    let last = words.len() as u32 - 1;
    let place = if random.one_in(4) { random.between(0, 5) } else { random.between(0, last) } as usize;
    let neighbour = words[random.between(0, last) as usize];
    let word = random.word();
    words[place] = random.of(&[words[place].wrapping_add(1), words[place].wrapping_sub(1), neighbour, word]);
}

/// A number below the limit, mostly; else just past it or any word.
fn index(random: &mut Random, limit: u32) -> u32 {
    if !random.one_in(16) {
        return random.between(0, limit - 1);
    }
    let word = random.word();
    random.of(&[limit, limit + 1, u32::MAX, word])
}

/// One of the wished numbers, often, if there are any; else a number below the limit, seldom one past it.
fn often(random: &mut Random, wished: Vec<u32>, limit: u32) -> u32 {
    if !wished.is_empty() && !random.one_in(3) { random.of(&wished) } else { index(random, limit) }
}

/// The numbers from `first` on of the records that the wish asks for.
fn wished<T: Copy>(first: u32, records: &[T], wish: impl Fn(T) -> bool) -> Vec<u32> {
    (first..).zip(records).filter(|(_, r)| wish(**r)).map(|(number, _)| number).collect()
}

fn task_number(random: &mut Random, state: &State, wish: impl Fn(Task) -> bool) -> u32 {
    often(random, wished(0, &state.tasks, wish), state.sizes.tasks)
}

fn block_number(random: &mut Random, state: &State, wish: impl Fn(Block) -> bool) -> u32 {
    often(random, wished(1, &state.blocks, wish), state.sizes.blocks + 1)
}

/// A random call on a table in this state, often one that succeeds.
pub fn call(random: &mut Random, state: &State) -> Call {
    let idle = task_number(random, state, |t| t.phase == Phase::Idle);
    let working = task_number(random, state, |t| t.phase != Phase::Idle);
    match random.between(0, 21) {
        0..=2 => Call::Start { task: idle },
        3..=5 => Call::Look { task: working, slot: index(random, state.sizes.slots) },
        6..=8 => Call::Settle { task: task_number(random, state, |t| matches!(t.phase, Phase::Looking(..))) },
        9..=11 => Call::Make { task: working },
        12..=14 => swap(random, state, working),
        15..=17 => retire(random, state, working),
        18 | 19 => Call::Sweep { task: index(random, state.sizes.tasks) },
        20 => Call::End { task: working },
        _ => Call::Tally { state: index(random, 4) },
    }
}

/// A swap that often asks for what the slot holds, and often takes away or shows a block of the task's own.
fn swap(random: &mut Random, state: &State, task: u32) -> Call {
    let slot = index(random, state.sizes.slots);
    let held = state.slots.get(slot as usize).copied();
    let old = match held {
        Some(block) if !random.one_in(4) => block,
        _ => index(random, state.sizes.blocks + 1),
    };
    let mine = |b| matches!(b, Block::Made { maker, .. } if maker == task);
    let new = if random.one_in(3) { 0 } else { block_number(random, state, mine) };
    Call::Swap { task, slot, old, new }
}

/// A retirement, often of a shown block or one of the task's own.
fn retire(random: &mut Random, state: &State, task: u32) -> Call {
    let may = |b| matches!(b, Block::Shown { .. }) || matches!(b, Block::Made { maker, .. } if maker == task);
    Call::Retire { task, block: block_number(random, state, may) }
}
