//! Measures each step of the archive against the same rules in C and in the tests' Rust model, on a small table, on one for a dozen loggers
//! and a writer, and on the largest, and prints a table. Before a case is measured, the archive's and the C's answers and all words left are
//! compared with the model's.

#[path = "../tests/compare/model.rs"]
#[allow(dead_code, reason = "the tests use all of the model, the measuring a part")]
mod model;
#[path = "../tests/compare/random.rs"]
#[allow(dead_code, reason = "the tests use all of the random numbers, the measuring a part")]
mod random;

use model::{Answer, Block, Call, Interval, Phase, Sizes, State, Task};
use random::Random;
use std::hint::black_box;
use std::time::Instant;

/// Samples of each case and implementation; the median counts.
const SAMPLES: usize = 301;

/// What a sample should last, in nanoseconds.
const SAMPLE_TIME: u64 = 100_000;

/// Runs of a whole schedule; the median counts.
const SCHEDULE_RUNS: usize = 31;

/// The epoch of the measured tables.
const EPOCH: u32 = 100;

/// A function that makes a call by the ten functions of a linked library, the archive or rules.c.
macro_rules! linked {
    ($name:ident, $library:literal, $open:ident, $start:ident, $look:ident, $settle:ident, $make:ident, $swap:ident, $retire:ident,
     $sweep:ident, $end:ident, $tally:ident) => {
        fn $name(t: &mut [u32], call: Call) -> u64 {
            #[link(name = $library, kind = "static")]
            unsafe extern "C" {
                fn $open(table: *mut u32, words: usize, t: u32, n: u32, p: u32, f: u32, e: u32) -> u64;
                fn $start(table: *mut u32, words: usize, task: u32) -> u64;
                fn $look(table: *mut u32, words: usize, task: u32, slot: u32) -> u64;
                fn $settle(table: *mut u32, words: usize, task: u32) -> u64;
                fn $make(table: *mut u32, words: usize, task: u32) -> u64;
                fn $swap(table: *mut u32, words: usize, task: u32, slot: u32, old: u32, new: u32) -> u64;
                fn $retire(table: *mut u32, words: usize, task: u32, block: u32) -> u64;
                fn $sweep(table: *mut u32, words: usize, task: u32) -> u64;
                fn $end(table: *mut u32, words: usize, task: u32) -> u64;
                fn $tally(table: *mut u32, words: usize, state: u32) -> u64;
            }
            let (p, w) = (t.as_mut_ptr(), t.len());
            unsafe {
                match call {
                    Call::Open(s) => $open(p, w, s.tasks, s.blocks, s.slots, s.makes_per_epoch, s.retirements_per_sweep),
                    Call::Start { task } => $start(p, w, task),
                    Call::Look { task, slot } => $look(p, w, task, slot),
                    Call::Settle { task } => $settle(p, w, task),
                    Call::Make { task } => $make(p, w, task),
                    Call::Swap { task, slot, old, new } => $swap(p, w, task, slot, old, new),
                    Call::Retire { task, block } => $retire(p, w, task, block),
                    Call::Sweep { task } => $sweep(p, w, task),
                    Call::End { task } => $end(p, w, task),
                    Call::Tally { state } => $tally(p, w, state),
                }
            }
        }
    };
}

linked!(
    archive,
    "exports",
    kavdrell_open,
    kavdrell_start,
    kavdrell_look,
    kavdrell_settle,
    kavdrell_make,
    kavdrell_swap,
    kavdrell_retire,
    kavdrell_sweep,
    kavdrell_end,
    kavdrell_tally
);
linked!(
    in_c,
    "rules",
    rules_open,
    rules_start,
    rules_look,
    rules_settle,
    rules_make,
    rules_swap,
    rules_retire,
    rules_sweep,
    rules_end,
    rules_tally
);

/// An answer as the C functions pack it.
fn packed(answer: Answer) -> u64 {
    u64::from(answer.kind) << 32 | u64::from(answer.value)
}

/// The tests' model: it reads the words into a state of its own and lays the state out again.
#[inline(never)]
fn in_rust(t: &mut [u32], call: Call) -> u64 {
    packed(model::call(t, call))
}

/// A call that does nothing: what it takes is taken off the others.
#[inline(never)]
fn nothing(t: &mut [u32], call: Call) -> u64 {
    u64::from(call.tag()) + t.len() as u64
}

type Implementation = fn(&mut [u32], Call) -> u64;
const IMPLEMENTATIONS: [Implementation; 4] = [nothing, archive, in_c, in_rust];

/// A call, and the tables that it is made on in turn.
struct Case {
    name: &'static str,
    call: Call,
    tables: Vec<Vec<u32>>,
}

/// A table with every task at work but some, no block free but the last, the three before it retired, made and shown for the calls.
fn mixed(sizes: Sizes, seed: u64) -> State {
    let random = &mut Random::new(seed);
    let mut state = State::opened(sizes);
    state.epoch = EPOCH;
    for task in &mut state.tasks {
        *task = Task { makes: 1, phase: any_phase(random) };
    }
    let now = Interval { lower: EPOCH, upper: EPOCH };
    state.tasks[0].phase = Phase::Working(now);
    state.tasks[1].phase = Phase::Looking(now, 0);
    for block in &mut state.blocks {
        *block = any_block(random);
    }
    let last = state.blocks.len();
    let for_calls = [
        Block::Retired { retirer: 0, birth: 1, retire: 2 },
        Block::Made { maker: 0, birth: EPOCH },
        Block::Shown { birth: 1 },
        Block::Free,
    ];
    state.blocks[last - 4..].copy_from_slice(&for_calls);
    let shown: Vec<u32> = (1..sizes.blocks - 1).filter(|&b| matches!(state.block(b), Some(Block::Shown { .. }))).collect();
    for slot in &mut state.slots[1..] {
        *slot = random.of(&shown);
    }
    state
}

fn any_phase(random: &mut Random) -> Phase {
    let lower = random.between(EPOCH - 10, EPOCH);
    let interval = Interval { lower, upper: random.between(lower, EPOCH) };
    random.of(&[Phase::Idle, Phase::Working(interval), Phase::Looking(interval, 0)])
}

fn any_block(random: &mut Random) -> Block {
    let task = random.between(0, 1);
    let birth = random.between(0, EPOCH);
    let retire = random.between(birth, EPOCH);
    random.of(&[Block::Made { maker: task, birth }, Block::Shown { birth }, Block::Retired { retirer: task, birth, retire }])
}

/// Task 0's made blocks become task 1's, so that task 0 may end.
fn made_by_others(state: &mut State) {
    for block in &mut state.blocks {
        if let Block::Made { maker, .. } = block {
            *maker = 1;
        }
    }
}

/// The cases, each on so many tables of these sizes.
fn cases(sizes: Sizes, tables: u64) -> Vec<Case> {
    let states: Vec<State> = (1..=tables).map(|seed| mixed(sizes, seed)).collect();
    let case = |name, call, change: fn(&mut State)| {
        let laid_out = |state: &State| {
            let mut state = state.clone();
            change(&mut state);
            state.words()
        };
        Case { name, call, tables: states.iter().map(laid_out).collect() }
    };
    let as_it_is = |_: &mut State| {};
    let n = sizes.blocks;
    let mut cases = vec![
        case("start", Call::Start { task: 1 }, |state| state.tasks[1].phase = Phase::Idle),
        case("look", Call::Look { task: 0, slot: 0 }, as_it_is),
        case("settle", Call::Settle { task: 1 }, as_it_is),
        case("make", Call::Make { task: 0 }, as_it_is),
        case("swap", Call::Swap { task: 0, slot: 0, old: 0, new: n - 2 }, as_it_is),
        case("retire", Call::Retire { task: 0, block: n - 1 }, as_it_is),
        case("retire and sweep", Call::Retire { task: 0, block: n - 1 }, |state| state.sizes.retirements_per_sweep = 1),
        case("sweep", Call::Sweep { task: 0 }, as_it_is),
        case("end", Call::End { task: 0 }, made_by_others),
        case("tally", Call::Tally { state: 3 }, as_it_is),
        case("the walk alone", Call::Tally { state: 4 }, as_it_is),
    ];
    // Open looks at nothing that stood there, so other tables are no other case.
    if tables == 1 {
        cases.insert(0, case("open", Call::Open(sizes), as_it_is));
    }
    cases
}

/// The archive and the C have to answer as the model does, and leave the same words.
fn check(case: &Case) {
    for words in &case.tables {
        let mut due = words.clone();
        let answer = in_rust(&mut due, case.call);
        for (name, implementation) in ["the archive", "rules.c"].iter().zip(&IMPLEMENTATIONS[1..]) {
            let mut left = words.clone();
            let given = implementation(&mut left, case.call);
            assert!(given == answer, "{name}: {} answers {given:#x}", case.name);
            assert!(left == due, "{name}: {} leaves other words", case.name);
        }
    }
}

/// Nanoseconds that a call takes, on average over so many rounds of the tables, each copied to the lent words before its call. A round
/// before the timed ones brings the caches to where this implementation leaves them.
fn sample(implementation: Implementation, case: &Case, lent: &mut [u32], rounds: u64) -> f64 {
    let mut round = || {
        for words in &case.tables {
            lent.copy_from_slice(words);
            black_box(implementation(black_box(&mut *lent), black_box(case.call)));
        }
    };
    round();
    let begun = Instant::now();
    (0..rounds).for_each(|_| round());
    begun.elapsed().as_nanos() as f64 / (rounds * case.tables.len() as u64) as f64
}

fn median(mut samples: Vec<f64>) -> f64 {
    samples.sort_by(f64::total_cmp);
    samples[samples.len() / 2]
}

/// The rounds of the case's tables that make a sample.
fn rounds(case: &Case, lent: &mut [u32]) -> u64 {
    let round = sample(archive, case, lent, 100) * case.tables.len() as f64;
    1 + SAMPLE_TIME / (round as u64 + 1)
}

/// The median times of the archive, of C and of Rust for each case, less those of a call that does nothing. Samples of all the cases and
/// implementations are taken in turn, so that what else the machine does falls on all of them.
fn measure(cases: &[Case]) -> Vec<[f64; 3]> {
    let mut lent = cases[0].tables[0].clone();
    let rounds: Vec<u64> = cases.iter().map(|case| rounds(case, &mut lent)).collect();
    let mut samples = vec![[const { Vec::new() }; 4]; cases.len()];
    for _ in 0..SAMPLES {
        for ((case, &rounds), times) in cases.iter().zip(&rounds).zip(&mut samples) {
            for (times, &implementation) in times.iter_mut().zip(&IMPLEMENTATIONS) {
                times.push(sample(implementation, case, &mut lent, rounds));
            }
        }
    }
    let less_empty = |[empty, archive, c, rust]: [f64; 4]| [archive - empty, c - empty, rust - empty];
    samples.into_iter().map(|times| less_empty(times.map(median))).collect()
}

/// Prints the measured cases as a table.
fn report(title: &str, sizes: Sizes, tables: u64) {
    let cases = cases(sizes, tables);
    cases.iter().for_each(check);
    println!("\n### {title}\n");
    println!("| step | Kavdrell, ns | C, ns | Rust, ns | Kavdrell to C | Kavdrell to Rust |");
    println!("|---|---:|---:|---:|---:|---:|");
    for (case, [archive, c, rust]) in cases.iter().zip(measure(&cases)) {
        println!("| {} | {archive:.1} | {c:.1} | {rust:.1} | {:.2} | {:.2} |", case.name, archive / c, archive / rust);
    }
}

/// Nanoseconds a field takes when a schedule is carried out, with or without a walk of the table before each field.
fn schedule_time(schedule: &[u8], fields: usize, walk: u32) -> f64 {
    #[link(name = "timing", kind = "static")]
    unsafe extern "C" {
        fn kavdrell_timing(schedule: *const u8, bytes: usize, walk: u32) -> u64;
    }
    let run = || {
        let begun = Instant::now();
        let sum = unsafe { kavdrell_timing(black_box(schedule.as_ptr()), schedule.len(), walk) };
        let time = begun.elapsed().as_nanos() as f64;
        assert!(sum as usize >= fields, "the schedule was not carried out whole");
        time / fields as f64
    };
    median((0..SCHEDULE_RUNS).map(|_| run()).collect())
}

/// Prints what a walk before each field costs two of the example schedules.
fn report_schedules() {
    println!("\n### Schedules of thousands of steps, on the largest table\n");
    println!("| schedule | fields | without the walk, ns a field | with it, ns a field | ratio |");
    println!("|---|---:|---:|---:|---:|");
    for name in ["largest_table", "bytes_65536"] {
        let schedule = std::fs::read(format!("schedules/{name}")).expect("an example schedule");
        let printed = std::fs::read_to_string(format!("schedules/{name}.txt")).expect("what it prints");
        let fields = printed.lines().count() - 1;
        let [without, with] = [0, 1].map(|walk| schedule_time(&schedule, fields, walk));
        println!("| `schedules/{name}` | {fields} | {without:.1} | {with:.1} | {:.2} |", with / without);
    }
}

fn main() {
    let small = Sizes { tasks: 2, blocks: 4, slots: 1, makes_per_epoch: 2, retirements_per_sweep: 1024 };
    let dozen = Sizes { tasks: 13, blocks: 64, slots: 8, ..small };
    let largest = Sizes { tasks: 32, blocks: 1024, slots: 256, ..small };
    report("A small table (2 tasks, 4 blocks, 1 slot), the same for each call", small, 1);
    report("A dozen loggers and a writer (13 tasks, 64 blocks, 8 slots), the same for each call", dozen, 1);
    report("A dozen loggers and a writer, another of 32 tables for each call", dozen, 32);
    report("The largest table (32 tasks, 1,024 blocks, 256 slots), the same for each call", largest, 1);
    report("The largest table, another of 32 for each call", largest, 32);
    report_schedules();
}
