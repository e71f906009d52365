//! Writing schedules, compared with the model: the archive's write of a field at any place of any buffer; then the programs `write` and
//! `list`, on random schedules and on texts that are right or wrong. The last line counts what passed and failed.

#[path = "../compare/model.rs"]
#[allow(dead_code, reason = "compare uses all of it")]
mod model;
#[path = "../compare/random.rs"]
mod random;
#[path = "../compare/schedules.rs"]
#[allow(dead_code, reason = "compare uses all of it")]
mod schedules;
#[path = "../compare/tables.rs"]
#[allow(dead_code, reason = "compare uses all of it")]
mod tables;
mod texts;

use model::Call;
use random::Random;
use std::collections::BTreeMap;
use std::process::{Command, ExitCode, Stdio};

/// Texts and schedules for the programs, for each of which a process is started.
const PROGRAM_RUNS: u64 = 300;

/// Writes of a field.
const WRITES: u64 = 20_000;

/// Differences told in full; the rest are only counted.
const MOST_TOLD: u64 = 5;

/// What a write answers: kind 0 and the place after the field, or a refusal's kind and 0.
#[repr(C)]
#[derive(Clone, Copy, Debug, PartialEq)]
struct Written {
    kind: u32,
    value: usize,
}

#[link(name = "exports", kind = "static")]
unsafe extern "C" {
    fn kavdrell_write_field(buffer: *mut u8, bytes: usize, place: usize, tag: u8, numbers: *const u32, count: usize) -> Written;
}

/// How often each check met each case, and how often it differed.
#[derive(Default)]
struct Tally {
    met: BTreeMap<(&'static str, String), u64>,
    failed: u64,
}

impl Tally {
    fn compare<T: PartialEq + std::fmt::Debug>(&mut self, check: &'static str, met: String, case: impl std::fmt::Debug, due: T, got: T) {
        *self.met.entry((check, met)).or_default() += 1;
        if due != got {
            self.failed += 1;
            if self.failed <= MOST_TOLD {
                println!("DIFFERENT: {check} of {case:?}:\n  due {due:?}\n  got {got:?}");
            }
        }
    }

    fn must_meet(&mut self, check: &'static str, met: &str) {
        if !self.met.contains_key(&(check, met.to_string())) {
            self.failed += 1;
            println!("NEVER MET: {check}: {met}");
        }
    }
}

/// The bytes that a step with these numbers is written as, or the kind of the refusal: 22 unknown tag, then 23 another count of numbers.
fn field(tag: u8, numbers: &[u32]) -> Result<Vec<u8>, u32> {
    schedules::body_length(tag).ok_or(22u32)?;
    let mut bytes = Vec::new();
    schedules::put_field(&mut bytes, Call::of(tag, numbers).ok_or(23u32)?);
    Ok(bytes)
}

/// The answer due for a write, which leaves the buffer as it should be.
fn write_due(buffer: &mut [u8], place: usize, tag: u8, numbers: &[u32]) -> Written {
    match field(tag, numbers) {
        Err(kind) => Written { kind, value: 0 },
        Ok(field) => match buffer.get_mut(place..).and_then(|rest| rest.get_mut(..field.len())) {
            None => Written { kind: 25, value: 0 },
            Some(part) => {
                part.copy_from_slice(&field);
                Written { kind: 0, value: place + field.len() }
            }
        },
    }
}

/// Fields written at random places, with room or without, by tags and counts that fit or don't.
fn writes(tally: &mut Tally, random: &mut Random) {
    for _ in 0..WRITES {
        let buffer: Vec<u8> = (0..random.between(0, 60)).map(|_| random.next() as u8).collect();
        let any_place = random.between(0, 70) as usize;
        let place = if random.one_in(20) { usize::MAX - any_place } else { any_place };
        let tag = if random.one_in(10) { random.next() as u8 } else { random.between(0, 11) as u8 };
        let fitting = schedules::body_length(tag).unwrap_or(4) / 4;
        let count = if random.one_in(8) { random.between(0, 6) as usize } else { fitting };
        let numbers: Vec<u32> = (0..count).map(|_| random.word()).collect();
        let (mut due_buffer, mut got_buffer) = (buffer.clone(), buffer.clone());
        let due = write_due(&mut due_buffer, place, tag, &numbers);
        let got = unsafe { kavdrell_write_field(got_buffer.as_mut_ptr(), got_buffer.len(), place, tag, numbers.as_ptr(), count) };
        let case = (&buffer, place, tag, &numbers);
        tally.compare("write_field", format!("kind {}", due.kind), case, (due, due_buffer), (got, got_buffer));
    }
    ["kind 0", "kind 22", "kind 23", "kind 25"].iter().for_each(|kind| tally.must_meet("write_field", kind));
}

/// What a program writes to standard output and to standard error, and whether it ends well.
type Said = (Vec<u8>, String, bool);

fn run(program: &str, input: &[u8]) -> Said {
    let file = std::env::temp_dir().join(format!("kavdrell-{}.input", std::process::id()));
    std::fs::write(&file, input).expect("a file for the program's input");
    let lent = std::fs::File::open(&file).expect("the program's input");
    let run = Command::new(program).stdin(lent).stderr(Stdio::piped()).output();
    let _ = std::fs::remove_file(&file);
    let output = run.unwrap_or_else(|e| panic!("{program} does not run: {e}"));
    (output.stdout, String::from_utf8_lossy(&output.stderr).into_owned(), output.status.success())
}

/// What a program says that has this to write, or these complaints beside it.
fn said(written: Vec<u8>, complaints: String) -> Said {
    let good = complaints.is_empty();
    (written, complaints, good)
}

/// Random schedules, valid and faulty, listed as text; and what is listed, written again.
fn lists(tally: &mut Tally, random: &mut Random) {
    for number in 0..PROGRAM_RUNS {
        let schedule = schedules::schedule(random, number);
        let (text, complaint) = texts::listed(&schedule);
        let whole = complaint.is_empty();
        let met = if whole { "a schedule".to_string() } else { complaint.split(": ").last().unwrap_or_default().trim().to_string() };
        tally.compare("list", met, schedule.len(), said(text.clone(), complaint), run("bin/list", &schedule));
        if whole {
            tally.compare("write of what list prints", "a schedule".to_string(), schedule.len(), said(schedule, String::new()), run("bin/write", &text));
        }
    }
    tally.must_meet("write of what list prints", "a schedule");
}

/// Random texts, laid out in any way, right and wrong.
fn texts_written(tally: &mut Tally, random: &mut Random) {
    for number in 0..PROGRAM_RUNS {
        let text = texts::text(random, number);
        let (schedule, complaints) = texts::written(&text);
        let first = complaints.lines().next().map_or("a schedule", |line| line.split(": ").last().unwrap_or_default()).to_string();
        let case = String::from_utf8_lossy(&text[..text.len().min(200)]).into_owned();
        tally.compare("write", first, case, said(schedule, complaints), run("bin/write", &text));
    }
    texts::WRONGS.iter().chain(&["a schedule", texts::LONG_SCHEDULE, texts::LONG_TEXT]).for_each(|what| tally.must_meet("write", what));
}

fn main() -> ExitCode {
    let seed = std::env::args().nth(1).map_or(1, |word| word.parse().expect("a seed is a number"));
    let random = &mut Random::new(seed);
    let mut tally = Tally::default();
    for check in [writes, lists, texts_written] {
        check(&mut tally, random);
    }
    for ((check, met), times) in &tally.met {
        println!("typed: {check}: {met} × {times}");
    }
    let compared: u64 = tally.met.values().sum();
    println!("{} passed, {} failed", compared.saturating_sub(tally.failed), tally.failed);
    ExitCode::from(u8::from(tally.failed > 0))
}
