//! Compares the archive with the model: random runs of calls from an open on, then single calls on laid-out tables, sound or harmed;
//! after each call the answer and every word. Then the program `steps` with the model, on random schedules. The last line counts what
//! passed and failed.

mod archive;
mod model;
mod random;
mod schedules;
mod tables;

use archive::{Archive, Linked, Served};
use model::{Answer, Call, STEP_NAMES, State};
use random::Random;
use std::process::{Command, ExitCode, Stdio};
use tables::{HARMS, Harm};

/// The kinds that each step can answer, in the order of the tags.
const LISTED: [&[u32]; 10] = [
    &[0, 2],
    &[0, 1, 3, 4],
    &[0, 1, 3, 4, 5],
    &[0, 1, 3, 4, 11],
    &[0, 1, 3, 4, 9, 10],
    &[0, 1, 3, 4, 5, 6, 7],
    &[0, 1, 3, 4, 6, 7, 8],
    &[0, 1, 3],
    &[0, 1, 3, 4, 12],
    &[0, 1, 3],
];

/// What a make can meet at the ends of the numbers.
const END_NAMES: [&str; 4] = [
    "refused for its makes are used up",
    "refused for the epochs are used up",
    "done as the task's last make",
    "done in the last epoch",
];

/// Differences told in full; the rest are only counted.
const MOST_TOLD: u64 = 5;

/// Calls in a run from one open on.
const RUN_CALLS: u64 = 250;

/// From so many calls on, each kind that a step lists has to be met.
const ENOUGH_CALLS: u64 = 10_000;

/// What the tests are asked to do.
struct Wanted {
    seed: u64,
    calls: u64,
    schedules: u64,
    /// The program that runs a schedule, if it is to be tried.
    steps: Option<String>,
    /// A program that makes the calls in place of the linked archive.
    served: Option<String>,
}

fn wanted() -> Result<Wanted, String> {
    let mut wanted = Wanted { seed: 1, calls: 10_000, schedules: 300, steps: None, served: None };
    let mut words = std::env::args().skip(1);
    while let Some(option) = words.next() {
        let value = words.next().ok_or(format!("{option} needs a value"))?;
        let number = || value.parse().map_err(|_| format!("{option} needs a number, not {value}"));
        match option.as_str() {
            "--seed" => wanted.seed = number()?,
            "--calls" => wanted.calls = number()?,
            "--schedules" => wanted.schedules = number()?,
            "--steps" => wanted.steps = Some(value),
            "--served" => wanted.served = Some(value),
            _ => return Err(format!("no option {option}")),
        }
    }
    Ok(wanted)
}

/// What has passed and failed so far, and what was met.
struct Report {
    passed: u64,
    failed: u64,
    /// By tag - 1 and kind.
    met: [[u64; 13]; 10],
    /// Kind 0 with a value above 0, by tag - 1.
    valued: [u64; 10],
    /// Makes at the ends, as END_NAMES tells them.
    ends: [u64; 4],
    /// Tables lent, by harm; and those of them that were sound.
    lent: [[u64; 2]; 4],
}

impl Report {
    fn new() -> Report {
        Report { passed: 0, failed: 0, met: [[0; 13]; 10], valued: [0; 10], ends: [0; 4], lent: [[0; 2]; 4] }
    }

    fn judge(&mut self, right: bool, tell: impl FnOnce()) {
        if right {
            self.passed += 1;
            return;
        }
        self.failed += 1;
        if self.failed <= MOST_TOLD {
            tell();
        }
    }

    /// Counts a call that answers so and leaves these words.
    fn meet(&mut self, words: &[u32], call: Call, answer: Answer) {
        let step = usize::from(call.tag()) - 1;
        self.met[step][answer.kind as usize] += 1;
        self.valued[step] += u64::from(answer.kind == 0 && answer.value > 0);
        if let (Call::Make { task }, 0 | 10) = (call, answer.kind) {
            let done = usize::from(answer.kind == 0);
            let last_make = words[6 + 5 * task as usize + 2] == model::MOST_MAKES;
            let last_epoch = words[5] == model::LAST_EPOCH;
            self.ends[2 * done] += u64::from(last_make);
            self.ends[2 * done + 1] += u64::from(last_epoch && !last_make);
        }
    }
}

/// Makes the call on both sides and compares; the words are left as the model leaves them.
fn compare(archive: &mut dyn Archive, report: &mut Report, words: &mut [u32], call: Call) {
    let before = words.to_vec();
    let mut theirs = words.to_vec();
    let got = archive.call(&mut theirs, call);
    let due = model::call(words, call);
    report.meet(words, call, due);
    report.judge(got == due && theirs == words, || tell(&before, call, (due, words), (got, &theirs)));
}

fn tell(before: &[u32], call: Call, due: (Answer, &[u32]), got: (Answer, &[u32])) {
    println!("DIFFERENT: {call:?} on {} words", before.len());
    if before.len() <= 60 {
        println!("  words lent: {before:?}");
    }
    println!("  the model answers {:?}, the archive {:?}", due.0, got.0);
    for (place, (d, g)) in due.1.iter().zip(got.1).enumerate().filter(|(_, (d, g))| d != g).take(10) {
        println!("  word {place}: was {}, the model leaves {d}, the archive {g}", before[place]);
    }
}

/// Runs of calls, each on its own opened table; now and then a call is made on a harmed copy of it.
fn runs(archive: &mut dyn Archive, report: &mut Report, random: &mut Random, calls: u64) {
    let mut done = 0;
    while done < calls {
        let sizes = tables::sizes(random);
        let mut words: Vec<u32> = (0..sizes.length()).map(|_| random.word()).collect();
        compare(archive, report, &mut words, Call::Open(sizes));
        let length = RUN_CALLS.min(calls - done);
        done += length;
        for _ in 1..length {
            let state = State::read(&words).expect("a run keeps its table sound");
            let call = tables::call(random, &state);
            if random.one_in(40) {
                let mut harmed = words.clone();
                let harm = random.of(&HARMS[1..]);
                lend(archive, report, random, &mut harmed, harm, call);
            } else {
                compare(archive, report, &mut words, call);
            }
        }
    }
}

/// Does the harm, then compares the call.
fn lend(archive: &mut dyn Archive, report: &mut Report, random: &mut Random, words: &mut Vec<u32>, harm: Harm, call: Call) {
    tables::harm(random, words, harm);
    let sound = usize::from(State::read(words).is_some());
    report.lent[harm as usize][sound] += 1;
    compare(archive, report, words, call);
}

/// Single calls, each on a table of its own.
fn singles(archive: &mut dyn Archive, report: &mut Report, random: &mut Random, calls: u64) {
    for _ in 0..calls {
        if random.one_in(12) {
            single_open(archive, report, random);
            continue;
        }
        let state = tables::state(random);
        let call = tables::call(random, &state);
        let harm = if random.one_in(2) { random.of(&HARMS[1..]) } else { Harm::None };
        lend(archive, report, random, &mut state.words(), harm, call);
    }
}

/// An open with any sizes, on as many words as they ask for, or one more or fewer, or any number of words.
fn single_open(archive: &mut dyn Archive, report: &mut Report, random: &mut Random) {
    let sizes = tables::any_sizes(random);
    let asked = sizes.length().min(model::LARGEST.length() + 10) as u32;
    let length = match random.between(0, 5) {
        0 => asked - 1,
        1 => asked + 1,
        2 => random.between(0, 60),
        _ => asked,
    };
    let mut words: Vec<u32> = (0..length).map(|_| random.word()).collect();
    compare(archive, report, &mut words, Call::Open(sizes));
}

/// Runs `steps` on an input: what it writes, or why there is nothing.
fn run_steps(program: &str, input: &[u8]) -> Result<String, String> {
    let file = std::env::temp_dir().join(format!("kavdrell-{}.schedule", std::process::id()));
    std::fs::write(&file, input).map_err(|e| format!("{} cannot be written: {e}", file.display()))?;
    let lent = std::fs::File::open(&file).map_err(|e| format!("{} cannot be read: {e}", file.display()))?;
    let run = Command::new(program).stdin(lent).stderr(Stdio::inherit()).output();
    let _ = std::fs::remove_file(&file);
    let output = run.map_err(|e| format!("{program} does not run: {e}"))?;
    let said = String::from_utf8_lossy(&output.stdout).into_owned();
    if output.status.success() {
        Ok(said)
    } else {
        Err(format!("{program} ended with {}, having written\n{said}", output.status))
    }
}

/// Compares `steps` with the model on random schedules.
fn compare_steps(program: &str, report: &mut Report, random: &mut Random, count: u64) {
    if !std::path::Path::new(program).exists() {
        return report.judge(false, || println!("steps: not there yet ({program})"));
    }
    let mut kinds = [0; 25];
    for number in 0..count {
        let input = schedules::schedule(random, number);
        let due = schedules::printed(&input, &mut kinds);
        let got = run_steps(program, &input);
        report.judge(got.as_ref() == Ok(&due), || tell_steps(&input, &due, got));
        if (number + 1) % 100 == 0 {
            println!("steps: {} of {count} schedules, {} different in all", number + 1, report.failed);
        }
    }
    let lines: Vec<String> = (0..).zip(kinds).filter(|(_, n)| *n > 0).map(|(kind, n)| format!("{kind} × {n}")).collect();
    println!("steps: kinds in the lines due: {}", lines.join(", "));
    for kind in 21..=24 {
        report.judge(kinds[kind] > 0, || println!("NEVER MET: kind {kind} in a schedule"));
    }
}

fn tell_steps(input: &[u8], due: &str, got: Result<String, String>) {
    println!("DIFFERENT: steps on {} bytes", input.len());
    let got = match got {
        Ok(said) => said,
        Err(why) => return println!("  {why}"),
    };
    let place = due.lines().zip(got.lines()).position(|(d, g)| d != g).unwrap_or(due.lines().count().min(got.lines().count()));
    println!("  first at line {}: the model {:?}, steps {:?}", place + 1, due.lines().nth(place), got.lines().nth(place));
    if input.len() <= 200 {
        println!("  input: {input:?}");
    }
}

/// Prints how often each step answered each kind. A kind that isn't listed is a failure, and so is a listed one that was never met,
/// where all are asked for.
fn tell_met(report: &mut Report, all: bool) {
    println!("how often each step answered each kind (kind × times):");
    for (step, listed) in LISTED.iter().enumerate() {
        let met = report.met[step];
        let line: Vec<String> = listed.iter().map(|&kind| format!("{kind} × {}", met[kind as usize])).collect();
        println!("  {:<7}{} (kind 0 with a value above 0: {})", STEP_NAMES[step], line.join(", "), report.valued[step]);
        for kind in 0..13 {
            let times = met[kind as usize];
            let right = if listed.contains(&kind) { times > 0 || !all } else { times == 0 };
            report.judge(right, || println!("WRONG: {} with kind {kind} met {times} times", STEP_NAMES[step]));
        }
    }
    for (name, times) in END_NAMES.iter().zip(report.ends) {
        println!("  make, {name} × {times}");
        report.judge(times > 0 || !all, || println!("NEVER MET: make, {name}"));
    }
    for (name, [unsound, sound]) in ["laid out", "damaged", "cut", "overlong"].iter().zip(report.lent) {
        println!("  tables {name}: sound × {sound}, not sound × {unsound}");
    }
}

fn compare_calls(archive: &mut dyn Archive, report: &mut Report, random: &mut Random, calls: u64) {
    const PARTS: u64 = 10;
    for part in 1..=PARTS {
        let done = calls * (part - 1) / PARTS;
        let due = calls * part / PARTS - done;
        runs(archive, report, random, due / 2);
        singles(archive, report, random, due - due / 2);
        println!("calls: {} of {calls}, {} different", done + due, report.failed);
    }
}

fn main() -> ExitCode {
    let wanted = match wanted() {
        Ok(wanted) => wanted,
        Err(why) => {
            println!("compare: {why}");
            return ExitCode::from(2);
        }
    };
    let mut archive: Box<dyn Archive> = match &wanted.served {
        None => Box::new(Linked::new()),
        Some(program) => match Served::new(program) {
            Ok(served) => Box::new(served),
            Err(why) => {
                println!("compare: {why}");
                return ExitCode::from(2);
            }
        },
    };
    println!("seed {}, {} calls, the archive {}", wanted.seed, wanted.calls, wanted.served.as_deref().unwrap_or("linked"));
    let mut random = Random::new(wanted.seed);
    let mut report = Report::new();
    schedules::check_nights(|right, name| report.judge(right, || println!("WRONG: the model does not print {name}")));
    compare_calls(archive.as_mut(), &mut report, &mut random, wanted.calls);
    tell_met(&mut report, wanted.calls >= ENOUGH_CALLS);
    if let Some(program) = &wanted.steps {
        compare_steps(program, &mut report, &mut random, wanted.schedules);
    }
    println!("{} passed, {} failed", report.passed, report.failed);
    ExitCode::from(u8::from(report.failed > 0))
}
