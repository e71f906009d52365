//! Schedule files: the fields, what the program `steps` should print for them, and random ones, valid and faulty.

use crate::model::{self, Call, LARGEST, State};
use crate::random::Random;
use crate::tables;
use std::fmt::Write;

pub const MOST_BYTES: usize = 65_536;

/// The length of a tag's body in bytes.
pub fn body_length(tag: u8) -> Option<usize> {
    Some(match tag {
        1 => 20,
        2 | 4 | 5 | 8 | 9 | 10 => 4,
        3 | 7 => 8,
        6 => 16,
        _ => return None,
    })
}

/// The tag of the field at the start of these bytes (there is one at least), and its call and length or the kind of its fault.
pub fn field(bytes: &[u8]) -> (u8, Result<(Call, usize), u32>) {
    let tag = bytes[0];
    (tag, body(tag, bytes))
}

fn body(tag: u8, bytes: &[u8]) -> Result<(Call, usize), u32> {
    let length = bytes.get(1..3).ok_or(21u32)?;
    let wanted = body_length(tag).ok_or(22u32)?;
    if usize::from(u16::from_be_bytes([length[0], length[1]])) != wanted {
        return Err(23);
    }
    let body = bytes.get(3..3 + wanted).ok_or(21u32)?;
    let numbers: Vec<u32> = body.chunks_exact(4).map(|b| u32::from_be_bytes([b[0], b[1], b[2], b[3]])).collect();
    let call = Call::of(tag, &numbers).expect("a body of the tag's length has the call's numbers");
    Ok((call, 3 + wanted))
}

/// How often each kind was printed for a schedule.
pub type Kinds = [u64; 25];

/// What `steps` prints for this input; each kind of a line is counted.
pub fn printed(input: &[u8], kinds: &mut Kinds) -> String {
    let mut said = String::from("step tag kind value\n");
    let mut line = |step: usize, tag: u8, kind: u32, value: usize| {
        kinds[kind as usize] += 1;
        writeln!(said, "{step} {tag} {kind} {value}").expect("a string takes every line");
    };
    if input.len() > MOST_BYTES {
        line(0, 0, 24, 0);
        return said;
    }
    let mut table: Vec<u32> = Vec::new();
    let mut place = 0;
    let mut step = 0;
    while place < input.len() {
        step += 1;
        match field(&input[place..]) {
            (tag, Ok((call, length))) => {
                let answer = answer(&mut table, call);
                line(step, tag, answer.kind, answer.value as usize);
                place += length;
            }
            (tag, Err(kind)) => {
                line(step, tag, kind, place);
                return said;
            }
        }
    }
    said
}

/// The call on the table of the run: an accepted open gives it the length its sizes ask for, a refused one leaves it.
fn answer(table: &mut Vec<u32>, call: Call) -> model::Answer {
    if let Call::Open(sizes) = call {
        if sizes.within_limits() {
            table.resize(sizes.length() as usize, 0);
        }
        let mut lent = if sizes.within_limits() { std::mem::take(table) } else { vec![0; LARGEST.length() as usize] };
        let answer = model::call(&mut lent, call);
        if answer.kind == 0 {
            *table = lent;
        }
        return answer;
    }
    model::call(table, call)
}

/// The field of a call.
pub fn put_field(bytes: &mut Vec<u8>, call: Call) {
    let numbers = call.numbers();
    bytes.push(call.tag());
    bytes.extend((4 * numbers.len() as u16).to_be_bytes());
    bytes.extend(numbers.iter().flat_map(|n| n.to_be_bytes()));
}

/// A schedule without faults: mostly an open first, then calls that suit the table as it will be, seldom another open.
fn valid(random: &mut Random, most_calls: u32) -> Vec<u8> {
    let mut bytes = Vec::new();
    let mut state = State::opened(tables::sizes(random));
    if !random.one_in(20) {
        put_field(&mut bytes, Call::Open(state.sizes));
    }
    for _ in 0..random.between(0, most_calls) {
        if random.one_in(60) {
            let sizes = tables::any_sizes(random);
            put_field(&mut bytes, Call::Open(sizes));
            state = if sizes.within_limits() { State::opened(sizes) } else { state };
            continue;
        }
        let call = tables::call(random, &state);
        put_field(&mut bytes, call);
        let mut words = state.words();
        model::call(&mut words, call);
        state = State::read(&words).unwrap_or(state);
    }
    bytes
}

/// A random schedule, numbered from 0: the first ones are the rare shapes, then valid and faulty ones take turns.
pub fn schedule(random: &mut Random, number: u64) -> Vec<u8> {
    match number {
        0 => Vec::new(),
        1 => vec![5; MOST_BYTES + 1],
        2 => filled(random, MOST_BYTES),
        3 => filled(random, MOST_BYTES + 1),
        4 => (0..40).map(|_| random.next() as u8).collect(),
        n if n % 2 == 1 => valid(random, 120),
        _ => faulty(random),
    }
}

/// A schedule of exactly so many bytes: a valid one, again and again, and a piece of it at the end.
fn filled(random: &mut Random, length: usize) -> Vec<u8> {
    let mut bytes = Vec::new();
    while bytes.len() < length {
        bytes.extend(valid(random, 200));
    }
    bytes.truncate(length);
    bytes
}

/// A valid schedule, then one fault: cut short, a wrong tag, a wrong length, or any byte changed.
fn faulty(random: &mut Random) -> Vec<u8> {
    let mut bytes = valid(random, 60);
    let harmed = bytes.len();
    put_field(&mut bytes, Call::Sweep { task: 0 });
    bytes.extend(valid(random, 5));
    let any_place = random.between(0, bytes.len() as u32 - 1) as usize;
    match random.between(0, 4) {
        0 => bytes.truncate(any_place),
        1 => bytes.truncate(harmed + random.between(1, 6) as usize),
        2 => bytes[harmed] = random.of(&[0, 11, 12, 255]),
        3 => bytes[harmed + random.between(1, 2) as usize] ^= 1 << random.between(0, 7),
        _ => bytes[any_place] = random.next() as u8,
    }
    bytes
}

/// The night with one reader, and what is printed for it.
const NIGHT: [(u8, &[u32]); 15] = [
    (1, &[2, 4, 1, 2, 1]),
    (2, &[0]),
    (2, &[1]),
    (5, &[1]),
    (5, &[1]),
    (6, &[1, 0, 0, 2]),
    (3, &[0, 0]),
    (4, &[0]),
    (6, &[1, 0, 2, 0]),
    (7, &[1, 2]),
    (3, &[0, 0]),
    (4, &[0]),
    (9, &[0]),
    (8, &[1]),
    (5, &[1]),
];
const NIGHT_PRINTED: &str = include_str!("../../examples/night.txt");

/// What the model prints for these steps.
fn printed_for(steps: &[(u8, &[u32])]) -> String {
    let mut bytes = Vec::new();
    for &(tag, numbers) in steps {
        put_field(&mut bytes, Call::of(tag, numbers).expect("the night's steps are calls"));
    }
    printed(&bytes, &mut [0; 25])
}

/// Checks the model itself: by the night, and by the night with step 8, the settle, moved after step 10, the retire.
pub fn check_nights(mut judge: impl FnMut(bool, &str)) {
    judge(printed_for(&NIGHT) == NIGHT_PRINTED, "the night");
    let mut late = NIGHT;
    late[7..10].rotate_left(1);
    let said = printed_for(&late);
    judge(said.contains("\n9 7 0 1\n10 4 11 0\n"), "the night with a late settle");
}
