//! Schedules as text, one step a line by its name and numbers, told once more for the tests: what `write` makes of a text, what `list`
//! prints for a schedule, and random texts.

use crate::model::{Call, STEP_NAMES};
use crate::random::Random;
use crate::schedules::{self, MOST_BYTES};

/// A text has at most so many bytes.
const MOST_TEXT: usize = 4 * MOST_BYTES;

/// What can be wrong with a line, as `write` tells it.
pub const WRONGS: [&str; 5] = ["unknown step", "not a number", "a number above 4294967295", "too few numbers", "too many numbers"];
pub const LONG_SCHEDULE: &str = "the schedule would be longer than 65536 bytes";
pub const LONG_TEXT: &str = "the text is longer than 262144 bytes";

/// The call on a line, none where it is blank, or what is wrong with it.
fn line(bytes: &[u8]) -> Result<Option<Call>, &'static str> {
    let [unknown, not_a_number, too_large, too_few, too_many] = WRONGS;
    let said = bytes.split(|&b| b == b'#').next().unwrap_or_default();
    let mut words = said.split(|b| b" \t\r".contains(b)).filter(|word| !word.is_empty());
    let Some(name) = words.next() else { return Ok(None) };
    let step = STEP_NAMES.iter().position(|known| known.as_bytes() == name).ok_or(unknown)?;
    let tag = step as u8 + 1;
    let mut numbers = Vec::new();
    while Call::of(tag, &numbers).is_none() {
        let word = words.next().ok_or(too_few)?;
        if !word.iter().all(u8::is_ascii_digit) {
            return Err(not_a_number);
        }
        let digits = String::from_utf8_lossy(word);
        numbers.push(digits.parse().map_err(|_| too_large)?);
    }
    if words.next().is_some() { Err(too_many) } else { Ok(Call::of(tag, &numbers)) }
}

/// What `write` writes, and its complaints: with any it writes nothing. It tells every wrong line, up to where the schedule gets too long.
pub fn written(text: &[u8]) -> (Vec<u8>, String) {
    if text.len() > MOST_TEXT {
        return (Vec::new(), format!("{LONG_TEXT}\n"));
    }
    let (mut schedule, mut complaints) = (Vec::new(), String::new());
    for (number, bytes) in (1..).zip(text.split(|&b| b == b'\n')) {
        match line(bytes) {
            Ok(None) => {}
            Ok(Some(call)) => schedules::put_field(&mut schedule, call),
            Err(what) => complaints += &format!("line {number}: {what}\n"),
        }
        if schedule.len() > MOST_BYTES {
            complaints += &format!("line {number}: {LONG_SCHEDULE}\n");
            break;
        }
    }
    if complaints.is_empty() { (schedule, complaints) } else { (Vec::new(), complaints) }
}

/// The text of a call.
fn typed(call: Call) -> String {
    let numbers: String = call.numbers().iter().map(|n| format!(" {n}")).collect();
    format!("{}{numbers}", STEP_NAMES[usize::from(call.tag()) - 1])
}

/// What `list` prints for a schedule, and its complaint about the first field that is none.
pub fn listed(schedule: &[u8]) -> (Vec<u8>, String) {
    if schedule.len() > MOST_BYTES {
        return (Vec::new(), "kind 24: the schedule is longer than 65536 bytes\n".to_string());
    }
    let (mut text, mut place) = (String::new(), 0);
    while place < schedule.len() {
        match schedules::field(&schedule[place..]).1 {
            Ok((call, length)) => {
                text += &(typed(call) + "\n");
                place += length;
            }
            Err(kind) => {
                let what = ["the field is cut short", "no step has this tag", "the length is not the tag's"][kind as usize - 21];
                return (text.into_bytes(), format!("byte {place}: kind {kind}: {what}\n"));
            }
        }
    }
    (text.into_bytes(), String::new())
}

/// A random text, numbered from 0: the first ones are the rare shapes.
pub fn text(random: &mut Random, number: u64) -> Vec<u8> {
    match number {
        0 => Vec::new(),
        1 => vec![b'#'; MOST_TEXT],
        2 => vec![b'\n'; MOST_TEXT + 1],
        3 => b"end 0\n".repeat(MOST_BYTES / 7),
        4 => b"end 0\n".repeat(MOST_BYTES / 7 + 1),
        5 => b"retire 4294967295 4294967295\n".repeat(MOST_BYTES / 11),
        6 => (0..400).map(|_| random.next() as u8).collect(),
        _ => {
            let wrong = number % 2 == 0;
            (0..random.between(1, 40)).flat_map(|_| any_line(random, wrong)).collect()
        }
    }
}

/// A line of text: a step laid out in some way, or nothing; where it may be wrong, it is seldom.
fn any_line(random: &mut Random, may_be_wrong: bool) -> Vec<u8> {
    let tag = random.between(1, 10) as u8;
    let count = schedules::body_length(tag).map_or(0, |length| length / 4);
    let mut words = vec![STEP_NAMES[usize::from(tag) - 1].to_string()];
    words.extend((0..count).map(|_| format!("{}{}", random.of(&["", "", "0", "0000000000"]), random.word())));
    if may_be_wrong && random.one_in(6) {
        make_wrong(random, &mut words);
    }
    if random.one_in(8) {
        words.clear();
    }
    let mut line = random.of(&["", "", " ", "\t \t"]).to_string();
    for word in words {
        line += &(word + random.of(&[" ", " ", "\t", "   "]));
    }
    line += random.of(&["", "", "# a comment", "#"]);
    line += random.of(&["\n", "\n", "\r\n"]);
    line.into_bytes()
}

/// One of the words harmed, one left out, or one more.
fn make_wrong(random: &mut Random, words: &mut Vec<String>) {
    let place = random.between(0, words.len() as u32 - 1) as usize;
    match random.between(0, 5) {
        0 => words[place] += random.of(&["x", "-", "0000000000", "\u{e9}", "\0"]),
        1 => words[place] = random.of(&["4294967296", "99999999999999999999999", "-1", "1e3", "Open", "ope", "opens"]).to_string(),
        2 => drop(words.pop()),
        3 => words.push(random.of(&["0", "x"]).to_string()),
        4 => words[place] = random.of(&["4294967295", "18446744073709551616", "004294967295"]).to_string(),
        _ => words.swap(0, place),
    }
}
