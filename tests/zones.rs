//! The zone functions of the archive compared with their description, told once more here: every offset from −1,000 to 1,000, five characters
//! of every kind near the limits, and both stores short and long. The last line is 'N passed, M failed'.

use std::collections::BTreeMap;

#[repr(C)]
#[derive(Clone, Copy, Debug, PartialEq)]
struct ZoneMinutes {
    kind: u32,
    minutes: i32,
}

#[link(name = "exports", kind = "static")]
unsafe extern "C" {
    fn kavdrell_zone_write(minutes: i32, buffer: *mut u8, bytes: usize) -> u32;
    fn kavdrell_zone_read(characters: *const u8, bytes: usize) -> ZoneMinutes;
    fn kavdrell_zone_hour(table: *const u8, bytes: usize, hour: i32) -> ZoneMinutes;
    fn kavdrell_zone_block(room: *const u8, bytes: usize, block: u32) -> ZoneMinutes;
}

fn read(characters: &[u8]) -> ZoneMinutes {
    unsafe { kavdrell_zone_read(characters.as_ptr(), characters.len()) }
}

/// What was compared: how often each check met each kind, and how often it differed.
#[derive(Default)]
struct Tally {
    met: BTreeMap<(&'static str, u32), u64>,
    failed: u64,
}

impl Tally {
    fn compare<T: PartialEq + std::fmt::Debug>(&mut self, check: &'static str, kind: u32, case: impl std::fmt::Debug, due: T, got: T) {
        *self.met.entry((check, kind)).or_default() += 1;
        if due != got {
            self.failed += 1;
            println!("{check} of {case:?}: due {due:?}, got {got:?}");
        }
    }
}

/// A sign, two digits of hours and two of minutes.
fn characters(minutes: i32) -> Vec<u8> {
    let size = minutes.unsigned_abs();
    format!("{}{:02}{:02}", if minutes < 0 { '-' } else { '+' }, size / 60, size % 60).into_bytes()
}

/// The minutes that characters say: 32, then 30.
fn read_due(characters: &[u8]) -> ZoneMinutes {
    let refused = |kind| ZoneMinutes { kind, minutes: 0 };
    let text = match std::str::from_utf8(characters) {
        Ok(text) if text.len() == 5 && text.is_ascii() => text,
        _ => return refused(32),
    };
    let (sign, digits) = text.split_at(1);
    if !"+-".contains(sign) || !digits.bytes().all(|c| c.is_ascii_digit()) {
        return refused(32);
    }
    let size = digits[..2].parse::<i32>().unwrap() * 60 + digits[2..].parse::<i32>().unwrap();
    if &digits[2..] > "59" || (sign == "-" && size == 0) {
        return refused(32);
    }
    if size > 900 {
        return refused(30);
    }
    ZoneMinutes { kind: 0, minutes: if sign == "-" { -size } else { size } }
}

/// The minutes of the record at a place of a store: 31 where it isn't there, then 30.
fn record_due(store: &[u8], place: Option<usize>) -> ZoneMinutes {
    let Some(record) = place.and_then(|at| store.get(at..at + 8)) else {
        return ZoneMinutes { kind: 31, minutes: 0 };
    };
    let minutes = i32::from(i16::from_be_bytes([record[0], record[1]]));
    if minutes.abs() > 900 {
        return ZoneMinutes { kind: 30, minutes: 0 };
    }
    ZoneMinutes { kind: 0, minutes }
}

/// The fixed table: the hours −15 to +15, with the name UTC, a sign and two digits.
fn fixed_table() -> Vec<u8> {
    (-15..=15)
        .flat_map(|hour: i16| [&(60 * hour).to_be_bytes()[..], b"UTC", &characters(i32::from(60 * hour))[..3]].concat())
        .collect()
}

fn writes(tally: &mut Tally) {
    for minutes in (-1000..=1000).chain([i32::MIN, i32::MAX]) {
        for length in 0..8 {
            let mut buffer = vec![b'?'; length];
            let kind = unsafe { kavdrell_zone_write(minutes, buffer.as_mut_ptr(), length) };
            let due = match (minutes.unsigned_abs() > 900, length) {
                (true, _) => (30, vec![b'?'; length]),
                (false, 5) => (0, characters(minutes)),
                (false, _) => (33, vec![b'?'; length]),
            };
            if kind == 0 {
                tally.compare("read of what was written", 0, minutes, ZoneMinutes { kind: 0, minutes }, read(&buffer));
            }
            tally.compare("write", due.0, (minutes, length), due.clone(), (kind, buffer));
        }
    }
}

fn reads(tally: &mut Tally) {
    const NEAR: &[u8] = b"+-014569/: a\0\xff";
    for n in 0..NEAR.len().pow(5) {
        let five: Vec<u8> = (0..5).map(|i| NEAR[n / NEAR.len().pow(i) % NEAR.len()]).collect();
        let due = read_due(&five);
        tally.compare("read", due.kind, &five, due, read(&five));
    }
    for length in [0, 1, 2, 3, 4, 6, 7, 100] {
        let zeros = [b"+".as_slice(), &vec![b'0'; length]].concat();
        tally.compare("read", 32, length, read_due(&zeros[..length]), read(&zeros[..length]));
    }
}

fn hours(tally: &mut Tally) {
    let table = fixed_table();
    for length in 0..=table.len() + 9 {
        let store: Vec<u8> = table.iter().copied().chain([0; 9]).take(length).collect();
        for hour in (-17..=17).chain([i32::MIN, i32::MAX]) {
            let place = (-15..=15).contains(&hour).then(|| 8 * (hour + 15) as usize);
            let due = record_due(&store, place);
            tally.compare("hour", due.kind, (length, hour), due, unsafe { kavdrell_zone_hour(store.as_ptr(), length, hour) });
        }
    }
}

fn blocks(tally: &mut Tally) {
    const OFFSETS: [i16; 12] = [-901, -900, -210, -1, 0, 1, 210, 900, 901, i16::MIN, i16::MAX, -256];
    let room: Vec<u8> = OFFSETS.iter().flat_map(|offset| [&offset.to_be_bytes()[..], b"NAMED!"].concat()).collect();
    for length in 0..=room.len() {
        for block in (0..=14).chain([u32::MAX]) {
            let due = record_due(&room[..length], (block > 0).then(|| 8 * (block as usize - 1)));
            tally.compare("block", due.kind, (length, block), due, unsafe { kavdrell_zone_block(room.as_ptr(), length, block) });
        }
    }
}

fn main() {
    let mut tally = Tally::default();
    for check in [writes, reads, hours, blocks] {
        check(&mut tally);
    }
    for ((check, kind), times) in &tally.met {
        println!("zones: {check}: kind {kind} × {times}");
    }
    let compared: u64 = tally.met.values().sum();
    println!("{} passed, {} failed", compared - tally.failed, tally.failed);
    std::process::exit(if tally.failed > 0 { 1 } else { 0 });
}
