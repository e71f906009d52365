//! Every function of include/kavdrell.h as Rust declares it, with the answers that tests/header.c expects of it. Each number due is worked out
//! from the rules. The last line is 'N passed, M failed'.

#[repr(C)]
#[derive(Debug, PartialEq)]
struct ZoneMinutes {
    kind: u32,
    minutes: i32,
}

#[repr(C)]
#[derive(Debug, PartialEq)]
struct Written {
    kind: u32,
    value: usize,
}

#[link(name = "exports", kind = "static")]
unsafe extern "C" {
    fn kavdrell_open(table: *mut u32, words: usize, tasks: u32, blocks: u32, slots: u32, makes_per_epoch: u32, retirements_per_sweep: u32) -> u64;
    fn kavdrell_start(table: *mut u32, words: usize, task: u32) -> u64;
    fn kavdrell_look(table: *mut u32, words: usize, task: u32, slot: u32) -> u64;
    fn kavdrell_settle(table: *mut u32, words: usize, task: u32) -> u64;
    fn kavdrell_make(table: *mut u32, words: usize, task: u32) -> u64;
    fn kavdrell_swap(table: *mut u32, words: usize, task: u32, slot: u32, old_block: u32, new_block: u32) -> u64;
    fn kavdrell_retire(table: *mut u32, words: usize, task: u32, block: u32) -> u64;
    fn kavdrell_sweep(table: *mut u32, words: usize, task: u32) -> u64;
    fn kavdrell_end(table: *mut u32, words: usize, task: u32) -> u64;
    fn kavdrell_tally(table: *mut u32, words: usize, state: u32) -> u64;
    fn kavdrell_zone_hour(table: *const u8, bytes: usize, hour: i32) -> ZoneMinutes;
    fn kavdrell_zone_block(room: *const u8, bytes: usize, block: u32) -> ZoneMinutes;
    fn kavdrell_zone_write(minutes: i32, buffer: *mut u8, bytes: usize) -> u32;
    fn kavdrell_zone_read(characters: *const u8, bytes: usize) -> ZoneMinutes;
    fn kavdrell_write_field(buffer: *mut u8, bytes: usize, place: usize, tag: u8, numbers: *const u32, count: usize) -> Written;
}

/// How many answers were the ones due, and how many weren't.
#[derive(Default)]
struct Tally {
    passed: u32,
    failed: u32,
}

impl Tally {
    fn is<T: PartialEq + std::fmt::Debug>(&mut self, what: &str, got: T, due: T) {
        if got == due {
            self.passed += 1;
        } else {
            self.failed += 1;
            println!("FAILED: {what} is {got:?}; it should be {due:?}");
        }
    }

    /// A step's answer as its kind and value.
    fn answers(&mut self, step: &str, answer: u64, kind: u32, value: u32) {
        self.is(step, ((answer >> 32) as u32, answer as u32), (kind, value));
    }
}

/// Task 2 of three makes six of ten blocks, shows block 4 in slot 1 of two, reads it, retires the others and ends; the epoch rises at the
/// fifth make.
fn steps(tally: &mut Tally) {
    let mut lent = [0u32; 63];
    let (table, words) = (lent.as_mut_ptr(), lent.len());
    unsafe {
        tally.answers("open", kavdrell_open(table, words, 3, 10, 2, 5, 4), 0, 63);
        tally.answers("start", kavdrell_start(table, words, 2), 0, 0);
        for block in 1..=6 {
            tally.answers("make", kavdrell_make(table, words, 2), 0, block);
        }
        tally.answers("swap", kavdrell_swap(table, words, 2, 1, 0, 4), 0, 1);
        tally.answers("retire of a named block", kavdrell_retire(table, words, 2, 4), 8, 0);
        tally.answers("look", kavdrell_look(table, words, 2, 1), 0, 0);
        tally.answers("settle", kavdrell_settle(table, words, 2), 11, 0);
        tally.answers("look", kavdrell_look(table, words, 2, 1), 0, 0);
        tally.answers("settle", kavdrell_settle(table, words, 2), 0, 4);
        tally.answers("tally of made", kavdrell_tally(table, words, 1), 0, 5);
        tally.answers("end", kavdrell_end(table, words, 2), 12, 0);
        for block in [1, 2, 3, 5, 6] {
            tally.answers("retire", kavdrell_retire(table, words, 2, block), 0, 0);
        }
        tally.answers("end", kavdrell_end(table, words, 2), 0, 0);
        tally.answers("sweep", kavdrell_sweep(table, words, 2), 0, 5);
        tally.answers("tally of free", kavdrell_tally(table, words, 0), 0, 9);
    }
    tally.is("the table's first words", &lent[..6], &[3, 10, 2, 5, 4, 1]);
}

/// A store of three records, of -210, 901 and 345 minutes, as a room and as the first hours of a table; and characters both ways.
fn zones(tally: &mut Tally) {
    let store = *b"\xff\x2eI-0330\x03\x85FAROFF\x01\x59N+0545";
    let mut buffer = *b"?????";
    unsafe {
        tally.is("block 1", kavdrell_zone_block(store.as_ptr(), store.len(), 1), ZoneMinutes { kind: 0, minutes: -210 });
        tally.is("block 2", kavdrell_zone_block(store.as_ptr(), store.len(), 2), ZoneMinutes { kind: 30, minutes: 0 });
        tally.is("block 4", kavdrell_zone_block(store.as_ptr(), store.len(), 4), ZoneMinutes { kind: 31, minutes: 0 });
        tally.is("hour -13", kavdrell_zone_hour(store.as_ptr(), store.len(), -13), ZoneMinutes { kind: 0, minutes: 345 });
        tally.is("hour 16", kavdrell_zone_hour(store.as_ptr(), store.len(), 16), ZoneMinutes { kind: 31, minutes: 0 });
        tally.is("zone_write", kavdrell_zone_write(-210, buffer.as_mut_ptr(), 5), 0);
        tally.is("zone_write of four bytes", kavdrell_zone_write(-30, buffer.as_mut_ptr(), 4), 33);
        tally.is("zone_read", kavdrell_zone_read(b"-0330".as_ptr(), 5), ZoneMinutes { kind: 0, minutes: -210 });
        tally.is("zone_read of -0000", kavdrell_zone_read(b"-0000".as_ptr(), 5), ZoneMinutes { kind: 32, minutes: 0 });
    }
    tally.is("zone_write's characters", &buffer, b"-0330");
}

/// A look of two numbers at place 3 of 20 bytes, and one that has no room.
fn fields(tally: &mut Tally) {
    let mut buffer = [9u8; 20];
    let numbers = [0x01020304u32, 5];
    let (bytes, at) = (buffer.as_mut_ptr(), numbers.as_ptr());
    unsafe {
        tally.is("write_field", kavdrell_write_field(bytes, 20, 3, 3, at, 2), Written { kind: 0, value: 14 });
        tally.is("write_field at 10", kavdrell_write_field(bytes, 20, 10, 3, at, 2), Written { kind: 25, value: 0 });
    }
    tally.is("write_field's bytes", buffer, [9, 9, 9, 3, 0, 8, 1, 2, 3, 4, 0, 0, 0, 5, 9, 9, 9, 9, 9, 9]);
}

fn main() {
    let mut tally = Tally::default();
    steps(&mut tally);
    zones(&mut tally);
    fields(&mut tally);
    println!("{} passed, {} failed", tally.passed, tally.failed);
    std::process::exit(if tally.failed > 0 { 1 } else { 0 });
}
