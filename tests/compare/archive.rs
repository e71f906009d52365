//! The calls of the archive: linked into this program, or made by another process that has it linked.

use crate::model::{Answer, Call};
use std::io::{Read, Write};
use std::process::{Child, ChildStdin, ChildStdout, Command, Stdio};

/// Something that makes a call on lent words.
pub trait Archive {
    fn call(&mut self, words: &mut [u32], call: Call) -> Answer;
}

#[link(name = "exports", kind = "static")]
unsafe extern "C" {
    fn kavdrell_open(table: *mut u32, words: usize, t: u32, n: u32, p: u32, f: u32, e: u32) -> u64;
    fn kavdrell_start(table: *mut u32, words: usize, task: u32) -> u64;
    fn kavdrell_look(table: *mut u32, words: usize, task: u32, slot: u32) -> u64;
    fn kavdrell_settle(table: *mut u32, words: usize, task: u32) -> u64;
    fn kavdrell_make(table: *mut u32, words: usize, task: u32) -> u64;
    fn kavdrell_swap(table: *mut u32, words: usize, task: u32, slot: u32, old: u32, new: u32) -> u64;
    fn kavdrell_retire(table: *mut u32, words: usize, task: u32, block: u32) -> u64;
    fn kavdrell_sweep(table: *mut u32, words: usize, task: u32) -> u64;
    fn kavdrell_end(table: *mut u32, words: usize, task: u32) -> u64;
    fn kavdrell_tally(table: *mut u32, words: usize, state: u32) -> u64;

    // Of the C library: pages, and what may be done with them.
    fn mmap(address: *mut u8, length: usize, may: i32, flags: i32, file: i32, offset: i64) -> *mut u8;
    fn mprotect(address: *mut u8, length: usize, may: i32) -> i32;
}

/// The kind and the value that the archive packs into one number.
fn unpacked(packed: u64) -> Answer {
    Answer { kind: (packed >> 32) as u32, value: packed as u32 }
}

/// Room that ends where no word may be read or written, so that a call that goes past the lent words stops the tests.
struct FencedRoom {
    end: *mut u32,
}

/// A whole number of pages on any machine.
const ROOM_BYTES: usize = 1 << 17;
const FENCE_BYTES: usize = 1 << 16;

/// The words before the lent ones, which no call may change.
const BEFORE: usize = 16;
const BEFORE_WORD: u32 = 0x5A5A_5A5A;

impl FencedRoom {
    fn new() -> FencedRoom {
        const READ_WRITE: i32 = 3;
        const PRIVATE_ANONYMOUS: i32 = 0x22;
        unsafe {
            let start = mmap(std::ptr::null_mut(), ROOM_BYTES + FENCE_BYTES, READ_WRITE, PRIVATE_ANONYMOUS, -1, 0);
            assert!(start as isize != -1, "no room for tables");
            let fence = start.add(ROOM_BYTES);
            assert!(mprotect(fence, FENCE_BYTES, 0) == 0, "no fence behind the room");
            FencedRoom { end: fence.cast() }
        }
    }

    /// Room for so many words, up to the fence.
    fn last(&mut self, words: usize) -> &mut [u32] {
        assert!(4 * words <= ROOM_BYTES, "a table of {words} words is too long for the tests");
        unsafe { std::slice::from_raw_parts_mut(self.end.sub(words), words) }
    }
}

/// The archive linked into this program.
pub struct Linked {
    room: FencedRoom,
}

impl Linked {
    pub fn new() -> Linked {
        Linked { room: FencedRoom::new() }
    }
}

impl Archive for Linked {
    fn call(&mut self, words: &mut [u32], call: Call) -> Answer {
        let (before, lent) = self.room.last(BEFORE + words.len()).split_at_mut(BEFORE);
        before.fill(BEFORE_WORD);
        lent.copy_from_slice(words);
        let answer = unpacked(made(lent.as_mut_ptr(), lent.len(), call));
        assert!(before.iter().all(|&w| w == BEFORE_WORD), "{call:?} changed words before the table");
        words.copy_from_slice(lent);
        answer
    }
}

fn made(t: *mut u32, w: usize, call: Call) -> u64 {
    unsafe {
        match call {
            Call::Open(s) => kavdrell_open(t, w, s.tasks, s.blocks, s.slots, s.makes_per_epoch, s.retirements_per_sweep),
            Call::Start { task } => kavdrell_start(t, w, task),
            Call::Look { task, slot } => kavdrell_look(t, w, task, slot),
            Call::Settle { task } => kavdrell_settle(t, w, task),
            Call::Make { task } => kavdrell_make(t, w, task),
            Call::Swap { task, slot, old, new } => kavdrell_swap(t, w, task, slot, old, new),
            Call::Retire { task, block } => kavdrell_retire(t, w, task, block),
            Call::Sweep { task } => kavdrell_sweep(t, w, task),
            Call::End { task } => kavdrell_end(t, w, task),
            Call::Tally { state } => kavdrell_tally(t, w, state),
        }
    }
}

/// The archive in another process (serve.c): it is sent tag, length, five numbers and the words, and sends back the packed answer and
/// the words.
pub struct Served {
    process: Child,
    requests: ChildStdin,
    answers: ChildStdout,
}

impl Served {
    pub fn new(program: &str) -> Result<Served, String> {
        let mut process = Command::new(program)
            .stdin(Stdio::piped())
            .stdout(Stdio::piped())
            .spawn()
            .map_err(|e| format!("{program} does not run: {e}"))?;
        let requests = process.stdin.take().ok_or("no way to send calls")?;
        let answers = process.stdout.take().ok_or("no way to read answers")?;
        Ok(Served { process, requests, answers })
    }

    fn exchange(&mut self, words: &mut [u32], call: Call) -> std::io::Result<Answer> {
        let mut request = vec![u32::from(call.tag()), words.len() as u32];
        request.extend(call.numbers());
        request.resize(7, 0);
        request.extend_from_slice(words);
        let bytes: Vec<u8> = request.iter().flat_map(|w| w.to_le_bytes()).collect();
        self.requests.write_all(&bytes)?;
        let mut reply = vec![0; 8 + 4 * words.len()];
        self.answers.read_exact(&mut reply)?;
        let (packed, left) = reply.split_at(8);
        for (word, bytes) in words.iter_mut().zip(left.chunks_exact(4)) {
            *word = u32::from_le_bytes([bytes[0], bytes[1], bytes[2], bytes[3]]);
        }
        let packed = packed.iter().rev().fold(0, |number, &byte| number << 8 | u64::from(byte));
        Ok(unpacked(packed))
    }
}

impl Archive for Served {
    fn call(&mut self, words: &mut [u32], call: Call) -> Answer {
        match self.exchange(words, call) {
            Ok(answer) => answer,
            Err(e) => panic!("the process with the archive failed on {call:?}: {e}; it ended {:?}", self.process.wait()),
        }
    }
}
