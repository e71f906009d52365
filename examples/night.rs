//! The night with one reader: task 0 reads slot 0 while task 1 writes it. Prints what each call answers.

/// The calls of the archive: a table is a pointer and its length in words.
mod kavdrell {
    #[link(name = "exports", kind = "static")]
    unsafe extern "C" {
        fn kavdrell_open(table: *mut u32, words: usize, t: u32, n: u32, p: u32, f: u32, e: u32) -> u64;
        fn kavdrell_start(table: *mut u32, words: usize, task: u32) -> u64;
        fn kavdrell_look(table: *mut u32, words: usize, task: u32, slot: u32) -> u64;
        fn kavdrell_settle(table: *mut u32, words: usize, task: u32) -> u64;
        fn kavdrell_make(table: *mut u32, words: usize, task: u32) -> u64;
        fn kavdrell_swap(table: *mut u32, words: usize, task: u32, slot: u32, old: u32, new: u32) -> u64;
        fn kavdrell_retire(table: *mut u32, words: usize, task: u32, block: u32) -> u64;
        fn kavdrell_sweep(table: *mut u32, words: usize, task: u32) -> u64;
        fn kavdrell_end(table: *mut u32, words: usize, task: u32) -> u64;
    }

    /// One safe function for each call: a lent slice is what the archive asks for.
    macro_rules! lent {
        ($($name:ident = $call:ident($($number:ident),*);)*) => {
            $(pub fn $name(table: &mut [u32], $($number: u32),*) -> u64 {
                unsafe { $call(table.as_mut_ptr(), table.len(), $($number),*) }
            })*
        };
    }

    lent! {
        open = kavdrell_open(t, n, p, f, e);
        start = kavdrell_start(task);
        look = kavdrell_look(task, slot);
        settle = kavdrell_settle(task);
        make = kavdrell_make(task);
        swap = kavdrell_swap(task, slot, old, new);
        retire = kavdrell_retire(task, block);
        sweep = kavdrell_sweep(task);
        end = kavdrell_end(task);
    }
}

use kavdrell as k;

const READER: u32 = 0;
const WRITER: u32 = 1;
const SLOT: u32 = 0;

/// Two tasks, four blocks, one slot.
type Table = [u32; 6 + 5 * 2 + 4 * 4 + 1];

/// The two kinds that the night has: the step is done; settle: look again.
const DONE: u32 = 0;
const LOOK_AGAIN: u32 = 11;

/// The kind of an answer, its upper 32 bits.
fn kind_of(answer: u64) -> u32 {
    (answer >> 32) as u32
}

/// Ends the program.
fn fail(why: &str) -> ! {
    eprintln!("night: {why}");
    std::process::exit(1)
}

/// How many lines of the night are printed.
#[derive(Default)]
struct Lines(u32);

impl Lines {
    /// Prints the next line of the night, step number, tag (open 1, start 2, look 3, settle 4, make 5, swap 6, retire 7, sweep 8, end 9),
    /// kind and value, and gives the value. Where the kind isn't the one that is due, the value says nothing, and the program ends.
    fn step(&mut self, tag: u32, due: u32, answer: u64) -> u32 {
        let (number, kind, value) = (self.0 + 1, kind_of(answer), answer as u32);
        if kind != due {
            fail(&format!("step {number} answers kind {kind} where {due} is due"));
        }
        println!("{number} {tag} {kind} {value}");
        self.0 = number;
        value
    }

    /// The writer puts a block in the place of the one that the slot holds; 0 is none. A swap that answers 0 changed nothing: the program ends.
    fn put(&mut self, table: &mut Table, old: u32, new: u32) {
        if self.step(6, DONE, k::swap(table, WRITER, SLOT, old, new)) != 1 {
            fail(&format!("the slot doesn't hold block {old}"));
        }
    }

    /// The reader looks and settles, round again at each 'look again', until it is handed the block that it saw, or 0 for an empty slot. The
    /// block is safe until the reader ends. Any other kind ends the program.
    fn read_slot(&mut self, table: &mut Table) -> u32 {
        loop {
            self.step(3, DONE, k::look(table, READER, SLOT));
            let answer = k::settle(table, READER);
            if kind_of(answer) != LOOK_AGAIN {
                return self.step(4, DONE, answer);
            }
            self.step(4, LOOK_AGAIN, answer);
        }
    }
}

fn main() {
    let table: &mut Table = &mut [0; 33];
    let mut night = Lines::default();
    println!("step tag kind value");
    night.step(1, DONE, k::open(table, 2, 4, 1, 2, 1));
    night.step(2, DONE, k::start(table, READER));
    night.step(2, DONE, k::start(table, WRITER));
    night.step(5, DONE, k::make(table, WRITER));
    let block = night.step(5, DONE, k::make(table, WRITER));
    night.put(table, 0, block);
    // The read's first round stands apart from its loop, for in this night the writer steps in after it.
    night.step(3, DONE, k::look(table, READER, SLOT));
    night.step(4, LOOK_AGAIN, k::settle(table, READER));
    night.put(table, block, 0);
    night.step(7, DONE, k::retire(table, WRITER, block));
    night.read_slot(table);
    night.step(9, DONE, k::end(table, READER));
    night.step(8, DONE, k::sweep(table, WRITER));
    night.step(5, DONE, k::make(table, WRITER));
}
