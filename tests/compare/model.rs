//! The rules of the table and its ten steps, told once more for the tests, from their description alone. A table's words are read
//! into a state whose types can say only what a sound table may hold; a step changes the state; the state is laid out as words again.

pub const IDLE_MARK: u32 = 4_294_967_295;
pub const LAST_EPOCH: u32 = 4_294_967_294;
pub const MOST_MAKES: u32 = 4_294_967_295;

/// The sizes of a table: T tasks, N blocks, P slots, F makes per epoch, E retirements per sweep.
#[derive(Clone, Copy, Debug, PartialEq)]
pub struct Sizes {
    pub tasks: u32,
    pub blocks: u32,
    pub slots: u32,
    pub makes_per_epoch: u32,
    pub retirements_per_sweep: u32,
}

/// The largest of each size; the smallest is 1.
pub const LARGEST: Sizes = Sizes { tasks: 32, blocks: 1024, slots: 256, makes_per_epoch: 65_536, retirements_per_sweep: 1024 };

#[derive(Clone, Copy, Debug, PartialEq)]
pub struct Interval {
    pub lower: u32,
    pub upper: u32,
}

#[derive(Clone, Copy, Debug, PartialEq)]
pub enum Phase {
    Idle,
    Working(Interval),
    /// The candidate of the outstanding look, 0 for none.
    Looking(Interval, u32),
}

#[derive(Clone, Copy, Debug, PartialEq)]
pub struct Task {
    pub makes: u32,
    pub phase: Phase,
}

#[derive(Clone, Copy, Debug, PartialEq)]
pub enum Block {
    Free,
    Made { maker: u32, birth: u32 },
    Shown { birth: u32 },
    Retired { retirer: u32, birth: u32, retire: u32 },
}

#[derive(Clone, Debug, PartialEq)]
pub struct State {
    pub sizes: Sizes,
    pub epoch: u32,
    pub tasks: Vec<Task>,
    /// Block b stands at place b - 1.
    pub blocks: Vec<Block>,
    /// Block numbers, 0 for none.
    pub slots: Vec<u32>,
}

/// What a step answers.
#[derive(Clone, Copy, Debug, PartialEq)]
pub struct Answer {
    pub kind: u32,
    pub value: u32,
}

/// A call of one of the ten steps. Open is lent the words as the others are.
#[derive(Clone, Copy, Debug, PartialEq)]
pub enum Call {
    Open(Sizes),
    Start { task: u32 },
    Look { task: u32, slot: u32 },
    Settle { task: u32 },
    Make { task: u32 },
    Swap { task: u32, slot: u32, old: u32, new: u32 },
    Retire { task: u32, block: u32 },
    Sweep { task: u32 },
    End { task: u32 },
    Tally { state: u32 },
}

pub const STEP_NAMES: [&str; 10] = ["open", "start", "look", "settle", "make", "swap", "retire", "sweep", "end", "tally"];

impl Call {
    /// The tag of the step, 1 to 10.
    pub fn tag(self) -> u8 {
        match self {
            Call::Open(_) => 1,
            Call::Start { .. } => 2,
            Call::Look { .. } => 3,
            Call::Settle { .. } => 4,
            Call::Make { .. } => 5,
            Call::Swap { .. } => 6,
            Call::Retire { .. } => 7,
            Call::Sweep { .. } => 8,
            Call::End { .. } => 9,
            Call::Tally { .. } => 10,
        }
    }

    /// The numbers of the call, in the order of a schedule.
    pub fn numbers(self) -> Vec<u32> {
        match self {
            Call::Open(s) => vec![s.tasks, s.blocks, s.slots, s.makes_per_epoch, s.retirements_per_sweep],
            Call::Look { task, slot } => vec![task, slot],
            Call::Swap { task, slot, old, new } => vec![task, slot, old, new],
            Call::Retire { task, block } => vec![task, block],
            Call::Start { task } | Call::Settle { task } | Call::Make { task } => vec![task],
            Call::Sweep { task } | Call::End { task } => vec![task],
            Call::Tally { state } => vec![state],
        }
    }

    /// The call with this tag and these numbers, if there is one.
    pub fn of(tag: u8, numbers: &[u32]) -> Option<Call> {
        Some(match (tag, numbers) {
            (1, &[tasks, blocks, slots, makes_per_epoch, retirements_per_sweep]) => {
                Call::Open(Sizes { tasks, blocks, slots, makes_per_epoch, retirements_per_sweep })
            }
            (2, &[task]) => Call::Start { task },
            (3, &[task, slot]) => Call::Look { task, slot },
            (4, &[task]) => Call::Settle { task },
            (5, &[task]) => Call::Make { task },
            (6, &[task, slot, old, new]) => Call::Swap { task, slot, old, new },
            (7, &[task, block]) => Call::Retire { task, block },
            (8, &[task]) => Call::Sweep { task },
            (9, &[task]) => Call::End { task },
            (10, &[state]) => Call::Tally { state },
            _ => return None,
        })
    }
}

impl Sizes {
    pub fn within_limits(self) -> bool {
        (1..=LARGEST.tasks).contains(&self.tasks)
            && (1..=LARGEST.blocks).contains(&self.blocks)
            && (1..=LARGEST.slots).contains(&self.slots)
            && (1..=LARGEST.makes_per_epoch).contains(&self.makes_per_epoch)
            && (1..=LARGEST.retirements_per_sweep).contains(&self.retirements_per_sweep)
    }

    /// The words that a table of these sizes has.
    pub fn length(self) -> u64 {
        6 + 5 * u64::from(self.tasks) + 4 * u64::from(self.blocks) + u64::from(self.slots)
    }
}

impl Interval {
    fn meets(self, birth: u32, retire: u32) -> bool {
        birth <= self.upper && retire >= self.lower
    }
}

impl Task {
    fn interval(self) -> Option<Interval> {
        match self.phase {
            Phase::Idle => None,
            Phase::Working(interval) | Phase::Looking(interval, _) => Some(interval),
        }
    }

    /// The task that these words are, in a table with this epoch and so many blocks.
    fn read(words: &[u32], epoch: u32, blocks: u32) -> Option<Task> {
        let &[lower, upper, makes, phase, candidate] = words else { return None };
        let interval = Interval { lower, upper };
        let in_order = lower <= upper && upper <= epoch;
        let phase = match phase {
            0 if lower == IDLE_MARK && upper == IDLE_MARK && candidate == 0 => Phase::Idle,
            1 if in_order && candidate == 0 => Phase::Working(interval),
            2 if in_order && candidate <= blocks => Phase::Looking(interval, candidate),
            _ => return None,
        };
        Some(Task { makes, phase })
    }

    fn words(self) -> [u32; 5] {
        match self.phase {
            Phase::Idle => [IDLE_MARK, IDLE_MARK, self.makes, 0, 0],
            Phase::Working(i) => [i.lower, i.upper, self.makes, 1, 0],
            Phase::Looking(i, candidate) => [i.lower, i.upper, self.makes, 2, candidate],
        }
    }
}

impl Block {
    pub fn state(self) -> u32 {
        match self {
            Block::Free => 0,
            Block::Made { .. } => 1,
            Block::Shown { .. } => 2,
            Block::Retired { .. } => 3,
        }
    }

    /// The block that these words are, in a table with this epoch and so many tasks.
    fn read(words: &[u32], epoch: u32, tasks: u32) -> Option<Block> {
        let &[state, task, birth, retire] = words else { return None };
        match state {
            0 if task == 0 && birth == 0 && retire == 0 => Some(Block::Free),
            1 if task < tasks && birth <= epoch && retire == 0 => Some(Block::Made { maker: task, birth }),
            2 if task == 0 && birth <= epoch && retire == 0 => Some(Block::Shown { birth }),
            3 if task < tasks && birth <= retire && retire <= epoch => Some(Block::Retired { retirer: task, birth, retire }),
            _ => None,
        }
    }

    fn words(self) -> [u32; 4] {
        match self {
            Block::Free => [0, 0, 0, 0],
            Block::Made { maker, birth } => [1, maker, birth, 0],
            Block::Shown { birth } => [2, 0, birth, 0],
            Block::Retired { retirer, birth, retire } => [3, retirer, birth, retire],
        }
    }
}

impl State {
    pub fn opened(sizes: Sizes) -> State {
        State {
            sizes,
            epoch: 0,
            tasks: vec![Task { makes: 0, phase: Phase::Idle }; sizes.tasks as usize],
            blocks: vec![Block::Free; sizes.blocks as usize],
            slots: vec![0; sizes.slots as usize],
        }
    }

    /// The state that these words lay out: none where the table isn't sound.
    pub fn read(words: &[u32]) -> Option<State> {
        let &[tasks, blocks, slots, makes_per_epoch, retirements_per_sweep, epoch] = words.get(..6)? else { return None };
        let sizes = Sizes { tasks, blocks, slots, makes_per_epoch, retirements_per_sweep };
        if !sizes.within_limits() || words.len() as u64 != sizes.length() || epoch > LAST_EPOCH {
            return None;
        }
        let (task_words, rest) = words[6..].split_at(5 * tasks as usize);
        let (block_words, slot_words) = rest.split_at(4 * blocks as usize);
        let state = State {
            sizes,
            epoch,
            tasks: task_words.chunks(5).map(|w| Task::read(w, epoch, blocks)).collect::<Option<_>>()?,
            blocks: block_words.chunks(4).map(|w| Block::read(w, epoch, tasks)).collect::<Option<_>>()?,
            slots: slot_words.to_vec(),
        };
        let sound_slot = |&b: &u32| b == 0 || matches!(state.block(b), Some(Block::Shown { .. }));
        state.slots.iter().all(sound_slot).then_some(state)
    }

    pub fn words(&self) -> Vec<u32> {
        let s = self.sizes;
        let mut words = vec![s.tasks, s.blocks, s.slots, s.makes_per_epoch, s.retirements_per_sweep, self.epoch];
        words.extend(self.tasks.iter().flat_map(|t| t.words()));
        words.extend(self.blocks.iter().flat_map(|b| b.words()));
        words.extend(&self.slots);
        words
    }

    /// Block b, if the table has it; 0 is none.
    pub fn block(&self, b: u32) -> Option<Block> {
        self.blocks.get((b as usize).checked_sub(1)?).copied()
    }

    fn set_block(&mut self, b: u32, block: Block) {
        self.blocks[b as usize - 1] = block;
    }

    fn count(&self, wanted: impl Fn(Block) -> bool) -> u32 {
        self.blocks.iter().filter(|&&b| wanted(b)).count() as u32
    }

    /// Frees what the task retired and no task's interval meets; how many that were.
    fn free_unmet(&mut self, task: u32) -> u32 {
        let intervals: Vec<Interval> = self.tasks.iter().filter_map(|t| t.interval()).collect();
        let mut freed = 0;
        for block in &mut self.blocks {
            if let Block::Retired { retirer, birth, retire } = *block {
                if retirer == task && !intervals.iter().any(|i| i.meets(birth, retire)) {
                    *block = Block::Free;
                    freed += 1;
                }
            }
        }
        freed
    }

    /// The step that the call asks for: the value, or the kind of the refusal (or kind 11, look again). A refusal changes nothing.
    fn step(&mut self, call: Call) -> Result<u32, u32> {
        match call {
            Call::Open(_) => unreachable!("open looks at no state"),
            Call::Start { task } => self.start(task),
            Call::Look { task, slot } => self.look(task, slot),
            Call::Settle { task } => self.settle(task),
            Call::Make { task } => self.make(task),
            Call::Swap { task, slot, old, new } => self.swap(task, slot, old, new),
            Call::Retire { task, block } => self.retire(task, block),
            Call::Sweep { task } => self.sweep(task),
            Call::End { task } => self.end(task),
            Call::Tally { state } => self.tally(state),
        }
    }

    fn task(&mut self, task: u32) -> Result<&mut Task, u32> {
        self.tasks.get_mut(task as usize).ok_or(3)
    }

    fn working(&mut self, task: u32) -> Result<Interval, u32> {
        self.task(task)?.interval().ok_or(4)
    }

    fn slot(&mut self, slot: u32) -> Result<&mut u32, u32> {
        self.slots.get_mut(slot as usize).ok_or(5)
    }

    fn start(&mut self, task: u32) -> Result<u32, u32> {
        let epoch = self.epoch;
        let task = self.task(task)?;
        if task.phase != Phase::Idle {
            return Err(4);
        }
        task.phase = Phase::Working(Interval { lower: epoch, upper: epoch });
        Ok(epoch)
    }

    fn look(&mut self, task: u32, slot: u32) -> Result<u32, u32> {
        let interval = self.working(task)?;
        let candidate = *self.slot(slot)?;
        self.task(task)?.phase = Phase::Looking(interval, candidate);
        Ok(0)
    }

    fn settle(&mut self, task: u32) -> Result<u32, u32> {
        let epoch = self.epoch;
        let task = self.task(task)?;
        let Phase::Looking(interval, candidate) = task.phase else { return Err(4) };
        task.phase = Phase::Working(Interval { upper: epoch, ..interval });
        if interval.upper == epoch { Ok(candidate) } else { Err(11) }
    }

    fn make(&mut self, task: u32) -> Result<u32, u32> {
        self.working(task)?;
        let place = self.blocks.iter().position(|&b| b == Block::Free).ok_or(9u32)?;
        let makes = self.task(task)?.makes.checked_add(1).ok_or(10u32)?;
        let rises = makes % self.sizes.makes_per_epoch == 0;
        if rises && self.epoch == LAST_EPOCH {
            return Err(10);
        }
        self.epoch += u32::from(rises);
        self.task(task)?.makes = makes;
        self.blocks[place] = Block::Made { maker: task, birth: self.epoch };
        Ok(place as u32 + 1)
    }

    fn swap(&mut self, task: u32, slot: u32, old: u32, new: u32) -> Result<u32, u32> {
        self.working(task)?;
        let held = *self.slot(slot)?;
        if old > self.sizes.blocks || new > self.sizes.blocks {
            return Err(6);
        }
        let shown = match self.block(new) {
            None => None,
            Some(Block::Made { maker, birth }) if maker == task => Some(Block::Shown { birth }),
            Some(block @ Block::Shown { .. }) => Some(block),
            Some(_) => return Err(7),
        };
        if held != old {
            return Ok(0);
        }
        *self.slot(slot)? = new;
        if let Some(block) = shown {
            self.set_block(new, block);
        }
        Ok(1)
    }

    fn retire(&mut self, task: u32, block: u32) -> Result<u32, u32> {
        self.working(task)?;
        let birth = match self.block(block).ok_or(6u32)? {
            Block::Made { maker, birth } if maker == task => birth,
            Block::Shown { birth } => birth,
            _ => return Err(7),
        };
        if self.slots.contains(&block) {
            return Err(8);
        }
        self.set_block(block, Block::Retired { retirer: task, birth, retire: self.epoch });
        let retired = self.count(|b| matches!(b, Block::Retired { retirer, .. } if retirer == task));
        Ok(if retired % self.sizes.retirements_per_sweep == 0 { self.free_unmet(task) } else { 0 })
    }

    fn sweep(&mut self, task: u32) -> Result<u32, u32> {
        self.task(task)?;
        Ok(self.free_unmet(task))
    }

    fn end(&mut self, task: u32) -> Result<u32, u32> {
        self.working(task)?;
        if self.count(|b| matches!(b, Block::Made { maker, .. } if maker == task)) > 0 {
            return Err(12);
        }
        self.task(task)?.phase = Phase::Idle;
        Ok(0)
    }

    fn tally(&mut self, state: u32) -> Result<u32, u32> {
        if state > 3 { Err(3) } else { Ok(self.count(|b| b.state() == state)) }
    }
}

/// Opens the lent words, if the sizes allow it and ask for just so many.
fn open(words: &mut [u32], sizes: Sizes) -> Answer {
    if !sizes.within_limits() || words.len() as u64 != sizes.length() {
        return Answer { kind: 2, value: 0 };
    }
    words.copy_from_slice(&State::opened(sizes).words());
    Answer { kind: 0, value: words.len() as u32 }
}

/// One call on lent words: the answer, and the words as the call leaves them.
pub fn call(words: &mut [u32], call: Call) -> Answer {
    if let Call::Open(sizes) = call {
        return open(words, sizes);
    }
    let Some(mut state) = State::read(words) else { return Answer { kind: 1, value: 0 } };
    let answer = match state.step(call) {
        Ok(value) => Answer { kind: 0, value },
        Err(kind) => Answer { kind, value: 0 },
    };
    words.copy_from_slice(&state.words());
    answer
}
