//! Creatures and their blocks.

#[derive(Clone, Copy, PartialEq, Eq)]
pub struct Block {
    pub at: u32,
    pub size: u32,
}

impl Block {
    /// The cell after the last one.
    pub fn end(self) -> u32 {
        self.at + self.size
    }

    pub fn contains(self, at: u32) -> bool {
        at >= self.at && at - self.at < self.size
    }
}

#[derive(Clone, Copy, PartialEq, Eq)]
pub struct Creature {
    pub id: u64,
    pub own: Block,
    pub daughter: Option<Block>,
    pub moved: u64,
    pub ax: i32,
    pub bx: i32,
    pub cx: i32,
    pub dx: i32,
    pub ip: u32,
    pub stack: [i32; 10],
    pub sp: u32,
    pub flag: u8,
    pub errors: u64,
    pub genotype: usize,
    pub ran: u64,
    pub bred: u64,
}

impl Creature {
    pub fn newborn(id: u64, own: Block, genotype: usize) -> Creature {
        Creature {
            id,
            own,
            daughter: None,
            moved: 0,
            ax: 0,
            bx: 0,
            cx: 0,
            dx: 0,
            ip: own.at,
            stack: [0; 10],
            sp: 0,
            flag: 0,
            errors: 0,
            genotype,
            ran: 0,
            bred: 0,
        }
    }

    pub fn may_write(&self, at: u32) -> bool {
        self.own.contains(at) || self.daughter.is_some_and(|block| block.contains(at))
    }

    pub fn push(&mut self, value: i32) {
        self.sp = if self.sp == 9 { 0 } else { self.sp + 1 };
        self.stack[self.sp as usize] = value;
    }

    pub fn pop(&mut self) -> i32 {
        let value = self.stack[self.sp as usize];
        self.sp = if self.sp == 0 { 9 } else { self.sp - 1 };
        value
    }

    pub fn fail(&mut self) {
        self.flag = 1;
        self.errors += 1;
    }

    pub fn take(&mut self, block: Block) {
        self.daughter = Some(block);
        self.moved = 0;
        self.ax = block.at as i32;
    }

    pub fn let_go(&mut self) {
        self.daughter = None;
        self.moved = 0;
    }

    /// The daughter is born.
    pub fn bear(&mut self) {
        self.let_go();
        self.ran = 0;
        self.bred += 1;
    }
}
