//! The cells that nobody owns.

use crate::creature::Block;

/// The free runs of cells, in the order of their places. No two of them touch.
pub struct FreeList(Vec<Block>);

impl FreeList {
    pub fn of(size: u32) -> FreeList {
        FreeList(vec![Block { at: 0, size }])
    }

    /// The lowest place where so many cells are free.
    pub fn fit(&self, size: u32) -> Option<u32> {
        self.0.iter().find(|run| run.size >= size).map(|run| run.at)
    }

    /// Takes a block out of the run that has it.
    pub fn take(&mut self, block: Block) {
        let place = self.0.partition_point(|run| run.at <= block.at) - 1;
        let run = self.0[place];
        let before = Block {
            at: run.at,
            size: block.at - run.at,
        };
        let after = Block {
            at: block.end(),
            size: run.end() - block.end(),
        };
        let left = [before, after].into_iter().filter(|run| run.size > 0);
        self.0.splice(place..=place, left);
    }

    /// Gives back a block, which joins the runs that it touches.
    pub fn give_back(&mut self, mut block: Block) {
        let mut first = self.0.partition_point(|run| run.at < block.at);
        let mut end = first;
        if let Some(after) = self.0.get(end).filter(|run| run.at == block.end()) {
            block.size += after.size;
            end += 1;
        }
        if let Some(before) = self.0[..first].last().filter(|run| run.end() == block.at) {
            block.at = before.at;
            block.size += before.size;
            first -= 1;
        }
        self.0.splice(first..end, [block]);
    }
}
