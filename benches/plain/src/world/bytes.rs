//! A world's bytes, as docs/FORMATS.md has them.

use super::World;
use crate::creature::{Block, Creature};
use crate::genotypes::{Effort, Genotype, Saving};

/// Bytes that numbers are put to, the most significant byte first.
struct Bytes(Vec<u8>);

impl Bytes {
    fn short(&mut self, number: u32) {
        self.0.extend(number.to_be_bytes());
    }

    fn long(&mut self, number: u64) {
        self.0.extend(number.to_be_bytes());
    }

    fn block(&mut self, block: Option<Block>) {
        let block = block.unwrap_or(Block { at: 0, size: 0 });
        self.short(block.at);
        self.short(block.size);
    }

    fn creature(&mut self, creature: &Creature) {
        self.long(creature.id);
        self.block(Some(creature.own));
        self.block(creature.daughter);
        self.long(creature.moved);
        for register in [creature.ax, creature.bx, creature.cx, creature.dx] {
            self.short(register as u32);
        }
        self.short(creature.ip);
        for word in creature.stack {
            self.short(word as u32);
        }
        self.short(creature.sp);
        self.0.push(creature.flag);
        for number in [creature.errors, creature.genotype as u64, creature.ran, creature.bred] {
            self.long(number);
        }
    }

    fn efforts(&mut self, efforts: [Option<Effort>; 2]) {
        for effort in efforts {
            let effort = effort.unwrap_or(Effort { ran: 0, moved: 0 });
            self.long(effort.ran);
            self.long(effort.moved);
        }
    }

    fn genotype(&mut self, genotype: &Genotype) {
        self.short(genotype.code.len() as u32);
        self.0.extend(&*genotype.code);
        self.long(genotype.parent.map_or(0, |parent| parent as u64 + 1));
        self.long(genotype.first_quantum);
        self.long(genotype.individuals);
        self.efforts(genotype.efforts);
    }

    fn saving(&mut self, saving: &Saving) {
        self.long(saving.genotype as u64);
        self.long(saving.quantum);
        self.efforts(saving.efforts);
    }
}

impl World {
    pub fn bytes(&self) -> Vec<u8> {
        let mut bytes = Bytes(Vec::new());
        bytes.short(self.settings.soup_size);
        bytes.0.extend(&self.soup);
        for count in [self.quanta, self.births, self.deaths, self.next_birth] {
            bytes.long(count);
        }
        bytes.short(self.slicer.len() as u32);
        for place in &self.slicer {
            bytes.creature(self.creature(*place));
        }
        for place in &self.reaper {
            bytes.long(self.creature(*place).id);
        }
        bytes.long(self.genotypes.all.len() as u64);
        for genotype in &self.genotypes.all {
            bytes.genotype(genotype);
        }
        bytes.long(self.genotypes.savings.len() as u64);
        for saving in &self.genotypes.savings {
            bytes.saving(saving);
        }
        bytes.0
    }
}
