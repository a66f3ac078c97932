//! A soup with its creatures, one quantum after another.

mod bytes;

use crate::creature::{Block, Creature};
use crate::draws::Draws;
use crate::free_list::FreeList;
use crate::genotypes::{Effort, Genotypes};
use crate::machine::{step, Act, View};
use crate::setup::{Settings, Setup};
use std::collections::VecDeque;

/// The most instructions of a slice that goes by the creature's size.
const MOST_SLICE: u64 = 10_000;

/// All cells, known and in one row.
pub struct Row<'a>(pub &'a mut [u8]);

impl View for Row<'_> {
    #[inline(always)]
    fn size(&self) -> u32 {
        self.0.len() as u32
    }

    #[inline(always)]
    fn get(&mut self, at: u32) -> u8 {
        self.0[at as usize]
    }

    #[inline(always)]
    fn set(&mut self, at: u32, value: u8) {
        self.0[at as usize] = value;
    }

    #[inline(always)]
    fn row(&self) -> &[u8] {
        self.0
    }
}

/// Creatures are named by their place in `creatures`, which a death leaves empty for the next birth.
pub struct World {
    settings: Settings,
    soup: Vec<u8>,
    creatures: Vec<Option<Creature>>,
    empty: Vec<usize>,
    slicer: VecDeque<usize>,
    reaper: Vec<usize>,
    free: FreeList,
    filled: u32,
    genotypes: Genotypes,
    quanta: u64,
    next_birth: u64,
    births: u64,
    deaths: u64,
}

impl World {
    pub fn start(setup: Setup) -> World {
        let mut world = World {
            soup: vec![0; setup.settings.soup_size as usize],
            free: FreeList::of(setup.settings.soup_size),
            genotypes: Genotypes::new(setup.settings.save_at),
            settings: setup.settings,
            creatures: Vec::new(),
            empty: Vec::new(),
            slicer: VecDeque::new(),
            reaper: Vec::new(),
            filled: 0,
            quanta: 0,
            next_birth: 1,
            births: 0,
            deaths: 0,
        };
        for founder in setup.founders {
            let (at, size) = (founder.at, founder.code.len() as u32);
            world.soup[at as usize..(at + size) as usize].copy_from_slice(&founder.code);
            world.take(Block { at, size });
            world.enter(Block { at, size }, None, 0);
        }
        world
    }

    /// The creature at the front runs its slice, and goes to the end.
    pub fn quantum(&mut self) {
        let quantum = self.quanta + 1;
        let front = self.slicer[0];
        let mut draws = Draws::of(&self.settings, quantum);
        if let Some((at, bit)) = draws.background(self.settings.soup_size) {
            self.soup[at as usize] ^= bit;
        }
        if self.settings.dist_every != 0 && quantum.is_multiple_of(u64::from(self.settings.dist_every)) {
            self.disturb(front);
        }
        let mut creature = *self.creature(front);
        for instruction in 0..self.slice_of(&creature) {
            draws.instruction = instruction;
            let mut row = Row(&mut self.soup);
            match step(&mut creature, &mut row, self.settings.limits, &mut draws) {
                Act::Plain | Act::Wrote { .. } => {}
                Act::Erred => self.err(front, &mut creature),
                Act::Mal { size } => self.mal(front, &mut creature, size),
                Act::Divide => self.divide(front, &mut creature, quantum),
            }
        }
        self.creatures[front] = Some(creature);
        self.slicer.rotate_left(1);
        self.quanta = quantum;
    }

    fn creature(&self, place: usize) -> &Creature {
        self.creatures[place].as_ref().expect("alive")
    }

    fn slice_of(&self, creature: &Creature) -> u32 {
        let settings = &self.settings;
        if !settings.slice_by_size {
            return settings.slice_size;
        }
        let by_size = u64::from(creature.own.size) * u64::from(settings.slice_num) / u64::from(settings.slice_den);
        by_size.clamp(1, MOST_SLICE) as u32
    }

    /// Kills so many percent of the living, but never the creature that runs.
    fn disturb(&mut self, front: usize) {
        let count = self.slicer.len() * self.settings.dist_percent as usize / 100;
        for _ in 0..count {
            if let Some(place) = self.first_other(front) {
                self.reap(place);
            }
        }
    }

    /// The first place of the reaper queue that is not the creature's own.
    fn first_other(&self, front: usize) -> Option<usize> {
        self.reaper.iter().position(|other| *other != front)
    }

    fn errors(&self, place: usize) -> u64 {
        self.creature(self.reaper[place]).errors
    }

    fn place_of(&self, creature: usize) -> usize {
        let found = self.reaper.iter().position(|other| *other == creature);
        found.expect("each creature stands in the queue")
    }

    /// An error moves a creature up in the reaper queue.
    fn err(&mut self, front: usize, creature: &mut Creature) {
        creature.fail();
        let place = self.place_of(front);
        if place > 0 && self.errors(place - 1) <= creature.errors {
            self.reaper.swap(place - 1, place);
        }
    }

    /// A mal or a divide moves it down.
    fn good(&mut self, front: usize, creature: &Creature) {
        let place = self.place_of(front);
        if place + 1 < self.reaper.len() && creature.errors <= self.errors(place + 1) {
            self.reaper.swap(place, place + 1);
        }
    }

    fn mal(&mut self, front: usize, creature: &mut Creature, size: i32) {
        let most = self.settings.max_cell.min(self.settings.mal_mult * creature.own.size);
        let size = match u32::try_from(size) {
            Ok(size) if (self.settings.min_cell..=most).contains(&size) => size,
            _ => return self.err(front, creature),
        };
        if let Some(block) = creature.daughter {
            self.give_back(block);
            creature.let_go();
        }
        loop {
            if let Some(at) = self.room_for(size) {
                self.take(Block { at, size });
                creature.take(Block { at, size });
                return self.good(front, creature);
            }
            match self.first_other(front) {
                Some(place) => self.reap(place),
                None => return self.err(front, creature),
            }
        }
    }

    /// The lowest place where so many cells are free, if the soup may be filled so far.
    fn room_for(&self, size: u32) -> Option<u32> {
        let most = u64::from(self.settings.fill_percent) * u64::from(self.settings.soup_size);
        if u64::from(self.filled + size) * 100 > most {
            return None;
        }
        self.free.fit(size)
    }

    fn take(&mut self, block: Block) {
        self.free.take(block);
        self.filled += block.size;
    }

    fn give_back(&mut self, block: Block) {
        self.free.give_back(block);
        self.filled -= block.size;
    }

    fn reap(&mut self, place: usize) {
        let dead = self.reaper.remove(place);
        self.slicer.retain(|other| *other != dead);
        let creature = self.creatures[dead].take().expect("alive");
        self.give_back(creature.own);
        if let Some(block) = creature.daughter {
            self.give_back(block);
        }
        self.empty.push(dead);
        self.deaths += 1;
    }

    fn divide(&mut self, front: usize, creature: &mut Creature, quantum: u64) {
        match creature.daughter {
            Some(own) if creature.moved * 100 >= u64::from(self.settings.move_percent * own.size) => {
                self.good(front, creature);
                let effort = Effort {
                    ran: creature.ran,
                    moved: creature.moved,
                };
                creature.bear();
                self.genotypes.note(creature.genotype, creature.bred, effort);
                self.enter(own, Some(creature.genotype), quantum);
                self.births += 1;
            }
            _ => self.err(front, creature),
        }
    }

    /// A newborn enters both queues at the end, and is counted for its genotype.
    fn enter(&mut self, own: Block, parent: Option<usize>, quantum: u64) {
        let code = &self.soup[own.at as usize..(own.at + own.size) as usize];
        let genotype = self.genotypes.count(code, parent, quantum);
        let newborn = Some(Creature::newborn(self.next_birth, own, genotype));
        self.next_birth += 1;
        let place = match self.empty.pop() {
            Some(place) => {
                self.creatures[place] = newborn;
                place
            }
            None => {
                self.creatures.push(newborn);
                self.creatures.len() - 1
            }
        };
        self.slicer.push_back(place);
        self.reaper.push(place);
    }
}
