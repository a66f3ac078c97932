//! A quantum run alone: each cell that it reads first is noted, in order, and what it does is listed.
//!
//! Its creature always gets the block behind its own for its daughter, who vanishes at birth. So nobody but the creature
//! itself changes what it reads, and no job is ever stale.

use crate::creature::{Block, Creature};
use crate::machine::{step, Act, Limits, Never, View};
use std::sync::Arc;

/// How many cells a page has.
pub const PAGE: usize = 16_384;

/// A soup in pages, which versions of it share.
pub type Pages = Vec<Arc<Vec<u8>>>;

pub fn cut(soup: &[u8]) -> Pages {
    let pages = soup.chunks(PAGE);
    pages.map(|page| Arc::new(page.to_vec())).collect()
}

pub fn set(pages: &mut Pages, at: u32, value: u8) {
    let page = &mut pages[at as usize / PAGE];
    Arc::make_mut(page)[at as usize % PAGE] = value;
}

/// The mark of a cell that the quantum does not know yet. The mark of another cell is its code.
pub const UNKNOWN: u8 = 255;

/// What a quantum did, with all that the world would need to do it too.
#[derive(Clone, Copy)]
#[allow(dead_code)] // only writes are done here
pub enum Event {
    Write { at: u32, value: u8 },
    Err,
    Mal(Block),
    Divide { ran: u64, moved: u64 },
}

pub fn daughter_block(creature: &Creature) -> Block {
    Block {
        at: creature.own.at + creature.own.size,
        size: creature.own.size,
    }
}

/// Runs the quantum in the soup itself.
#[inline(never)]
pub fn run_serial<V: View>(creature: &mut Creature, view: &mut V, slice: u32, limits: Limits) {
    for _ in 0..slice {
        match step(creature, view, limits, &mut Never) {
            Act::Plain | Act::Wrote { .. } => {}
            Act::Erred => creature.fail(),
            Act::Mal { .. } => creature.take(daughter_block(creature)),
            Act::Divide => creature.bear(),
        }
    }
}

/// Runs the quantum in a view of its own.
#[inline(never)]
pub fn run_alone<V: View>(creature: &mut Creature, view: &mut V, slice: u32, limits: Limits, events: &mut Vec<Event>) {
    for _ in 0..slice {
        match step(creature, view, limits, &mut Never) {
            Act::Plain => {}
            Act::Wrote { at, value } => events.push(Event::Write { at, value }),
            Act::Erred => {
                creature.fail();
                events.push(Event::Err);
            }
            Act::Mal { .. } => {
                let block = daughter_block(creature);
                creature.take(block);
                events.push(Event::Mal(block));
            }
            Act::Divide => {
                events.push(Event::Divide {
                    ran: creature.ran,
                    moved: creature.moved,
                });
                creature.bear();
            }
        }
    }
}

/// Makes the cells that were read or written unknown again.
pub fn forget(marks: &mut [u8], reads: &[(u32, u8)], events: &[Event]) {
    for (at, _) in reads {
        marks[*at as usize] = UNKNOWN;
    }
    for event in events {
        if let Event::Write { at, .. } = event {
            marks[*at as usize] = UNKNOWN;
        }
    }
}

/// A version of the soup with what the quantum knows of it, which is `marks`.
pub struct Noted<'a> {
    pub soup: &'a Pages,
    pub marks: &'a mut [u8],
    pub reads: &'a mut Vec<(u32, u8)>,
}

impl Noted<'_> {
    #[inline(never)]
    fn look_up(&mut self, at: u32) -> u8 {
        let value = self.soup[at as usize / PAGE][at as usize % PAGE];
        self.marks[at as usize] = value;
        self.reads.push((at, value));
        value
    }
}

impl View for Noted<'_> {
    #[inline(always)]
    fn size(&self) -> u32 {
        self.marks.len() as u32
    }

    #[inline(always)]
    fn get(&mut self, at: u32) -> u8 {
        match self.marks[at as usize] {
            UNKNOWN => self.look_up(at),
            value => value,
        }
    }

    #[inline(always)]
    fn set(&mut self, at: u32, value: u8) {
        self.marks[at as usize] = value;
    }

    #[inline(always)]
    fn row(&self) -> &[u8] {
        self.marks
    }
}
