//! A quantum run alone beside the same quantum in the soup.

use crate::ancestor::padded;
use crate::creature::{Block, Creature};
use crate::job::{cut, forget, run_alone, run_serial, set, Event, Noted, Pages, UNKNOWN};
use crate::machine::{Limits, View};
use crate::world::Row;
use std::hint::black_box;
use std::time::{Duration, Instant};

const ROUNDS: usize = 400;

/// How many instructions run in a round.
const INSTRUCTIONS: u32 = 50_000;

const LIMITS: Limits = Limits {
    search: 400,
    min_template: 1,
};

/// A view that notes each cell without a check of any bound, which is the least that it can cost.
struct Bare<'a> {
    soup: &'a [u8],
    marks: &'a mut [u8],
    end: *mut (u32, u8),
}

impl View for Bare<'_> {
    #[inline(always)]
    fn size(&self) -> u32 {
        self.soup.len() as u32
    }

    #[inline(always)]
    fn get(&mut self, at: u32) -> u8 {
        // SAFETY: the machine asks only for cells of the soup, and there is room to note each of them once.
        unsafe {
            let mark = self.marks.get_unchecked_mut(at as usize);
            if *mark == UNKNOWN {
                *mark = *self.soup.get_unchecked(at as usize);
                self.end.write((at, *mark));
                self.end = self.end.add(1);
            }
            *mark
        }
    }

    #[inline(always)]
    fn set(&mut self, at: u32, value: u8) {
        // SAFETY: as above.
        unsafe { *self.marks.get_unchecked_mut(at as usize) = value }
    }

    #[inline(always)]
    fn row(&self) -> &[u8] {
        self.marks
    }
}

/// What a worker keeps from one job to the next.
struct Room {
    marks: Vec<u8>,
    reads: Vec<(u32, u8)>,
    events: Vec<Event>,
}

impl Room {
    fn of(size: usize, slice: u32) -> Room {
        Room {
            marks: vec![UNKNOWN; size],
            reads: Vec::with_capacity(size),
            events: Vec::with_capacity(4 * slice as usize + 2),
        }
    }

    fn clear(&mut self) {
        self.reads.clear();
        self.events.clear();
    }

    fn run(&mut self, scene: &mut Scene, slice: u32) {
        self.clear();
        let mut view = Noted {
            soup: &scene.pages,
            marks: &mut self.marks,
            reads: &mut self.reads,
        };
        run_alone(&mut scene.creature, &mut view, slice, LIMITS, &mut self.events);
        forget(&mut self.marks, &self.reads, &self.events);
    }

    fn run_bare(&mut self, scene: &mut Scene, slice: u32) {
        self.clear();
        let start = self.reads.as_mut_ptr();
        let mut view = Bare {
            soup: &scene.row,
            marks: &mut self.marks,
            end: start,
        };
        run_alone(&mut scene.creature, &mut view, slice, LIMITS, &mut self.events);
        // SAFETY: so many pairs were written from the start of the list on.
        unsafe { self.reads.set_len(view.end.offset_from(start) as usize) }
        forget(&mut self.marks, &self.reads, &self.events);
    }
}

/// A soup with one creature, whose quanta pass one after another.
#[derive(Clone, PartialEq)]
struct Scene {
    row: Vec<u8>,
    pages: Pages,
    creature: Creature,
}

impl Scene {
    fn of(cells: u32, size: usize) -> Scene {
        let code = padded(cells);
        let mut row = vec![0; size];
        row[..code.len()].copy_from_slice(&code);
        Scene {
            pages: cut(&row),
            row,
            creature: Creature::newborn(1, Block { at: 0, size: cells }, 0),
        }
    }

    /// The time of some quanta in the soup itself.
    fn pass(&mut self, quanta: u32, slice: u32) -> Duration {
        let start = Instant::now();
        for _ in 0..quanta {
            run_serial(&mut self.creature, &mut Row(&mut self.row), slice, LIMITS);
        }
        start.elapsed()
    }

    /// The time of some quanta that `run` runs alone. What each of them wrote is then written, which is not timed.
    fn pass_alone(&mut self, quanta: u32, room: &mut Room, run: impl Fn(&mut Room, &mut Scene)) -> Duration {
        let mut spent = Duration::ZERO;
        for _ in 0..quanta {
            let start = Instant::now();
            run(room, self);
            black_box(&room.reads);
            spent += start.elapsed();
            for event in &room.events {
                if let Event::Write { at, value } = *event {
                    self.row[at as usize] = value;
                    set(&mut self.pages, at, value);
                }
            }
        }
        spent
    }
}

/// Tells how many times as long a job takes as its quantum in the soup. In each round the same quanta pass in three
/// ways, one right after another, so that a change of the machine's speed falls on all of them.
pub fn compare(cells: u32, slice: u32, size: usize) {
    let mut scene = Scene::of(cells, size);
    let (mut noted, mut bare) = (scene.clone(), scene.clone());
    let mut room = Room::of(size, slice);
    let quanta = (INSTRUCTIONS / slice).max(20);
    let mut figures = [const { Vec::new() }; 3];
    let mut read = 0;
    for _ in 0..ROUNDS {
        let plain = scene.pass(quanta, slice).as_secs_f64();
        let job = noted.pass_alone(quanta, &mut room, |room, scene| room.run(scene, slice));
        read += room.reads.len();
        let least = bare.pass_alone(quanta, &mut room, |room, scene| room.run_bare(scene, slice));
        assert!(scene.row == noted.row && scene.row == bare.row);
        assert!(scene.creature == noted.creature && scene.creature == bare.creature);
        let clock = bare.pass_alone(quanta, &mut room, |room, _| room.clear()).as_secs_f64();
        figures[0].push(1e9 * plain / f64::from(quanta));
        figures[1].push((job.as_secs_f64() - clock) / plain);
        figures[2].push((least.as_secs_f64() - clock) / plain);
    }
    let [serial, job, least] = figures.map(median);
    println!(
        "{cells} cells a creature, {slice} instructions, {size} cells: {serial:.0} ns in the soup; \
         alone {job:.2} times that, without checks {least:.2}; {} cells read",
        read / ROUNDS
    );
}

fn median(mut figures: Vec<f64>) -> f64 {
    figures.sort_by(f64::total_cmp);
    figures[figures.len() / 2]
}
