//! Workers that run the coming quanta ahead, beside one that runs them in the soup.

use crate::ancestor::padded;
use crate::creature::{Block, Creature};
use crate::job::{cut, forget, run_alone, run_serial, set, Event, Noted, Pages, UNKNOWN};
use crate::machine::Limits;
use crate::world::Row;
use std::cell::UnsafeCell;
use std::hint::spin_loop;
use std::sync::atomic::{AtomicU64, Ordering};
use std::sync::Arc;
use std::thread::{scope, yield_now};
use std::time::{Duration, Instant};

const ROUNDS: usize = 12;

/// How many times a waiter looks before it lets other threads run between looks.
const LOOKS: u32 = 200;

struct Job {
    number: u64,
    front: Creature,
    soup: Arc<Pages>,
    room: Option<Box<Finding>>,
}

struct Finding {
    number: u64,
    before: Creature,
    after: Creature,
    reads: Vec<(u32, u8)>,
    events: Vec<Event>,
}

/// The soup in a row and in pages, which jobs share, and the creatures, who take turns.
struct Book {
    row: Vec<u8>,
    pages: Arc<Pages>,
    creatures: Vec<Creature>,
    quanta: u64,
    window: u64,
    committed: u64,
    handed: u64,
    stash: Vec<Option<Box<Finding>>>,
    #[allow(clippy::vec_box)] // their boxes go out with the next jobs
    rooms: Vec<Box<Finding>>,
}

impl Book {
    fn of(row: Vec<u8>, creatures: Vec<Creature>, quanta: u64, window: u64) -> Book {
        Book {
            pages: Arc::new(cut(&row)),
            row,
            creatures,
            quanta,
            window,
            committed: 0,
            handed: 0,
            stash: (0..window).map(|_| None).collect(),
            rooms: Vec::new(),
        }
    }

    fn claim(&mut self) -> Option<Job> {
        let turns = self.creatures.len() as u64;
        let left = self.quanta - self.committed;
        if self.handed - self.committed >= self.window.min(turns).min(left) {
            return None;
        }
        self.handed += 1;
        Some(Job {
            number: self.handed,
            front: self.creatures[((self.handed - 1) % turns) as usize],
            soup: self.pages.clone(),
            room: self.rooms.pop(),
        })
    }

    /// Takes a finding, and commits all those that follow without a gap.
    fn offer(&mut self, finding: Box<Finding>) {
        let place = (finding.number % self.window) as usize;
        self.stash[place] = Some(finding);
        loop {
            let next = ((self.committed + 1) % self.window) as usize;
            match self.stash[next].take() {
                Some(finding) => self.commit(finding),
                None => return,
            }
        }
    }

    fn commit(&mut self, finding: Box<Finding>) {
        let front = (self.committed % self.creatures.len() as u64) as usize;
        let row = &self.row;
        let fresh = finding.reads.iter().all(|(at, value)| row[*at as usize] == *value);
        assert!(
            fresh && finding.before == self.creatures[front],
            "nothing goes stale here"
        );
        for event in &finding.events {
            if let Event::Write { at, value } = *event {
                self.row[at as usize] = value;
                set(Arc::make_mut(&mut self.pages), at, value);
            }
        }
        self.creatures[front] = finding.after;
        self.committed += 1;
        self.rooms.push(finding);
    }
}

/// A value that shares no cache line with others.
#[repr(align(128))]
struct Apart<T>(T);

/// A ticket lock.
struct TurnLock {
    tickets: Apart<AtomicU64>,
    serving: Apart<AtomicU64>,
    book: Apart<UnsafeCell<Book>>,
}

// SAFETY: only the thread whose ticket is served touches the book.
unsafe impl Sync for TurnLock {}

impl TurnLock {
    fn turn<T>(&self, act: impl FnOnce(&mut Book) -> T) -> T {
        let ticket = self.tickets.0.fetch_add(1, Ordering::SeqCst);
        let mut looks = 0;
        while self.serving.0.load(Ordering::SeqCst) != ticket {
            looks += 1;
            if looks < LOOKS {
                spin_loop();
            } else {
                yield_now();
            }
        }
        // SAFETY: the ticket is served, so no other thread has the book.
        let result = act(unsafe { &mut *self.book.0.get() });
        self.serving.0.fetch_add(1, Ordering::SeqCst);
        result
    }
}

/// What a worker keeps from one job to the next.
struct Worker<'a> {
    lock: &'a TurnLock,
    slice: u32,
    limits: Limits,
    marks: Vec<u8>,
}

impl Worker<'_> {
    /// Takes turns until all is committed. In each it offers what it found, and claims a job.
    fn work(&mut self) {
        let mut found = None;
        loop {
            let (job, ended) = self.lock.turn(|book| {
                if let Some(finding) = found.take() {
                    book.offer(finding);
                }
                (book.claim(), book.committed == book.quanta)
            });
            if ended {
                return;
            }
            found = job.map(|job| self.run(job));
        }
    }

    fn run(&mut self, job: Job) -> Box<Finding> {
        let mut finding = job.room.unwrap_or_else(|| {
            Box::new(Finding {
                number: 0,
                before: job.front,
                after: job.front,
                reads: Vec::new(),
                events: Vec::new(),
            })
        });
        finding.number = job.number;
        finding.before = job.front;
        finding.after = job.front;
        finding.reads.clear();
        finding.events.clear();
        let mut view = Noted {
            soup: &job.soup,
            marks: &mut self.marks,
            reads: &mut finding.reads,
        };
        run_alone(
            &mut finding.after,
            &mut view,
            self.slice,
            self.limits,
            &mut finding.events,
        );
        forget(&mut self.marks, &finding.reads, &finding.events);
        finding
    }
}

/// Creatures of so many cells, each with room for its daughter behind it, in four fifths of the soup.
fn creatures(row: &mut [u8], cells: u32) -> Vec<Creature> {
    let code = padded(cells);
    let count = row.len() as u32 / (2 * cells) * 4 / 5;
    let blocks = (0..count).map(|k| Block {
        at: 2 * cells * k,
        size: cells,
    });
    let make = |own: Block| {
        row[own.at as usize..(own.at + own.size) as usize].copy_from_slice(&code);
        Creature::newborn(1, own, 0)
    };
    blocks.map(make).collect()
}

fn time_serial(row: &[u8], all: &[Creature], quanta: u64, slice: u32, limits: Limits) -> (Duration, Vec<u8>) {
    let (mut row, mut all) = (row.to_vec(), all.to_vec());
    let start = Instant::now();
    for quantum in 0..quanta as usize {
        let front = quantum % all.len();
        run_serial(&mut all[front], &mut Row(&mut row), slice, limits);
    }
    (start.elapsed(), row)
}

fn time_crew(
    row: &[u8],
    all: &[Creature],
    quanta: u64,
    slice: u32,
    limits: Limits,
    workers: usize,
) -> (Duration, Vec<u8>) {
    let book = Book::of(row.to_vec(), all.to_vec(), quanta, 2 * workers as u64);
    let lock = TurnLock {
        tickets: Apart(AtomicU64::new(0)),
        serving: Apart(AtomicU64::new(0)),
        book: Apart(UnsafeCell::new(book)),
    };
    let start = Instant::now();
    scope(|threads| {
        for _ in 0..workers {
            threads.spawn(|| {
                let marks = vec![UNKNOWN; row.len()];
                Worker {
                    lock: &lock,
                    slice,
                    limits,
                    marks,
                }
                .work()
            });
        }
    });
    (start.elapsed(), lock.book.0.into_inner().row)
}

/// Tells how often as fast two and four workers are as one that runs the quanta in the soup.
pub fn compare(cells: u32, slice: u32, size: usize, quanta: u64) {
    let limits = Limits {
        search: 2 * cells,
        min_template: 1,
    };
    let mut row = vec![0; size];
    let all = creatures(&mut row, cells);
    let mut least = [Duration::MAX; 3];
    for _ in 0..ROUNDS {
        let (spent, end) = time_serial(&row, &all, quanta, slice, limits);
        least[0] = least[0].min(spent);
        for (workers, least) in [2, 4].into_iter().zip(&mut least[1..]) {
            let (spent, reached) = time_crew(&row, &all, quanta, slice, limits, workers);
            *least = spent.min(*least);
            assert!(reached == end);
        }
    }
    let [one, two, four] = least.map(|time| time.as_secs_f64());
    println!(
        "{cells} cells a creature, {quanta} quanta of {slice} instructions, {size} cells: {:.0} ms in the soup; \
         2 workers {:.2} times as fast, 4 workers {:.2}",
        1000.0 * one,
        one / two,
        one / four
    );
}
