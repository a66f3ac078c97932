//! One instruction of one creature, in a view of the soup.

use crate::creature::Creature;

/// The cells, as whoever runs the instruction sees them.
pub trait View {
    fn size(&self) -> u32;
    fn get(&mut self, at: u32) -> u8;
    fn set(&mut self, at: u32, value: u8);

    /// What is known of the cells, in one row. A byte of 32 or more is a cell that is not known.
    fn row(&self) -> &[u8];
}

/// What goes wrong by chance in an instruction.
pub trait Chance {
    fn flaw(&mut self) -> i32;

    /// The bits that flip in what the instruction copies.
    fn flip(&mut self) -> u8;
}

/// Nothing goes wrong.
pub struct Never;

impl Chance for Never {
    #[inline(always)]
    fn flaw(&mut self) -> i32 {
        0
    }

    #[inline(always)]
    fn flip(&mut self) -> u8 {
        0
    }
}

/// What is left to do after an instruction.
pub enum Act {
    Plain,
    Wrote { at: u32, value: u8 },
    Erred,
    Mal { size: i32 },
    Divide,
}

#[derive(Clone, Copy, PartialEq)]
enum Way {
    Outward,
    Forward,
    Backward,
}

/// The settings that instructions need.
#[derive(Clone, Copy)]
pub struct Limits {
    pub search: u32,
    pub min_template: u32,
}

pub fn next_place(at: u32, size: u32) -> u32 {
    if at + 1 < size {
        at + 1
    } else {
        0
    }
}

fn previous_place(at: u32, size: u32) -> u32 {
    if at > 0 {
        at - 1
    } else {
        size - 1
    }
}

fn address(value: i32, size: u32) -> u32 {
    if value >= 0 && (value as u32) < size {
        value as u32
    } else {
        i64::from(value).rem_euclid(i64::from(size)) as u32
    }
}

/// Executes the instruction at the creature's `ip`.
#[inline(always)]
pub fn step<V: View>(creature: &mut Creature, view: &mut V, limits: Limits, chance: &mut impl Chance) -> Act {
    let size = view.size();
    let flaw = chance.flaw();
    let ip = creature.ip;
    let code = view.get(ip);
    creature.ip = next_place(ip, size);
    creature.flag = 0;
    creature.ran += 1;
    match code {
        0 | 1 => {}
        2 => creature.cx ^= 1 + flaw,
        3 => creature.cx = creature.cx.wrapping_shl((1 + flaw) as u32),
        4 => creature.cx = flaw,
        5 if creature.cx != 0 => creature.ip = next_place(creature.ip, size),
        5 => {}
        6 => creature.cx = creature.ax.wrapping_sub(creature.bx).wrapping_add(flaw),
        7 => creature.ax = creature.ax.wrapping_sub(creature.cx).wrapping_add(flaw),
        8 => creature.ax = creature.ax.wrapping_add(1 + flaw),
        9 => creature.bx = creature.bx.wrapping_add(1 + flaw),
        10 => creature.cx = creature.cx.wrapping_add(flaw - 1),
        11 => creature.cx = creature.cx.wrapping_add(1 + flaw),
        12 => creature.push(creature.ax),
        13 => creature.push(creature.bx),
        14 => creature.push(creature.cx),
        15 => creature.push(creature.dx),
        16 => creature.ax = creature.pop(),
        17 => creature.bx = creature.pop(),
        18 => creature.cx = creature.pop(),
        19 => creature.dx = creature.pop(),
        20 => return jump(creature, view, ip, Way::Outward, limits),
        21 => return jump(creature, view, ip, Way::Backward, limits),
        22 => return call(creature, view, ip, limits),
        23 => creature.ip = address(creature.pop(), size),
        24 => creature.dx = creature.cx.wrapping_add(flaw),
        25 => creature.bx = creature.ax.wrapping_add(flaw),
        26 => return copy(creature, view, chance),
        27 => return find(creature, view, ip, Way::Outward, limits, flaw),
        28 => return find(creature, view, ip, Way::Backward, limits, flaw),
        29 => return find(creature, view, ip, Way::Forward, limits, flaw),
        30 => return Act::Mal { size: creature.cx },
        _ => return Act::Divide,
    }
    Act::Plain
}

fn jump<V: View>(c: &mut Creature, view: &mut V, ip: u32, way: Way, limits: Limits) -> Act {
    match search(view, ip, way, limits) {
        Some(place) => {
            c.ip = place;
            Act::Plain
        }
        None => Act::Erred,
    }
}

fn call<V: View>(c: &mut Creature, view: &mut V, ip: u32, limits: Limits) -> Act {
    match search(view, ip, Way::Outward, limits) {
        Some(place) => {
            c.push(c.ip as i32);
            c.ip = place;
            Act::Plain
        }
        None => Act::Erred,
    }
}

fn find<V: View>(c: &mut Creature, view: &mut V, ip: u32, way: Way, limits: Limits, flaw: i32) -> Act {
    match search(view, ip, way, limits) {
        Some(place) => {
            c.ax = place as i32 + flaw;
            Act::Plain
        }
        None => Act::Erred,
    }
}

#[inline(always)]
fn copy<V: View>(creature: &mut Creature, view: &mut V, chance: &mut impl Chance) -> Act {
    let size = view.size();
    let at = address(creature.ax, size);
    if !creature.may_write(at) {
        return Act::Erred;
    }
    let value = view.get(address(creature.bx, size)) ^ chance.flip();
    view.set(at, value);
    if creature.daughter.is_some_and(|block| block.contains(at)) {
        creature.moved += 1;
    }
    Act::Wrote { at, value }
}

/// The bits that no code has, in each of eight bytes.
const NO_CODE: u64 = 0xE0E0_E0E0_E0E0_E0E0;

/// The bit that turns each nop into the other, in each of eight bytes.
const OTHER_NOPS: u64 = 0x0101_0101_0101_0101;

/// The first eight cells of a template's complement, and a mask of those that it has.
#[derive(Clone, Copy)]
struct Opening {
    cells: u64,
    mask: u64,
}

impl Opening {
    /// Whether eight cells of the row show a mismatch: those compared are all known, and one of them differs.
    #[inline(always)]
    fn differs(self, row: &[u8], at: u32) -> bool {
        let at = at as usize;
        let bytes = row[at..at + 8].try_into().expect("eight bytes");
        let seen = u64::from_le_bytes(bytes) & self.mask;
        seen != self.cells && seen & NO_CODE == 0
    }
}

/// The cell after the nearest complement of the template behind the instruction.
#[inline(never)]
fn search<V: View>(view: &mut V, ip: u32, way: Way, limits: Limits) -> Option<u32> {
    // each way has a loop of its own
    match way {
        Way::Outward => search_on(view, ip, Way::Outward, limits),
        Way::Forward => search_on(view, ip, Way::Forward, limits),
        Way::Backward => search_on(view, ip, Way::Backward, limits),
    }
}

#[inline(always)]
fn search_on<V: View>(view: &mut V, ip: u32, way: Way, limits: Limits) -> Option<u32> {
    let size = view.size();
    let mut cells = [0; 10];
    let len = read_template(view, next_place(ip, size), &mut cells);
    if (len as u32) < limits.min_template {
        return None;
    }
    let template = &cells[..len];
    let opening = opening_of(template);
    let len = len as u32;
    let mut ahead = (ip + 1 + len) % size;
    let mut behind = (ip + size - len % size) % size;
    let straight = straight_distances(size, ahead, behind, limits.search);
    for distance in 0..limits.search {
        if distance < straight {
            let row = view.row();
            let differ = match way {
                Way::Outward => opening.differs(row, ahead) && opening.differs(row, behind),
                Way::Forward => opening.differs(row, ahead),
                Way::Backward => opening.differs(row, behind),
            };
            if differ {
                ahead += 1;
                behind -= 1;
                continue;
            }
        }
        if way != Way::Backward && is_complement(view, template, ahead) {
            return Some((ahead + len) % size);
        }
        if way != Way::Forward && is_complement(view, template, behind) {
            return Some((behind + len) % size);
        }
        ahead = next_place(ahead, size);
        behind = previous_place(behind, size);
    }
    None
}

fn read_template<V: View>(view: &mut V, start: u32, cells: &mut [u8; 10]) -> usize {
    let size = view.size();
    let mut at = start;
    for (len, cell) in cells.iter_mut().enumerate() {
        let code = view.get(at);
        if code >= 2 {
            return len;
        }
        *cell = code;
        at = next_place(at, size);
    }
    10
}

fn opening_of(template: &[u8]) -> Opening {
    let mut opening = Opening { cells: 0, mask: 0 };
    for (k, nop) in template.iter().take(8).enumerate() {
        opening.cells |= u64::from(*nop) << (8 * k);
        opening.mask |= 0xFF << (8 * k);
    }
    opening.cells ^= OTHER_NOPS & opening.mask;
    opening
}

/// How many distances can be tried eight cells at once, without going round the ring.
fn straight_distances(size: u32, ahead: u32, behind: u32, limit: u32) -> u32 {
    if ahead + 8 <= size && behind + 8 <= size {
        limit.min(size - 7 - ahead).min(behind)
    } else {
        0
    }
}

fn is_complement<V: View>(view: &mut V, template: &[u8], start: u32) -> bool {
    let size = view.size();
    let mut at = start;
    for nop in template {
        if u16::from(*nop) + u16::from(view.get(at)) != 1 {
            return false;
        }
        at = next_place(at, size);
    }
    true
}
