//! What happens by chance in a quantum, as the words of its stream of ChaCha8 decide.

use crate::machine::Chance;
use crate::setup::Settings;

/// A stream of ChaCha8, and the block of it that was asked for last.
struct Stream {
    key: [u32; 8],
    number: u64,
    block: Option<u64>,
    words: [u32; 16],
}

impl Stream {
    fn of(seed: &[u8; 32], number: u64) -> Stream {
        let word = |k: usize| u32::from_le_bytes(seed[4 * k..4 * k + 4].try_into().expect("four bytes"));
        Stream {
            key: std::array::from_fn(word),
            number,
            block: None,
            words: [0; 16],
        }
    }

    fn word(&mut self, place: u64) -> u32 {
        let block = place / 16;
        if self.block != Some(block) {
            self.block = Some(block);
            self.words = self.words_of(block);
        }
        self.words[place as usize % 16]
    }

    fn words_of(&self, block: u64) -> [u32; 16] {
        let mut start = [0; 16];
        start[..4].copy_from_slice(&[0x6170_7865, 0x3320_646e, 0x7962_2d32, 0x6b20_6574]);
        start[4..12].copy_from_slice(&self.key);
        start[12..14].copy_from_slice(&[block as u32, (block >> 32) as u32]);
        start[14..].copy_from_slice(&[self.number as u32, (self.number >> 32) as u32]);
        let mut words = start;
        for _ in 0..4 {
            for k in 0..4 {
                quarter_round(&mut words, k, 4 + k, 8 + k, 12 + k);
            }
            for k in 0..4 {
                quarter_round(&mut words, k, 4 + (k + 1) % 4, 8 + (k + 2) % 4, 12 + (k + 3) % 4);
            }
        }
        std::array::from_fn(|k| words[k].wrapping_add(start[k]))
    }
}

#[inline(always)]
fn quarter_round(words: &mut [u32; 16], a: usize, b: usize, c: usize, d: usize) {
    for (right, left) in [(16, 12), (8, 7)] {
        words[a] = words[a].wrapping_add(words[b]);
        words[d] = (words[d] ^ words[a]).rotate_left(right);
        words[c] = words[c].wrapping_add(words[d]);
        words[b] = (words[b] ^ words[c]).rotate_left(left);
    }
}

/// The draws of a quantum, for one of its instructions after another.
pub struct Draws {
    stream: Stream,
    back_rate: u32,
    copy_rate: u32,
    flaw_rate: u32,
    pub instruction: u32,
}

impl Draws {
    pub fn of(settings: &Settings, quantum: u64) -> Draws {
        Draws {
            stream: Stream::of(&settings.seed, quantum),
            back_rate: settings.back_rate,
            copy_rate: settings.copy_rate,
            flaw_rate: settings.flaw_rate,
            instruction: 0,
        }
    }

    /// The background flip: a cell of a soup of this size, and the bit that flips there.
    pub fn background(&mut self, size: u32) -> Option<(u32, u8)> {
        let due = self.back_rate != 0 && self.stream.word(0).is_multiple_of(self.back_rate);
        due.then(|| (self.stream.word(1) % size, 1 << (self.stream.word(2) % 5)))
    }

    /// One of the four words of the instruction.
    fn word(&mut self, place: u64) -> u32 {
        self.stream.word(3 + 4 * u64::from(self.instruction) + place)
    }
}

impl Chance for Draws {
    #[inline(always)]
    fn flaw(&mut self) -> i32 {
        if self.flaw_rate == 0 || !self.word(0).is_multiple_of(self.flaw_rate) {
            0
        } else if self.word(1).is_multiple_of(2) {
            1
        } else {
            -1
        }
    }

    #[inline(always)]
    fn flip(&mut self) -> u8 {
        if self.copy_rate == 0 || !self.word(2).is_multiple_of(self.copy_rate) {
            0
        } else {
            1 << (self.word(3) % 5)
        }
    }
}
