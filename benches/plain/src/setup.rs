//! What a soup file says: settings and creatures. It reads files that are written as those of examples/ are: a key and
//! its value on a line, comments, and strings without escapes.

use crate::ancestor::codes_of;
use crate::machine::Limits;

pub struct Settings {
    pub soup_size: u32,
    pub slice_size: u32,
    pub slice_by_size: bool,
    pub slice_num: u32,
    pub slice_den: u32,
    pub limits: Limits,
    pub min_cell: u32,
    pub max_cell: u32,
    pub mal_mult: u32,
    pub fill_percent: u32,
    pub move_percent: u32,
    pub save_at: u32,
    pub back_rate: u32,
    pub copy_rate: u32,
    pub flaw_rate: u32,
    pub seed: [u8; 32],
    pub dist_every: u32,
    pub dist_percent: u32,
}

impl Settings {
    /// Those of a file that says nothing.
    fn usual() -> Settings {
        Settings {
            soup_size: 60_000,
            slice_size: 25,
            slice_by_size: false,
            slice_num: 1,
            slice_den: 4,
            limits: Limits {
                search: 400,
                min_template: 1,
            },
            min_cell: 12,
            max_cell: 20_000,
            mal_mult: 3,
            fill_percent: 80,
            move_percent: 70,
            save_at: 2,
            back_rate: 0,
            copy_rate: 0,
            flaw_rate: 0,
            seed: [0; 32],
            dist_every: 0,
            dist_percent: 10,
        }
    }

    fn set(&mut self, key: &str, value: &str) {
        match key {
            "slice_by_size" => self.slice_by_size = value == "true",
            "seed" => self.seed = seed_of(value),
            _ => *self.number(key) = number_of(value),
        }
    }

    fn number(&mut self, key: &str) -> &mut u32 {
        match key {
            "soup_size" => &mut self.soup_size,
            "slice_size" => &mut self.slice_size,
            "slice_num" => &mut self.slice_num,
            "slice_den" => &mut self.slice_den,
            "search_limit" => &mut self.limits.search,
            "min_template" => &mut self.limits.min_template,
            "min_cell" => &mut self.min_cell,
            "max_cell" => &mut self.max_cell,
            "mal_mult" => &mut self.mal_mult,
            "fill_percent" => &mut self.fill_percent,
            "move_percent" => &mut self.move_percent,
            "save_at" => &mut self.save_at,
            "back_rate" => &mut self.back_rate,
            "copy_rate" => &mut self.copy_rate,
            "flaw_rate" => &mut self.flaw_rate,
            "dist_every" => &mut self.dist_every,
            "dist_percent" => &mut self.dist_percent,
            _ => panic!("unknown key {key}"),
        }
    }
}

/// A creature of the start.
#[derive(Default)]
pub struct Founder {
    pub at: u32,
    pub code: Vec<u8>,
}

pub struct Setup {
    pub settings: Settings,
    pub founders: Vec<Founder>,
}

impl Setup {
    pub fn read(file: &str) -> Setup {
        let mut setup = Setup {
            settings: Settings::usual(),
            founders: Vec::new(),
        };
        let mut rest = file.trim_start();
        while !rest.is_empty() {
            if rest.starts_with('#') {
                rest = rest.split_once('\n').map_or("", |(_, after)| after);
            } else if let Some(after) = rest.strip_prefix("[[creature]]") {
                setup.founders.push(Founder::default());
                rest = after;
            } else {
                let (key, after) = rest.split_once('=').expect("a key has a value");
                let (value, after) = first_value(after.trim_start());
                setup.set(key.trim_end(), value);
                rest = after;
            }
            rest = rest.trim_start();
        }
        setup
    }

    fn set(&mut self, key: &str, value: &str) {
        match self.founders.last_mut() {
            None => self.settings.set(key, value),
            Some(founder) => match key {
                "at" => founder.at = number_of(value),
                "code" => founder.code = codes_of(value).collect(),
                _ => panic!("unknown key creature.{key}"),
            },
        }
    }
}

/// The value at the beginning of a text, and what comes after it.
fn first_value(text: &str) -> (&str, &str) {
    for quote in ["\"\"\"", "'''", "\"", "'"] {
        if let Some(inside) = text.strip_prefix(quote) {
            return inside.split_once(quote).expect("a string has an end");
        }
    }
    let end = text.find(|letter: char| letter.is_whitespace() || letter == '#');
    text.split_at(end.unwrap_or(text.len()))
}

fn number_of(value: &str) -> u32 {
    value.parse().expect("a number")
}

fn seed_of(digits: &str) -> [u8; 32] {
    assert!(digits.len() == 64, "a seed has 64 digits");
    std::array::from_fn(|k| u8::from_str_radix(&digits[2 * k..2 * k + 2], 16).expect("hexadecimal digits"))
}
