//! The ancestor, and listings.

use std::iter::repeat_n;

#[rustfmt::skip]
const NAMES: [&str; 32] = [
    // instructions: made by docs/make_tables
    "nop_0", "nop_1", "or1", "shl", "zero", "if_cz", "sub_ab", "sub_ac", "inc_a", "inc_b", "dec_c", "inc_c",
    "push_ax", "push_bx", "push_cx", "push_dx", "pop_ax", "pop_bx", "pop_cx", "pop_dx", "jmp", "jmpb", "call",
    "ret", "mov_cd", "mov_ab", "mov_iab", "adr", "adrb", "adrf", "mal", "divide",
    // end of instructions
];

const ANCESTOR: &str = include_str!("../../../examples/0080aaa.listing");

/// How many cells of the ancestor stand behind the padding.
const TAIL: usize = 5;

/// The ancestor, with instructions that never run put in before its end, to so many cells.
pub fn padded(cells: u32) -> Vec<u8> {
    let mut code: Vec<u8> = codes_of(ANCESTOR).collect();
    let tail = code.split_off(code.len() - TAIL);
    let padding = cells as usize - code.len() - TAIL;
    code.extend(repeat_n(code_of("inc_c"), padding));
    code.extend(tail);
    code
}

fn code_of(name: &str) -> u8 {
    let found = NAMES.iter().position(|other| *other == name);
    found.expect("an instruction") as u8
}

/// The codes of the words of a listing, without its comments.
pub fn codes_of(listing: &str) -> impl Iterator<Item = u8> + '_ {
    let lines = listing.lines();
    lines
        .flat_map(|line| line.split(';').next().unwrap_or("").split_whitespace())
        .map(code_of)
}
