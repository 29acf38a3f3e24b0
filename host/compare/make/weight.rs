//! Weights of rows, of all sorts.

use crate::random::Random;
use second::windows::heavy;

/// Numbers at the borders of something.
const BORDERS: [u16; 9] = [0, 1, 2, 255, 256, 32_767, 32_768, 65_534, 65_535];

/// One half and one are heavy too, but have names of their own.
pub fn name(e: u16, p: u16) -> &'static str {
    if e == p {
        return "e = p";
    }
    if u32::from(e) * 2 == u32::from(p) {
        return "one half";
    }
    if heavy(e, p) {
        return "heavy";
    }
    "light"
}

/// Small, so that the windows of all jobs are met; at times larger. Rarely very large: the walk to D may then be as long.
fn period(random: &mut Random) -> u16 {
    let longest = random.pick(&[12, 12, 40, 40, 40, 300]);
    let longest = if random.one_in(60) { 65_535 } else { longest };
    random.between(1, longest) as u16
}

pub fn weight(random: &mut Random) -> (u16, u16) {
    let p = period(random);
    let half = p / 2;
    match random.below(12) {
        0 => (random.pick(&BORDERS), random.pick(&BORDERS)),
        1 => (random.pick(&[0, p, p, p.saturating_add(1)]), p),
        2 => (p - 1, p),
        3 => (half.min(32_767), half.min(32_767) * 2),
        4 => (random.pick(&[half, half + 1]), p),
        5..=7 => (above(random, half, p), p),
        _ => (above(random, 0, p), p),
    }
}

fn above(random: &mut Random, least: u16, most: u16) -> u16 {
    random.between(usize::from(least) + 1, usize::from(most)) as u16
}

pub fn phase(random: &mut Random, p: u16) -> u16 {
    let any = random.below(65_536) as u16;
    random.pick(&[0, 0, 1, p, any, 65_535])
}
