//! One mark for each of 32 rows.

use crate::random::Random;
use crate::tally::Tally;

pub type Marks = [bool; 32];

/// None, all, some, or mostly few: a record names at most 8 rows.
pub fn marks(random: &mut Random) -> Marks {
    let one_in = random.pick(&[2, 4, 8, 16]);
    let mut marks = [false; 32];
    match random.below(8) {
        0 => (),
        1 => marks.fill(true),
        2 => marks[random.below(32)] = true,
        _ => marks.fill_with(|| random.one_in(one_in)),
    }
    marks
}

pub fn marked(marks: &Marks) -> usize {
    marks.iter().filter(|&&mark| mark).count()
}

pub fn count(marks: &Marks, title: &str, tally: &mut Tally) {
    let name = match marked(marks) {
        0 => "none",
        1..=8 => "1 to 8",
        32 => "all",
        _ => "9 to 31",
    };
    tally.saw(title, name);
}
