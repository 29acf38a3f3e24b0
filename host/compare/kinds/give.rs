//! Quanta given to marked rows.

use crate::kind::*;
use crate::make::marks::{self, marks, Marks};
use second::questions::give;

#[derive(Clone)]
pub struct Case {
    quanta: [u64; 32],
    marks: Marks,
}

impl Kind for Case {
    const GROUPS: &'static [Group] = &[
        "marked (1 in 30): none | 1 to 8 | 9 to 31 | all",
        "of 2^64 - 1 quanta, a row (1 in 10): marked | not marked",
        "of 2^64 - 2 quanta, a row (1 in 10): marked | not marked",
    ];

    fn wild(random: &mut Random) -> Case {
        let mut quanta = [0; 32];
        quanta.fill_with(|| wild_quanta(random));
        let marks = marks(random);
        Case { quanta, marks }
    }

    fn asked(&mut self, to: &mut Message) {
        to.letter(b'G')
            .each("quanta of row", &mut self.quanta)
            .each("mark of row", &mut self.marks);
    }

    fn answered(&self, to: &mut Message) {
        to.each("quanta of row", &mut give(&self.quanta, &self.marks));
    }

    fn count(&self, _answer: &[u8], tally: &mut Tally) {
        marks::count(&self.marks, "marked", tally);
        let has = |quanta, mark| {
            let mut rows = self.quanta.iter().zip(&self.marks);
            rows.any(|row| row == (&quanta, &mark))
        };
        for (title, quanta) in [
            ("of 2^64 - 1 quanta, a row", u64::MAX),
            ("of 2^64 - 2 quanta, a row", u64::MAX - 1),
        ] {
            tally.saw_each(title, [has(quanta, true), has(quanta, false)]);
        }
    }
}

fn wild_quanta(random: &mut Random) -> u64 {
    let low = random.pick(&[0, 255, 65_535, u64::from(u32::MAX), (1 << 40) - 1]);
    let high = random.pick(&[u64::MAX, u64::MAX - 1]);
    match random.below(4) {
        0 => low,
        1 => high,
        _ => random.below(1_000_000_000_000) as u64,
    }
}
