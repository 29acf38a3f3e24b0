//! The record of marked rows, written at the front of a part.

use crate::kind::*;
use crate::make::marks::{self, marked, marks, Marks};
use crate::make::room;
use second::questions::write;

#[derive(Clone)]
pub struct Case {
    k: u8,
    marks: Marks,
    part: Vec<u8>,
}

impl Kind for Case {
    const GROUPS: &'static [Group] = &[
        "number (1 in 20): 0 | 34",
        "room (1 in 50): none | too little | one byte less | exact | more | much more",
        "k (1 in 10): 0 to 8 | above 8",
        "written, marked (1 in 60): none | 1 to 8 | 9 to 31 | all",
        "no room, marked (1 in 100): none | 1 to 8 | 9 to 31 | all",
    ];

    fn wild(random: &mut Random) -> Case {
        let marks = marks(random);
        let length = room::length(random, 2 + marked(&marks));
        let (small, any) = (random.below(9) as u8, random.byte());
        Case {
            k: random.pick(&[small, small, 9, 255, any]),
            marks,
            part: random.bytes(length),
        }
    }

    fn asked(&mut self, to: &mut Message) {
        to.letter(b'O')
            .part("k", &mut self.k)
            .each("mark of row", &mut self.marks)
            .counted("part", &mut self.part);
    }

    fn answered(&self, to: &mut Message) {
        let mut part = self.part.clone();
        let number = write(&mut part, self.k, &self.marks);
        to.number("number", number).fixed("part", &part);
    }

    fn count(&self, answer: &[u8], tally: &mut Tally) {
        tally.saw("number", answer[0]);
        let exact = 2 + marked(&self.marks);
        tally.saw("room", room::name(self.part.len(), exact));
        tally.saw_each("k", [self.k <= 8, self.k > 8]);
        let title = match answer[0] {
            0 => "written, marked",
            _ => "no room, marked",
        };
        marks::count(&self.marks, title, tally);
    }
}

/// The record of a slot in which nobody runs and no core is free.
pub fn nobody_in(part: Vec<u8>) -> Case {
    Case {
        k: 0,
        marks: [false; 32],
        part,
    }
}
