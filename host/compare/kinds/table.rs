//! Tables, read from their bytes.

use crate::kind::*;
use crate::make::lent::{given, Given, Maker};
use crate::make::{damage, format, whole_core};
use second::table::read;

#[derive(Clone)]
pub struct Tables;

impl Maker for Tables {
    const GROUPS: &'static [Group] = &[
        "answer (1 in 300): 0 | 10..22",
        "length (1 in 300): 0",
        format::REFUSED,
        "taken, format (1 in 20): 1 | 2",
        "taken, M (1 in 400): 1..8",
        "taken, n (1 in 2000): 0..32",
        "taken, rows with e = p (1 in 100): none | some | all",
    ];

    fn wild(random: &mut Random) -> Given {
        if random.one_in(80) {
            return Given::default();
        }
        let (table, after) = damage::table(random);
        given(&table, None).before(&after)
    }

    fn count(given: &Given, number: u8, tally: &mut Tally) {
        tally.saw("answer", number);
        tally.saw_if(given.table.is_empty(), "length", 0);
        if number == 11 {
            format::count_refused(given.table[0], tally);
        }
        if number == 0 {
            tally.saw("taken, format", given.table[0]);
            let cores = given.table[5];
            tally.saw("taken, M", cores);
            tally.saw("taken, n", given.table[6 + usize::from(cores)]);
            let table = read(&given.table).expect("it is taken");
            tally.saw("taken, rows with e = p", whole_core::name(&table));
        }
    }
}
