//! Single slots with a set of free cores, and a core for each picked row.

use super::slot::{self, Free};
use crate::kind::*;
use crate::number::Number;
use second::slot::{first_cores, State};

/// Core c is free if bit c is 1.
pub type Case = slot::Case<u32>;

impl Free for u32 {
    const LETTER: u8 = b'K';
    const NAME: &'static str = "set";
    const PLACES: bool = true;
    const GROUP: Group = "set (1 in 300): done, of the first cores | done, of others | \
        35 by core M alone | 35 by core 31 alone | 35 by all 32 | 35 with M of 8 | \
        35, right in its low 8 bits alone";

    /// Any of them, or as few as may be of those on which a row ran, which then has to move; at times the first.
    fn wild(random: &mut Random, k: u8, state: &State) -> u32 {
        if k > state.table.cores {
            return naming_another(random, state.table.cores);
        }
        let mut order: Vec<u8> = (0..state.table.cores.min(32)).collect();
        if !random.one_in(6) {
            random.shuffle(&mut order);
        }
        if random.one_in(2) {
            order.sort_by_key(|core| state.last.named_cores().contains(core));
        }
        let cores = order.iter().take(usize::from(k));
        cores.fold(0, |set, core| set | 1 << core)
    }

    fn set(self) -> u32 {
        self
    }

    /// Without the last of them.
    fn one_less(self) -> u32 {
        let last = (1u32 << 31).checked_shr(self.leading_zeros());
        self & !last.unwrap_or(0)
    }

    fn count(self, cores: u8, number: u8, tally: &mut Tally) {
        let first = self == first_cores(self.count_ones() as u8);
        let (done, refused) = (number <= 1, number == 35);
        let others = self & !first_cores(cores);
        let met = [
            done && first,
            done && !first,
            refused && others == 1 << cores,
            refused && others == 1 << 31,
            refused && self == u32::MAX,
            refused && cores == 8,
            refused && others & 0xFF == 0,
        ];
        tally.saw_each("set", met);
    }
}

/// Any cores, and one that is not there or more.
fn naming_another(random: &mut Random, cores: u8) -> u32 {
    let any = u32::read(&random.bytes(4)) & first_cores(cores);
    let past_8 = random.between(8, 31);
    let one = random.pick(&[usize::from(cores % 32), 31, past_8]);
    random.pick(&[any | 1 << one, any | 1 << one, any | 1 << one, u32::MAX])
}
