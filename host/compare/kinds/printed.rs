//! Schedules, as the slot printer prints them, of inputs that are right or wrong.

use crate::kind::*;
use crate::make::{damage, schedule, sound, whole_core};
use second::printer::print;

/// An input as it is written: each count may be wrong by something.
#[derive(Clone, Default)]
pub struct Case {
    table_length_more: u16,
    table: Vec<u8>,
    slots: u16,
    free_count_more: u16,
    free: Vec<u8>,
    after: Vec<u8>,
    /// so many bytes are missing at the end
    cut: usize,
}

const MOST_BYTES: usize = 65_536;

impl Kind for Case {
    /// Inputs after the first two would be right but for one slot or one byte.
    const GROUPS: &'static [Group] = &[
        "after the header, last (1 in 75): end | late | refused 35",
        "alone (1 in 75): refused | input",
        "with a row of e = p (1 in 75): end | late",
        "run in format 2 (1 in 100): as in format 1 | unlike format 1",
        "run with every k listed (1 in 75): end | late",
        "run past the list (1 in 75): on one core | on more | late by the core held back",
        "input (1 in 150): right, with a table of length 0 | right, of 65,536 bytes | \
         of 65,537 bytes, each in its place | right in its first 65,536 bytes, and one more | \
         of 4,097 slots, else right",
    ];

    /// Mostly one whose counts are right.
    fn wild(random: &mut Random) -> Case {
        let sound = sound_table(random);
        match random.below(16) {
            0 => with_counts(random, vec![]),
            1 => Case {
                slots: 4_097,
                ..with_counts(random, sound)
            },
            2 => of_length(random, sound, MOST_BYTES),
            3 => Case {
                after: random.bytes(1),
                ..of_length(random, sound, MOST_BYTES)
            },
            4 => of_length(random, sound, MOST_BYTES + 1),
            5 => disturbed(random, sound),
            6 => {
                let damaged = damage::table(random).0;
                with_counts(random, damaged)
            }
            _ => with_counts(random, sound),
        }
    }

    fn asked(&mut self, to: &mut Message) {
        let length = to.shrunk(&mut self.table) as u16;
        to.number("table length", length.wrapping_add(self.table_length_more))
            .fixed("table", &self.table)
            .part("slots", &mut self.slots);
        let count = to.shrunk(&mut self.free) as u16;
        to.number("free count", count.wrapping_add(self.free_count_more))
            .fixed("free", &self.free)
            .fixed("after", &self.after)
            .cut(self.cut);
    }

    fn answered(&self, to: &mut Message) {
        to.text("text", &print(&request(self).bytes));
    }

    fn count(&self, answer: &[u8], tally: &mut Tally) {
        let text = String::from_utf8_lossy(answer);
        let last = text.lines().last().unwrap_or("");
        let word = last.split(' ').next().unwrap_or("");
        match text.lines().count() {
            1 => tally.saw("alone", word),
            _ if word == "refused" => tally.saw("after the header, last", last),
            _ => tally.saw("after the header, last", word),
        }
        let ran = text.lines().count() > 1 && word != "refused";
        let such = ran && whole_core::stands_in(&self.table);
        tally.saw_if(such, "with a row of e = p", word);
        if ran && self.table[0] == 2 {
            let unlike = self.in_format_1() != answer;
            tally.saw_each("run in format 2", [!unlike, unlike]);
        }
        // a line for each slot, the header and the last line
        let past = ran && text.lines().count() - 2 > self.free.len();
        tally.saw_if(ran && !past, "run with every k listed", word);
        if past {
            let alone = self.table[5] == 1;
            let held_back = !alone && word == "late" && self.ends_with_all_cores();
            tally.saw_each("run past the list", [alone, !alone, held_back]);
        }
        tally.saw_each("input", self.met());
    }
}

impl Case {
    /// What is printed if the table has format 1.
    fn in_format_1(&self) -> Vec<u8> {
        let mut other = self.clone();
        other.table[0] = 1;
        print(&request(&other).bytes)
    }

    /// Is nobody late if all cores are free in each slot past the list?
    fn ends_with_all_cores(&self) -> bool {
        let mut other = self.clone();
        other.free.resize(usize::from(self.slots), self.table[5]);
        let text = print(&request(&other).bytes);
        text.ends_with(format!("end {}\n", self.slots).as_bytes())
    }

    /// For each of the inputs that are counted, whether it is this one.
    fn met(&self) -> [bool; 5] {
        let bytes = request(self).bytes;
        let length = bytes.len();
        let placed = (self.table_length_more, self.free_count_more, self.cut) == (0, 0, 0);
        let fewer_slots = Case {
            slots: 4_096,
            ..self.clone()
        };
        [
            bytes.starts_with(&[0, 0]) && right(&bytes),
            length == MOST_BYTES && right(&bytes),
            length == MOST_BYTES + 1 && placed && self.after.is_empty(),
            length == MOST_BYTES + 1 && right(&bytes[..MOST_BYTES]),
            self.slots == 4_097 && right(&request(&fewer_slots).bytes),
        ]
    }
}

/// Is it judged as more than an input?
fn right(bytes: &[u8]) -> bool {
    print(bytes) != b"input\n"
}

/// A table without a fault. One of so many has a single core, which is not held back.
fn sound_table(random: &mut Random) -> Vec<u8> {
    let single = random.one_in(6);
    loop {
        let table = sound::short(random).bytes();
        if !single || table[5] == 1 {
            return table;
        }
    }
}

/// Slots and a list of k for this table, all counts right.
fn with_counts(random: &mut Random, table: Vec<u8>) -> Case {
    let slots = slots(random);
    let cores = table.get(5).map_or(1, |&cores| cores);
    Case {
        table,
        slots,
        free: free_cores(random, slots, cores),
        ..Case::default()
    }
}

fn slots(random: &mut Random) -> u16 {
    match random.below(24) {
        0 => random.pick(&[4_095, 4_096]),
        1 => 0,
        _ => random.between(1, 200) as u16,
    }
}

/// A k for no slot, for some or for every one: any number of cores, or mostly all of them, or once too many.
fn free_cores(random: &mut Random, slots: u16, cores: u8) -> Vec<u8> {
    let some = random.below(usize::from(slots) + 1);
    let length = random.pick(&[0, some, usize::from(slots)]);
    let any_one_in = random.pick(&[1, 8, 64, 10_000]);
    let mut free = vec![0; length];
    for k in &mut free {
        *k = schedule::free(random, any_one_in, cores);
    }
    if length > 0 && random.one_in(3) {
        free[random.below(length)] = random.pick(&[cores.wrapping_add(1), 255]);
    }
    free
}

/// So long by a table with bytes after its last row, every byte in its place.
fn of_length(random: &mut Random, table: Vec<u8>, length: usize) -> Case {
    let mut input = with_counts(random, table);
    input.table.resize(length - 6 - input.free.len(), 0);
    input
}

/// A count gets another value, or bytes are missing or too many.
fn disturbed(random: &mut Random, table: Vec<u8>) -> Case {
    let mut input = with_counts(random, table);
    let (length, count) = (input.table.len() as u16, input.free.len() as u16);
    let most = u16::MAX;
    match random.below(6) {
        0 => {
            let more = [0u16.wrapping_sub(length), most, 1, most - length];
            input.table_length_more = random.pick(&more);
        }
        1 => input.free_count_more = random.pick(&[most, 1, most - count]),
        2 => input.free = vec![1; usize::from(input.slots) + 1],
        3 => input.slots = random.pick(&[4_097, 32_768, 65_535]),
        4 => input.after = random.bytes(1),
        _ => input.cut = random.between(1, 12),
    }
    input
}
