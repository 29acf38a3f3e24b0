//! A table, or a table and a trace: as C lends them to the library, with bytes that follow in memory and do not belong to them, or as the probe
//! is asked.

use crate::kind::*;
use crate::make::values::table_value;
use second::checker::check;
use second::table::{read, Table};
use std::iter::repeat_with;
use std::marker::PhantomData;
use std::slice::from_ref;

#[derive(Clone, Default)]
pub struct Given {
    pub table: Vec<u8>,
    pub trace: Option<Vec<u8>>,
    pub after: Vec<u8>,
    /// 01's number and of what, where it is known by the way it was made
    pub known: Option<(u8, String)>,
    /// a name for the way it was made
    pub made: &'static str,
}

pub fn given(table: &[u8], trace: Option<&[u8]>) -> Given {
    Given {
        table: table.to_vec(),
        trace: trace.map(<[u8]>::to_vec),
        ..Given::default()
    }
}

impl Given {
    /// With these bytes after it in memory.
    pub fn before(mut self, after: &[u8]) -> Given {
        self.after = after.to_vec();
        self
    }

    pub fn made(mut self, made: &'static str) -> Given {
        self.made = made;
        self
    }

    pub fn known(mut self, number: u8, words: &str) -> Given {
        self.known = Some((number, words.to_string()));
        self
    }
}

/// How they are made and counted.
pub trait Maker: Clone + 'static {
    const GROUPS: &'static [Group];

    fn wild(random: &mut Random) -> Given;

    fn cases(mut random: Random) -> Box<dyn Iterator<Item = Given>> {
        Box::new(repeat_with(move || Self::wild(&mut random)))
    }

    fn count(given: &Given, number: u8, tally: &mut Tally);
}

#[derive(Clone)]
pub struct Lent<M, const TO_LIBRARY: bool>(Given, PhantomData<M>);

pub fn lent<M, const TO_LIBRARY: bool>(given: Given) -> Lent<M, TO_LIBRARY> {
    Lent(given, PhantomData)
}

impl<M: Maker, const TO_LIBRARY: bool> Kind for Lent<M, TO_LIBRARY> {
    const GROUPS: &'static [Group] = M::GROUPS;

    fn wild(random: &mut Random) -> Self {
        lent(M::wild(random))
    }

    fn cases(random: Random) -> Box<dyn Iterator<Item = Self>> {
        Box::new(M::cases(random).map(lent))
    }

    fn asked(&mut self, to: &mut Message) {
        let given = &mut self.0;
        let letter = if given.trace.is_some() { b'C' } else { b'T' };
        to.letter(letter).counted("table", &mut given.table);
        if let Some(trace) = &mut given.trace {
            to.counted("trace", trace);
        }
        if TO_LIBRARY {
            to.counted("in memory after it", &mut given.after);
        }
    }

    /// A refusal yields no table: every part of it is 0. Of the library, the number is the same with NULL for what is empty, and no byte is
    /// changed.
    fn answered(&self, to: &mut Message) {
        let Given { table, trace, .. } = &self.0;
        let checked = trace.as_ref().map(|trace| check(table, trace));
        let read = || read(table);
        let number = match &checked {
            Some(answer) => answer.number,
            None => read().err().unwrap_or(0),
        };
        to.number("number", number);
        match checked {
            _ if TO_LIBRARY => to
                .number("number with NULL", number)
                .number("bytes changed", false),
            Some(answer) => to.number("row", answer.row).number("time", answer.time),
            None => table_value(to, &mut read().unwrap_or_else(|_| Table::zero())),
        };
    }

    fn known(&self) -> Option<(&[u8], &str)> {
        let known = self.0.known.as_ref();
        known.map(|(number, words)| (from_ref(number), &words[..]))
    }

    fn count(&self, answer: &[u8], tally: &mut Tally) {
        M::count(&self.0, answer[0], tally);
    }
}
