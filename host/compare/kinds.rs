//! The kinds of case. A new one is a file in kinds/ and a line here.

use crate::compare::compare;
use crate::kind::*;
use crate::make::lent::Lent;
use crate::program::{Ours, Program};

/// Our programs, and how many requests each gets in one run: as many as fit, or, where it ends after one, one.
pub const PROBE: Ours = Ours("probe", ALL);
const PROBE_ONCE: Ours = Ours("probe", 1);
pub const QUESTIONS: Ours = Ours("questions", ALL);
const QUESTIONS_ONCE: Ours = Ours("questions", 1);
pub const PRINTER: Ours = Ours("slot_printer", 1);
pub const LIBRARY: Ours = Ours("library", ALL);

/// As many as there are.
const ALL: usize = usize::MAX;

/// A line of the list.
pub struct Line {
    pub name: &'static str,
    pub ours: Ours,
    /// how many cases a short run has
    pub short: usize,
    pub compare: fn(&Program, u64, usize) -> Result<String, String>,
    /// a wild case's request and its answer
    pub any: fn(&mut Random) -> (Message, Message),
}

/// Each line is a part of the list; the first that needs a file names it as a module.
macro_rules! kinds {
    ($($(mod $file:ident,)? $case:ty: $name:literal, $ours:expr, $short:expr;)*) => {
        $($(pub mod $file;)?)*

        pub const KINDS: &[Line] = &[$(Line {
            name: $name,
            ours: $ours,
            short: $short,
            compare: compare::<$case>,
            any: |random| exchange(&<$case>::wild(random)),
        }),*];
    };
}

kinds! {
    // file      case                          what is said of it              asked of        cases
    mod window,  window::Case<false>:          "windows",                      PROBE,          40_000;
                 window::Case<true>:           "windows by the walk",          PROBE,          40_000;
    mod table,   Lent<table::Tables, false>:   "tables",                       PROBE,          10_000;
    mod value,   value::Case<false>:           "table values",                 PROBE,          5_000;
    mod table_write, table_write::Case:        "tables written",               PROBE,          10_000;
    mod slot,    slot::Case<u8>:               "slots",                        PROBE,          20_000;
    mod cores,   cores::Case:                  "slots with a set of cores",    PROBE,          20_000;
    mod why,     why::Case:                    "why rows wait",                PROBE,          20_000;
    mod record,  record::Case:                 "records",                      PROBE,          5_000;
    mod check,   Lent<check::Checks, false>:   "checks",                       PROBE,          14_000;
    mod by_hand, Lent<by_hand::ByHand, false>: "made by hand, of the probe",   PROBE,          ALL;
                 value::Case<true>:            "questions of fresh states",    QUESTIONS,      2_000;
    mod next,    next::Case:                   "questions of next windows",    QUESTIONS,      10_000;
    mod row,     row::Case:                    "questions of rows",            QUESTIONS,      10_000;
    mod picks,   picks::Case:                  "questions of picks",           QUESTIONS,      4_000;
    mod late,    late::Case:                   "questions of late rows",       QUESTIONS,      3_000;
    mod give,    give::Case:                   "questions of quanta given",    QUESTIONS,      2_000;
    mod write,   write::Case:                  "questions of records",         QUESTIONS,      4_000;
    mod cut,     cut::Case<false>:             "cut requests of the probe",    PROBE_ONCE,     60;
                 cut::Case<true>:              "cut questions",                QUESTIONS_ONCE, 60;
    mod printed, printed::Case:                "printed schedules",            PRINTER,        200;
                 Lent<by_hand::ByHand, true>:  "made by hand, of the library", LIBRARY,        ALL;
                 Lent<table::Tables, true>:    "tables of the library",        LIBRARY,        200_000;
                 Lent<check::Checks, true>:    "traces of the library",        LIBRARY,        200_000;
}
