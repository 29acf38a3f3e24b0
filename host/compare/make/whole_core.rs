//! Rows with e = p, which need a core in every slot (02, Six).

use second::table::{read, Row, Table};

pub fn is_whole(row: &Row) -> bool {
    row.cost == row.period
}

/// How many rows of a table are such: `none | some | all`.
pub fn name(table: &Table) -> &'static str {
    let rows = table.named_rows();
    match rows.iter().filter(|row| is_whole(row)).count() {
        0 => "none",
        whole if whole == rows.len() => "all",
        _ => "some",
    }
}

/// Is there such a row in a table in bytes that is taken?
pub fn stands_in(table: &[u8]) -> bool {
    read(table).map_or(false, |table| table.named_rows().iter().any(is_whole))
}
