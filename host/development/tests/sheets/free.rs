//! What holds of a reading or a listing that the paper leaves free.

use super::lent::Lent;
use bannelgo::raw::Fields;
use bannelgo_development::calls::Call;
use bannelgo_development::expr::Grammar;
use bannelgo_development::reference::lent::Loan;

/// "It ends, changes only the table [..], has a length of at most n, zeroes the table with 12 and 14."
pub fn table_frame(
    grammar: &Grammar,
    before: &Loan,
    left: &Loan,
    call: &Call,
    fields: Fields,
) -> Result<(), &'static str> {
    let table = before.table_length(grammar);
    if left.buffer != before.buffer || left.n != before.n {
        return Err("the text has changed");
    }
    if left.words[table..] != before.words[table..] {
        return Err("a word after the table has changed");
    }
    let listing = matches!(call, Call::List { .. });
    match fields.number {
        0 if fields.length > before.n as u64 => Err("the length is above n"),
        0 => Ok(()),
        12 | 14 | 15 if fields != Fields::of_number(fields.number) => {
            Err("a refusal has other fields")
        }
        12 | 14 if left.words[..table].iter().any(|&word| word != 0) => {
            Err("the table is not zeroed")
        }
        12 | 14 => Ok(()),
        15 if listing => Ok(()),
        _ => Err("a number other than 12, 14 and for a listing 15"),
    }
}

/// "Changes only the table and, if answered, the lent row slots." The fields and rows are an answer's,
/// and rows past the last written stay.
pub fn row_frame(lent: &Lent, call: &Call, fields: Fields) -> Result<(), &'static str> {
    let rows = lent.rows();
    let is_row = |word: &u64| word >> 48 & 0xFF == 0;
    let coded = match call {
        Call::List { .. } => fields
            .listed(rows.len())
            .is_ok_and(|(_, written)| rows[..written].iter().all(is_row)),
        _ => fields.read().is_ok(),
    };
    match fields.number {
        0 if !coded => Err("the fields or the rows are no answer"),
        0 => {
            let written = fields.value as usize;
            let same = rows[written..] == lent.rows_with(&[])[written..];
            same.then_some(()).ok_or("a slot past the rows has changed")
        }
        _ if rows != lent.rows_with(&[]) => Err("a refused listing has changed row slots"),
        _ => Ok(()),
    }
}
