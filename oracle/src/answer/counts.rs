//! Counts in rows, and what each is of.

pub fn add_rows<const N: usize, const M: usize>(rows: &mut [[u64; N]; M], more: &[[u64; N]; M]) {
    for (row, more) in rows.iter_mut().zip(more) {
        add_row(row, more);
    }
}

pub fn add_row<const N: usize>(row: &mut [u64; N], more: &[u64; N]) {
    for (count, more) in row.iter_mut().zip(more) {
        *count += more;
    }
}

/// Counts one more of each that is there.
pub fn add_there<const N: usize>(row: &mut [u64; N], there: &[bool; N]) {
    add_row(row, &there.map(u64::from));
}

/// Adds the counts of a row to a list, each with its name.
pub fn named(all: &mut Vec<(String, u64)>, what: &str, columns: &[&str], row: &[u64]) {
    for (column, &count) in columns.iter().zip(row) {
        all.push((format!("{what} {column}"), count));
    }
}
