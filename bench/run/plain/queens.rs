//! Puts a queen into each row of a board so that none attacks another.

use crate::term::{Term, elements_of, int, integer, list};
use std::rc::Rc;

/// Whether no queen attacks the column in the next row.
fn is_free(column: i64, queens: &[i64]) -> bool {
    let attacks = |queen: i64, distance: i64| [queen, queen + distance, queen - distance].contains(&column);
    (1..).zip(queens.iter().rev()).all(|(distance, queen)| !attacks(*queen, distance))
}

/// Puts queens into so many more rows, if that can be done; otherwise the queens are those from before.
fn place(rows: usize, columns: &[i64], queens: &mut Vec<i64>) -> bool {
    if rows == 0 {
        return true;
    }
    for column in columns {
        if is_free(*column, queens) {
            queens.push(*column);
            if place(rows - 1, columns, queens) {
                return true;
            }
            queens.pop();
        }
    }
    false
}

pub fn run(term: &Rc<Term>) -> Option<Rc<Term>> {
    let columns: Vec<i64> = elements_of(term)?.iter().map(|column| integer(column)).collect::<Option<_>>()?;
    let mut queens = Vec::new();
    let placed = place(columns.len(), &columns, &mut queens);
    placed.then(|| list(queens.into_iter().rev().map(int).collect()))
}
