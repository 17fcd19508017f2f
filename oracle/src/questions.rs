//! The questions that the port asks before a call. The original asks none of them.
use crate::aggregates::{group_id_array, max_duplicate_ordinal};
use crate::array::Cell;
use crate::scenario::{Order, Settings};

/// A refusal's number and its values.
pub type Refusal = Vec<usize>;

pub fn ask(holds: bool, number: usize) -> Result<(), Refusal> {
    if holds { Ok(()) } else { Err(vec![number]) }
}

/// The small table admits keys of one cell that is absent or 0 to 63.
fn admits(s: &Settings, key: &[Cell]) -> bool {
    !s.small || matches!(key, [None] | [Some(0..=63)])
}

fn set_id(sets: &[Vec<bool>], at: usize) -> Cell {
    let ordinal = sets[..at].iter().filter(|set| **set == sets[at]).count();
    let ids = group_id_array(&sets[at], ordinal, max_duplicate_ordinal(sets), 1).expect("eight sets of six marks have ids");
    ids.cells[0]
}

/// The key of a row for a set.
pub fn key(s: &Settings, sets: &[Vec<bool>], at: usize, row: &[Cell]) -> Vec<Cell> {
    let masked = s.keys.iter().zip(&sets[at]).map(|(c, masked)| row[*c].filter(|_| !masked));
    masked.chain(s.grouped.then(|| set_id(sets, at))).collect()
}

fn parts_fit(s: &Settings) -> bool {
    let cells: usize = s.kinds.iter().map(|k| k.cells()).sum();
    (1..=6).contains(&s.keys.len())
        && (1..=4).contains(&s.aggregates.len())
        && s.aggregates.len() == s.kinds.len()
        && cells <= 8
}

fn columns_fit(s: &Settings) -> bool {
    let below = |c: &usize| *c < s.columns;
    (1..=16).contains(&s.columns)
        && s.keys.iter().all(below)
        && s.aggregates.iter().all(|(argument, filter)| below(argument) && filter.iter().all(below))
}

fn sets_fit(s: &Settings) -> bool {
    let sets = s.groups();
    if !s.grouped {
        return sets == [vec![false; s.keys.len()]];
    }
    let nothing = vec![None; s.columns];
    (1..=8).contains(&sets.len())
        && sets.iter().all(|set| set.len() == s.keys.len())
        && (0..sets.len()).all(|at| !sets[at].iter().all(|m| *m) || admits(s, &key(s, &sets, at, &nothing)))
}

fn order_fits(s: &Settings) -> bool {
    match &s.order {
        Order::Linear => true,
        Order::Sorted => !s.grouped,
        Order::Partially(positions) => {
            let once = |p: &usize| positions.iter().filter(|q| *q == p).count() == 1;
            !s.grouped
                && (1..=s.keys.len()).contains(&positions.len())
                && positions.iter().all(|p| once(p) && *p < s.keys.len())
        }
    }
}

pub fn settings_fault(s: &Settings) -> Result<(), Refusal> {
    ask((1..=512).contains(&s.batch_size), 1)?;
    ask(parts_fit(s), 2)?;
    ask(columns_fit(s), 3)?;
    ask(sets_fit(s), 4)?;
    ask(order_fits(s), 5)?;
    ask(s.ratio() >= 0.0, 6)
}

pub fn batch_fault(s: &Settings, values: &[i64], flags: &[u8]) -> Result<(), Refusal> {
    let sized = values.len() % s.columns == 0 && values.len() == flags.len() && values.len() / s.columns <= 512;
    ask(sized, 9)?;
    match flags.iter().position(|f| *f > 1) {
        Some(at) => Err(vec![10, at / s.columns, at % s.columns]),
        None => Ok(()),
    }
}

pub fn keys_fault(s: &Settings, rows: &[Vec<Cell>]) -> Result<(), Refusal> {
    if !s.small {
        return Ok(());
    }
    let sets = s.groups();
    for (r, row) in rows.iter().enumerate() {
        if let Some(at) = (0..sets.len()).find(|at| !admits(s, &key(s, &sets, *at, row))) {
            return Err(vec![12, r, at]);
        }
    }
    Ok(())
}
