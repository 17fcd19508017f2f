//! Calls of single items of the original, for the tests.
use crate::aggregates::{PhysicalGroupBy, evaluate_group_by, group_id_array, probe_of};
use crate::array::{Cell, Cells, RecordBatch};
use crate::datatypes::Schema;
use crate::expressions::{Absent, Column};
use crate::plan::cell_field;
use crate::{PhysicalExpr, Result};
use std::sync::Arc;

/// The id that `group_id_array` gives, and its width.
pub fn group_id(marks: &[bool], ordinal: usize, greatest: usize) -> Result<(u64, u8)> {
    let ids = group_id_array(marks, ordinal, greatest, 1)?;
    Ok((ids.cells[0].expect("an id is present") as u64, ids.width))
}

/// The keys of a row of as many columns as there are key columns, for each set of a grouping without ids.
pub fn keys(row: &[i64], sets: Vec<Vec<bool>>) -> Result<Vec<Vec<Cell>>> {
    let expr = |i: usize| (Arc::new(Column::new("", i)) as Arc<dyn PhysicalExpr>, String::new());
    let null = |_| (Arc::new(Absent) as Arc<dyn PhysicalExpr>, String::new());
    let group_by =
        PhysicalGroupBy::new((0..row.len()).map(expr).collect(), (0..row.len()).map(null).collect(), sets, false);
    let schema = Arc::new(Schema::new(vec![cell_field(); row.len()]));
    let batch = RecordBatch::try_new(schema, row.iter().map(|v| Cells::new(vec![Some(*v)])).collect())?;
    let keys = evaluate_group_by(&group_by, &batch)?;
    Ok(keys.iter().map(|columns| columns.iter().map(|c| c.cells[0]).collect()).collect())
}

/// What the probe says after each update: rows of a batch, and groups held then.
pub fn probe(least: usize, ratio: f64, updates: &[(usize, usize)]) -> Vec<bool> {
    probe_of(least, ratio, updates)
}
