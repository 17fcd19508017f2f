//! Errors, scalars, and what compares rows.
use std::fmt::{Display, Formatter};

#[derive(Debug)]
pub enum DataFusionError {
    ResourcesExhausted(String),
    Internal(String),
    NotImplemented(String),
}

impl Display for DataFusionError {
    fn fmt(&self, f: &mut Formatter<'_>) -> std::fmt::Result {
        write!(f, "{self:?}")
    }
}

pub type Result<T, E = DataFusionError> = std::result::Result<T, E>;

#[macro_export]
macro_rules! internal_err {
    ($($t:tt)*) => { Err($crate::DataFusionError::Internal(format!($($t)*))) };
}

#[macro_export]
macro_rules! not_impl_err {
    ($($t:tt)*) => { Err($crate::DataFusionError::NotImplemented(format!($($t)*))) };
}

#[macro_export]
macro_rules! resources_datafusion_err {
    ($($t:tt)*) => { $crate::DataFusionError::ResourcesExhausted(format!($($t)*)) };
}

#[macro_export]
macro_rules! assert_or_internal_err {
    ($condition:expr, $($t:tt)*) => {
        if !$condition { return $crate::internal_err!($($t)*); }
    };
}

#[macro_export]
macro_rules! assert_eq_or_internal_err {
    ($left:expr, $right:expr, $($t:tt)*) => {
        if $left != $right { return $crate::internal_err!($($t)*); }
    };
}

#[macro_export]
macro_rules! debug {
    ($($t:tt)*) => {{ let _ = format_args!($($t)*); }};
}

#[derive(Debug, Clone, PartialEq, Eq, PartialOrd, Ord)]
pub struct ScalarValue(pub crate::array::Cell);

impl ScalarValue {
    /// No bytes: the need that the port asks for counts groups only.
    pub fn size(&self) -> usize {
        0
    }
}

pub mod compute {
    #[derive(Debug, Clone, Copy, Default)]
    pub struct SortOptions;

    impl SortOptions {
        pub fn new(_descending: bool, _nulls_first: bool) -> Self {
            SortOptions
        }
    }
}

pub mod partition {
    use crate::{Result, array::ArrayRef};
    use std::ops::Range;

    pub struct Partitions(Vec<Range<usize>>);

    impl Partitions {
        pub fn ranges(&self) -> Vec<Range<usize>> {
            self.0.clone()
        }
    }

    /// The runs of equal rows; two absent cells are equal.
    pub fn partition(columns: &[ArrayRef]) -> Result<Partitions> {
        let rows = columns[0].cells.len();
        let begins = |r: &usize| *r == 0 || columns.iter().any(|c| c.cells[*r] != c.cells[*r - 1]);
        let starts: Vec<usize> = (0..rows).filter(begins).collect();
        let ends = starts.iter().skip(1).copied().chain([rows]);
        Ok(Partitions(starts.iter().zip(ends).map(|(s, e)| *s..e).collect()))
    }
}

pub mod utils {
    use crate::array::{ArrayRef, RecordBatch};
    use crate::compute::SortOptions;
    use crate::{PhysicalExpr, Result, ScalarValue};
    use std::cmp::Ordering;
    use std::sync::Arc;

    pub fn compare_rows(x: &[ScalarValue], y: &[ScalarValue], _: &[SortOptions]) -> Result<Ordering> {
        Ok(x.cmp(y))
    }

    pub fn get_row_at_idx(columns: &[ArrayRef], row: usize) -> Result<Vec<ScalarValue>> {
        Ok(columns.iter().map(|c| ScalarValue(c.cells[row])).collect())
    }

    pub fn evaluate_expressions_to_arrays<'a>(
        exprs: impl IntoIterator<Item = &'a Arc<dyn PhysicalExpr>>,
        batch: &RecordBatch,
    ) -> Result<Vec<ArrayRef>> {
        exprs.into_iter().map(|e| e.evaluate(batch)?.into_array(batch.num_rows())).collect()
    }

    pub mod memory {
        pub fn get_record_batch_memory_size(_: &crate::array::RecordBatch) -> usize {
            unreachable!("nothing is spilled")
        }
    }
}
