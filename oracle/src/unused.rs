//! What the original names but never calls here: spilling, and accumulators of single groups.
use crate::array::{ArrayRef, BooleanArray};
use crate::{EmitTo, GroupsAccumulator, Result};

pub struct GroupsAccumulatorAdapter;

impl GroupsAccumulatorAdapter {
    pub fn new<F: Fn() -> Result<()>>(_: F) -> Self {
        unreachable!("every kind has a groups accumulator")
    }
}

impl GroupsAccumulator for GroupsAccumulatorAdapter {
    fn update_batch(&mut self, _: &[ArrayRef], _: &[usize], _: Option<&BooleanArray>, _: usize) -> Result<()> {
        unreachable!()
    }
    fn merge_batch(&mut self, _: &[ArrayRef], _: &[usize], _: usize) -> Result<()> {
        unreachable!()
    }
    fn evaluate(&mut self, _: EmitTo) -> Result<ArrayRef> {
        unreachable!()
    }
    fn state(&mut self, _: EmitTo) -> Result<Vec<ArrayRef>> {
        unreachable!()
    }
    fn convert_to_state(&self, _: &[ArrayRef], _: Option<&BooleanArray>) -> Result<Vec<ArrayRef>> {
        unreachable!()
    }
    fn size(&self) -> usize {
        unreachable!()
    }
}

pub mod spill {
    pub mod spill_manager {
        use crate::array::RecordBatch;
        use crate::datatypes::SchemaRef;
        use crate::metrics::SpillMetrics;
        use crate::plan::RuntimeEnv;
        use crate::sorts::IncrementalSortIterator;
        use crate::{Result, internal_err};
        use std::sync::Arc;

        #[derive(Clone)]
        pub struct SpillManager;

        impl SpillManager {
            pub fn new(_: Arc<RuntimeEnv>, _: SpillMetrics, _: SchemaRef) -> Self {
                SpillManager
            }
            pub fn with_compression_type(self, _: ()) -> Self {
                self
            }
            pub fn spill_record_batch_iter_and_return_max_batch_memory(
                &self,
                _: IncrementalSortIterator,
                _: &str,
            ) -> Result<Option<((), usize)>> {
                internal_err!("nothing is spilled")
            }
        }

        pub trait GetSlicedSize {
            fn get_sliced_size(&self) -> Result<usize>;
        }

        impl GetSlicedSize for RecordBatch {
            fn get_sliced_size(&self) -> Result<usize> {
                internal_err!("nothing is spilled")
            }
        }
    }
}

pub mod sorts {
    use crate::array::RecordBatch;
    use crate::sort_expr::LexOrdering;

    pub struct IncrementalSortIterator;

    impl IncrementalSortIterator {
        pub fn new(_: RecordBatch, _: LexOrdering, _: usize) -> Self {
            IncrementalSortIterator
        }
    }

    pub mod streaming_merge {
        use super::LexOrdering;
        use crate::datatypes::SchemaRef;
        use crate::memory_pool::MemoryReservation;
        use crate::metrics::BaselineMetrics;
        use crate::spill::spill_manager::SpillManager;
        use crate::{Result, SendableRecordBatchStream, internal_err};

        pub struct SortedSpillFile {
            pub file: (),
            pub max_record_batch_memory: usize,
        }

        pub struct StreamingMergeBuilder;

        impl StreamingMergeBuilder {
            pub fn new() -> Self {
                StreamingMergeBuilder
            }
            pub fn with_schema(self, _: SchemaRef) -> Self {
                self
            }
            pub fn with_spill_manager(self, _: SpillManager) -> Self {
                self
            }
            pub fn with_sorted_spill_files(self, _: Vec<SortedSpillFile>) -> Self {
                self
            }
            pub fn with_expressions(self, _: &LexOrdering) -> Self {
                self
            }
            pub fn with_metrics(self, _: BaselineMetrics) -> Self {
                self
            }
            pub fn with_batch_size(self, _: usize) -> Self {
                self
            }
            pub fn with_reservation(self, _: MemoryReservation) -> Self {
                self
            }
            pub fn build(self) -> Result<SendableRecordBatchStream> {
                internal_err!("nothing is spilled")
            }
        }
    }
}
