//! Runs the grouped hash aggregation stream of datafusion-physical-plan 55.0.0 on scenarios. The original's files are
//! compiled unchanged; every other crate that they name is this one, whose modules hold the stand-ins.
#![allow(dead_code, unused_imports)]

extern crate self as arrow;
extern crate self as arrow_ord;
extern crate self as arrow_schema;
extern crate self as datafusion_common;
extern crate self as datafusion_execution;
extern crate self as datafusion_expr;
extern crate self as datafusion_physical_expr;
extern crate self as datafusion_physical_expr_common;
extern crate self as futures;
extern crate self as log;

// ---- stand-ins, at the places where the original looks for them

mod common;
mod plan;
mod unused;

pub mod array;
pub mod metrics;
pub mod parts;

pub use array::{datatypes, record_batch};
pub use common::{DataFusionError, Result, ScalarValue, compute, partition, utils};
pub use datatypes::FieldRef;
pub use metrics::instant;
pub use ordering::InputOrderMode;
pub use parts::{EmitTo, GroupsAccumulator, memory_pool};
pub use plan::{Aggregate, PhysicalExpr, PhysicalSortExpr, TaskContext, aggregate, expressions, physical_expr, sort_expr};
pub use std::task::ready;
pub use stream::{RecordBatchStream, SendableRecordBatchStream};
pub use unused::{GroupsAccumulatorAdapter, sorts, spill};

// ---- the original

include!(concat!(env!("OUT_DIR"), "/ordering.rs"));

pub mod stream {
    use crate::Result;
    use crate::array::RecordBatch;
    use crate::datatypes::SchemaRef;
    use std::pin::Pin;
    use std::sync::Arc;
    use std::task::{Context, Poll};

    include!(concat!(env!("OUT_DIR"), "/stream.rs"));

    pub trait Stream {
        type Item;
        fn poll_next(self: Pin<&mut Self>, cx: &mut Context<'_>) -> Poll<Option<Self::Item>>;
    }

    pub trait RecordBatchStream: Stream<Item = Result<RecordBatch>> {
        fn schema(&self) -> SchemaRef;
    }

    pub type SendableRecordBatchStream = Pin<Box<dyn RecordBatchStream + Send>>;

    pub trait StreamExt {
        fn poll_next_unpin(&mut self, cx: &mut Context<'_>) -> Poll<Option<Result<RecordBatch>>>;
    }

    impl StreamExt for SendableRecordBatchStream {
        fn poll_next_unpin(&mut self, cx: &mut Context<'_>) -> Poll<Option<Result<RecordBatch>>> {
            self.as_mut().poll_next(cx)
        }
    }
}

pub mod aggregates {
    use crate::aggregate::AggregateFunctionExpr;
    use crate::array::{ArrayRef, RecordBatch, UInt8Array, UInt16Array, UInt32Array, UInt64Array};
    use crate::datatypes::{DataType, Field, FieldRef, Schema, SchemaRef};
    use crate::expressions::Column;
    use crate::utils::evaluate_expressions_to_arrays;
    use crate::{Aggregate, PhysicalExpr, Result, not_impl_err};
    use std::borrow::Cow;
    use std::collections::HashMap;
    use std::sync::Arc;

    include!(concat!(env!("OUT_DIR"), "/aggregates.rs"));

    pub mod group_values {
        pub use crate::metrics::GroupByMetrics;
        pub use crate::parts::new_group_values;
        use crate::{EmitTo, Result, array::ArrayRef};

        include!(concat!(env!("OUT_DIR"), "/group_values.rs"));
    }

    pub use crate::plan::AggregateExec;

    /// `create_schema`, for the whole harness.
    pub(crate) fn output_schema(
        input: &Schema,
        group_by: &PhysicalGroupBy,
        aggregates: &[Arc<AggregateFunctionExpr>],
        mode: AggregateMode,
    ) -> Result<SchemaRef> {
        create_schema(input, group_by, aggregates, mode).map(Arc::new)
    }

    pub(crate) fn probe_of(least: usize, ratio: f64, updates: &[(usize, usize)]) -> Vec<bool> {
        let mut probe = skip_partial::SkipAggregationProbe::new(least, ratio, crate::metrics::Metric);
        let mut told = |(rows, groups): &(usize, usize)| {
            probe.update_state(*rows, *groups);
            probe.should_skip()
        };
        updates.iter().map(&mut told).collect()
    }
}

// ---- the harness

pub mod bench;
pub mod findings;
pub mod generate;
pub mod questions;
pub mod scenario;
pub mod session;
