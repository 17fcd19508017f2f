//! Expressions, the plan node, and the context of a task.
use crate::aggregates::{AggregateMode, LimitOptions, PhysicalGroupBy};
use crate::array::{ArrayRef, RecordBatch, new_null_array};
use crate::bench::Bench;
use crate::datatypes::{DataType, Field, FieldRef, Schema, SchemaRef};
use crate::metrics::ExecutionPlanMetricsSet;
use crate::{InputOrderMode, Result, SendableRecordBatchStream};
use aggregate::AggregateFunctionExpr;
use sort_expr::LexOrdering;
use std::fmt::Debug;
use std::sync::Arc;

pub struct ColumnarValue(ArrayRef);

impl ColumnarValue {
    pub fn into_array(self, _rows: usize) -> Result<ArrayRef> {
        Ok(self.0)
    }
}

pub trait PhysicalExpr: Debug + Send + Sync {
    fn evaluate(&self, batch: &RecordBatch) -> Result<ColumnarValue>;

    fn data_type(&self, _: &Schema) -> Result<DataType> {
        Ok(DataType(64))
    }

    fn nullable(&self, _: &Schema) -> Result<bool> {
        Ok(true)
    }

    fn return_field(&self, _: &Schema) -> Result<FieldRef> {
        Ok(cell_field())
    }
}

pub fn cell_field() -> FieldRef {
    Field::new("", DataType(64), true).into()
}

pub mod physical_expr {
    pub use super::PhysicalExpr;
}

pub mod expressions {
    use super::{ColumnarValue, PhysicalExpr, RecordBatch, Result, new_null_array};
    use crate::datatypes::DataType;

    #[derive(Debug)]
    pub struct Column(usize);

    impl Column {
        pub fn new(_name: &str, index: usize) -> Self {
            Column(index)
        }
    }

    impl PhysicalExpr for Column {
        fn evaluate(&self, batch: &RecordBatch) -> Result<ColumnarValue> {
            Ok(ColumnarValue(batch.columns()[self.0].clone()))
        }
    }

    /// The null expression of a masked column.
    #[derive(Debug)]
    pub struct Absent;

    impl PhysicalExpr for Absent {
        fn evaluate(&self, batch: &RecordBatch) -> Result<ColumnarValue> {
            Ok(ColumnarValue(new_null_array(&DataType(64), batch.num_rows())))
        }
    }
}

#[derive(Debug, Clone)]
pub struct PhysicalSortExpr {
    pub expr: Arc<dyn PhysicalExpr>,
}

impl PhysicalSortExpr {
    pub fn new(expr: Arc<dyn PhysicalExpr>, _: crate::compute::SortOptions) -> Self {
        PhysicalSortExpr { expr }
    }
}

pub mod sort_expr {
    use super::PhysicalSortExpr;

    #[derive(Debug, Clone)]
    pub struct LexOrdering(Vec<PhysicalSortExpr>);

    impl LexOrdering {
        pub fn new(exprs: impl IntoIterator<Item = PhysicalSortExpr>) -> Option<Self> {
            Some(LexOrdering(exprs.into_iter().collect())).filter(|o| !o.0.is_empty())
        }

        pub fn get_sort_options(&self, _: &dyn super::PhysicalExpr) -> Option<crate::compute::SortOptions> {
            None
        }
    }
}

pub mod aggregate {
    use super::{Arc, DataType, Field, FieldRef, PhysicalExpr, PhysicalSortExpr, Result, cell_field, expressions::Column};
    use crate::parts::{GroupsAccumulator, Kind, States};

    /// One aggregate: its kind and its argument.
    #[derive(Debug)]
    pub struct AggregateFunctionExpr {
        pub kind: Kind,
        pub argument: usize,
    }

    impl AggregateFunctionExpr {
        pub fn expressions(&self) -> Vec<Arc<dyn PhysicalExpr>> {
            vec![Arc::new(Column::new("", self.argument))]
        }
        pub fn order_bys(&self) -> &[PhysicalSortExpr] {
            &[]
        }
        pub fn field(&self) -> FieldRef {
            cell_field()
        }
        pub fn state_fields(&self) -> Result<Vec<FieldRef>> {
            Ok(vec![cell_field(); self.kind.cells()])
        }
        pub fn name(&self) -> &str {
            ""
        }
        pub fn human_display(&self) -> Option<&str> {
            None
        }
        pub fn human_display_alias(&self) -> Option<&str> {
            None
        }
        pub fn groups_accumulator_supported(&self) -> bool {
            true
        }
        pub fn create_groups_accumulator(&self) -> Result<Box<dyn GroupsAccumulator>> {
            Ok(Box::new(States::new(self.kind)))
        }
        pub fn create_accumulator(&self) -> Result<()> {
            unreachable!("every kind has a groups accumulator")
        }
    }
}

pub struct Aggregate;

impl Aggregate {
    pub const INTERNAL_GROUPING_ID: &'static str = "id";

    /// As wide as `group_id_array` makes the ids.
    pub fn grouping_id_type(marks: usize, greatest: usize) -> DataType {
        let bits = marks + (usize::BITS - greatest.leading_zeros()) as usize;
        DataType([8, 16, 32].into_iter().find(|w| bits <= *w as usize).unwrap_or(64))
    }
}

/// The plan's input: the batches that the harness offers.
pub struct Offered {
    pub schema: SchemaRef,
    pub bench: Arc<Bench>,
}

impl Offered {
    pub fn schema(&self) -> SchemaRef {
        Arc::clone(&self.schema)
    }

    pub fn execute(&self, _partition: usize, _: Arc<TaskContext>) -> Result<SendableRecordBatchStream> {
        Ok(Box::pin(self.bench.input(self.schema())))
    }
}

/// What of an aggregation's input ordering the plan hands on.
pub struct NoOrdering;

impl NoOrdering {
    pub fn output_ordering(&self) -> Option<&LexOrdering> {
        None
    }
}

pub struct AggregateExec {
    pub mode: AggregateMode,
    pub group_by: Arc<PhysicalGroupBy>,
    pub aggr_expr: Arc<[Arc<AggregateFunctionExpr>]>,
    pub filter_expr: Arc<[Option<Arc<dyn PhysicalExpr>>]>,
    pub limit_options: Option<LimitOptions>,
    pub input: Offered,
    pub schema: SchemaRef,
    pub metrics: ExecutionPlanMetricsSet,
    pub input_order_mode: InputOrderMode,
    pub cache: NoOrdering,
}

impl AggregateExec {
    pub fn input(&self) -> &Offered {
        &self.input
    }

    pub fn limit_options(&self) -> Option<LimitOptions> {
        self.limit_options
    }
}

pub struct ExecutionOptions {
    pub skip_partial_aggregation_probe_rows_threshold: usize,
    pub skip_partial_aggregation_probe_ratio_threshold: f64,
}

pub struct ConfigOptions {
    pub execution: ExecutionOptions,
}

pub struct SessionConfig {
    pub batch_size: usize,
    pub options: ConfigOptions,
}

impl SessionConfig {
    pub fn batch_size(&self) -> usize {
        self.batch_size
    }
    pub fn options(&self) -> &ConfigOptions {
        &self.options
    }
    pub fn spill_compression(&self) {}
}

pub struct DiskManager;

impl DiskManager {
    /// None, so that nothing is spilled.
    pub fn tmp_files_enabled(&self) -> bool {
        false
    }
}

pub struct RuntimeEnv {
    pub disk_manager: DiskManager,
}

pub struct TaskContext {
    pub config: SessionConfig,
    pub bench: Arc<Bench>,
}

impl TaskContext {
    pub fn session_config(&self) -> &SessionConfig {
        &self.config
    }
    pub fn runtime_env(&self) -> Arc<RuntimeEnv> {
        Arc::new(RuntimeEnv { disk_manager: DiskManager })
    }
    pub fn memory_pool(&self) -> &Arc<Bench> {
        &self.bench
    }
}
