//! Metrics that measure nothing.
use crate::array::RecordBatch;

#[derive(Debug, Clone, Default)]
pub struct Metric;

pub type BaselineMetrics = Metric;
pub type Count = Metric;
pub type ExecutionPlanMetricsSet = Metric;
pub type Gauge = Metric;
pub type RatioMetrics = Metric;
pub type SpillMetrics = Metric;

pub enum MetricCategory {
    Rows,
}

pub enum MetricType {
    Summary,
}

impl Metric {
    pub fn new(_: &ExecutionPlanMetricsSet, _partition: usize) -> Self {
        Metric
    }
    pub fn elapsed_compute(&self) -> &Metric {
        self
    }
    pub fn timer(&self) -> Metric {
        Metric
    }
    pub fn done(self) {}
    pub fn add(&self, _: usize) {}
    pub fn add_total(&self, _: usize) {}
    pub fn add_part(&self, _: usize) {}
    pub fn set_max(&self, _: usize) {}
    pub fn add_duration(&self, _: ()) {}
    pub fn add_elapsed(&self, _: instant::Instant) {}
}

pub struct MetricBuilder;

impl MetricBuilder {
    pub fn new(_: &ExecutionPlanMetricsSet) -> Self {
        MetricBuilder
    }
    pub fn with_category(self, _: MetricCategory) -> Self {
        self
    }
    pub fn with_type(self, _: MetricType) -> Self {
        self
    }
    pub fn counter(self, _: &str, _partition: usize) -> Metric {
        Metric
    }
    pub fn peak_memory_usage(self, _: &str, _partition: usize) -> Metric {
        Metric
    }
    pub fn ratio_metrics(self, _: &str, _partition: usize) -> Metric {
        Metric
    }
}

pub struct GroupByMetrics {
    pub time_calculating_group_ids: Metric,
    pub aggregate_arguments_time: Metric,
    pub aggregation_time: Metric,
    pub emitting_time: Metric,
}

impl GroupByMetrics {
    pub fn new(_: &Metric, _partition: usize) -> Self {
        let [time_calculating_group_ids, aggregate_arguments_time, aggregation_time, emitting_time] = [const { Metric }; 4];
        GroupByMetrics { time_calculating_group_ids, aggregate_arguments_time, aggregation_time, emitting_time }
    }
}

pub trait RecordOutput {
    fn record_output(self, _: &BaselineMetrics) -> Self;
}

impl RecordOutput for RecordBatch {
    fn record_output(self, _: &BaselineMetrics) -> Self {
        self
    }
}

pub mod instant {
    /// A moment; the time between two is not measured.
    #[derive(Clone, Copy)]
    pub struct Instant;

    impl Instant {
        pub fn now() -> Self {
            Instant
        }
    }

    impl std::ops::Sub for Instant {
        type Output = ();
        fn sub(self, _: Instant) {}
    }
}
