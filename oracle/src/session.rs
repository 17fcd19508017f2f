//! One run: calls as the port has them, made of polls of the original's stream.
use crate::aggregate::AggregateFunctionExpr;
use crate::aggregates::grouped_hash_stream::GroupedHashAggregateStream;
use crate::aggregates::order::GroupOrdering;
use crate::aggregates::{AggregateExec, AggregateMode, LimitOptions, PhysicalGroupBy, output_schema};
use crate::array::{Cell, Cells, RecordBatch};
use crate::bench::Bench;
use crate::datatypes::{Schema, SchemaRef};
use crate::expressions::{Absent, Column};
use crate::metrics::Metric;
use crate::plan::{ConfigOptions, ExecutionOptions, NoOrdering, Offered, SessionConfig, cell_field};
use crate::questions::{Refusal, ask, batch_fault, keys_fault, settings_fault};
use crate::scenario::{Call, Order, Scenario, Settings};
use crate::stream::Stream;
use crate::{DataFusionError, InputOrderMode, PhysicalExpr, TaskContext};
use std::fmt::Write;
use std::panic::{AssertUnwindSafe, catch_unwind};
use std::pin::Pin;
use std::sync::Arc;
use std::task::{Context, Poll, Waker};

#[derive(Debug, Clone, PartialEq)]
pub enum Answer {
    Accepted,
    Refused(Refusal),
    Rows(Vec<Vec<Cell>>),
    Nothing,
    Closed,
    /// The original stopped in a way that no call of the port knows.
    Failed(String),
}

pub struct Session {
    settings: Settings,
    schema: SchemaRef,
    stream: Pin<Box<GroupedHashAggregateStream>>,
    bench: Arc<Bench>,
    /// What the next take hands out.
    waiting: Option<RecordBatch>,
    done: bool,
    accepted: u64,
}

enum Polled {
    Pending,
    Batch(RecordBatch),
    Exhausted,
    Done,
}

fn column(index: usize) -> Arc<dyn PhysicalExpr> {
    Arc::new(Column::new("", index))
}

fn order_mode(order: &Order) -> InputOrderMode {
    match order {
        Order::Linear => InputOrderMode::Linear,
        Order::Sorted => InputOrderMode::Sorted,
        Order::Partially(positions) => InputOrderMode::PartiallySorted(positions.clone()),
    }
}

fn group_by(s: &Settings) -> PhysicalGroupBy {
    let exprs: Vec<_> = s.keys.iter().map(|c| (column(*c), String::new())).collect();
    let absent = || (Arc::new(Absent) as Arc<dyn PhysicalExpr>, String::new());
    let nulls = s.keys.iter().map(|_| absent()).collect();
    PhysicalGroupBy::new(exprs, nulls, s.groups(), s.grouped)
}

fn plan(s: &Settings, schema: &SchemaRef, bench: &Arc<Bench>) -> crate::Result<AggregateExec> {
    let group_by = Arc::new(group_by(s));
    let named = s.kinds.iter().zip(&s.aggregates);
    let aggr_expr: Vec<_> = named.map(|(kind, a)| Arc::new(AggregateFunctionExpr { kind: *kind, argument: a.0 })).collect();
    let mode = if s.partial { AggregateMode::Partial } else { AggregateMode::Single };
    Ok(AggregateExec {
        mode,
        schema: output_schema(schema, &group_by, &aggr_expr, mode)?,
        group_by,
        aggr_expr: aggr_expr.into(),
        filter_expr: s.aggregates.iter().map(|a| a.1.map(column)).collect(),
        limit_options: s.soft_limit.map(LimitOptions::new),
        input: Offered { schema: Arc::clone(schema), bench: Arc::clone(bench) },
        metrics: Metric,
        input_order_mode: order_mode(&s.order),
        cache: NoOrdering,
    })
}

fn context(s: &Settings, bench: &Arc<Bench>) -> Arc<TaskContext> {
    let execution = ExecutionOptions {
        skip_partial_aggregation_probe_rows_threshold: s.probe_rows,
        skip_partial_aggregation_probe_ratio_threshold: s.ratio(),
    };
    let config = SessionConfig { batch_size: s.batch_size, options: ConfigOptions { execution } };
    Arc::new(TaskContext { config, bench: Arc::clone(bench) })
}

fn guarded<T>(run: impl FnOnce() -> Result<T, String>) -> Result<T, String> {
    catch_unwind(AssertUnwindSafe(run)).unwrap_or_else(|panic| {
        let text = panic.downcast_ref::<String>().map(String::as_str).or(panic.downcast_ref::<&str>().copied());
        Err(format!("panic: {}", text.unwrap_or("?")))
    })
}

fn rows_of(columns: usize, values: &[i64], flags: &[u8]) -> Vec<Vec<Cell>> {
    let cells: Vec<Cell> = values.iter().zip(flags).map(|(v, f)| (*f == 1).then_some(*v)).collect();
    cells.chunks(columns).map(<[Cell]>::to_vec).collect()
}

impl Session {
    /// A stream for settings that pass the questions.
    pub fn new(s: &Settings) -> Result<Session, Refusal> {
        settings_fault(s)?;
        Ok(Session::unasked(s))
    }

    /// A stream for settings that the port might refuse.
    pub fn unasked(s: &Settings) -> Session {
        let order = GroupOrdering::try_new(&order_mode(&s.order)).expect("an ordering");
        let bench = Bench::new(s.memory, order.size());
        let schema = Arc::new(Schema::new(vec![cell_field(); s.columns]));
        let plan = plan(s, &schema, &bench).expect("a plan");
        let stream = GroupedHashAggregateStream::new(&plan, &context(s, &bench), 0).expect("a stream");
        Session { settings: s.clone(), schema, stream: Box::pin(stream), bench, waiting: None, done: false, accepted: 0 }
    }

    /// Rows and cells of what the next take hands out.
    pub fn next_output(&self) -> Option<(usize, usize)> {
        self.waiting.as_ref().map(|b| (b.num_rows(), b.num_rows() * b.columns().len()))
    }

    pub fn held(&self) -> usize {
        self.bench.seen().held
    }

    pub fn ended(&self) -> bool {
        self.done || self.bench.seen().ended
    }

    fn poll(&mut self) -> Result<Polled, String> {
        let stream = self.stream.as_mut();
        guarded(|| match stream.poll_next(&mut Context::from_waker(Waker::noop())) {
            Poll::Pending => Ok(Polled::Pending),
            Poll::Ready(None) => Ok(Polled::Done),
            Poll::Ready(Some(Ok(batch))) => Ok(Polled::Batch(batch)),
            Poll::Ready(Some(Err(DataFusionError::ResourcesExhausted(_)))) => Ok(Polled::Exhausted),
            Poll::Ready(Some(Err(other))) => Err(format!("error: {other}")),
        })
    }

    /// Polls until the stream wants input, hands out a batch or is done; tells whether memory was exhausted on the way.
    fn run_ahead(&mut self) -> Result<bool, String> {
        let mut exhausted = false;
        while self.waiting.is_none() && !self.done {
            match self.poll()? {
                Polled::Pending => break,
                Polled::Batch(batch) => self.waiting = Some(batch),
                Polled::Exhausted if exhausted => return Err("error: exhausted twice".into()),
                Polled::Exhausted => exhausted = true,
                Polled::Done => self.done = true,
            }
        }
        Ok(exhausted)
    }

    fn offer_fault(&self, values: &[i64], flags: &[u8]) -> Result<Vec<Vec<Cell>>, Refusal> {
        let s = &self.settings;
        ask(!self.ended(), 7)?;
        ask(self.waiting.is_none(), 8)?;
        batch_fault(s, values, flags)?;
        let rows = rows_of(s.columns, values, flags);
        ask(self.accepted + rows.len() as u64 <= 1 << 40, 11)?;
        if !self.bench.seen().skips {
            keys_fault(s, &rows)?;
            ask(self.held() + rows.len() * s.groups().len() <= 512, 13)?;
        }
        Ok(rows)
    }

    fn offer(&mut self, values: &[i64], flags: &[u8]) -> Result<Answer, String> {
        let rows = match self.offer_fault(values, flags) {
            Ok(rows) => rows,
            Err(refusal) => return Ok(Answer::Refused(refusal)),
        };
        self.accepted += rows.len() as u64;
        let columns = (0..self.settings.columns).map(|c| Cells::new(rows.iter().map(|r| r[c]).collect()));
        let batch = RecordBatch::try_new(Arc::clone(&self.schema), columns.collect()).expect("a batch");
        self.bench.seen().offered = Some(batch);
        let exhausted = self.run_ahead()?;
        if self.bench.seen().offered.is_some() {
            return Err("error: the batch was not read".into());
        }
        Ok(if exhausted { Answer::Refused(vec![14]) } else { Answer::Accepted })
    }

    fn take(&mut self, values: usize, flags: usize) -> Result<Answer, String> {
        let Some((rows, cells)) = self.next_output() else {
            return Ok(Answer::Nothing);
        };
        if values < cells || flags < cells {
            return Ok(Answer::Refused(vec![15]));
        }
        let batch = self.waiting.take().expect("something waits");
        if self.run_ahead()? {
            return Err("error: exhausted in a take".into());
        }
        Ok(Answer::Rows((0..rows).map(|r| batch.row(r)).collect()))
    }

    fn finish(&mut self) -> Result<Answer, String> {
        self.bench.seen().closed = true;
        if self.run_ahead()? {
            return Err("error: exhausted in finish".into());
        }
        Ok(Answer::Closed)
    }

    pub fn call(&mut self, call: &Call) -> Answer {
        let answer = match call {
            Call::Offer { values, flags } => self.offer(values, flags),
            Call::Take { values, flags } => self.take(*values, *flags),
            Call::Finish => self.finish(),
        };
        answer.unwrap_or_else(Answer::Failed)
    }

    /// The line of a trace.
    fn line(&self, call: &Call, answer: &Answer) -> String {
        let name = match call {
            Call::Offer { .. } => "offer",
            Call::Take { .. } => "take",
            Call::Finish => "finish",
        };
        let kept = if name == "take" { "; kept" } else { "" };
        let seen = self.bench.seen();
        let last = if seen.last { "yes" } else { "no" };
        format!("{name}: {}{kept}; bytes {}, last {last}", answer_text(answer), seen.bytes)
    }
}

fn answer_text(answer: &Answer) -> String {
    match answer {
        Answer::Accepted => "accepted".into(),
        Answer::Refused(values) => values.iter().fold("refused".into(), |text, v| format!("{text} {v}")),
        Answer::Rows(rows) => rows.iter().fold(format!("{} rows", rows.len()), |text, row| text + " " + &row_text(row)),
        Answer::Nothing => "none".into(),
        Answer::Closed => "closed".into(),
        Answer::Failed(how) => format!("failed ({how})"),
    }
}

fn row_text(row: &[Cell]) -> String {
    let cells: Vec<String> = row.iter().map(|c| c.map_or("-".into(), |v| v.to_string())).collect();
    format!("[{}]", cells.join(" "))
}

/// Makes the calls one after the other; a failure ends the run.
fn trace_calls(session: &mut Session, calls: &[Call], text: &mut String) {
    for call in calls {
        let answer = session.call(call);
        writeln!(text, "{}", session.line(call, &answer)).expect("a string can be written");
        if matches!(answer, Answer::Failed(_)) {
            return;
        }
    }
}

pub fn trace(scenario: &Scenario) -> String {
    let mut text = format!("scenario {}\n", scenario.name);
    match Session::new(&scenario.settings) {
        Err(refusal) => writeln!(text, "new: {}", answer_text(&Answer::Refused(refusal))).expect("a string can be written"),
        Ok(mut session) => {
            text += "new: made\n";
            trace_calls(&mut session, &scenario.calls, &mut text);
        }
    }
    text + "end\n"
}
