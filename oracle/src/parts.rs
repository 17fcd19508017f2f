//! Accumulators, the key table and the reservation, meaning what the port's parts mean.
use crate::aggregates::group_values::GroupValues;
use crate::aggregates::order::GroupOrdering;
use crate::array::{ArrayRef, BooleanArray, Cell, Cells};
use crate::bench::Bench;
use crate::datatypes::SchemaRef;
use crate::{Result, internal_err};
use std::collections::HashMap;
use std::sync::Arc;

#[derive(Debug, Clone, Copy, PartialEq)]
pub enum EmitTo {
    All,
    First(usize),
}

impl EmitTo {
    /// Takes what is emitted off the front; the rest moves down.
    pub fn take_needed<T>(self, held: &mut Vec<T>) -> Vec<T> {
        match self {
            EmitTo::All => std::mem::take(held),
            EmitTo::First(n) => held.drain(..n.min(held.len())).collect(),
        }
    }
}

pub trait GroupsAccumulator: Send {
    fn update_batch(
        &mut self,
        values: &[ArrayRef],
        places: &[usize],
        filter: Option<&BooleanArray>,
        groups: usize,
    ) -> Result<()>;
    fn merge_batch(&mut self, values: &[ArrayRef], places: &[usize], groups: usize) -> Result<()>;
    fn evaluate(&mut self, emit_to: EmitTo) -> Result<ArrayRef>;
    fn state(&mut self, emit_to: EmitTo) -> Result<Vec<ArrayRef>>;
    fn convert_to_state(&self, values: &[ArrayRef], filter: Option<&BooleanArray>) -> Result<Vec<ArrayRef>>;
    fn size(&self) -> usize;
}

#[derive(Debug, Clone, Copy, PartialEq)]
pub enum Kind {
    Count,
    Sum,
    Min,
    Earliest,
    Mean,
}

/// The cells of a state; the second is used by `Mean` alone.
pub type State = [Cell; 2];

impl Kind {
    pub fn cells(self) -> usize {
        if self == Kind::Mean { 2 } else { 1 }
    }

    pub fn neutral(self) -> State {
        match self {
            Kind::Count => [Some(0), None],
            Kind::Sum | Kind::Min | Kind::Earliest => [None, None],
            Kind::Mean => [Some(0), Some(0)],
        }
    }

    pub fn own(self, argument: Cell) -> State {
        match (self, argument) {
            (_, None) => self.neutral(),
            (Kind::Count, _) => [Some(1), None],
            (Kind::Mean, x) => [Some(1), x],
            (_, x) => [x, None],
        }
    }

    /// The later state is joined behind the earlier.
    pub fn join(self, earlier: State, later: State) -> State {
        let both = |i: usize, f: fn(i64, i64) -> i64| match (earlier[i], later[i]) {
            (Some(x), Some(y)) => Some(f(x, y)),
            (x, y) => x.or(y),
        };
        match self {
            Kind::Count | Kind::Sum => [both(0, i64::wrapping_add), None],
            Kind::Min => [both(0, i64::min), None],
            Kind::Earliest => [both(0, |x, _| x), None],
            Kind::Mean => [both(0, i64::wrapping_add), both(1, i64::wrapping_add)],
        }
    }

    pub fn result(self, state: State) -> Cell {
        match (self, state) {
            (Kind::Mean, [Some(count), Some(sum)]) => (count > 0).then(|| sum / count),
            (_, [cell, _]) => cell,
        }
    }
}

/// The states of the groups of one aggregate.
pub struct States {
    kind: Kind,
    states: Vec<State>,
}

impl States {
    pub fn new(kind: Kind) -> Self {
        States { kind, states: Vec::new() }
    }

    fn own_states(&self, values: &[ArrayRef], filter: Option<&BooleanArray>) -> Vec<State> {
        let passes = |row: usize| filter.is_none_or(|f| f.cells[row].is_some_and(|x| x != 0));
        let arguments = values[0].cells.iter().enumerate();
        arguments.map(|(row, x)| self.kind.own(x.filter(|_| passes(row)))).collect()
    }

    fn columns(&self, states: &[State]) -> Vec<ArrayRef> {
        (0..self.kind.cells()).map(|i| Cells::new(states.iter().map(|s| s[i]).collect())).collect()
    }
}

impl GroupsAccumulator for States {
    fn update_batch(
        &mut self,
        values: &[ArrayRef],
        places: &[usize],
        filter: Option<&BooleanArray>,
        groups: usize,
    ) -> Result<()> {
        self.states.resize(groups, self.kind.neutral());
        for (own, place) in self.own_states(values, filter).into_iter().zip(places) {
            self.states[*place] = self.kind.join(self.states[*place], own);
        }
        Ok(())
    }

    fn merge_batch(&mut self, _: &[ArrayRef], _: &[usize], _: usize) -> Result<()> {
        internal_err!("neither mode merges")
    }

    fn evaluate(&mut self, emit_to: EmitTo) -> Result<ArrayRef> {
        let states = emit_to.take_needed(&mut self.states);
        Ok(Cells::new(states.into_iter().map(|s| self.kind.result(s)).collect()))
    }

    fn state(&mut self, emit_to: EmitTo) -> Result<Vec<ArrayRef>> {
        let states = emit_to.take_needed(&mut self.states);
        Ok(self.columns(&states))
    }

    fn convert_to_state(&self, values: &[ArrayRef], filter: Option<&BooleanArray>) -> Result<Vec<ArrayRef>> {
        Ok(self.columns(&self.own_states(values, filter)))
    }

    fn size(&self) -> usize {
        8 * self.states.len() * self.kind.cells()
    }
}

/// The distinct keys in the order first seen. Which keys a table admits is asked before the stream is called, so that the
/// row table and the small table are one here.
struct Keys {
    width: usize,
    keys: Vec<Vec<Cell>>,
    places: HashMap<Vec<Cell>, usize>,
    bench: Arc<Bench>,
}

impl Keys {
    fn place(&mut self, key: Vec<Cell>) -> usize {
        let next = self.keys.len();
        let place = *self.places.entry(key.clone()).or_insert(next);
        if place == next {
            self.keys.push(key);
        }
        place
    }
}

impl GroupValues for Keys {
    fn intern(&mut self, cols: &[ArrayRef], groups: &mut Vec<usize>) -> Result<()> {
        groups.clear();
        for row in 0..cols[0].cells.len() {
            let place = self.place(cols.iter().map(|c| c.cells[row]).collect());
            groups.push(place);
        }
        self.bench.holds(self.keys.len());
        Ok(())
    }

    fn size(&self) -> usize {
        8 * self.keys.len() * self.width
    }

    fn is_empty(&self) -> bool {
        self.keys.is_empty()
    }

    fn len(&self) -> usize {
        self.keys.len()
    }

    fn emit(&mut self, emit_to: EmitTo) -> Result<Vec<ArrayRef>> {
        let keys = emit_to.take_needed(&mut self.keys);
        self.places = self.keys.iter().cloned().enumerate().map(|(i, k)| (k, i)).collect();
        self.bench.holds(self.keys.len());
        self.bench.emits(emit_to);
        Ok((0..self.width).map(|i| Cells::new(keys.iter().map(|k| k[i]).collect())).collect())
    }

    fn clear_shrink(&mut self, _rows: usize) {
        self.keys.clear();
        self.places.clear();
        self.bench.holds(0);
    }
}

pub fn new_group_values(schema: SchemaRef, _: &GroupOrdering) -> Result<Box<dyn GroupValues>> {
    Ok(Box::new(Keys { width: schema.fields.len(), keys: Vec::new(), places: HashMap::new(), bench: Bench::current() }))
}

pub mod memory_pool {
    use crate::Result;
    use crate::bench::Bench;
    use std::sync::Arc;

    pub mod proxy {
        pub trait VecAllocExt {
            /// No bytes: the need that the port asks for counts groups only.
            fn allocated_size(&self) -> usize {
                0
            }
        }

        impl<T> VecAllocExt for Vec<T> {}
    }

    pub struct MemoryConsumer;

    impl MemoryConsumer {
        pub fn new(_name: String) -> Self {
            MemoryConsumer
        }

        pub fn with_can_spill(self, _: bool) -> Self {
            self
        }

        pub fn register(self, bench: &Arc<Bench>) -> MemoryReservation {
            MemoryReservation(Arc::clone(bench))
        }
    }

    pub struct MemoryReservation(Arc<Bench>);

    impl MemoryReservation {
        pub fn try_resize(&self, bytes: usize) -> Result<()> {
            self.0.resize(bytes)
        }

        pub fn size(&self) -> usize {
            self.0.bytes() as usize
        }

        pub fn try_grow(&self, _bytes: usize) -> Result<()> {
            unreachable!("nothing is spilled")
        }

        pub fn shrink(&self, _bytes: usize) {
            unreachable!("nothing is spilled")
        }

        pub fn new_empty(&self) -> MemoryReservation {
            unreachable!("nothing is spilled")
        }
    }
}
