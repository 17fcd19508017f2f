//! What was found about the original, each with the smallest input. A test here passes if the original behaves so.
use oracle::EmitTo;
use oracle::InputOrderMode::{self, PartiallySorted, Sorted};
use oracle::aggregates::order::GroupOrdering;
use oracle::array::{Cell, Cells};
use oracle::bench::Memory;
use oracle::findings::{group_id, keys, probe};
use oracle::scenario::{Call, Order, Settings};
use oracle::session::{Answer, Session};
use std::panic::{UnwindSafe, catch_unwind};

fn panics<T>(run: impl FnOnce() -> T + UnwindSafe) -> bool {
    catch_unwind(run).is_err()
}

// ---- group ids

#[test]
fn sixty_four_marks_stop_a_checked_build() {
    let id = || group_id(&[true; 64], 0, 0).unwrap();
    if cfg!(debug_assertions) {
        assert!(panics(id));
    } else {
        assert_eq!(id(), (u64::MAX, 64));
    }
    assert_eq!(group_id(&[true; 63], 0, 0).unwrap(), (u64::MAX >> 1, 64));
}

#[test]
fn an_ordinal_above_the_greatest_gives_the_id_of_another_set() {
    assert_eq!(group_id(&[false; 8], 1, 0).unwrap(), group_id(&[false; 8], 0, 0).unwrap());
    assert_eq!(group_id(&[false], 128, 0).unwrap(), group_id(&[false], 0, 0).unwrap());
    // one bit less than the width, and the ids differ
    assert_eq!(group_id(&[false; 7], 1, 0).unwrap(), (128, 8));
}

#[test]
fn ids_of_the_worked_examples() {
    assert_eq!(group_id(&[false, true, true], 0, 0).unwrap(), (3, 8));
    assert_eq!(group_id(&[false, true, true], 1, 1).unwrap(), (11, 8));
    assert!(group_id(&[true; 64], 0, 1).is_err());
    assert!(group_id(&[true; 65], 0, 0).is_err());
}

#[test]
fn a_key_has_a_value_for_each_mark() {
    assert_eq!(keys(&[5, 6], vec![vec![false]]).unwrap(), [[Some(5)]]);
    assert!(panics(|| keys(&[5], vec![vec![false, false]])));
}

// ---- orderings

fn ordering(mode: &InputOrderMode) -> GroupOrdering {
    GroupOrdering::try_new(mode).unwrap()
}

/// Tells the ordering of a batch of keys of two cells, with their places.
fn tell(order: &mut GroupOrdering, batch: &[[i64; 2]], places: &[usize], groups: usize) {
    let column = |c: usize| Cells::new(batch.iter().map(|k| Some(k[c])).collect());
    order.new_groups(&[column(0), column(1)], places, groups).unwrap();
}

/// An ordering that was told of so many groups, in this order.
fn told(mode: &InputOrderMode, groups: &[usize]) -> GroupOrdering {
    let mut order = ordering(mode);
    groups.iter().for_each(|n| tell(&mut order, &[[1, 1]], &[0], *n));
    order
}

#[test]
fn oom_emit_to_answers_more_groups_than_are_held_after_the_end() {
    for mode in [Sorted, PartiallySorted(vec![0])] {
        let mut order = told(&mode, &[2]);
        order.input_done();
        assert_eq!(order.oom_emit_to(5), Some(EmitTo::First(5)));
    }
}

#[test]
fn a_sorted_ordering_panics() {
    assert!(panics(|| ordering(&Sorted).remove_groups(1)));
    assert!(panics(|| told(&Sorted, &[2]).remove_groups(2)));
    assert!(panics(|| told(&Sorted, &[0])));
    assert!(panics(|| told(&Sorted, &[5, 3])));
    let ended = || {
        let mut order = told(&Sorted, &[2]);
        order.input_done();
        order
    };
    assert!(panics(|| ended().remove_groups(1)));
    assert!(panics(|| tell(&mut ended(), &[[1, 1]], &[0], 3)));
}

#[test]
fn a_partial_ordering_panics() {
    let first = PartiallySorted(vec![0]);
    assert!(panics(|| told(&PartiallySorted(vec![0]), &[0])));
    assert!(panics(|| told(&PartiallySorted(vec![5]), &[1])));
    assert!(panics(|| tell(&mut ordering(&PartiallySorted(vec![0])), &[[1, 1], [2, 1]], &[0], 2)));
    assert_eq!(panics(|| ordering(&PartiallySorted(vec![]))), cfg!(debug_assertions));
    let mut order = told(&first, &[1]);
    order.input_done();
    assert!(panics(std::panic::AssertUnwindSafe(|| tell(&mut order, &[[1, 1]], &[0], 2))));
}

#[test]
fn a_position_that_stands_eight_times_is_compared_eight_times() {
    let mut order = ordering(&PartiallySorted(vec![0, 0, 0, 0, 0, 0, 0, 1]));
    tell(&mut order, &[[1, 1], [1, 2]], &[0, 1], 2);
    assert_eq!(order.emit_to(), Some(EmitTo::First(1)));
}

// ---- the probe

#[test]
fn the_rows_of_the_probe_overflow() {
    let run = || probe(0, 1.0, &[(usize::MAX, 1), (1, 1)]);
    if cfg!(debug_assertions) {
        assert!(panics(run));
    } else {
        assert_eq!(run(), [false, true]);
    }
}

// ---- the stream

fn sets_under(order: Order, keys: Vec<usize>, sets: Vec<Vec<bool>>) -> Session {
    let memory = Memory::Bounded(u64::MAX);
    let settings = Settings {
        partial: false,
        columns: keys.len(),
        keys,
        grouped: true,
        sets,
        aggregates: vec![(0, None)],
        order,
        memory,
        ..Settings::default()
    };
    assert!(Session::new(&settings).is_err_and(|refusal| refusal == [5]));
    Session::unasked(&settings)
}

/// All rows that go out where each batch is offered and what waits is taken, and then the input ends.
fn rows_out(session: &mut Session, batches: &[&[i64]]) -> Vec<Vec<Cell>> {
    let mut calls: Vec<Call> = Vec::new();
    for values in batches {
        calls.extend([Call::Offer { values: values.to_vec(), flags: vec![1; values.len()] }, TAKE]);
    }
    calls.extend([Call::Finish, TAKE]);
    let mut out = Vec::new();
    for call in &calls {
        match session.call(call) {
            Answer::Rows(rows) => out.extend(rows),
            Answer::Failed(how) => panic!("{how}"),
            _ => {}
        }
    }
    out
}

const TAKE: Call = Call::Take { values: 64, flags: 64 };

fn times(rows: &[Vec<Cell>], row: &[i64]) -> usize {
    rows.iter().filter(|r| r.iter().copied().eq(row.iter().map(|v| Some(*v)))).count()
}

/// The order is true, and yet a group goes out in two parts.
#[test]
fn grouping_sets_under_an_order_give_wrong_rows() {
    let sets = vec![vec![false, false], vec![false, true]];
    let mut session = sets_under(Order::Partially(vec![0]), vec![0, 1], sets);
    let out = rows_out(&mut session, &[&[1, 1, 2, 1], &[2, 1]]);
    assert_eq!(times(&out, &[2, 1, 0, 1]), 2, "{out:?}");
    assert_eq!(times(&out, &[2, 1, 0, 2]), 0, "{out:?}");
}

#[test]
fn one_key_column_with_one_set_twice_suffices() {
    let mut session = sets_under(Order::Partially(vec![0]), vec![0], vec![vec![false]; 2]);
    let out = rows_out(&mut session, &[&[1, 2], &[2]]);
    assert_eq!(times(&out, &[2, 0, 1]), 2, "{out:?}");
    assert_eq!(times(&out, &[2, 2, 2]), 1, "{out:?}");
}

#[test]
fn a_masked_set_under_an_order_panics_at_the_end_of_no_rows() {
    for order in [Order::Sorted, Order::Partially(vec![0])] {
        let mut session = sets_under(order, vec![0], vec![vec![true]]);
        let Answer::Failed(how) = session.call(&Call::Finish) else {
            panic!("it did not fail");
        };
        assert!(how.starts_with("panic"), "{how}");
    }
}
