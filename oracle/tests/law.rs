//! What must hold of every run that gets done, whatever the steps were: the rows handed out are the groups of the accepted
//! rows.
use oracle::array::Cell;
use oracle::parts::State;
use oracle::questions::key;
use oracle::scenario::{Call, Order, Scenario, Settings};
use oracle::session::{Answer, Session};
use std::collections::{HashMap, HashSet};

type Row = Vec<Cell>;

struct Outcome {
    accepted: Vec<Row>,
    out: Vec<Row>,
    done: bool,
}

fn run(scenario: &Scenario) -> Option<Outcome> {
    let mut session = Session::new(&scenario.settings).ok()?;
    let mut o = Outcome { accepted: vec![], out: vec![], done: false };
    for call in &scenario.calls {
        match (call, session.call(call)) {
            (Call::Offer { values, flags }, answer)
                if answer == Answer::Accepted || answer == Answer::Refused(vec![14]) =>
            {
                let cells: Row = values.iter().zip(flags).map(|(v, f)| (*f == 1).then_some(*v)).collect();
                o.accepted.extend(cells.chunks(scenario.settings.columns).map(<[Cell]>::to_vec));
            }
            (_, Answer::Rows(rows)) => o.out.extend(rows),
            (_, Answer::Failed(how)) => panic!("{how}\n{scenario}"),
            _ => {}
        }
    }
    o.done = session.ended() && session.next_output().is_none();
    Some(o)
}

fn own(s: &Settings, row: &[Cell]) -> Vec<State> {
    let passes = |filter: Option<usize>| filter.is_none_or(|f| row[f].is_some_and(|x| x != 0));
    let each = s.kinds.iter().zip(&s.aggregates);
    each.map(|(kind, (argument, filter))| kind.own(row[*argument].filter(|_| passes(*filter)))).collect()
}

fn states(s: &Settings, mut cells: &[Cell]) -> Vec<State> {
    let mut next = |n: usize| {
        let (these, rest) = cells.split_at(n);
        cells = rest;
        [these[0], these.get(1).copied().flatten()]
    };
    s.kinds.iter().map(|kind| next(kind.cells())).collect()
}

fn neutral(s: &Settings) -> Vec<State> {
    s.kinds.iter().map(|k| k.neutral()).collect()
}

fn join(s: &Settings, groups: &mut HashMap<Row, Vec<State>>, key: Row, later: Vec<State>) {
    let earlier = groups.entry(key).or_insert_with(|| neutral(s));
    for ((kind, state), later) in s.kinds.iter().zip(earlier).zip(later) {
        *state = kind.join(*state, later);
    }
}

fn accepted_groups(s: &Settings, rows: &[Row]) -> HashMap<Row, Vec<State>> {
    let mut groups = HashMap::new();
    for row in rows {
        (0..s.groups().len()).for_each(|at| join(s, &mut groups, key(s, &s.groups(), at, row), own(s, row)));
    }
    groups
}

fn key_width(s: &Settings) -> usize {
    s.keys.len() + s.grouped as usize
}

/// In Partial mode the states that went out under a key join to those of its rows; a key without rows has neutral states.
fn lossless(s: &Settings, o: &Outcome) -> bool {
    let mut out = HashMap::new();
    for row in &o.out {
        let (key, cells) = row.split_at(key_width(s));
        join(s, &mut out, key.to_vec(), states(s, cells));
    }
    let accepted = accepted_groups(s, &o.accepted);
    out.keys().chain(accepted.keys()).all(|k| {
        out.get(k).cloned().unwrap_or_else(|| neutral(s)) == accepted.get(k).cloned().unwrap_or_else(|| neutral(s))
    })
}

fn ordered(s: &Settings, rows: &[Row]) -> bool {
    let positions = match &s.order {
        Order::Linear => return true,
        Order::Sorted => (0..s.keys.len()).collect(),
        Order::Partially(positions) => positions.clone(),
    };
    let mut sort_keys: Vec<Row> = rows.iter().map(|r| positions.iter().map(|p| r[s.keys[*p]]).collect()).collect();
    sort_keys.dedup();
    sort_keys.iter().collect::<HashSet<_>>().len() == sort_keys.len()
}

/// In Single mode exactly the groups of the accepted rows go out, each once, or the grand totals of none.
fn whole(s: &Settings, o: &Outcome) -> bool {
    let mut groups = accepted_groups(s, &o.accepted);
    if o.accepted.is_empty() && s.grouped {
        let (sets, nothing) = (s.groups(), vec![None; s.columns]);
        let masked = (0..sets.len()).filter(|at| sets[*at].iter().all(|m| *m));
        groups.extend(masked.map(|at| (key(s, &sets, at, &nothing), neutral(s))));
    }
    let result = |states: &[State]| s.kinds.iter().zip(states).map(|(k, x)| k.result(*x)).collect::<Row>();
    let expected: HashSet<Row> = groups.iter().map(|(k, x)| [k.as_slice(), &result(x)].concat()).collect();
    o.out.len() == expected.len() && o.out.iter().cloned().collect::<HashSet<_>>() == expected
}

#[test]
fn the_rows_handed_out_are_the_groups_of_the_accepted_rows() {
    let (mut partial, mut single) = (0, 0);
    oracle::generate::random(2024, 20000, |scenario| {
        let s = &scenario.settings;
        let Some(o) = run(&scenario).filter(|o| o.done) else { return };
        if s.partial {
            partial += 1;
            assert!(lossless(s, &o), "{scenario}");
        } else if ordered(s, &o.accepted) {
            single += 1;
            assert!(whole(s, &o), "{scenario}");
        }
    });
    assert!(partial > 5000 && single > 2000, "{partial} and {single} runs");
}
