//! Runs whose traces were worked out by hand.
use oracle::bench::Memory;
use oracle::scenario::{Call, Scenario, Settings, read};
use oracle::session::{Answer, Session, trace};

fn scenarios(text: &str) -> Vec<Scenario> {
    let mut all = Vec::new();
    read(text.lines().map(String::from), |s| all.push(s)).expect("scenarios");
    all
}

#[test]
fn traces_are_those_worked_out() {
    let traces: String = scenarios(include_str!("hand.txt")).iter().map(trace).collect();
    for (found, expected) in traces.lines().zip(include_str!("hand.trace").lines()) {
        assert_eq!(found, expected);
    }
    assert_eq!(traces.lines().count(), include_str!("hand.trace").lines().count());
}

#[test]
fn a_scenario_that_is_written_and_read_again_is_the_same() {
    let mut random = Vec::new();
    oracle::generate::random(7, 300, |s| random.push(s));
    for scenario in scenarios(include_str!("hand.txt")).iter().chain(&random) {
        let again = &scenarios(&scenario.to_string())[0];
        assert_eq!((&again.settings, &again.calls), (&scenario.settings, &scenario.calls));
    }
}

fn one_key(partial: bool, memory: Memory) -> Settings {
    Settings { partial, keys: vec![0], aggregates: vec![(0, None)], memory, ..Settings::default() }
}

fn offer(keys: impl IntoIterator<Item = i64>) -> Call {
    let values: Vec<i64> = keys.into_iter().collect();
    Call::Offer { flags: vec![1; values.len()], values }
}

#[test]
fn the_word_answers_64_growths_and_later_ones_are_granted() {
    let mut session = Session::new(&one_key(false, Memory::Recorded(1 << 63))).unwrap();
    for growth in 0..63 {
        assert_eq!(session.call(&offer([growth])), Answer::Refused(vec![14]));
    }
    assert_eq!(session.call(&offer([63])), Answer::Accepted);
    assert_eq!(session.call(&offer([64])), Answer::Accepted);
    let mut session = Session::new(&one_key(false, Memory::Recorded(0))).unwrap();
    for growth in 0..64 {
        assert_eq!(session.call(&offer([growth])), Answer::Refused(vec![14]));
    }
    assert_eq!(session.call(&offer([64])), Answer::Accepted);
}

#[test]
fn a_stream_holds_512_groups() {
    let unbounded = one_key(true, Memory::Bounded(u64::MAX));
    let mut session = Session::new(&unbounded).unwrap();
    assert_eq!(session.call(&offer(0..513)), Answer::Refused(vec![9]));
    assert_eq!(session.call(&offer(0..512)), Answer::Accepted);
    assert_eq!(session.call(&offer([0])), Answer::Refused(vec![13]));
    assert_eq!(session.call(&offer([])), Answer::Accepted);
    let mut session = Session::new(&unbounded).unwrap();
    assert_eq!(session.call(&offer([0])), Answer::Accepted);
    assert_eq!(session.call(&offer(0..512)), Answer::Refused(vec![13]));
    assert_eq!(session.call(&offer(0..511)), Answer::Accepted);
}
