//! Scenarios: random ones over the whole domain, and all short ones. A session runs along, so that a take's slices can be
//! exactly as long as what waits.
use crate::bench::Memory;
use crate::scenario::{Call, MENU, Order, Scenario, Settings, kinds};
use crate::session::{Answer, Session};

/// SplitMix64.
struct Random(u64);

impl Random {
    fn next(&mut self) -> u64 {
        self.0 = self.0.wrapping_add(0x9E3779B97F4A7C15);
        let x = (self.0 ^ self.0 >> 30).wrapping_mul(0xBF58476D1CE4E5B9);
        let x = (x ^ x >> 27).wrapping_mul(0x94D049BB133111EB);
        x ^ x >> 31
    }

    fn below(&mut self, n: usize) -> usize {
        (self.next() % n as u64) as usize
    }

    fn percent(&mut self, chance: usize) -> bool {
        self.below(100) < chance
    }

    fn pick<T: Clone>(&mut self, from: &[T]) -> T {
        from[self.below(from.len())].clone()
    }
}

// ---- random settings

fn random_sets(r: &mut Random, s: &mut Settings) {
    s.grouped = true;
    if s.keys.len() == 6 && r.percent(50) {
        // ids of more than eight bits
        s.sets = vec![s.keys.iter().map(|_| r.percent(50)).collect(); 5 + r.below(4)];
        return;
    }
    let most = if r.percent(80) { 3 } else { 8 };
    for _ in 0..1 + r.below(most) {
        let set = match r.below(4) {
            0 => vec![true; s.keys.len()],
            1 if !s.sets.is_empty() => r.pick(&s.sets),
            _ => s.keys.iter().map(|_| r.percent(50)).collect(),
        };
        s.sets.push(set);
    }
}

fn random_order(r: &mut Random, keys: usize) -> Order {
    let mut positions: Vec<usize> = (0..keys).collect();
    for i in 0..keys {
        positions.swap(i, i + r.below(keys - i));
    }
    positions.truncate(1 + r.below(keys));
    match r.below(10) {
        0..4 => Order::Linear,
        4..6 => Order::Sorted,
        _ => Order::Partially(positions),
    }
}

fn random_memory(r: &mut Random, s: &Settings) -> Memory {
    let cells = s.keys.len() + s.grouped as usize + s.kinds.iter().map(|k| k.cells()).sum::<usize>();
    let full = 8 * cells as u64 * r.below(8) as u64;
    match r.below(10) {
        0 => Memory::Bounded(u64::MAX),
        1..4 => Memory::Bounded(full),
        4 => Memory::Bounded(full.saturating_sub(1)),
        5 => Memory::Recorded(r.pick(&[0, u64::MAX, u64::MAX - 1, 1])),
        6 => Memory::Recorded(r.next() | r.next()),
        _ => Memory::Recorded(r.next()),
    }
}

/// A fraction of small numbers, so that the ratio is met exactly now and then.
fn random_ratio(r: &mut Random) -> String {
    let rows = 1 + r.below(12);
    match r.below(10) {
        0 => r.pick(&["0", "-0", "0.999999999999999999", "1.5", "inf", "0.000000000000000001"]).into(),
        1..5 => r.pick(&["0.5", "0.25", "0.75", "0.3333333333333333", "0.6666666666666666"]).into(),
        _ => (r.below(rows + 1) as f64 / rows as f64).to_string(),
    }
}

fn random_probe(r: &mut Random, s: &mut Settings) {
    let runs = s.partial && s.order == Order::Linear && !s.grouped;
    if r.percent(if runs { 65 } else { 15 }) {
        (s.probe_rows, s.probe_ratio) = (r.pick(&[0, 0, 1, 1, 2, 2, 3, 4, 6, 8, 12, usize::MAX]), random_ratio(r));
    }
}

fn random_settings(r: &mut Random) -> Settings {
    let menu = r.pick(&MENU);
    let keys = if r.percent(85) { 1 + r.below(3) } else { 1 + r.below(6) };
    let columns = if r.percent(90) { keys + 1 + r.below(2) } else { keys.max(1 + r.below(16)) };
    let mut s = Settings { partial: r.percent(60), kinds: kinds(menu), columns, ..Settings::default() };
    s.batch_size = if r.percent(85) { r.pick(&[1, 1, 2, 2, 3, 4, 5, 512]) } else { 1 + r.below(512) };
    s.keys = (0..keys).map(|k| if r.percent(85) { k } else { r.below(columns) }).collect();
    s.aggregates = s.kinds.iter().map(|_| (r.below(columns), r.percent(30).then(|| r.below(columns)))).collect();
    if r.percent(30) {
        random_sets(r, &mut s);
    } else {
        s.order = random_order(r, keys);
    }
    s.soft_limit = r.percent(20).then(|| if r.percent(90) { r.below(7) } else { r.pick(&[512, 513, usize::MAX]) });
    random_probe(r, &mut s);
    s.small = r.percent(if keys == 1 && !s.grouped { 35 } else { 2 });
    s.memory = random_memory(r, &s);
    s.peak = r.percent(30);
    if r.percent(5) {
        spoil(r, &mut s);
    }
    s
}

/// Makes one question or another answer no; some of these settings pass nonetheless.
fn spoil(r: &mut Random, s: &mut Settings) {
    match r.below(14) {
        0 => s.batch_size = r.pick(&[0, 513, 1 << 40]),
        1 => s.keys = vec![0; r.pick(&[0, 7])],
        2 => drop(s.aggregates.pop()),
        3 => s.aggregates.push((0, None)),
        4 => s.columns = r.pick(&[0, 17, 1]),
        5 => s.aggregates[0] = (s.columns, None),
        6 => s.aggregates[0].1 = Some(s.columns + r.below(2)),
        7 => s.sets = vec![vec![false; s.keys.len()]; r.pick(&[0, 1, 2, 9])],
        8 => s.sets.push(vec![r.percent(50); s.keys.len() + 1]),
        9 => (s.grouped, s.sets) = (true, vec![vec![true; s.keys.len()]; r.pick(&[0, 1, 8, 9])]),
        10 => (s.small, s.grouped, s.sets) = (true, true, vec![vec![r.percent(50); s.keys.len()]]),
        11 => s.order = Order::Partially(r.pick(&[vec![], vec![0, 0], vec![s.keys.len()], vec![0; 7]])),
        12 => s.order = r.pick(&[Order::Sorted, Order::Partially(vec![0])]),
        _ => s.probe_ratio = r.pick(&["nan", "-0.5", "-1", "-0.000000000000000001"]).into(),
    }
}

// ---- random rows

struct Rows {
    /// The order that is declared is true.
    ordered: bool,
    /// Keys are mostly new.
    distinct: bool,
    run: i64,
    keys: i64,
}

fn random_cell(r: &mut Random, domain: i64) -> (i64, u8) {
    match r.below(100) {
        0..15 => (0, 0),
        15..18 => (r.next() as i64, 0),
        18..22 => (r.pick(&[i64::MIN, i64::MAX, i64::MIN + 1, i64::MAX - 1, -1]), 1),
        _ => (r.below(domain as usize) as i64, 1),
    }
}

impl Rows {
    fn new(r: &mut Random) -> Self {
        Rows { ordered: r.percent(70), distinct: false, run: 0, keys: r.pick(&[2, 2, 3, 5, 40]) }
    }

    fn key_cell(&mut self, r: &mut Random, s: &Settings) -> (i64, u8) {
        self.run += (self.distinct && r.percent(97)) as i64;
        match r.below(100) {
            _ if self.distinct => (self.run, 1),
            0..15 => (0, 0),
            15..18 if !s.small => random_cell(r, 3),
            15 => (r.pick(&[64, -1, i64::MAX, i64::MIN, 63]), 1),
            _ => (r.below(self.keys as usize) as i64, 1),
        }
    }

    /// The next run of equal sort keys begins, or not; run 2 has an absent sort key.
    fn sort(&mut self, r: &mut Random, s: &Settings, positions: &[usize], row: &mut [(i64, u8)]) {
        self.run += r.percent(45) as i64;
        for (j, p) in positions.iter().enumerate() {
            row[s.keys[*p]] = match (j, self.run) {
                (0, 2) => (0, 0),
                (0, run) => (run, 1),
                (_, run) => (run % 2, 1),
            };
        }
    }

    fn row(&mut self, r: &mut Random, s: &Settings) -> Vec<(i64, u8)> {
        let mut row: Vec<(i64, u8)> = (0..s.columns).map(|_| random_cell(r, 20)).collect();
        let all: Vec<usize> = (0..s.keys.len()).collect();
        for c in &s.keys {
            row[*c] = self.key_cell(r, s);
        }
        match &s.order {
            Order::Sorted if self.ordered => self.sort(r, s, &all, &mut row),
            Order::Partially(positions) if self.ordered => self.sort(r, s, positions, &mut row),
            _ => {}
        }
        row
    }

    fn offer(&mut self, r: &mut Random, s: &Settings, rows: usize) -> Call {
        let cells = (0..rows).flat_map(|_| self.row(r, s));
        let (mut values, mut flags): (Vec<i64>, Vec<u8>) = cells.unzip();
        match r.below(50) {
            0 if !flags.is_empty() => {
                let at = r.below(flags.len());
                flags[at] = 2 + r.below(254) as u8;
            }
            1 => flags.resize(r.below(flags.len() + 3), 0),
            2 => drop((values.pop(), flags.pop())),
            _ => {}
        }
        Call::Offer { values, flags }
    }
}

fn random_size(r: &mut Random, session: &Session, s: &Settings, distinct: bool) -> usize {
    let sets = s.groups().len();
    let room = 512usize.saturating_sub(session.held()) / sets;
    match r.below(20) {
        _ if distinct => r.pick(&[room, room, room + 1, room / 2, 512, 513, 40]).min(513),
        0..3 => 0,
        3..16 => 1 + r.below(4),
        _ => r.below(20),
    }
}

// ---- random runs

struct Run {
    scenario: Scenario,
    session: Session,
    failed: bool,
}

impl Run {
    fn call(&mut self, call: Call) {
        self.failed |= matches!(self.session.call(&call), Answer::Failed(_));
        self.scenario.calls.push(call);
    }

    fn take(&mut self, r: &mut Random) {
        let cells = self.session.next_output().map_or(r.below(9), |next| next.1);
        let (values, flags) = match r.below(10) {
            0 => (cells.saturating_sub(1), cells),
            1 => (cells, cells.saturating_sub(1)),
            2..6 => (cells, cells),
            6 => (cells + 1, cells),
            _ => (cells + r.below(9), cells + r.below(9)),
        };
        self.call(Call::Take { values, flags });
    }

    /// A call at random; tells whether it was finish.
    fn step(&mut self, r: &mut Random, rows: &mut Rows) -> bool {
        let waits = self.session.next_output().is_some();
        match r.below(100) {
            0..4 => {
                self.call(Call::Finish);
                return true;
            }
            4..10 => self.take(r),
            10..80 if waits => self.take(r),
            _ => {
                let settings = self.scenario.settings.clone();
                let size = random_size(r, &self.session, &settings, rows.distinct);
                self.call(rows.offer(r, &settings, size));
            }
        }
        false
    }

    fn drain(&mut self, r: &mut Random) {
        let most = if r.percent(10) { 600 } else { 40 };
        for _ in 0..most {
            if self.failed || self.session.next_output().is_none() {
                break;
            }
            self.take(r);
        }
        if !self.failed {
            self.take(r);
        }
    }
}

fn refused(mut scenario: Scenario) -> Scenario {
    scenario.calls =
        vec![Call::Offer { values: vec![1], flags: vec![1] }, Call::Finish, Call::Take { values: 9, flags: 9 }];
    scenario
}

fn random_scenario(r: &mut Random, name: String) -> Scenario {
    let scenario = Scenario { name, settings: random_settings(r), calls: vec![] };
    let Ok(session) = Session::new(&scenario.settings) else {
        return refused(scenario);
    };
    let mut rows = Rows::new(r);
    rows.distinct = r.percent(2) && !scenario.settings.small;
    let mut run = Run { scenario, session, failed: false };
    let mut finished = false;
    for _ in 0..1 + r.below(if rows.distinct { 6 } else { 14 }) {
        finished = finished || run.step(r, &mut rows);
        if finished || run.failed {
            break;
        }
    }
    if !finished && !run.failed && r.percent(90) {
        run.call(Call::Finish);
        finished = true;
    }
    if finished && !run.failed {
        run.drain(r);
    }
    run.scenario
}

pub fn random(seed: u64, count: u64, mut each: impl FnMut(Scenario)) {
    for i in 0..count {
        // every scenario can be made again without those before it
        let mut r = Random(seed ^ i.wrapping_mul(0xD1B54A32D192ED03));
        r.next();
        each(random_scenario(&mut r, format!("r{seed}.{i}")));
    }
}

// ---- all short runs

/// Batches of up to two rows, of two keys: each is a list of keys 0 and 1.
const BATCHES: [&[usize]; 7] = [&[], &[0], &[1], &[0, 0], &[0, 1], &[1, 0], &[1, 1]];

/// The cells of the two keys: they differ at the first position alone.
const KEYS: [[i64; 2]; 2] = [[1, 1], [2, 1]];

fn short_settings() -> Vec<Settings> {
    let mut found = Vec::new();
    for (partial, batch_size) in [(true, 1), (true, 2), (false, 1), (false, 2)] {
        let base = || Settings {
            partial,
            batch_size,
            columns: 3,
            keys: vec![0, 1],
            kinds: kinds("mean earliest"),
            aggregates: vec![(2, None), (2, None)],
            ..Settings::default()
        };
        for order in [Order::Linear, Order::Sorted, Order::Partially(vec![0]), Order::Partially(vec![1])] {
            for soft_limit in [None, Some(0), Some(1), Some(2)] {
                found.push(Settings { order: order.clone(), soft_limit, ..base() });
            }
        }
        for (probe_rows, ratio) in [(0, "0.5"), (2, "0.5"), (3, "0.6"), (4, "0")] {
            found.push(Settings { probe_rows, probe_ratio: ratio.into(), ..base() });
        }
        let (no, first, both) = (vec![false, false], vec![true, false], vec![true, true]);
        for sets in [
            vec![no.clone()],
            vec![both.clone()],
            vec![no.clone(), both.clone()],
            vec![both.clone(), both],
            vec![first, no],
        ] {
            found.push(Settings { grouped: true, sets, ..base() });
        }
    }
    found
}

#[derive(Clone, Copy)]
enum Takes {
    AtTheEnd,
    OneEach,
    AllEach,
}

fn short_run(settings: Settings, batches: &[usize], takes: Takes, name: String) -> Scenario {
    let session = Session::new(&settings).unwrap_or_else(|_| unreachable!("short settings pass"));
    let mut run = Run { scenario: Scenario { name, settings, calls: vec![] }, session, failed: false };
    let take = Call::Take { values: 64, flags: 64 };
    let mut value = 0;
    for batch in batches {
        let mut values = Vec::new();
        for key in BATCHES[*batch] {
            value += 3;
            values.extend([KEYS[*key][0], KEYS[*key][1], value]);
        }
        run.call(Call::Offer { flags: vec![1; values.len()], values });
        match takes {
            Takes::AtTheEnd => {}
            Takes::OneEach => run.call(take.clone()),
            Takes::AllEach => run.take_all(&take),
        }
    }
    run.call(Call::Finish);
    run.take_all(&take);
    run.call(take);
    run.scenario
}

impl Run {
    fn take_all(&mut self, take: &Call) {
        while !self.failed && self.session.next_output().is_some() {
            self.call(take.clone());
        }
    }
}

/// All lists of up to so many batches.
fn lists(most: usize) -> Vec<Vec<usize>> {
    let mut all = vec![vec![]];
    let mut longest = all.clone();
    for _ in 0..most {
        longest = longest.iter().flat_map(|l| (0..BATCHES.len()).map(move |b| [l.as_slice(), &[b]].concat())).collect();
        all.extend(longest.clone());
    }
    all
}

/// Runs of up to so many offers, with every answer to the first three growths.
pub fn exhaustive(offers: usize, mut each: impl FnMut(Scenario)) {
    let lists = lists(offers);
    let mut count = 0;
    for settings in short_settings() {
        for first in 0..8 {
            let memory = Memory::Recorded(u64::MAX << 3 | first);
            for takes in [Takes::AtTheEnd, Takes::OneEach, Takes::AllEach] {
                for list in &lists {
                    let settings = Settings { memory, ..settings.clone() };
                    each(short_run(settings, list, takes, format!("s{count}")));
                    count += 1;
                }
            }
        }
    }
}
