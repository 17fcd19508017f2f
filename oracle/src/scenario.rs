//! The text form of scenarios.
use crate::bench::Memory;
use crate::parts::Kind;
use std::fmt::{Display, Formatter};

#[derive(Debug, Clone, PartialEq)]
pub enum Order {
    Linear,
    Sorted,
    Partially(Vec<usize>),
}

#[derive(Debug, Clone, PartialEq)]
pub struct Settings {
    pub partial: bool,
    pub batch_size: usize,
    pub columns: usize,
    pub keys: Vec<usize>,
    pub grouped: bool,
    /// The lines `set`; without any, and without `sets`, there is the unmasked set.
    pub sets: Vec<Vec<bool>>,
    pub kinds: Vec<Kind>,
    /// Argument column and filter column.
    pub aggregates: Vec<(usize, Option<usize>)>,
    pub order: Order,
    pub soft_limit: Option<usize>,
    pub probe_rows: usize,
    /// As it is written.
    pub probe_ratio: String,
    pub small: bool,
    pub memory: Memory,
    pub peak: bool,
}

impl Default for Settings {
    fn default() -> Self {
        Settings {
            partial: true,
            batch_size: 512,
            columns: 1,
            keys: vec![],
            grouped: false,
            sets: vec![],
            kinds: vec![Kind::Count],
            aggregates: vec![],
            order: Order::Linear,
            soft_limit: None,
            probe_rows: 0,
            probe_ratio: "1".into(),
            small: false,
            memory: Memory::Bounded(u64::MAX),
            peak: false,
        }
    }
}

impl Settings {
    pub fn groups(&self) -> Vec<Vec<bool>> {
        if self.grouped || !self.sets.is_empty() { self.sets.clone() } else { vec![vec![false; self.keys.len()]] }
    }

    pub fn ratio(&self) -> f64 {
        self.probe_ratio.parse().expect("a ratio is looked at when it is read")
    }
}

#[derive(Debug, Clone, PartialEq)]
pub enum Call {
    Offer { values: Vec<i64>, flags: Vec<u8> },
    Take { values: usize, flags: usize },
    Finish,
}

#[derive(Debug, Clone, Default)]
pub struct Scenario {
    pub name: String,
    pub settings: Settings,
    pub calls: Vec<Call>,
}

const KINDS: [(&str, Kind); 5] =
    [("count", Kind::Count), ("sum", Kind::Sum), ("min", Kind::Min), ("earliest", Kind::Earliest), ("mean", Kind::Mean)];

pub const MENU: [&str; 9] =
    ["count", "sum", "min", "earliest", "mean", "count min", "min sum count", "mean earliest", "sum min earliest mean"];

pub fn kinds(words: &str) -> Vec<Kind> {
    words.split(' ').map(|w| KINDS.iter().find(|k| k.0 == w).expect("a word of the menu").1).collect()
}

// ---- reading

type Read<T> = Result<T, String>;

fn number<T: std::str::FromStr>(word: &str) -> Read<T> {
    let digits = word.strip_prefix('-').unwrap_or(word);
    let plain = !digits.is_empty() && digits.bytes().all(|b| b.is_ascii_digit());
    word.parse().ok().filter(|_| plain).ok_or_else(|| format!("`{word}` is no number that fits"))
}

fn numbers<T: std::str::FromStr>(words: &[&str]) -> Read<Vec<T>> {
    words.iter().map(|w| number(w)).collect()
}

fn ratio(word: &str) -> Read<String> {
    let plain = word.strip_prefix('-').unwrap_or(word);
    let (whole, rest) = plain.split_once('.').unwrap_or((plain, "0"));
    let digits = |s: &str| !s.is_empty() && s.bytes().all(|b| b.is_ascii_digit());
    let fits = word == "nan" || word == "inf" || digits(whole) && digits(rest) && rest.len() <= 18;
    if fits { Ok(word.into()) } else { Err(format!("`{word}` is no ratio")) }
}

fn mark(word: &&str) -> Read<bool> {
    match *word {
        "0" => Ok(false),
        "1" => Ok(true),
        _ => Err(format!("`{word}` is no mark")),
    }
}

fn cell(word: &str) -> Read<(i64, u8)> {
    match word.split_once(':') {
        Some((value, flag)) => Ok((number(value)?, number(flag)?)),
        None if word == "-" => Ok((0, 0)),
        None => Ok((number(word)?, 1)),
    }
}

fn offer(words: &[&str]) -> Read<Call> {
    let slash = words.iter().position(|w| *w == "/");
    let cells: Vec<(i64, u8)> = words[..slash.unwrap_or(words.len())].iter().map(|w| cell(w)).collect::<Read<_>>()?;
    let (values, mut flags): (Vec<i64>, Vec<u8>) = cells.into_iter().unzip();
    match slash.map(|at| &words[at + 1..]) {
        None => {}
        Some([length]) => flags.resize(number(length)?, 0),
        Some(_) => return Err("one number must follow `/`".into()),
    }
    Ok(Call::Offer { values, flags })
}

fn call(words: &[&str]) -> Read<Option<Call>> {
    Ok(Some(match words {
        ["offer", cells @ ..] => offer(cells)?,
        ["take", values, flags] => Call::Take { values: number(values)?, flags: number(flags)? },
        ["finish"] => Call::Finish,
        _ => return Ok(None),
    }))
}

fn set(s: &mut Settings, words: &[&str]) -> Read<()> {
    match words {
        ["mode", mode @ ("partial" | "single")] => s.partial = *mode == "partial",
        ["batch_size", n] => s.batch_size = number(n)?,
        ["columns", n] => s.columns = number(n)?,
        ["keys", columns @ ..] => s.keys = numbers(columns)?,
        ["sets"] => s.grouped = true,
        ["set", marks @ ..] => s.sets.push(marks.iter().map(mark).collect::<Read<_>>()?),
        ["accumulator", words @ ..] if MENU.contains(&words.join(" ").as_str()) => s.kinds = kinds(&words.join(" ")),
        ["aggregate", argument] => s.aggregates.push((number(argument)?, None)),
        ["aggregate", argument, filter] => s.aggregates.push((number(argument)?, Some(number(filter)?))),
        ["order", "linear"] => s.order = Order::Linear,
        ["order", "sorted"] => s.order = Order::Sorted,
        ["order", "partially", positions @ ..] => s.order = Order::Partially(numbers(positions)?),
        ["soft_limit", n] => s.soft_limit = Some(number(n)?),
        ["probe", rows, threshold] => (s.probe_rows, s.probe_ratio) = (number(rows)?, ratio(threshold)?),
        ["table", table @ ("rows" | "small")] => s.small = *table == "small",
        ["memory", "bounded", limit] => s.memory = Memory::Bounded(number(limit)?),
        ["memory", "recorded", word] => s.memory = Memory::Recorded(number(word)?),
        ["peak"] => s.peak = true,
        _ => return Err(format!("`{}` is no setting and no call", words.join(" "))),
    }
    Ok(())
}

/// A scenario that is being read, and the settings that it has had.
#[derive(Default)]
struct Open {
    scenario: Scenario,
    had: Vec<String>,
}

impl Open {
    fn line(&mut self, words: &[&str]) -> Read<()> {
        let calls = &mut self.scenario.calls;
        if let Some(call) = call(words)? {
            if calls.contains(&Call::Finish) && !matches!(call, Call::Take { .. }) {
                return Err("only `take` may follow `finish`".into());
            }
            calls.push(call);
            return Ok(());
        }
        if !calls.is_empty() {
            return Err("a setting behind a call".into());
        }
        let word = words[0].to_string();
        if self.had.contains(&word) && word != "set" && word != "aggregate" {
            return Err(format!("`{word}` stands twice"));
        }
        self.had.push(word);
        set(&mut self.scenario.settings, words)
    }
}

/// Reads scenarios line by line and passes each on as soon as it ends.
pub fn read(lines: impl Iterator<Item = String>, mut each: impl FnMut(Scenario)) -> Read<()> {
    let mut open: Option<Open> = None;
    for (at, line) in lines.enumerate() {
        let words: Vec<&str> = line.split(' ').filter(|w| !w.is_empty()).collect();
        if words.is_empty() || line.starts_with('#') {
            continue;
        }
        match (&mut open, words.as_slice()) {
            (None, ["scenario", name]) => {
                let scenario = Scenario { name: name.to_string(), ..Scenario::default() };
                open = Some(Open { scenario, had: vec![] });
            }
            (Some(_), ["end"]) => each(open.take().expect("it is open").scenario),
            (Some(o), words) => o.line(words).map_err(|e| format!("line {}: {e}", at + 1))?,
            (None, _) => return Err(format!("line {}: a scenario must begin here", at + 1)),
        }
    }
    if open.is_some() { Err("the last scenario has no end".into()) } else { Ok(()) }
}

// ---- writing

fn joined<T: ToString>(words: impl IntoIterator<Item = T>) -> String {
    words.into_iter().map(|w| format!(" {}", w.to_string())).collect()
}

impl Display for Settings {
    fn fmt(&self, f: &mut Formatter<'_>) -> std::fmt::Result {
        let d = Settings::default();
        let mut line = |differs: bool, text: String| if differs { writeln!(f, "{text}") } else { Ok(()) };
        line(self.partial != d.partial, "mode single".into())?;
        line(self.batch_size != d.batch_size, format!("batch_size {}", self.batch_size))?;
        line(self.columns != d.columns, format!("columns {}", self.columns))?;
        line(self.keys != d.keys, format!("keys{}", joined(&self.keys)))?;
        line(self.grouped, "sets".into())?;
        for set in &self.sets {
            line(true, format!("set{}", joined(set.iter().map(|m| *m as u8))))?;
        }
        let names = self.kinds.iter().map(|k| KINDS.iter().find(|n| n.1 == *k).expect("every kind has a name").0);
        line(self.kinds != d.kinds, format!("accumulator{}", joined(names)))?;
        for (argument, filter) in &self.aggregates {
            line(true, format!("aggregate {argument}{}", joined(filter)))?;
        }
        let order = match &self.order {
            Order::Linear => "linear".into(),
            Order::Sorted => "sorted".into(),
            Order::Partially(positions) => format!("partially{}", joined(positions)),
        };
        line(self.order != d.order, format!("order {order}"))?;
        line(self.soft_limit.is_some(), format!("soft_limit{}", joined(self.soft_limit)))?;
        let probe = format!("probe {} {}", self.probe_rows, self.probe_ratio);
        line(probe != "probe 0 1", probe)?;
        line(self.small, "table small".into())?;
        let memory = match self.memory {
            Memory::Bounded(limit) => format!("memory bounded {limit}"),
            Memory::Recorded(word) => format!("memory recorded {word}"),
        };
        line(self.memory != d.memory, memory)?;
        line(self.peak, "peak".into())
    }
}

fn cell_text(value: i64, flag: u8) -> String {
    match (value, flag) {
        (0, 0) => "-".into(),
        (value, 1) => value.to_string(),
        (value, flag) => format!("{value}:{flag}"),
    }
}

impl Display for Call {
    fn fmt(&self, f: &mut Formatter<'_>) -> std::fmt::Result {
        match self {
            Call::Take { values, flags } => write!(f, "take {values} {flags}"),
            Call::Finish => write!(f, "finish"),
            Call::Offer { values, flags } => {
                let flag = |i: usize| flags.get(i).copied().unwrap_or(1);
                let cells = values.iter().enumerate().map(|(i, v)| cell_text(*v, flag(i)));
                write!(f, "offer{}", joined(cells))?;
                if values.len() == flags.len() { Ok(()) } else { write!(f, " / {}", flags.len()) }
            }
        }
    }
}

impl Display for Scenario {
    fn fmt(&self, f: &mut Formatter<'_>) -> std::fmt::Result {
        write!(f, "scenario {}\n{}", self.name, self.settings)?;
        self.calls.iter().try_for_each(|c| writeln!(f, "{c}"))?;
        writeln!(f, "end")
    }
}
