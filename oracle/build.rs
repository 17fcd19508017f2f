//! Cuts items out of the original's files and names the files that are compiled whole.
use std::path::{Path, PathBuf};
use std::{env, fs, process};

/// Items of `aggregates/mod.rs`, by the beginning of their first line.
const AGGREGATES: &[&str] = &[
    "pub enum AggregateInputMode ",
    "pub enum AggregateOutputMode ",
    "pub enum AggregateMode ",
    "impl AggregateMode ",
    "pub struct PhysicalGroupBy ",
    "impl PhysicalGroupBy ",
    "pub struct LimitOptions ",
    "impl LimitOptions ",
    "fn format_human_display<",
    "fn create_schema(",
    "pub fn aggregate_expressions(",
    "fn merge_expressions(",
    "pub fn evaluate_many(",
    "fn evaluate_optional(",
    "pub(crate) fn group_id_array(",
    "pub(crate) fn max_duplicate_ordinal(",
    "pub fn evaluate_group_by(",
];

const GROUP_VALUES: &[&str] = &["pub trait GroupValues"];

const STREAM: &[&str] = &[
    "pub struct EmptyRecordBatchStream ",
    "impl EmptyRecordBatchStream ",
    "impl RecordBatchStream for EmptyRecordBatchStream ",
    "impl Stream for EmptyRecordBatchStream ",
];

fn stop(message: &str) -> ! {
    println!("cargo::error={message}");
    process::exit(1);
}

/// The item whose first line begins so, with the attributes and comments above it. The original is formatted: an item ends
/// at the first line that is a closing brace alone.
fn cut(lines: &[&str], head: &str) -> String {
    let Some(at) = lines.iter().position(|l| l.starts_with(head)) else {
        stop(&format!("no item `{head}` in the original"));
    };
    let above = lines[..at].iter().rev().take_while(|l| l.starts_with("#[") || l.starts_with("///")).count();
    let length =
        lines[at..].iter().position(|l| *l == "}").map(|n| n + 1).unwrap_or_else(|| stop("an item without an end"));
    lines[at - above..at + length].join("\n") + "\n\n"
}

fn cut_all(file: &Path, heads: &[&str]) -> String {
    println!("cargo::rerun-if-changed={}", file.display());
    let text = fs::read_to_string(file).unwrap_or_else(|e| stop(&format!("{}: {e}", file.display())));
    let lines: Vec<&str> = text.lines().collect();
    heads.iter().map(|head| cut(&lines, head)).collect()
}

fn whole(visibility: &str, name: &str, file: &Path) -> String {
    println!("cargo::rerun-if-changed={}", file.display());
    format!("#[path = {:?}]\n{visibility} mod {name};\n", file)
}

fn main() {
    println!("cargo::rerun-if-env-changed=DATAFUSION_SRC");
    println!("cargo::rerun-if-changed=build.rs");
    let Some(root) = env::var_os("DATAFUSION_SRC").map(PathBuf::from) else {
        stop("DATAFUSION_SRC is not set: it must name the folder src of datafusion-physical-plan 55.0.0");
    };
    let root = fs::canonicalize(&root).unwrap_or_else(|e| stop(&format!("DATAFUSION_SRC, {}: {e}", root.display())));
    let aggregates = root.join("aggregates");
    let mut items = cut_all(&aggregates.join("mod.rs"), AGGREGATES);
    items += &whole("pub", "order", &aggregates.join("order/mod.rs"));
    items += &whole("", "skip_partial", &aggregates.join("skip_partial.rs"));
    items += &whole("pub(crate)", "grouped_hash_stream", &aggregates.join("grouped_hash_stream.rs"));
    let out = PathBuf::from(env::var_os("OUT_DIR").expect("OUT_DIR"));
    let write = |name: &str, text: &str| fs::write(out.join(name), text).expect("the build folder can be written");
    write("aggregates.rs", &items);
    write("group_values.rs", &cut_all(&aggregates.join("group_values/mod.rs"), GROUP_VALUES));
    write("stream.rs", &cut_all(&root.join("stream.rs"), STREAM));
    write("ordering.rs", &whole("pub", "ordering", &root.join("ordering.rs")));
}
