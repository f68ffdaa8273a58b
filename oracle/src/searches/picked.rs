//! The program `pick` beside the Rust: every field of its record beside the same search, attempts and selection over the linked
//! cost, and its time beside the same over the unaltered one.

use crate::layer4::selection::BEFORE;
use crate::race::thread_time;
use crate::sample::{Sample, BUDGETS};
use crate::searching::Build;
use crate::sides::Outcome;
use std::fs::File;
use std::hint::black_box;
use std::process::{Command, Stdio};

const TURNS: usize = 3;

const ERRORS: [&str; 2] = ["FreeSingletonWeibull", "SingletonPareto"];
const GENOMES: [&str; 2] = ["NegativeBinomial", "ShelfNegativeBinomial"];
const REASONS: [&str; 11] = [
    "OptimisationFailed",
    "NonFiniteLikelihood",
    "InvalidComponents",
    "InvalidWindowMass",
    "ComponentMassExceeded",
    "UnstableModeParameterisation",
    "GenomeLobeOutsideFitWindow",
    "ErrorModePastValley",
    "PrimaryModeOutsideBand",
    "RepeatModeTooEarly",
    "PositiveLogLikelihood",
];

/// The floats of a fit's words, behind two families, two presences and two whole numbers.
const FLOATS: [&str; 27] = [
    "w_error",
    "w_single",
    "w_repeat",
    "mean",
    "dispersion",
    "target_mode",
    "error_params.singleton_probability",
    "error_params.tail_exponent",
    "error_params.weibull_shape",
    "shelf.share",
    "shelf.alpha",
    "shelf.beta",
    "repeat_ratio",
    "genome_kmers",
    "error_kmers",
    "repeat_kmers",
    "log_likelihood",
    "bic",
    "deviance",
    "component_log_window_masses.0",
    "component_log_window_masses.1",
    "component_log_window_masses.2",
    "component_log_totals.0",
    "component_log_totals.1",
    "component_log_totals.2",
    "observed_total",
    "full_distinct_total",
];
const WHOLES: usize = 6;
const LOG_LIKELIHOOD: usize = 22;
const BIC: usize = 23;

type Fields = Vec<(String, String)>;

fn hex(bits: u64) -> String {
    format!("{bits:016x}")
}

fn attempt(k: usize, a: &[u64]) -> Fields {
    let held = |bits: u64| if a[2] == 0 { "-".into() } else { hex(bits) };
    let reason = if a[3] == 0 { "valid" } else { REASONS[a[4] as usize] };
    [
        ("error_model", ERRORS[a[0] as usize].into()),
        ("genome_model", GENOMES[a[1] as usize].into()),
        ("reason", reason.into()),
        ("cost", held((-f64::from_bits(a[BEFORE + LOG_LIKELIHOOD])).to_bits())),
        ("bic", held(a[BEFORE + BIC])),
        ("total_iterations", a[5].to_string()),
        ("capped_starts", a[6].to_string()),
    ]
    .map(|(name, value): (&str, String)| (format!("attempt.{k}.{name}"), value))
    .into()
}

fn fit(f: &[u64]) -> Fields {
    let mut fields: Fields = vec![
        ("fit.error_model".into(), ERRORS[f[0] as usize].into()),
        ("fit.genome_model".into(), GENOMES[f[1] as usize].into()),
        ("fit.fit_window_end".into(), f[4].to_string()),
        ("fit.best_iterations".into(), f[5].to_string()),
    ];
    for (i, name) in FLOATS.iter().enumerate() {
        let there = match *name {
            "error_params.weibull_shape" => f[2],
            "shelf.share" | "shelf.alpha" | "shelf.beta" => f[3],
            _ => 1,
        };
        fields.push((format!("fit.{name}"), if there == 0 { "-".into() } else { hex(f[WHOLES + i]) }));
    }
    fields
}

/// What the record must say, by the Rust.
fn expected(o: &Outcome) -> Fields {
    let mut fields: Fields = o.attempts.iter().enumerate().flat_map(|(i, a)| attempt(i + 1, a)).collect();
    if o.selected[0] == 1 {
        fields.extend(fit(&o.selected[1..]));
        let said = |c: u64| if c == 0 { "none".into() } else { c.to_string() };
        fields.extend([("hole", 0), ("crossover", 2), ("error_floor", 3)].map(|(name, i)| (name.to_string(), said(o.cutoffs[i]))));
    }
    fields
}

// ---- the program

#[repr(C)]
struct Usage {
    user: [i64; 2],
    system: [i64; 2],
    rest: [i64; 14],
}

extern "C" {
    fn getrusage(who: i32, usage: *mut Usage) -> i32;
}

/// Seconds of processor time of the programs that have ended.
fn children() -> f64 {
    let mut usage = Usage { user: [0; 2], system: [0; 2], rest: [0; 14] };
    assert!(unsafe { getrusage(-1, &mut usage) } == 0);
    let of = |time: [i64; 2]| time[0] as f64 + time[1] as f64 / 1e6;
    of(usage.user) + of(usage.system)
}

/// The record, and the seconds that it took.
fn pick(program: &[&str], s: &Sample, path: &str) -> (String, f64) {
    let asked = [format!("--valley={}", s.valley), format!("--peak={}", s.peak), format!("--budget={}", BUDGETS[0]), "--quiet".into()];
    let file = File::open(path).expect("the sample can be read");
    let before = children();
    let said = Command::new(program[0]).args(&program[1..]).args(asked).stdin(Stdio::from(file)).output().expect("pick runs");
    (String::from_utf8(said.stdout).expect("a record is text"), children() - before)
}

/// The fields that differ: the name, what the record has, and what the Rust has.
fn differing(record: &str, expected: &Fields) -> Vec<String> {
    let has = |name: &str| record.lines().find_map(|l| l.strip_prefix(name)?.strip_prefix(' ')?.split(' ').next());
    expected.iter().filter(|(name, value)| has(name) != Some(value)).map(|(name, value)| format!("{name}: {:?}, not {value}", has(name))).collect()
}

fn unaltered(s: &Sample) -> f64 {
    let start = thread_time();
    let runs = Build::Unaltered.runs(s, 0);
    black_box(Build::Unaltered.outcome(s, &runs));
    (thread_time() - start) / 1e9
}

fn median(mut values: Vec<f64>) -> f64 {
    values.sort_by(f64::total_cmp);
    values[values.len() / 2]
}

/// A line of the table; whether nothing differs.
fn line(program: &[&str], path: &str) -> bool {
    let s = Sample::read(path);
    let expected = expected(&Build::Altered.outcome(&s, &Build::Altered.runs(&s, 0)));
    let (mut ours, mut theirs, mut wrong) = (vec![], vec![], vec![]);
    let mut last = String::new();
    for _ in 0..TURNS {
        let (record, time) = pick(program, &s, path);
        wrong = differing(&record, &expected);
        last = record.lines().last().unwrap_or("no record").to_string();
        ours.push(time);
        theirs.push(unaltered(&s));
    }
    let (a, b) = (median(ours), median(theirs));
    let name = path.rsplit('/').next().unwrap_or(path).trim_end_matches(".histogram");
    println!("| {name} | {} | {} | {} | {last} | {a:.2} | {b:.2} | {:.3} |", s.window_end, expected.len(), wrong.len(), a / b);
    wrong.iter().for_each(|field| eprintln!("{name}: {field}"));
    wrong.is_empty()
}

const HEAD: &str = "The program, started on each sample with the valley and the peak that its bins show and a budget of 20, beside Rust: the same \
search by document 02's rule, the attempts and the selection. Every field is compared with the Rust over the port's routines: of each attempt the \
families, the reason, the cost, the BIC and both totals, each field of the selected fit, and three cutoffs. The seconds are of processor time, \
medians of the turns, beside the unaltered Rust, one after the other.";

/// Whether nothing differs.
pub fn page(program: &[&str], paths: &[&str]) -> bool {
    println!("{HEAD} {TURNS} turns.\n");
    println!("| sample | window end | fields | differences | last line | ours, s | Rust, s | ratio |\n|{}", "---|".repeat(8));
    let well: Vec<bool> = paths.iter().map(|path| line(program, path)).collect();
    well.into_iter().all(|well| well)
}
