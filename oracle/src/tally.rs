//! What was compared: a row for each call and stratum; and how far the unaltered Rust is away.

use crate::call::{Answer, Call, Size, Told};
use crate::words::is_finite;

pub struct Row {
    call: &'static str,
    stratum: String,
    answer: Answer,
    /// Of the stratum, and of the call in all.
    wanted: u64,
    inputs: u64,
    pub comparisons: u64,
    finite: u64,
    differences: u64,
    /// How often each number came back, by the number.
    refused: [u64; NUMBERS],
    /// Inputs left out, since Rust fixes no answer.
    pub open: u64,
    first: String,
}

/// One more than the largest number of document 01.
const NUMBERS: usize = 11;

fn hex(words: &[u64]) -> String {
    words.iter().take(24).map(|w| format!("{w:016x}")).collect::<Vec<_>>().join(" ")
}

impl Row {
    pub fn new(call: &Call, stratum: &str, wanted: u64) -> Row {
        Row {
            call: call.name,
            stratum: stratum.into(),
            answer: call.answer,
            wanted,
            inputs: call.inputs,
            comparisons: 0,
            finite: 0,
            differences: 0,
            refused: [0; NUMBERS],
            open: 0,
            first: String::new(),
        }
    }

    pub fn compare(&mut self, input: &[u64], ours: &[u64], theirs: &[u64]) {
        self.comparisons += 1;
        let floats = self.answer.floats(theirs);
        if !floats.is_empty() && floats.iter().all(|&w| is_finite(w)) {
            self.finite += 1;
        }
        if let Some(number) = self.answer.refusal(theirs) {
            self.refused[number as usize] += 1;
        }
        if ours != theirs {
            self.differences += 1;
            if self.differences == 1 {
                self.first = format!("inputs {} port {} Rust {}", hex(input), hex(ours), hex(theirs));
            }
        }
    }

    fn reached(&self) -> bool {
        self.comparisons >= self.wanted
    }

    fn name(&self) -> String {
        format!("{}, {}", self.call, self.stratum)
    }

    fn line(&self) -> String {
        let finite = finite(self.answer, self.finite);
        format!("| {} | {} | {} | {finite} | {} |\n", self.call, self.stratum, self.comparisons, self.differences)
    }
}

fn cell(there: bool, shown: impl ToString) -> String {
    if there {
        shown.to_string()
    } else {
        "-".into()
    }
}

/// Finite answers, where an answer has floats.
fn finite(answer: Answer, n: u64) -> String {
    cell(answer.has_floats(), n)
}

/// How far the unaltered Rust's floats are from the port's, and how often it says something else.
#[derive(Default)]
pub struct Distance {
    call: &'static str,
    stratum: String,
    told: Told,
    values: u64,
    equal: u64,
    ulp: u64,
    relative: f64,
    scaled: f64,
    /// One side finite and the other not; or one with a count and the other with none.
    apart: u64,
    /// Answers that have a verdict, a count or a run, and in how many of them each is another.
    answers: u64,
    numbers: u64,
    verdicts: u64,
    others: u64,
    /// How far two counts are apart at most.
    counts: u64,
}

/// A float's place among the floats, in order; the two zeros share one.
fn place(word: u64) -> i64 {
    let size = (word & !(1 << 63)) as i64;
    if word >> 63 == 1 {
        -size
    } else {
        size
    }
}

impl Distance {
    pub fn new(call: &'static str, stratum: &str, told: Told) -> Distance {
        Distance { call, stratum: stratum.into(), told, ..Distance::default() }
    }

    /// The fields of two runs have no distance.
    pub fn take(&mut self, answer: Answer, ours: &[u64], unaltered: &[u64]) {
        if self.told.is_nothing() || self.of_one(ours, unaltered) {
            self.take_floats(answer, ours, unaltered);
        }
    }

    /// Whether the two have the same number, and the same count or run.
    fn of_one(&mut self, ours: &[u64], unaltered: &[u64]) -> bool {
        self.answers += 1;
        if ours[0] != unaltered[0] {
            self.numbers += 1;
            return false;
        }
        let differ = |places: &[usize]| ours[0] == 0 && places.iter().any(|&i| ours[i] != unaltered[i]);
        let other = differ(self.told.which);
        self.verdicts += u64::from(differ(self.told.verdict));
        self.others += u64::from(other);
        if let (true, &[i]) = (other, self.told.which) {
            self.take_count(ours[i], unaltered[i]);
        }
        !other
    }

    fn take_count(&mut self, ours: u64, unaltered: u64) {
        if ours == 0 || unaltered == 0 {
            self.apart += 1;
        } else {
            self.counts = self.counts.max(ours.abs_diff(unaltered));
        }
    }

    fn take_floats(&mut self, answer: Answer, ours: &[u64], unaltered: &[u64]) {
        for (&a, &b) in answer.floats(ours).iter().zip(answer.floats(unaltered)) {
            self.values += 1;
            if a == b {
                self.equal += 1;
            } else if is_finite(a) && is_finite(b) {
                let (x, y) = (f64::from_bits(a), f64::from_bits(b));
                self.ulp = self.ulp.max(place(a).abs_diff(place(b)));
                self.relative = self.relative.max(((x - y) / y).abs());
                self.scaled = self.scaled.max((x - y).abs() / (1.0 + y.abs()));
            } else {
                self.apart += 1;
            }
        }
    }

    fn with(mut self, other: &Distance) -> Distance {
        self.values += other.values;
        self.equal += other.equal;
        self.ulp = self.ulp.max(other.ulp);
        self.relative = self.relative.max(other.relative);
        self.scaled = self.scaled.max(other.scaled);
        self.apart += other.apart;
        self.answers += other.answers;
        self.numbers += other.numbers;
        self.verdicts += other.verdicts;
        self.others += other.others;
        self.counts = self.counts.max(other.counts);
        self
    }

    fn is_taken(&self) -> bool {
        self.values + self.answers > 0
    }

    fn line(&self) -> String {
        let (floats, said) = (self.values > 0, self.answers > 0);
        let (verdicts, others, counts) = (!self.told.verdict.is_empty(), !self.told.which.is_empty(), self.told.which.len() == 1);
        let cells = [
            self.call.into(),
            self.stratum.clone(),
            cell(floats, self.values),
            cell(floats, self.equal),
            cell(floats, self.ulp),
            cell(floats, format!("{:.1e}", self.relative)),
            cell(floats, format!("{:.1e}", self.scaled)),
            cell(floats || counts, self.apart),
            cell(said, self.answers),
            cell(said, self.numbers),
            cell(verdicts, self.verdicts),
            cell(others, self.others),
            cell(counts, self.counts),
        ];
        format!("| {} |\n", cells.join(" | "))
    }
}

#[derive(Default)]
pub struct Tally {
    rows: Vec<Row>,
    pub distances: Vec<Distance>,
    /// Measured strata of which fewer than half of the answers are finite.
    hollow: Vec<String>,
}

impl Tally {
    pub fn add(&mut self, row: Row, measured: bool) {
        if measured && row.answer.has_floats() && 2 * row.finite < row.comparisons {
            self.hollow.push(row.name());
        }
        self.rows.push(row);
    }

    fn of<'a>(&'a self, call: &'a str) -> impl Iterator<Item = &'a Row> {
        self.rows.iter().filter(move |row| row.call == call)
    }

    /// A row for each call.
    pub fn call_table(&self) -> String {
        let head = "| call | strata | comparisons | finite | differences |\n|---|---|---|---|---|\n";
        let line = |call: &&str| {
            let sum = |f: fn(&Row) -> u64| self.of(call).map(f).sum::<u64>();
            let answer = self.of(call).next().expect("a call has strata").answer;
            let finite = finite(answer, sum(|r| r.finite));
            format!("| {call} | {} | {} | {finite} | {} |\n", self.of(call).count(), sum(|r| r.comparisons), sum(|r| r.differences))
        };
        head.to_string() + &self.calls().iter().map(line).collect::<String>()
    }

    /// How often each number came back, for each call that can refuse.
    pub fn refusal_table(&self) -> String {
        let numbers: Vec<usize> = (0..NUMBERS).filter(|&n| self.rows.iter().any(|row| row.refused[n] > 0)).collect();
        let cells = |cell: &dyn Fn(usize) -> String| numbers.iter().map(|&n| cell(n)).collect::<String>();
        let mut text = format!("| call |{}\n|---|{}\n", cells(&|n| format!(" {n} |")), cells(&|_| "---|".into()));
        for call in self.calls() {
            let came = |n: usize| self.of(call).map(|row| row.refused[n]).sum::<u64>();
            if numbers.iter().any(|&n| came(n) > 0) {
                text += &format!("| {call} |{}\n", cells(&|n| format!(" {} |", came(n))));
            }
        }
        text
    }

    /// A row for each call that the unaltered Rust has, over the strata in which it is measured.
    pub fn call_distances(&self) -> String {
        let mut text = Tally::distance_head();
        for call in self.calls() {
            let taken: Vec<&Distance> = self.distances.iter().filter(|d| d.call == call && d.is_taken()).collect();
            if let Some(first) = taken.first() {
                let none = Distance::new(call, &format!("{} strata", taken.len()), first.told);
                text += &taken.iter().fold(none, |all, d| all.with(d)).line();
            }
        }
        text
    }

    fn distance_head() -> String {
        let floats = "values | equal | max ulp | max relative | max \\|d\\|/(1+\\|v\\|) | one not finite or none";
        let said = "answers | other number | other verdict | other count or run | counts apart, max";
        format!("| call | stratum | {floats} | {said} |\n|{}\n", "---|".repeat(13))
    }

    /// A row for each stratum.
    pub fn comparison_table(&self) -> String {
        let head = "| call | stratum | comparisons | finite | differences |\n|---|---|---|---|---|\n";
        head.to_string() + &self.rows.iter().map(Row::line).collect::<String>()
    }

    pub fn distance_table(&self) -> String {
        let taken = self.distances.iter().filter(|d| d.is_taken());
        Tally::distance_head() + &taken.map(Distance::line).collect::<String>()
    }

    /// The names of the calls, in order.
    fn calls(&self) -> Vec<&'static str> {
        let mut calls: Vec<&str> = self.rows.iter().map(|r| r.call).collect();
        calls.dedup();
        calls
    }

    fn comparisons(&self, call: &str) -> u64 {
        self.of(call).map(|r| r.comparisons).sum()
    }

    /// Each difference's first input, and each stratum and call that was not reached.
    pub fn faults(&self, size: Size) -> Vec<String> {
        let mut faults = Vec::new();
        for row in &self.rows {
            if row.differences > 0 {
                faults.push(format!("{}: {} differences, the first at {}", row.name(), row.differences, row.first));
            }
            if !row.reached() {
                faults.push(format!("{}: not reached, {} of {}", row.name(), row.comparisons, row.wanted));
            }
        }
        let wanted = |call: &str| self.of(call).next().expect("a call has strata").inputs;
        let short = self.calls().into_iter().filter(|call| self.comparisons(call) < wanted(call) / size.part * size.times);
        faults.extend(short.map(|call| format!("{call}: {} comparisons are too few", self.comparisons(call))));
        faults.extend(self.hollow.iter().map(|name| format!("{name}: fewer than half of the answers are finite")));
        faults
    }

    pub fn totals(&self) -> String {
        let sum = |f: fn(&Row) -> u64| self.rows.iter().map(f).sum::<u64>();
        let unreached = self.rows.iter().filter(|r| !r.reached()).count();
        let (calls, strata) = (self.calls().len(), self.rows.len());
        let (comparisons, differences, open) = (sum(|r| r.comparisons), sum(|r| r.differences), sum(|r| r.open));
        format!(
            "{calls} calls, {strata} strata, {comparisons} comparisons, {differences} differences, {unreached} strata not reached. \
             {open} inputs were left out: max and min of a zero of each sign."
        )
    }
}
