//! A public call: its arguments, its strata, and the three programs that answer it.

use crate::draw::Draw;
use crate::tally::{Distance, Row, Tally};
use crate::words::float;

/// What a call must reach in all, where it says nothing else.
pub const EACH_CALL: u64 = 1_000_000;

#[derive(Clone, Copy, PartialEq)]
pub enum Kind {
    Float,
    /// A whole number of 64 bits, all of them allowed.
    Whole,
    /// A window end, a presence or a slice: the call's own strata vary it.
    Other,
}

/// How an answer's words are read.
#[derive(Clone, Copy, PartialEq)]
pub enum Answer {
    /// One whole number.
    Whole,
    Floats,
    /// A flag, then floats.
    Flagged,
    /// A refusal's number or 0, then floats.
    Number,
    /// A refusal's number or 0, so many whole numbers, so many floats, and what stands behind them.
    Given {
        whole: usize,
        floats: usize,
    },
    /// A refusal's number or 0, how many entries were written, and the lent slice.
    Table,
}

impl Answer {
    /// The words that are floats of the answer: none for a whole number or a refusal.
    pub fn floats(self, words: &[u64]) -> &[u64] {
        match self {
            Answer::Floats => words,
            Answer::Flagged => &words[1..],
            Answer::Number if words[0] == 0 => &words[1..],
            Answer::Given { whole, floats } if words[0] == 0 => &words[1 + whole..][..floats],
            Answer::Table if words[0] == 0 => &words[2..][..words[1] as usize],
            _ => &[],
        }
    }

    pub fn has_floats(self) -> bool {
        !matches!(self, Answer::Whole | Answer::Given { floats: 0, .. })
    }

    /// The number that came back, if one did.
    pub fn refusal(self, words: &[u64]) -> Option<u64> {
        let refuses = matches!(self, Answer::Number | Answer::Table | Answer::Given { .. });
        Some(words[0]).filter(|&number| refuses && number != 0)
    }
}

/// Where the words of an answer, behind its number, have a verdict, and where a count or what tells a run: the unaltered Rust's are held
/// beside them.
#[derive(Clone, Copy, Default)]
pub struct Told {
    pub verdict: &'static [usize],
    /// One word is a count, or 0 for none; more of them tell a run.
    pub which: &'static [usize],
}

impl Told {
    pub const COUNT: Told = Told { verdict: &[], which: &[1] };
    pub const VERDICT: Told = Told { verdict: &[1], which: &[] };

    pub fn is_nothing(self) -> bool {
        self.verdict.is_empty() && self.which.is_empty()
    }
}

type Program = fn(&[u64]) -> Vec<u64>;

/// How much of a stratum is drawn: a part of 20 takes one input of each 20 that it is to have; then so many times as many.
#[derive(Clone, Copy)]
pub struct Size {
    pub part: u64,
    pub times: u64,
}

pub struct Call {
    /// The number by which the replay knows it.
    pub number: u64,
    pub name: &'static str,
    pub arguments: &'static [(&'static str, Kind)],
    pub answer: Answer,
    /// How many inputs it must reach in all.
    pub inputs: u64,
    pub ordinary: fn(&mut Draw) -> Vec<u64>,
    pub own: Vec<Own>,
    pub ours: Program,
    pub theirs: Program,
    /// The Rust as it is, where it has the call.
    pub unaltered: Option<Program>,
    /// What of its answer is compared beside its floats.
    pub told: Told,
    /// Inputs for which Rust fixes no answer.
    pub open: fn(&[u64]) -> bool,
}

/// A stratum: how many inputs it is to have, how they are drawn, and the test that each must pass.
pub struct Stratum<'a> {
    pub name: String,
    wanted: u64,
    /// The distances are taken here too: of ordinary parameters, or where a tie or a limit decides.
    pub measured: bool,
    /// No row of it is short enough to be replayed.
    long: bool,
    draw: Box<dyn Fn(&mut Draw) -> Vec<u64> + 'a>,
    meets: Box<dyn Fn(&[u64]) -> bool + 'a>,
}

/// A stratum that only this call has.
pub type Own = Stratum<'static>;

impl<'a> Stratum<'a> {
    fn new(name: &str, wanted: u64, draw: impl Fn(&mut Draw) -> Vec<u64> + 'a, meets: impl Fn(&[u64]) -> bool + 'a) -> Stratum<'a> {
        Stratum { name: name.into(), wanted, measured: false, long: false, draw: Box::new(draw), meets: Box::new(meets) }
    }

    pub fn long(self) -> Stratum<'a> {
        Stratum { long: true, ..self }
    }

    pub fn measured(self) -> Stratum<'a> {
        Stratum { measured: true, ..self }
    }

    /// The same inputs behind two further words.
    pub fn behind(self, two: fn(&mut Draw) -> [u64; 2]) -> Stratum<'a> {
        let (draw, meets) = (self.draw, self.meets);
        let draw = Box::new(move |d: &mut Draw| [&two(d)[..], &draw(d)].concat());
        Stratum { draw, meets: Box::new(move |w| meets(&w[2..])), ..self }
    }
}

pub fn own(name: &str, wanted: u64, draw: impl Fn(&mut Draw) -> Vec<u64> + 'static, meets: impl Fn(&[u64]) -> bool + 'static) -> Own {
    Stratum::new(name, wanted, draw, meets)
}

pub fn ordinary_own(
    name: &str,
    wanted: u64,
    draw: impl Fn(&mut Draw) -> Vec<u64> + 'static,
    meets: impl Fn(&[u64]) -> bool + 'static,
) -> Own {
    own(name, wanted, draw, meets).measured()
}

impl Call {
    fn places(&self, kind: Kind) -> Vec<usize> {
        (0..self.arguments.len()).filter(|&i| self.arguments[i].1 == kind).collect()
    }

    /// Ordinary arguments with some of the floats put to `by`: one at least.
    fn some_put(&self, draw: &mut Draw, by: fn(&mut Draw) -> f64) -> Vec<u64> {
        let mut words = (self.ordinary)(draw);
        let floats = self.places(Kind::Float);
        let one = draw.pick(&floats);
        for i in floats {
            if i == one || draw.one_in(2) {
                words[i] = by(draw).to_bits();
            }
        }
        words
    }

    /// Argument `i` put to `by`, and now and then another one far out too.
    fn one_put(&self, draw: &mut Draw, i: usize, by: fn(&mut Draw) -> f64) -> Vec<u64> {
        let mut words = (self.ordinary)(draw);
        for j in self.places(Kind::Float) {
            match draw.below(8) {
                0 => words[j] = draw.extreme().to_bits(),
                1 => words[j] = draw.infinity().to_bits(),
                _ => {}
            }
        }
        words[i] = by(draw).to_bits();
        words
    }

    /// Whole numbers of every size: each at or beside a power of two.
    fn whole_put(&self, draw: &mut Draw) -> Vec<u64> {
        let mut words = (self.ordinary)(draw);
        for i in self.places(Kind::Whole) {
            let beside = draw.below(5).wrapping_sub(2);
            words[i] = (1u64 << draw.below(64)).wrapping_add(beside);
        }
        words
    }

    fn any_put(&self, draw: &mut Draw) -> Vec<u64> {
        let mut words = (self.ordinary)(draw);
        for i in 0..self.arguments.len() {
            match self.arguments[i].1 {
                Kind::Float => words[i] = draw.any().to_bits(),
                Kind::Whole => words[i] = draw.word(),
                Kind::Other => {}
            }
        }
        words
    }

    /// The strata that every call with such arguments has.
    fn common(&self) -> Vec<Stratum<'_>> {
        let mut strata = vec![];
        if self.arguments.iter().any(|(_, kind)| *kind != Kind::Other) {
            strata.push(Stratum::new("all bit patterns", 150_000, |d| self.any_put(d), |_| true));
        }
        if !self.places(Kind::Whole).is_empty() {
            strata.push(Stratum::new("at and beside powers of two", 300_000, |d| self.whole_put(d), |_| true));
        }
        let floats = self.places(Kind::Float);
        if !floats.is_empty() {
            let places = floats.clone();
            let some_subnormal = move |w: &[u64]| places.iter().any(|&i| float(w, i).is_subnormal());
            strata.push(Stratum::new("extreme", 150_000, |d| self.some_put(d, Draw::extreme), |_| true));
            strata.push(Stratum::new("subnormal", 100_000, |d| self.some_put(d, Draw::subnormal), some_subnormal));
        }
        for i in floats {
            let name = self.arguments[i].0;
            let nan = move |d: &mut Draw| self.one_put(d, i, Draw::nan);
            let infinite = move |d: &mut Draw| self.one_put(d, i, Draw::infinity);
            strata.push(Stratum::new(&format!("{name} a NaN"), 20_000, nan, move |w| float(w, i).is_nan()));
            strata.push(Stratum::new(&format!("{name} infinite"), 20_000, infinite, move |w| float(w, i).is_infinite()));
        }
        strata
    }

    /// Ordinary parameters, as many as make the call's total; then the common strata and the call's own.
    pub fn strata(&self) -> Vec<Stratum<'_>> {
        let mut strata = self.common();
        for own in &self.own {
            let stratum = Stratum::new(&own.name, own.wanted, &own.draw, &own.meets);
            strata.push(Stratum { measured: own.measured, long: own.long, ..stratum });
        }
        let rest: u64 = strata.iter().map(|s| s.wanted).sum();
        let ordinary = Stratum::new("ordinary", self.inputs.saturating_sub(rest).max(self.inputs / 5), self.ordinary, |_| true);
        strata.insert(0, ordinary.measured());
        strata
    }

    /// Each input of a stratum in turn, as long as `each` asks for more. Every pass but the first has a seed of its own.
    fn each_input(&self, stratum: &Stratum, pass: u64, mut each: impl FnMut(&[u64]) -> bool) {
        let name = format!("{}, {}", self.name, stratum.name);
        let mut draw = Draw::named(&if pass == 0 { name } else { format!("{name}, pass {pass}") });
        for _ in 0..8 * stratum.wanted + 100 {
            let input = (stratum.draw)(&mut draw);
            if (stratum.meets)(&input) && !each(&input) {
                return;
            }
        }
    }

    pub fn compare(&self, tally: &mut Tally, size: Size) {
        for stratum in self.strata() {
            let wanted = stratum.wanted.div_ceil(size.part);
            let mut row = Row::new(self, &stratum.name, wanted * size.times);
            let mut distance = Distance::new(self.name, &stratum.name, self.told);
            for pass in 0..size.times {
                let to = row.comparisons + wanted;
                self.each_input(&stratum, pass, |input| {
                    if (self.open)(input) {
                        row.open += 1;
                        return true;
                    }
                    let ours = (self.ours)(input);
                    row.compare(input, &ours, &(self.theirs)(input));
                    if let (true, Some(unaltered)) = (stratum.measured, self.unaltered) {
                        distance.take(self.answer, &ours, &unaltered(input));
                    }
                    row.comparisons < to
                });
            }
            tally.add(row, stratum.measured);
            tally.distances.push(distance);
        }
    }

    /// The replay's rows: the first inputs of each stratum that fit, with the Rust's answers.
    pub fn sample(&self, rows: usize, longest: usize) -> String {
        let mut text = String::new();
        for stratum in self.strata().into_iter().filter(|stratum| !stratum.long) {
            let mut kept = 0;
            text += &format!("# {}: {}\n", self.name, stratum.name);
            self.each_input(&stratum, 0, |input| {
                if (self.open)(input) {
                    return true;
                }
                let words = [&[self.number], input, &(self.theirs)(input)].concat();
                if words.len() <= longest {
                    let words: Vec<String> = words.iter().map(|w| format!("{w:x}")).collect();
                    text += &(words.join(" ") + "\n");
                    kept += 1;
                }
                kept < rows
            });
            assert!(kept == rows, "{}, {}: too few short rows", self.name, stratum.name);
        }
        text
    }
}
