//! The starts of a search: hint, share, families, lent tables or none, seeds, shapes and the lent buffer.

use super::call;
use super::tables::{no_rows, rows, table};
use crate::call::{ordinary_own, own, Answer, Call, Kind, Kind::*, Own};
use crate::draw::Draw;
use crate::layer3::Problem;
use crate::words::{after, lent, push_slice, slice};
use crate::{port, rules};

const STARTS: &[(&str, Kind)] = &[("hint", Float), ("share", Float)];

#[derive(Clone)]
pub struct Search {
    pub hint: f64,
    pub share: f64,
    pub error: u8,
    pub genome: u8,
    /// The Pareto table and the Weibull one.
    pub lent: Option<[Vec<f64>; 2]>,
    pub seeds: Vec<f64>,
    pub shapes: Vec<f64>,
    pub out: Vec<f64>,
}

impl Search {
    pub fn words(&self) -> Vec<u64> {
        let mut w = vec![self.hint.to_bits(), self.share.to_bits(), self.error.into(), self.genome.into()];
        let lent = self.lent.iter().flatten();
        for entries in lent.chain([&self.seeds, &self.shapes, &self.out]) {
            push_slice(&mut w, entries);
        }
        w
    }

    fn read(w: &[u64], lent: bool) -> Search {
        let mut at = 4;
        let mut next = || {
            let entries = slice(w, at);
            at += 1 + entries.len();
            entries
        };
        let lent = lent.then(|| [next(), next()]);
        let (seeds, shapes, out) = (next(), next(), next());
        let (hint, share) = (f64::from_bits(w[0]), f64::from_bits(w[1]));
        Search { hint, share, error: w[2] as u8, genome: w[3] as u8, lent, seeds, shapes, out }
    }

    fn weibull(&self) -> bool {
        self.error == 0
    }

    fn with_shelf(&self) -> bool {
        self.genome != 0
    }

    /// How many numbers the starts have in all; document 01 has 2 Pareto rows and 3 Weibull rows.
    pub fn needed(&self) -> usize {
        let rows = match &self.lent {
            Some([pareto, weibull]) => (if self.weibull() { weibull } else { pareto }).len() / 3,
            None => 2 + usize::from(self.weibull()),
        };
        let each = if self.with_shelf() { self.shapes.len() / 2 } else { 1 };
        (self.seeds.len() + 1) * rows * each * rules::list_length(self.weibull(), self.with_shelf())
    }

    /// 7 and 10, and whether each applies.
    fn refusals(&self) -> [(u64, bool); 2] {
        let wrong = self.lent.iter().flatten().any(|table| rules::not_rows(table.len()));
        [(7, wrong || self.shapes.len() % 2 != 0), (10, self.out.len() < self.needed())]
    }

    fn refuses(&self, numbers: &[u64]) -> bool {
        self.refusals().iter().all(|(number, holds)| *holds == numbers.contains(number))
    }

    // ---- drawing

    pub fn of(d: &mut Draw, error: u8, genome: u8, tables: bool) -> Search {
        let hint = if d.one_in(4) { d.between(-3.0, 3.0) } else { d.between(1.0, 30.0) };
        let lent = tables.then(|| [likely_table(d, false), likely_table(d, true)]);
        let seeds = (0..d.below(4)).map(|_| 1.0 + d.octaves(-3, 5)).collect();
        let shapes = (0..1 + d.below(3)).flat_map(|_| likely_shape(d)).collect();
        let share = d.between(0.01, 0.4);
        let mut s = Search { hint, share, error, genome, lent, seeds, shapes, out: vec![] };
        s.room(d, 0);
        s
    }

    /// A buffer of the starts' length and `more`.
    fn room(&mut self, d: &mut Draw, more: usize) {
        self.out = (0..self.needed() + more).map(|_| d.any()).collect();
    }

    fn short(&mut self, d: &mut Draw) {
        let room = if d.one_in(2) { self.needed().saturating_sub(1) } else { d.below(self.needed().max(1) as u64) as usize };
        self.out.resize(room, 0.0);
    }

    fn odd(&mut self, d: &mut Draw) {
        self.shapes.push(d.between(0.3, 1.0));
    }

    /// One of the lent tables or both, or without them the shapes, are of the wrong length.
    fn wrong(&mut self, d: &mut Draw) {
        let Some([pareto, weibull]) = &mut self.lent else {
            return self.odd(d);
        };
        let which = d.below(4);
        if which % 2 == 0 {
            let entries = no_rows(d);
            *pareto = table(d, entries);
        }
        if which > 0 {
            let entries = no_rows(d);
            *weibull = table(d, entries);
        }
    }
}

fn likely_table(d: &mut Draw, weibull: bool) -> Vec<f64> {
    let shape = |d: &mut Draw| if weibull { d.octaves(-5, 1) } else { 0.0 };
    (0..1 + d.below(3)).flat_map(|_| [d.octaves(-1, 2), d.between(0.01, 0.99), shape(d)]).collect()
}

/// Inside the bounds.
fn likely_shape(d: &mut Draw) -> [f64; 2] {
    let retained = d.between(0.31, 0.99);
    let (low, high) = crate::linked::models::shelf_concentration_bounds(retained);
    [retained, d.between(low, high)]
}

fn pairs(entries: &[f64]) -> Vec<(f64, f64)> {
    entries.chunks_exact(2).map(|pair| (pair[0], pair[1])).collect()
}

fn triples(entries: &[f64]) -> Vec<(f64, f64, f64)> {
    entries.chunks_exact(3).map(|row| (row[0], row[1], row[2])).collect()
}

/// A search's families alone; its starts read nothing else of a problem.
fn families(s: &Search) -> Problem {
    Problem { scale: 1.0, window_end: 1, peak: 2, error: s.error, genome: s.genome, theta: vec![], bins: vec![1, 1], table: vec![] }
}

fn port_starts(s: &Search) -> Vec<u64> {
    let (answer, out) = lent(&s.out, |out| port::fit_starts(s, out));
    [vec![answer.number.into(), answer.items as u64], after(&s.out, &out)].concat()
}

macro_rules! theirs {
    ($name:ident, $build:ident) => {
        fn $name(s: &Search) -> Vec<u64> {
            let mut out = s.out.clone();
            let answer = match rules::first(&s.refusals()) {
                Some(number) => [number, 0],
                None => {
                    let tables = s.lent.as_ref().map(|lent| [triples(&lent[0]), triples(&lent[1])]);
                    let lent = tables.as_ref().map(|lent| [&lent[0][..], &lent[1][..]]);
                    let problem = crate::layer3::rust::$build::mixture(&families(s));
                    let (hint, shapes) = (rules::hint(s.hint), pairs(&s.shapes));
                    let starts = crate::$build::spectrum_fitter::fit_starts(&problem, hint, s.share, &s.seeds, &shapes, lent).concat();
                    out[..starts.len()].copy_from_slice(&starts);
                    [0, starts.len() as u64]
                }
            };
            [answer.to_vec(), after(&s.out, &out)].concat()
        }
    };
}

theirs!(linked_starts, linked);
theirs!(unaltered_starts, unaltered);

// ---- strata

fn drawn(draw: fn(&mut Draw, &mut Search), tables: bool) -> impl Fn(&mut Draw) -> Vec<u64> + 'static {
    move |d| {
        let (error, genome) = (d.family(), d.family());
        let mut s = Search::of(d, error, genome, tables);
        draw(d, &mut s);
        s.words()
    }
}

fn strata(tables: bool) -> Vec<Own> {
    let stratum = |name: &str, wanted: u64, draw: fn(&mut Draw, &mut Search), meets: fn(&Search) -> bool| {
        own(name, wanted, drawn(draw, tables), move |w| meets(&Search::read(w, tables)))
    };
    let mut strata = vec![
        stratum("hint at most 1", 20_000, |d, s| s.hint = if d.one_in(4) { 1.0 } else { d.between(-9.0, 1.0) }, |s| s.hint <= 1.0),
        stratum("no seeds", 20_000, |d, s| {
            s.seeds.clear();
            s.room(d, 0);
        }, |s| s.seeds.is_empty() && s.refuses(&[])),
        stratum("NaN seeds", 20_000, |d, s| {
            s.seeds.push(d.nan());
            s.room(d, 0);
        }, |s| s.seeds.iter().any(|x| x.is_nan()) && s.refuses(&[])),
        stratum("infinite seeds", 20_000, |d, s| {
            s.seeds.push(d.infinity());
            s.room(d, 0);
        }, |s| s.seeds.iter().any(|x| x.is_infinite()) && s.refuses(&[])),
        stratum("seeds of any bits", 50_000, |d, s| s.seeds.iter_mut().for_each(|x| *x = d.any()), |s| !s.seeds.is_empty()),
        stratum("seeds at most 1", 20_000, |d, s| s.seeds.iter_mut().for_each(|x| *x = d.between(-2.0, 1.0)), |s| !s.seeds.is_empty()),
        stratum("no shapes, no shelf", 20_000, |d, s| {
            s.shapes.clear();
            s.genome = 0;
            s.room(d, 0);
        }, |s| s.shapes.is_empty() && !s.with_shelf() && s.refuses(&[])),
        stratum("no shapes for a shelf: no start", 20_000, |d, s| {
            s.shapes.clear();
            s.genome = d.present() as u8;
            s.room(d, 2);
        }, |s| s.needed() == 0 && s.refuses(&[])),
        stratum("shapes of any bits", 50_000, |d, s| s.shapes.iter_mut().for_each(|x| *x = d.any()), |s| s.refuses(&[])),
        stratum("shapes at and beyond the bounds", 50_000, |d, s| {
            let put = |x: &mut f64| *x = d.pick(&[0.0, 0.3, 0.5, 1.0, 2.0, 3.0, 50.0, -1.0]);
            s.shapes.iter_mut().for_each(put);
        }, |s| s.refuses(&[])),
        stratum("families of any byte", 20_000, |d, s| {
            (s.error, s.genome) = (d.below(256) as u8, d.below(256) as u8);
            s.room(d, 0);
        }, |s| s.error > 1 || s.genome > 1),
        stratum("a longer buffer", 50_000, |d, s| {
            let more = 1 + d.below(20) as usize;
            s.room(d, more);
        }, |s| s.out.len() > s.needed()),
        stratum("refusal 7, odd shapes", 20_000, |d, s| {
            s.odd(d);
            s.room(d, 0);
        }, |s| s.shapes.len() % 2 == 1 && s.refuses(&[7])),
        stratum("refusal 10, one short", 20_000, |_, s| s.out.truncate(s.needed() - 1), |s| s.refuses(&[10])),
        stratum("refusal 10", 20_000, |d, s| s.short(d), |s| s.refuses(&[10])),
        stratum("refusals 7 and 10", 20_000, |d, s| {
            s.odd(d);
            s.short(d);
        }, |s| s.refuses(&[7, 10])),
    ];
    for (error, genome, name) in [(0, 0, "Weibull"), (0, 1, "Weibull with shelf"), (1, 0, "Pareto"), (1, 1, "Pareto with shelf")] {
        let draw = move |d: &mut Draw| Search::of(d, error, genome, tables).words();
        strata.push(ordinary_own(name, 50_000, draw, move |w| (w[2], w[3]) == (error.into(), genome.into())));
    }
    strata
}

/// Those of lent tables alone.
fn strata_of_tables() -> Vec<Own> {
    let stratum = |name: &str, wanted: u64, draw: fn(&mut Draw, &mut Search), meets: fn(&Search) -> bool| {
        own(name, wanted, drawn(draw, true), move |w| meets(&Search::read(w, true)))
    };
    vec![
        stratum("tables of any bits", 50_000, |d, s| {
            s.lent = Some([rows(d), rows(d)].map(|entries| table(d, entries)));
            s.room(d, 0);
        }, |s| s.refuses(&[])),
        stratum("tables at the limits", 50_000, |d, s| {
            let put = |x: &mut f64| *x = d.pick(&[0.0, -0.0, 1.0, -1.0, 0.5, 1e-320, f64::INFINITY, f64::NAN]);
            s.lent.iter_mut().flatten().flatten().for_each(put);
        }, |s| s.refuses(&[])),
        stratum("refusal 7 for a table", 50_000, |d, s| {
            s.wrong(d);
            s.room(d, 0);
        }, |s| s.shapes.len() % 2 == 0 && s.refuses(&[7])),
        stratum("refusal 7 for a table, and 10", 20_000, |d, s| {
            s.wrong(d);
            s.short(d);
        }, |s| s.refuses(&[7, 10])),
    ]
}

pub fn calls() -> Vec<Call> {
    vec![
        Call {
            own: strata(false),
            unaltered: Some(|w| unaltered_starts(&Search::read(w, false))),
            ..call(
                100,
                "fit_starts",
                STARTS,
                Answer::Table,
                |d| drawn(|_, _| {}, false)(d),
                |w| port_starts(&Search::read(w, false)),
                |w| linked_starts(&Search::read(w, false)),
            )
        },
        Call {
            own: [strata(true), strata_of_tables()].into_iter().flatten().collect(),
            unaltered: Some(|w| unaltered_starts(&Search::read(w, true))),
            ..call(
                101,
                "fit_starts_lent",
                STARTS,
                Answer::Table,
                |d| drawn(|_, _| {}, true)(d),
                |w| port_starts(&Search::read(w, true)),
                |w| linked_starts(&Search::read(w, true)),
            )
        },
    ]
}
