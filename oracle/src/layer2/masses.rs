use super::{call, linked_shelf, unaltered_shelf, words};
use crate::call::{ordinary_own, own, Answer, Answer::Floats, Call, Kind, Kind::*, Own};
use crate::draw::Draw;
use crate::linked::math_helpers as linked;
use crate::unaltered::math_helpers as unaltered;
use crate::words::{bits, float, push_slice, shelf, slice};
use crate::{port, rules};

const LOBE: &[(&str, Kind)] = &[("mean", Float), ("dispersion", Float), ("top", Other)];
const SINGLE: &[(&str, Kind)] = &[
    ("mean", Float),
    ("dispersion", Float),
    ("present", Other),
    ("share", Float),
    ("alpha", Float),
    ("beta", Float),
    ("top", Other),
    ("table", Other),
];

// ---- the lobe's mass: mean, dispersion, window end

fn lobe(d: &mut Draw) -> Vec<u64> {
    vec![d.mean().to_bits(), d.dispersion().to_bits(), d.window()]
}

fn lobe_to(d: &mut Draw, top: u64) -> Vec<u64> {
    let mut w = lobe(d);
    w[2] = top;
    w
}

fn poisson(d: &mut Draw) -> Vec<u64> {
    let mut w = lobe(d);
    w[1] = f64::to_bits(d.pick(&[1.0, 0.5, 1.0 + 1e-10]));
    w
}

fn nearly_poisson(d: &mut Draw) -> Vec<u64> {
    let mut w = lobe(d);
    w[1] = d.nearly_poisson().to_bits();
    w
}

fn little_dispersion(d: &mut Draw) -> Vec<u64> {
    let mut w = lobe(d);
    w[1] = d.little_dispersion().to_bits();
    w
}

fn wide(d: &mut Draw) -> Vec<u64> {
    let top = 100 + d.below(1900);
    lobe_to(d, top)
}

fn widest(d: &mut Draw) -> Vec<u64> {
    let mut w = lobe_to(d, 65_535);
    w[0] = d.octaves(-1, 16).to_bits();
    w
}

fn lobe_refused(d: &mut Draw, top: u64) -> Vec<u64> {
    let mut w = lobe_to(d, top);
    for i in 0..2 {
        if d.one_in(4) {
            w[i] = d.pick(&[f64::NAN, f64::INFINITY, -1.0, 0.0]).to_bits();
        }
    }
    w
}

fn strata_of_lobes() -> Vec<Own> {
    vec![
        ordinary_own("Poisson", 50_000, poisson, |w| float(w, 1) <= 1.0 + 1e-9),
        ordinary_own("dispersion around 1 + 1e-9", 50_000, nearly_poisson, |w| (float(w, 1) - 1.0 - 1e-9).abs() < 1e-14),
        ordinary_own("dispersion 1 + 1e-9 to 1.001", 50_000, little_dispersion, |w| float(w, 1) > 1.0 + 1e-9 && float(w, 1) < 1.001),
        ordinary_own("window end 1", 50_000, |d| lobe_to(d, 1), |w| w[2] == 1),
        ordinary_own("window end 2", 50_000, |d| lobe_to(d, 2), |w| w[2] == 2),
        ordinary_own("window end 100 to 1,999", 4_000, wide, |w| w[2] >= 100),
        ordinary_own("window end 65,535", 1_000, widest, |w| w[2] == 65_535),
    ]
}

fn in_window(top: u64, value: impl FnOnce() -> f64) -> Vec<u64> {
    match rules::window(top) {
        Some(number) => vec![number, 0],
        None => vec![0, bits(value())],
    }
}

fn number(answer: port::Number) -> Vec<u64> {
    vec![answer.number.into(), bits(answer.value)]
}

fn lobes() -> Vec<Call> {
    let refused = vec![
        own(
            "refusal 2",
            20_000,
            |d| {
                let top = d.window_too_far();
                lobe_refused(d, top)
            },
            |w| rules::window(w[2]) == Some(2),
        ),
        own("refusal 5", 20_000, |d| lobe_refused(d, 0), |w| rules::window(w[2]) == Some(5)),
    ];
    vec![Call {
        own: [strata_of_lobes(), refused].into_iter().flatten().collect(),
        unaltered: Some(|w| vec![0, bits(unaltered::log_nb_mass(float(w, 0), float(w, 1), w[2] as usize))]),
        ..call(
            42,
            "log_nb_mass",
            LOBE,
            Answer::Number,
            lobe,
            |w| number(port::log_nb_mass(float(w, 0), float(w, 1), w[2] as usize)),
            |w| in_window(w[2], || linked::log_nb_mass(float(w, 0), float(w, 1), w[2] as usize)),
        )
    }]
}

// ---- the single-copy mass: mean, dispersion, presence, shelf, window end, table

/// The arguments with the shelf's own table, as long as `length` makes it: cut, or with something behind it.
fn single_to(d: &mut Draw, mean: f64, top: u64, length: Option<u64>) -> Vec<u64> {
    let present = d.presence();
    let mut w = words(&[mean, d.dispersion(), 0.0, d.share(), d.alpha(), d.beta(), 0.0]);
    w[2] = present;
    w[6] = top;
    let mut table = linked::shelf_log_table(mean, linked_shelf(&w, 3), top.min(65_535) as usize);
    if let Some(length) = length {
        table.resize_with(length as usize, || d.log());
    }
    push_slice(&mut w, &table);
    w
}

fn single(d: &mut Draw) -> Vec<u64> {
    let (mean, top) = (d.mean(), d.window());
    single_to(d, mean, top, None)
}

fn single_in(d: &mut Draw, top: u64) -> Vec<u64> {
    let mean = d.mean();
    single_to(d, mean, top, None)
}

fn single_presence(d: &mut Draw, present: u64) -> Vec<u64> {
    let mut w = single(d);
    w[2] = present;
    w
}

/// A table of so many entries more than the window has counts; the window has 1 at least.
fn single_long(d: &mut Draw, more: u64) -> Vec<u64> {
    let (mean, top) = (d.mean(), d.window());
    let mut w = single_to(d, mean, top, Some(top + more));
    w[2] = d.present();
    w
}

fn single_longer(d: &mut Draw) -> Vec<u64> {
    let more = 2 + d.below(8);
    let mut w = single_long(d, more);
    let last = w.len() - 1;
    w[last] = d.nan().to_bits();
    w
}

fn single_short(d: &mut Draw) -> Vec<u64> {
    let (mean, top) = (d.mean(), d.window());
    let length = d.below(2);
    let mut w = single_to(d, mean, top, Some(length));
    w[2] = d.present();
    w
}

fn single_entries(d: &mut Draw, by: fn(&mut Draw) -> f64) -> Vec<u64> {
    let mut w = single(d);
    w[2] = d.present();
    let entries = w.len() - 8;
    let one = 8 + d.below(entries as u64) as usize;
    for i in 8..w.len() {
        if i == one || d.one_in(4) {
            w[i] = by(d).to_bits();
        }
    }
    w
}

fn single_around(d: &mut Draw) -> Vec<u64> {
    let top = d.window();
    let mean = top as f64 + d.pick(&[-2.0, -1.0, -0.5, 0.0, 0.4, 0.5, 1.0, 2.0]);
    let mut w = single_to(d, mean, top, None);
    w[2] = d.present();
    w
}

fn single_widest(d: &mut Draw) -> Vec<u64> {
    let mean = if d.one_in(2) { d.octaves(-1, 9) } else { d.octaves(14, 17) };
    single_to(d, mean, 65_535, None)
}

fn single_wide(d: &mut Draw) -> Vec<u64> {
    let top = 100 + d.below(1900);
    single_in(d, top)
}

fn single_refused(d: &mut Draw, top: u64) -> Vec<u64> {
    let mut w = single(d);
    w[6] = top;
    for i in [0, 1, 3, 4, 5] {
        if d.one_in(4) {
            w[i] = d.pick(&[f64::NAN, f64::INFINITY, -1.0, 0.0]).to_bits();
        }
    }
    w
}

fn some_entry(w: &[u64], test: fn(f64) -> bool) -> bool {
    w[2] != 0 && slice(w, 7).into_iter().any(test)
}

fn trials_around_the_end(w: &[u64]) -> bool {
    (linked::shelf_trials(float(w, 0)) - w[6] as f64).abs() <= 2.0
}

fn strata_of_singles() -> Vec<Own> {
    vec![
        ordinary_own("no shelf", 20_000, |d| single_presence(d, 0), |w| w[2] == 0),
        ordinary_own(
            "shelf",
            20_000,
            |d| {
                let present = d.present();
                single_presence(d, present)
            },
            |w| w[2] != 0,
        ),
        ordinary_own("trials around the window end", 50_000, single_around, trials_around_the_end),
        own("table one short of the window", 50_000, |d| single_long(d, 0), |w| w[7] == w[6]),
        own("table exactly to the window end", 50_000, |d| single_long(d, 1), |w| w[7] == w[6] + 1),
        own("table longer, a NaN behind the window", 50_000, single_longer, |w| w[7] > w[6] + 1),
        own("table of 0 or 1 entries", 20_000, single_short, |w| w[7] < 2),
        own("NaN among the entries", 20_000, |d| single_entries(d, Draw::nan), |w| some_entry(w, f64::is_nan)),
        own("infinite entries", 20_000, |d| single_entries(d, Draw::infinity), |w| some_entry(w, f64::is_infinite)),
        ordinary_own("window end 1", 20_000, |d| single_in(d, 1), |w| w[6] == 1),
        ordinary_own("window end 2", 20_000, |d| single_in(d, 2), |w| w[6] == 2),
        ordinary_own("window end 100 to 1,999", 2_000, single_wide, |w| w[6] >= 100),
        ordinary_own("window end 65,535", 1_000, single_widest, |w| w[6] == 65_535),
    ]
}

fn linked_mass(w: &[u64]) -> f64 {
    let table = slice(w, 7);
    let shelf = (w[2] != 0).then(|| (linked_shelf(w, 3), &table[..]));
    linked::single_copy_log_mass(float(w, 0), float(w, 1), shelf, w[6] as usize)
}

fn unaltered_mass(w: &[u64]) -> f64 {
    let table = slice(w, 7);
    let shelf = (w[2] != 0).then(|| (unaltered_shelf(w, 3), &table[..]));
    unaltered::single_copy_log_mass(float(w, 0), float(w, 1), shelf, w[6] as usize)
}

fn singles() -> Vec<Call> {
    let refused = vec![
        own(
            "refusal 2",
            20_000,
            |d| {
                let top = d.window_too_far();
                single_refused(d, top)
            },
            |w| rules::window(w[6]) == Some(2),
        ),
        own("refusal 5", 20_000, |d| single_refused(d, 0), |w| rules::window(w[6]) == Some(5)),
    ];
    vec![Call {
        own: [strata_of_singles(), refused].into_iter().flatten().collect(),
        unaltered: Some(|w| vec![0, bits(unaltered_mass(w))]),
        ..call(
            50,
            "single_copy_log_mass",
            SINGLE,
            Answer::Number,
            single,
            |w| number(port::single_copy_log_mass(float(w, 0), float(w, 1), w[2] as u8, shelf(w, 3), &slice(w, 7), w[6] as usize)),
            |w| in_window(w[6], || linked_mass(w)),
        )
    }]
}

pub fn calls() -> Vec<Call> {
    [lobes(), singles()].into_iter().flatten().collect()
}
