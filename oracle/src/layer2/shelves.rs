use super::{call, linked_shelf, unaltered_shelf, words};
use crate::call::{ordinary_own, own, Answer, Answer::Floats, Call, Kind, Kind::*, Own};
use crate::draw::Draw;
use crate::linked::math_helpers as linked;
use crate::linked::Routines;
use crate::unaltered::math_helpers as unaltered;
use crate::words::{bits, float, lent, push_slice, shelf, slice};
use crate::{port, rules};

const TABLE: &[(&str, Kind)] = &[("mean", Float), ("share", Float), ("alpha", Float), ("beta", Float), ("top", Other), ("table", Other)];
const MIXED: &[(&str, Kind)] = &[("lobe", Float), ("share", Float), ("alpha", Float), ("beta", Float), ("at", Float)];
const LOGS: &[(&str, Kind)] = &[("present", Other), ("share", Float), ("alpha", Float), ("beta", Float)];
const MIX: &[(&str, Kind)] =
    &[("lobe", Float), ("count", Float), ("present", Other), ("share", Float), ("alpha", Float), ("beta", Float), ("table", Other)];
const ENTRY: &[(&str, Kind)] = &[
    ("log of the rest", Float),
    ("log of the share", Float),
    ("lobe", Float),
    ("count", Float),
    ("present", Other),
    ("share", Float),
    ("alpha", Float),
    ("beta", Float),
    ("table", Other),
];

// ---- the shelf table: mean, shelf, window end, lent slice

/// What stands in a lent slice before the call: any bits.
fn held(d: &mut Draw, room: u64) -> Vec<f64> {
    (0..room).map(|_| d.any()).collect()
}

fn table_in(d: &mut Draw, mean: f64, top: u64, room: u64) -> Vec<u64> {
    let mut w = words(&[mean, d.share(), d.alpha(), d.beta(), 0.0]);
    w[4] = top;
    let held = held(d, room);
    push_slice(&mut w, &held);
    w
}

/// How many entries the table has.
fn needed(mean: f64, top: u64) -> u64 {
    linked::shelf_trials(mean).min(top as f64) as u64 + 1
}

/// A slice with room for every mean.
fn table(d: &mut Draw) -> Vec<u64> {
    let (mean, top) = (d.mean(), d.window());
    let room = top + 1 + d.below(3);
    table_in(d, mean, top, room)
}

/// A slice with so many entries more than the table has.
fn table_with(d: &mut Draw, more: u64) -> Vec<u64> {
    let (mean, top) = (d.octaves(-2, 5), d.window());
    table_in(d, mean, top, needed(mean, top) + more)
}

fn table_longer(d: &mut Draw) -> Vec<u64> {
    let more = 1 + d.below(8);
    table_with(d, more)
}

fn table_one_short(d: &mut Draw) -> Vec<u64> {
    let (mean, top) = (d.octaves(-2, 5), d.window());
    table_in(d, mean, top, needed(mean, top) - 1)
}

fn table_around(d: &mut Draw) -> Vec<u64> {
    let top = d.window();
    let mean = top as f64 + d.pick(&[-2.0, -1.0, -0.5, 0.0, 0.4, 0.5, 1.0, 2.0]);
    let room = needed(mean, top) + d.below(2);
    table_in(d, mean, top, room)
}

fn table_to(d: &mut Draw, top: u64) -> Vec<u64> {
    let mean = d.octaves(-2, 4);
    let room = needed(mean, top) + d.below(3);
    table_in(d, mean, top, room)
}

fn table_wide(d: &mut Draw) -> Vec<u64> {
    let (mean, top) = (d.octaves(0, 12), 100 + d.below(1900));
    let room = needed(mean, top) + d.below(3);
    table_in(d, mean, top, room)
}

fn table_widest(d: &mut Draw) -> Vec<u64> {
    let mean = if d.one_in(2) { d.octaves(-1, 9) } else { d.octaves(14, 17) };
    let room = needed(mean, 65_535) + d.below(3);
    table_in(d, mean, 65_535, room)
}

fn table_too_far(d: &mut Draw) -> Vec<u64> {
    let (mean, top) = (d.octaves(-2, 4), d.window_too_far());
    let room = needed(mean, top) + d.below(3);
    table_in(d, mean, top, room)
}

fn table_too_far_and_short(d: &mut Draw) -> Vec<u64> {
    let (mean, top) = (d.octaves(3, 12), d.window_too_far());
    let room = d.below(8);
    table_in(d, mean, top, room)
}

fn table_to_none(d: &mut Draw) -> Vec<u64> {
    let mean = d.mean();
    let room = 1 + d.below(4);
    table_in(d, mean, 0, room)
}

fn table_to_none_and_short(d: &mut Draw) -> Vec<u64> {
    let mean = d.mean();
    table_in(d, mean, 0, 0)
}

fn table_short(d: &mut Draw) -> Vec<u64> {
    let (mean, top) = (d.mean(), d.window());
    let room = d.below(needed(mean, top));
    table_in(d, mean, top, room)
}

/// Which of the numbers 2, 5 and 10 apply, whatever comes first.
fn apply(w: &[u64], numbers: [bool; 3]) -> bool {
    let trials = linked::shelf_trials(float(w, 0));
    [rules::window_too_far(w[4]), w[4] == 0, rules::too_short(trials, w[4], w[5])] == numbers
}

fn given(w: &[u64]) -> bool {
    apply(w, [false; 3])
}

fn strata_of_tables() -> Vec<Own> {
    vec![
        own("slice one short, refusal 10", 50_000, table_one_short, |w| w[5] + 1 == needed(float(w, 0), w[4])),
        ordinary_own("slice exact", 50_000, |d| table_with(d, 0), |w| given(w) && w[5] == needed(float(w, 0), w[4])),
        ordinary_own("slice longer, what lies behind kept", 50_000, table_longer, |w| given(w) && w[5] > needed(float(w, 0), w[4])),
        ordinary_own("trials around the window end", 50_000, table_around, |w| {
            given(w) && (linked::shelf_trials(float(w, 0)) - w[4] as f64).abs() <= 2.0
        }),
        ordinary_own("window end 1", 20_000, |d| table_to(d, 1), |w| given(w) && w[4] == 1),
        ordinary_own("window end 2", 20_000, |d| table_to(d, 2), |w| given(w) && w[4] == 2),
        ordinary_own("window end 100 to 1,999", 2_000, table_wide, |w| given(w) && w[4] >= 100),
        ordinary_own("window end 65,535", 1_000, table_widest, |w| given(w) && w[4] == 65_535),
        own("refusal 2", 20_000, table_too_far, |w| apply(w, [true, false, false])),
        own("refusal 5", 20_000, table_to_none, |w| apply(w, [false, true, false])),
        own("refusal 10", 20_000, table_short, |w| apply(w, [false, false, true])),
        own("refusals 2 and 10", 20_000, table_too_far_and_short, |w| apply(w, [true, false, true])),
        own("refusals 5 and 10", 20_000, table_to_none_and_short, |w| apply(w, [false, true, true])),
    ]
}

fn port_table(w: &[u64]) -> Vec<u64> {
    let (answer, table) = lent(&slice(w, 5), |table| port::shelf_log_table(float(w, 0), shelf(w, 1), w[4] as usize, table));
    after(answer.number.into(), answer.items as u64, &table)
}

fn linked_table(w: &[u64]) -> Vec<u64> {
    let mut held = slice(w, 5);
    let trials = linked::shelf_trials(float(w, 0));
    if let Some(number) = rules::table(trials, w[4], w[5]) {
        return after(number, 0, &held);
    }
    let table = linked::shelf_log_table(float(w, 0), linked_shelf(w, 1), w[4] as usize);
    held[..table.len()].copy_from_slice(&table);
    after(0, table.len() as u64, &held)
}

/// The number, the entries written, and the slice: an answer first, then bits as they stand.
fn after(number: u64, items: u64, slice: &[f64]) -> Vec<u64> {
    let (written, rest) = slice.split_at(items as usize);
    let entries = written.iter().map(|&x| bits(x)).chain(rest.iter().map(|x| x.to_bits()));
    [number, items].into_iter().chain(entries).collect()
}

// ---- a lobe and a shelf mixed

fn mixed(d: &mut Draw) -> Vec<u64> {
    words(&[d.log(), d.share(), d.alpha(), d.beta(), d.log()])
}

fn mix_with(d: &mut Draw, length: u64, count: f64) -> Vec<u64> {
    let present = d.presence();
    let mut w = words(&[d.log(), count, 0.0, d.share(), d.alpha(), d.beta()]);
    w[2] = present;
    let table: Vec<f64> = (0..length).map(|_| d.log()).collect();
    push_slice(&mut w, &table);
    w
}

fn mix(d: &mut Draw) -> Vec<u64> {
    let length = 1 + d.below(24);
    let count = d.whole(0, length + 2);
    mix_with(d, length, count)
}

fn mix_shelf(d: &mut Draw, length: u64, count: f64) -> Vec<u64> {
    let mut w = mix_with(d, length, count);
    w[2] = d.present();
    w
}

fn mix_at(d: &mut Draw, behind: f64) -> Vec<u64> {
    let length = 1 + d.below(24);
    mix_shelf(d, length, length as f64 + behind)
}

fn mix_presence(d: &mut Draw, present: u64) -> Vec<u64> {
    let mut w = mix(d);
    w[2] = present;
    w
}

fn mix_empty(d: &mut Draw) -> Vec<u64> {
    let count = d.whole(0, 3);
    mix_shelf(d, 0, count)
}

fn mix_fraction(d: &mut Draw) -> Vec<u64> {
    let length = 1 + d.below(24);
    let count = d.between(-2.0, length as f64 + 1.0);
    mix_shelf(d, length, count)
}

fn mix_entries(d: &mut Draw, by: fn(&mut Draw) -> f64) -> Vec<u64> {
    let length = 1 + d.below(24);
    let count = d.whole(0, length - 1);
    let mut w = mix_shelf(d, length, count);
    w[7 + count as usize] = by(d).to_bits();
    w
}

fn entry_read(w: &[u64]) -> Option<f64> {
    slice(w, 6).get(float(w, 1) as usize).copied().filter(|_| w[2] != 0)
}

fn strata_of_mixes() -> Vec<Own> {
    vec![
        ordinary_own("no shelf", 20_000, |d| mix_presence(d, 0), |w| w[2] == 0),
        ordinary_own(
            "shelf",
            20_000,
            |d| {
                let present = d.present();
                mix_presence(d, present)
            },
            |w| w[2] != 0,
        ),
        own("count at the last entry", 20_000, |d| mix_at(d, -1.0), |w| float(w, 1) == w[6] as f64 - 1.0),
        own("count one behind the table", 20_000, |d| mix_at(d, 0.0), |w| float(w, 1) == w[6] as f64 && entry_read(w).is_none()),
        own("no entry", 10_000, mix_empty, |w| w[6] == 0),
        own("count with a fraction, or below 0", 50_000, mix_fraction, |w| float(w, 1).fract() != 0.0),
        own("a NaN read", 10_000, |d| mix_entries(d, Draw::nan), |w| entry_read(w).is_some_and(f64::is_nan)),
        own("an infinity read", 10_000, |d| mix_entries(d, Draw::infinity), |w| entry_read(w).is_some_and(f64::is_infinite)),
    ]
}

// ---- the parts of that mixture: the shelf's logs, and an entry mixed with them

fn logs_with(d: &mut Draw, present: u64) -> Vec<u64> {
    let mut w = words(&[0.0, d.share(), d.alpha(), d.beta()]);
    w[0] = present;
    w
}

fn logs(d: &mut Draw) -> Vec<u64> {
    let present = d.present();
    logs_with(d, present)
}

fn logs_of(d: &mut Draw, share: f64) -> Vec<u64> {
    let mut w = logs(d);
    w[1] = share.to_bits();
    w
}

fn logs_around_the_ends(d: &mut Draw) -> Vec<u64> {
    let end = d.pick(&[0.0, 1.0]);
    let share = d.beside(end, 8);
    logs_of(d, share)
}

fn logs_outside(d: &mut Draw) -> Vec<u64> {
    let share = if d.one_in(2) { -d.octaves(-40, 4) } else { 1.0 + d.octaves(-40, 4) };
    logs_of(d, share)
}

fn strata_of_logs() -> Vec<Own> {
    vec![
        own("no shelf", 100_000, |d| logs_with(d, 0), |w| w[0] == 0),
        own("share 0, 1 or beside", 50_000, logs_around_the_ends, |w| {
            w[0] != 0 && [0.0, 1.0].iter().any(|end| (float(w, 1) - end).abs() < 1e-14)
        }),
        own("share below 0 or above 1", 50_000, logs_outside, |w| w[0] != 0 && !(0.0..=1.0).contains(&float(w, 1))),
    ]
}

/// The Rust has these two in mix_single_copy.
fn linked_logs(w: &[u64]) -> Vec<u64> {
    if w[0] == 0 {
        return words(&[0.0, f64::NEG_INFINITY]);
    }
    let s = linked_shelf(w, 1);
    vec![bits((1.0 - s.share).fog_ln()), bits(s.share.fog_ln())]
}

/// The logs of a share.
fn two_logs(d: &mut Draw) -> [u64; 2] {
    let share = d.share();
    [(1.0 - share).fog_ln(), share.fog_ln()].map(f64::to_bits)
}

fn entry(d: &mut Draw) -> Vec<u64> {
    [&two_logs(d)[..], &mix(d)].concat()
}

fn strata_of_entries() -> Vec<Own> {
    strata_of_mixes().into_iter().map(|own| own.behind(two_logs)).collect()
}

fn port_entry(w: &[u64]) -> Vec<u64> {
    let logs = port::Pair { first: float(w, 0), second: float(w, 1) };
    vec![bits(port::mix_entry(float(w, 2), float(w, 3), w[4] as u8, shelf(w, 5), logs, &slice(w, 8)))]
}

/// The Rust's mix_single_copy with the two logs given.
fn linked_entry(w: &[u64]) -> Vec<u64> {
    let lobe = float(w, 2);
    if w[4] == 0 {
        return vec![bits(lobe)];
    }
    let entry = slice(w, 8).get(float(w, 3) as usize).copied().unwrap_or(f64::NEG_INFINITY);
    vec![bits(linked::lse2(float(w, 0) + lobe, float(w, 1) + entry))]
}

pub fn calls() -> Vec<Call> {
    vec![
        Call {
            own: strata_of_tables(),
            unaltered: Some(|w| {
                let table = unaltered::shelf_log_table(float(w, 0), unaltered_shelf(w, 1), w[4] as usize);
                after(0, table.len() as u64, &table)
            }),
            ..call(46, "shelf_log_table", TABLE, Answer::Table, table, port_table, linked_table)
        },
        call(
            48,
            "mix_shelf",
            MIXED,
            Floats,
            mixed,
            |w| vec![bits(port::mix_shelf(float(w, 0), shelf(w, 1), float(w, 4)))],
            |w| {
                let s = linked_shelf(w, 1);
                vec![bits(linked::lse2((1.0 - s.share).fog_ln() + float(w, 0), s.share.fog_ln() + float(w, 4)))]
            },
        ),
        Call {
            own: strata_of_mixes(),
            unaltered: Some(|w| {
                let table = slice(w, 6);
                let shelf = (w[2] != 0).then(|| (unaltered_shelf(w, 3), &table[..]));
                vec![bits(unaltered::mix_single_copy(float(w, 0), float(w, 1), shelf))]
            }),
            ..call(
                49,
                "mix_single_copy",
                MIX,
                Floats,
                mix,
                |w| vec![bits(port::mix_single_copy(float(w, 0), float(w, 1), w[2] as u8, shelf(w, 3), &slice(w, 6)))],
                |w| {
                    let table = slice(w, 6);
                    let shelf = (w[2] != 0).then(|| (linked_shelf(w, 3), &table[..]));
                    vec![bits(linked::mix_single_copy(float(w, 0), float(w, 1), shelf))]
                },
            )
        },
        Call {
            own: strata_of_logs(),
            ..call(
                52,
                "shelf_logs",
                LOGS,
                Floats,
                logs,
                |w| {
                    let logs = port::shelf_logs(w[0] as u8, shelf(w, 1));
                    vec![bits(logs.first), bits(logs.second)]
                },
                linked_logs,
            )
        },
        Call { own: strata_of_entries(), ..call(53, "mix_entry", ENTRY, Floats, entry, port_entry, linked_entry) },
    ]
}
