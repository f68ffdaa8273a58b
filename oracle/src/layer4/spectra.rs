//! The bins as the sample had them, and the shelf share that is read off them.

use super::call;
use crate::call::{ordinary_own, own, Answer, Call, Kind, Kind::*, Own};
use crate::draw::Draw;
use crate::layer3::Problem;
use crate::linked::spectrum_fitter;
use crate::words::{bits, float, lent_bins, push_bins, slice_of_bins};
use crate::{port, rules};

const RECOVER: &[(&str, Kind)] = &[("scale", Float)];
const SHARE: &[(&str, Kind)] = &[("scale", Float)];

/// The recovered bins of a sample, as spectrum_fitter.rs makes them.
fn sample(bins: &[u32], scale: f64) -> Vec<u32> {
    bins.iter().map(|&n| rules::recovered(n, rules::used(scale))).collect()
}

fn scale(d: &mut Draw) -> f64 {
    match d.below(4) {
        0 => 1.0,
        1 => d.pick(&[2.0, 2.5, 3.0, 1.1, 1e9]),
        2 => d.whole(2, 40),
        _ => d.between(1.0, 40.0),
    }
}

fn bin(d: &mut Draw) -> u32 {
    match d.below(4) {
        0 => 0,
        1 => d.below(50) as u32,
        2 => d.word() as u32,
        _ => d.below(1 << 20) as u32,
    }
}

fn some_bins(d: &mut Draw, n: u64) -> Vec<u32> {
    (0..n).map(|_| bin(d)).collect()
}

// ---- recovery: the scale, the bins, the lent ones

fn recovery(scale: f64, bins: &[u32], out: &[u32]) -> Vec<u64> {
    let mut w = vec![scale.to_bits()];
    push_bins(&mut w, bins);
    push_bins(&mut w, out);
    w
}

fn recovery_of(d: &mut Draw, bins: u64, room: u64) -> Vec<u64> {
    let (scale, bins, out) = (scale(d), some_bins(d, bins), some_bins(d, room));
    recovery(scale, &bins, &out)
}

fn ordinary_recovery(d: &mut Draw) -> Vec<u64> {
    let bins = 2 + d.below(20);
    let room = bins + d.below(4);
    recovery_of(d, bins, room)
}

fn read(w: &[u64]) -> (f64, Vec<u32>, Vec<u32>) {
    let bins = slice_of_bins(w, 1);
    let out = slice_of_bins(w, 2 + bins.len());
    (float(w, 0), bins, out)
}

/// 1, 2 and 10, and whether each applies.
fn of_a_recovery(bins: usize, room: usize) -> [(u64, bool); 3] {
    [(1, bins < 2), (2, bins > 65_535), (10, room < bins)]
}

fn port_recover(w: &[u64]) -> Vec<u64> {
    let (scale, bins, held) = read(w);
    let (answer, out) = lent_bins(&held, |out| port::recover_bins(&bins, scale, out));
    [vec![answer.number.into(), answer.items as u64], out.iter().map(|&n| n.into()).collect()].concat()
}

fn linked_recover(w: &[u64]) -> Vec<u64> {
    let (scale, bins, mut out) = read(w);
    let answer = match rules::first(&of_a_recovery(bins.len(), out.len())) {
        Some(number) => [number, 0],
        None => {
            out[..bins.len()].copy_from_slice(&sample(&bins, scale));
            [0, bins.len() as u64]
        }
    };
    [answer.to_vec(), out.iter().map(|&n| n.into()).collect()].concat()
}

/// Quotients that are a half or beside one.
fn halves(d: &mut Draw) -> Vec<u64> {
    let divisor = 2 * (1 + d.below(500));
    let n = 2 + d.below(8);
    let bins: Vec<u32> = (0..n).map(|_| (divisor / 2 * (2 * d.below(2000) + 1) + d.below(3) - 1) as u32).collect();
    recovery(divisor as f64, &bins, &bins)
}

fn recovered_where(name: &str, wanted: u64, sizes: fn(&mut Draw) -> (u64, u64), applies: &'static [u64]) -> Own {
    let draw = move |d: &mut Draw| {
        let (bins, room) = sizes(d);
        recovery_of(d, bins, room)
    };
    own(name, wanted, draw, move |w| {
        let room = w[2 + w[1] as usize];
        of_a_recovery(w[1] as usize, room as usize).iter().all(|(number, holds)| *holds == applies.contains(number))
    })
}

fn strata_of_recovery() -> Vec<Own> {
    vec![
        own("halves and beside them", 100_000, halves, |w| w[1] >= 2),
        own(
            "scale below 1",
            50_000,
            |d| {
                let mut w = ordinary_recovery(d);
                w[0] = d.between(-2.0, 1.0).to_bits();
                w
            },
            |w| float(w, 0) < 1.0,
        ),
        recovered_where("two bins", 20_000, |d| (2, 2 + d.below(3)), &[]),
        recovered_where("as many lent as bins", 50_000, |d| {
            let n = 2 + d.below(20);
            (n, n)
        }, &[]),
        recovered_where("65,535 bins", 50, |_| (65_535, 65_535), &[]).long(),
        recovered_where("refusal 1", 20_000, |d| {
            let n = d.below(2);
            (n, n + d.below(3))
        }, &[1]),
        recovered_where("refusal 2", 50, |d| {
            let n = 65_536 + d.below(3);
            (n, n + d.below(3))
        }, &[2]).long(),
        recovered_where("refusal 10, one short", 20_000, |d| {
            let n = 2 + d.below(20);
            (n, n - 1)
        }, &[10]),
        recovered_where("refusal 10", 20_000, |d| {
            let n = 2 + d.below(20);
            (n, d.below(n))
        }, &[10]),
        recovered_where("refusals 1 and 10", 5_000, |_| (1, 0), &[1, 10]),
        recovered_where("refusals 2 and 10", 50, |d| (65_536 + d.below(3), d.below(65_536)), &[2, 10]).long(),
    ]
}

// ---- the share: the scale, valley, peak, the bins

fn share(scale: f64, valley: u64, peak: u64, bins: &[u32]) -> Vec<u64> {
    let mut w = vec![scale.to_bits(), valley, peak];
    push_bins(&mut w, bins);
    w
}

/// A spectrum with a peak of 4 or more and a valley below it.
fn spectrum(d: &mut Draw) -> Vec<u64> {
    let p = Problem::ordinary(d);
    let peak = 4 + d.below(30);
    let valley = 2 + d.below(peak / 2);
    let scale = if d.one_in(2) { 1.0 } else { d.between(1.0, 8.0) };
    share(scale, valley, peak, &p.bins)
}

fn with_bins(d: &mut Draw, n: u64, valley: u64, peak: u64) -> Vec<u64> {
    let (scale, bins) = (scale(d), some_bins(d, n));
    share(scale, valley, peak, &bins)
}

/// 1 and 2, and whether each applies.
fn of_a_share(w: &[u64]) -> [(u64, bool); 2] {
    let limited = [w[1], w[2], w[3]];
    [(1, limited.iter().any(|&n| n < 2)), (2, limited.iter().any(|&n| n > 65_535))]
}

fn refuses(w: &[u64], numbers: &[u64]) -> bool {
    of_a_share(w).iter().all(|(number, holds)| *holds == numbers.contains(number))
}

fn linked_share(w: &[u64]) -> Vec<u64> {
    match rules::first(&of_a_share(w)) {
        Some(number) => vec![number, 0],
        None => {
            let sample = sample(&slice_of_bins(w, 3), float(w, 0));
            vec![0, bits(spectrum_fitter::empirical_shelf_share(&sample, w[1] as usize, w[2] as usize))]
        }
    }
}

fn port_share(w: &[u64]) -> Vec<u64> {
    let answer = port::empirical_shelf_share(&slice_of_bins(w, 3), float(w, 0), w[1] as usize, w[2] as usize);
    vec![answer.number.into(), bits(answer.value)]
}

/// How many recovered k-mers lie at these counts.
fn mass(w: &[u64], from: u64, to: u64) -> u64 {
    let sample = sample(&slice_of_bins(w, 3), float(w, 0));
    sample.iter().take(to as usize).skip(from as usize - 1).map(|&n| u64::from(n)).sum()
}

fn shared(name: &str, wanted: u64, draw: fn(&mut Draw) -> Vec<u64>, meets: fn(&[u64]) -> bool) -> Own {
    ordinary_own(name, wanted, draw, move |w| refuses(w, &[]) && meets(w))
}

fn answer_is(w: &[u64], value: f64) -> bool {
    linked_share(w) == [0, value.to_bits()]
}

/// Small bins, so that the share lies anywhere between its bounds.
fn even(d: &mut Draw) -> Vec<u64> {
    let peak = 4 + d.below(12);
    let bins: Vec<u32> = (0..2 * peak).map(|_| d.below(10) as u32).collect();
    share(1.0, 2 + d.below(2), peak, &bins)
}

fn strata_of_shares() -> Vec<Own> {
    vec![
        shared("between the bounds", 100_000, even, |w| !answer_is(w, 0.01) && !answer_is(w, 0.4) && !answer_is(w, 0.05)),
        shared("held to 0.01", 20_000, |d| {
            let peak = 8 + d.below(30);
            let half = peak / 2;
            let bins: Vec<u32> = (0..2 * peak).map(|i| (if i < half { d.below(3) } else { 1000 + d.below(9000) }) as u32).collect();
            share(1.0, 2 + d.below(3), peak, &bins)
        }, |w| answer_is(w, 0.01)),
        shared("held to 0.4", 20_000, |d| {
            let peak = 8 + d.below(30);
            let n = peak / 2 + d.below(peak);
            with_bins(d, n, 2 + peak % 2, peak)
        }, |w| answer_is(w, 0.4)),
        shared("inverted range", 20_000, |d| {
            let peak = 2 + d.below(30);
            let n = 2 * peak;
            let valley = peak / 2 + 1 + d.below(peak);
            with_bins(d, n, valley.max(2), peak)
        }, |w| w[1] > w[2] / 2),
        shared("an odd peak", 50_000, |d| {
            let peak = 2 * d.below(20) + 5;
            let n = 2 + d.below(2 * peak);
            let valley = 2 + d.below(peak / 2);
            with_bins(d, n, valley, peak)
        }, |w| w[2] % 2 == 1),
        shared("empty lobe", 20_000, |d| {
            let mut w = with_bins(d, 8, 3, 2);
            w[6..8].fill(0);
            w
        }, |w| mass(w, w[1], 2 * w[2]) == 0),
        shared("valley past the bins", 20_000, |d| {
            let n = 2 + d.below(9);
            let (past, peak) = (n + 1 + d.below(99), 2 + d.below(200));
            with_bins(d, n, past, peak)
        }, |w| w[1] > w[3] && answer_is(w, 0.05)),
        shared("all bins zero", 20_000, |d| {
            let n = 2 + d.below(20);
            let mut w = with_bins(d, n, 2, 5);
            w[4..].fill(0);
            w
        }, |w| answer_is(w, 0.05)),
        shared("valley, peak and bins of 2", 20_000, |d| with_bins(d, 2, 2, 2), |_| true),
        shared("valley or peak of 65,535", 20_000, |d| {
            let (n, small) = (2 + d.below(20), 2 + d.below(9));
            let (valley, peak) = d.pick(&[(small, 65_535), (65_535, small), (65_535, 65_535)]);
            with_bins(d, n, valley, peak)
        }, |w| w[1] == 65_535 || w[2] == 65_535),
        own("65,535 bins", 50, |d| {
            let valley = 2 + d.below(9);
            with_bins(d, 65_535, valley, 65_535)
        }, |w| refuses(w, &[])).long(),
        own("refusal 1", 20_000, |d| {
            let (few, fine) = (d.below(2), 2 + d.below(9));
            let (n, valley, peak) = d.pick(&[(few, fine, fine), (fine, few, fine), (fine, fine, few), (few, few, few)]);
            with_bins(d, n, valley, peak)
        }, |w| refuses(w, &[1])),
        own("refusal 2", 20_000, |d| {
            let (far, fine) = (d.window_too_far(), 2 + d.below(9));
            let (valley, peak) = d.pick(&[(far, fine), (fine, far), (far, far)]);
            with_bins(d, fine, valley, peak)
        }, |w| refuses(w, &[2])),
        own("refusal 2 for the bins", 50, |d| {
            let n = 65_536 + d.below(3);
            with_bins(d, n, 2, 5)
        }, |w| refuses(w, &[2]) && w[3] > 65_535).long(),
        own("refusals 1 and 2", 20_000, |d| {
            let (far, few, fine) = (d.window_too_far(), d.below(2), 2 + d.below(9));
            let (n, valley, peak) = d.pick(&[(few, far, fine), (few, fine, far), (fine, few, far), (fine, far, few)]);
            with_bins(d, n, valley, peak)
        }, |w| refuses(w, &[1, 2])),
    ]
}

pub fn calls() -> Vec<Call> {
    vec![
        Call {
            own: strata_of_recovery(),
            ..call(96, "recover_bins", RECOVER, Answer::Given { whole: 1, floats: 0 }, ordinary_recovery, port_recover, linked_recover)
        },
        Call {
            own: strata_of_shares(),
            ..call(97, "empirical_shelf_share", SHARE, Answer::Number, spectrum, port_share, linked_share)
        },
    ]
}
