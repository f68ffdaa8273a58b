//! Inputs and answers as 64-bit words: a float by its bits, a slice as its length and its entries.

use crate::port;

/// A float that is part of an answer. NaNs are one value.
pub fn bits(x: f64) -> u64 {
    if x.is_nan() {
        f64::NAN.to_bits() & !(1 << 63)
    } else {
        x.to_bits()
    }
}

pub fn float(words: &[u64], i: usize) -> f64 {
    f64::from_bits(words[i])
}

/// Share, alpha and beta from word i on.
pub fn shelf(words: &[u64], i: usize) -> port::Shelf {
    port::Shelf { share: float(words, i), alpha: float(words, i + 1), beta: float(words, i + 2) }
}

/// The slice whose length is word i.
pub fn slice(words: &[u64], i: usize) -> Vec<f64> {
    words[i + 1..][..words[i] as usize].iter().map(|&w| f64::from_bits(w)).collect()
}

pub fn push_slice(words: &mut Vec<u64>, entries: &[f64]) {
    words.push(entries.len() as u64);
    words.extend(entries.iter().map(|x| x.to_bits()));
}

/// The bins whose number is word i.
pub fn slice_of_bins(words: &[u64], i: usize) -> Vec<u32> {
    words[i + 1..][..words[i] as usize].iter().map(|&w| w as u32).collect()
}

pub fn push_bins(words: &mut Vec<u64>, bins: &[u32]) {
    words.push(bins.len() as u64);
    words.extend(bins.iter().map(|&n| u64::from(n)));
}

pub fn is_finite(word: u64) -> bool {
    f64::from_bits(word).is_finite()
}

/// The call writes into the middle of a larger buffer, whose ends must stay. Its answer, and what stands in the slice afterwards.
pub fn lent<T>(held: &[f64], call: impl FnOnce(&mut [f64]) -> T) -> (T, Vec<f64>) {
    const GUARD: u64 = 0xfeed_face_cafe_beef;
    let guard = [f64::from_bits(GUARD)];
    let mut buffer = [&guard, held, &guard].concat();
    let room = held.len();
    let answer = call(&mut buffer[1..=room]);
    assert!([buffer[0], buffer[room + 1]].iter().all(|x| x.to_bits() == GUARD), "written outside the slice");
    (answer, buffer[1..=room].to_vec())
}

/// The same of bins.
pub fn lent_bins<T>(held: &[u32], call: impl FnOnce(&mut [u32]) -> T) -> (T, Vec<u32>) {
    const GUARD: [u32; 1] = [0xcafe_beef];
    let mut buffer = [&GUARD, held, &GUARD].concat();
    let room = held.len();
    let answer = call(&mut buffer[1..=room]);
    assert!([buffer[0], buffer[room + 1]] == [GUARD[0]; 2], "written outside the slice");
    (answer, buffer[1..=room].to_vec())
}

/// A lent slice afterwards: an entry that changed is an answer, and any other is compared by its bits.
pub fn after(before: &[f64], now: &[f64]) -> Vec<u64> {
    let entry = |(&was, &is): (&f64, &f64)| if was.to_bits() == is.to_bits() { is.to_bits() } else { bits(is) };
    before.iter().zip(now).map(entry).collect()
}

/// Singleton probability, tail exponent and shape from word i on.
pub fn errors(words: &[u64], present: u64, i: usize) -> port::Errors {
    port::Errors {
        singleton_probability: float(words, i),
        tail_exponent: float(words, i + 1),
        shape_present: present as u8,
        weibull_shape: float(words, i + 2),
    }
}

/// Two families, two presences, the window end, the iterations, and the floats in the Rust's order.
pub fn fit(w: &[u64]) -> port::Fit {
    let x = |i: usize| float(w, 6 + i);
    port::Fit {
        error_model: w[0] as u8,
        genome_model: w[1] as u8,
        w_error: x(0),
        w_single: x(1),
        w_repeat: x(2),
        mean: x(3),
        dispersion: x(4),
        target_mode: x(5),
        error_params: errors(w, w[2], 12),
        shelf_present: w[3] as u8,
        shelf: shelf(w, 15),
        repeat_ratio: x(12),
        genome_kmers: x(13),
        error_kmers: x(14),
        repeat_kmers: x(15),
        log_likelihood: x(16),
        bic: x(17),
        deviance: x(18),
        fit_window_end: w[4] as usize,
        best_iterations: w[5],
        component_log_window_masses: [x(19), x(20), x(21)],
        component_log_totals: [x(22), x(23), x(24)],
        observed_total: x(25),
        full_distinct_total: x(26),
    }
}

pub fn fit_words(f: &port::Fit) -> Vec<u64> {
    let (e, s) = (f.error_params, f.shelf);
    let wholes = [f.error_model, f.genome_model, e.shape_present, f.shelf_present].map(u64::from);
    let floats = [
        vec![f.w_error, f.w_single, f.w_repeat, f.mean, f.dispersion, f.target_mode],
        vec![e.singleton_probability, e.tail_exponent, e.weibull_shape, s.share, s.alpha, s.beta, f.repeat_ratio],
        vec![f.genome_kmers, f.error_kmers, f.repeat_kmers, f.log_likelihood, f.bic, f.deviance],
        f.component_log_window_masses.to_vec(),
        f.component_log_totals.to_vec(),
        vec![f.observed_total, f.full_distinct_total],
    ];
    let counts = [f.fit_window_end as u64, f.best_iterations];
    wholes.into_iter().chain(counts).chain(floats.concat().into_iter().map(bits)).collect()
}

/// Two presences, and the floats in the Rust's order.
pub fn params_words(p: &port::Params) -> Vec<u64> {
    let (e, s) = (p.error_params, p.shelf);
    let floats = [
        [p.ln_error, p.ln_single, p.ln_repeat, p.target_mode, p.mean, p.dispersion].to_vec(),
        [e.singleton_probability, e.tail_exponent, e.weibull_shape, s.share, s.alpha, s.beta, p.repeat_ratio].to_vec(),
    ];
    [e.shape_present, p.shelf_present].map(u64::from).into_iter().chain(floats.concat().into_iter().map(bits)).collect()
}
