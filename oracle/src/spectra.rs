//! Simulated spectra, as the reads of one genome leave them: an error tail and two lobes, every bin filled.

use crate::draw::Draw;
use crate::port;

struct Shape {
    errors: f64,
    singletons: f64,
    exponent: f64,
    genome: f64,
    mean: f64,
    dispersion: f64,
    repeats: f64,
    ratio: f64,
}

impl Shape {
    /// The single-copy lobe is highest near the peak, and the further out the peak is, the wider the lobe.
    fn drawn(d: &mut Draw, peak: f64) -> Shape {
        let genome = d.octaves(20, 22);
        let dispersion = 1.0 + d.between(0.1, 1.5) * (1.0 + peak / 100.0).min(4.0);
        Shape {
            errors: genome * d.between(0.5, 6.0),
            singletons: d.between(0.75, 0.95),
            exponent: d.between(1.5, 3.0),
            genome,
            mean: peak * d.between(0.97, 1.03) + dispersion - 1.0,
            dispersion,
            repeats: genome * d.between(0.02, 0.15),
            ratio: d.between(1.8, 2.0),
        }
    }

    fn survival(&self, count: f64) -> f64 {
        port::exp(-self.exponent * port::ln(count - 1.0))
    }

    fn lobe(&self, count: f64, mean: f64) -> f64 {
        port::exp(port::ln_dnbinom(count, mean, self.dispersion))
    }

    fn expected(&self, count: f64) -> f64 {
        let error =
            if count == 1.0 { self.singletons } else { (1.0 - self.singletons) * (self.survival(count) - self.survival(count + 1.0)) };
        self.errors * error + self.genome * self.lobe(count, self.mean) + self.repeats * self.lobe(count, self.ratio * self.mean)
    }
}

/// Off by about its root, and 1 at least.
fn observed(d: &mut Draw, expected: f64) -> u32 {
    let noise: f64 = (0..4).map(|_| d.between(-0.87, 0.87)).sum();
    (expected + noise * expected.sqrt()).max(1.0) as u32
}

/// The bins of the counts 1 to `bins`.
pub fn simulated(d: &mut Draw, peak: u64, bins: u64) -> Vec<u32> {
    let shape = Shape::drawn(d, peak as f64);
    (1..=bins).map(|count| observed(d, shape.expected(count as f64))).collect()
}
