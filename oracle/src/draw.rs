//! Seeded inputs. Nothing here calls a mathematical function, so a seed gives the same inputs on every machine.

/// Values beside which something changes: in the routines, the casts, the rounding or the window.
const EDGES: [f64; 26] = [
    0.0,
    f64::MIN_POSITIVE,
    f64::MAX,
    1e-300,
    f64::EPSILON,
    1e-9,
    0.25,
    0.5,
    1.0,
    1.0 + 1e-9,
    1.5,
    2.0,
    4.0,
    37.42994775023705,
    38.123094930796995,
    709.782712893384,
    744.4400719213812,
    745.1332191019412,
    65535.0,
    65536.0,
    4294967296.0,
    4503599627370496.0,
    9007199254740992.0,
    9223372036854775808.0,
    18446744073709551616.0,
    1e300,
];

/// The float of these bits. On Arm a signalling NaN becomes quiet: beside one the processor's maximum and minimum, which Rust's `max` and
/// `min` are there, answer NaN, and on x86-64 the other operand, as they do beside a quiet one on both.
fn float(bits: u64) -> f64 {
    let quiet = cfg!(target_arch = "aarch64") && f64::from_bits(bits).is_nan();
    f64::from_bits(bits | u64::from(quiet) << 51)
}

/// xoshiro256++, seeded by splitmix64 over a name.
pub struct Draw([u64; 4]);

impl Draw {
    pub fn named(name: &str) -> Draw {
        let mut seed = 0xcbf29ce484222325u64;
        for byte in name.bytes() {
            seed = (seed ^ u64::from(byte)).wrapping_mul(0x100000001b3);
        }
        Draw([(); 4].map(|()| {
            seed = seed.wrapping_add(0x9e3779b97f4a7c15);
            let mut z = seed;
            z = (z ^ (z >> 30)).wrapping_mul(0xbf58476d1ce4e5b9);
            z = (z ^ (z >> 27)).wrapping_mul(0x94d049bb133111eb);
            z ^ (z >> 31)
        }))
    }

    pub fn word(&mut self) -> u64 {
        let s = &mut self.0;
        let answer = s[0].wrapping_add(s[3]).rotate_left(23).wrapping_add(s[0]);
        let t = s[1] << 17;
        s[2] ^= s[0];
        s[3] ^= s[1];
        s[1] ^= s[2];
        s[0] ^= s[3];
        s[2] ^= t;
        s[3] = s[3].rotate_left(45);
        answer
    }

    pub fn below(&mut self, n: u64) -> u64 {
        ((u128::from(self.word()) * u128::from(n)) >> 64) as u64
    }

    /// One in n.
    pub fn one_in(&mut self, n: u64) -> bool {
        self.below(n) == 0
    }

    pub fn pick<T: Copy>(&mut self, from: &[T]) -> T {
        from[self.below(from.len() as u64) as usize]
    }

    pub fn whole(&mut self, from: u64, to: u64) -> f64 {
        (from + self.below(to - from + 1)) as f64
    }

    pub fn between(&mut self, from: f64, to: f64) -> f64 {
        from + (to - from) * ((self.word() >> 11) as f64 / 9007199254740992.0)
    }

    /// From 2^from up to 2^(to + 1), each octave as often as the next.
    pub fn octaves(&mut self, from: i64, to: i64) -> f64 {
        let exponent = (1023 + from) as u64 + self.below((to - from + 1) as u64);
        f64::from_bits((exponent << 52) | (self.word() >> 12))
    }

    pub fn sign(&mut self, x: f64) -> f64 {
        if self.one_in(2) {
            -x
        } else {
            x
        }
    }

    /// x or a neighbour at most `steps` away.
    pub fn beside(&mut self, x: f64, steps: u64) -> f64 {
        let moved = x.to_bits() + self.below(2 * steps + 1);
        float(moved.saturating_sub(steps))
    }

    pub fn any(&mut self) -> f64 {
        float(self.word())
    }

    pub fn nan(&mut self) -> f64 {
        let payload = 1 + self.below((1 << 52) - 1);
        float((self.below(2) << 63) | (0x7ff << 52) | payload)
    }

    pub fn infinity(&mut self) -> f64 {
        self.sign(f64::INFINITY)
    }

    pub fn subnormal(&mut self) -> f64 {
        let digits = (1 + self.below((1 << 52) - 1)) >> self.below(52);
        let x = f64::from_bits(digits.max(1));
        self.sign(x)
    }

    pub fn extreme(&mut self) -> f64 {
        let x = match self.below(5) {
            0 => self.octaves(900, 1023),
            1 => self.octaves(-1022, -900),
            2 => self.octaves(30, 70),
            3 => self.pick(&EDGES),
            _ => {
                let edge = self.pick(&EDGES);
                self.beside(edge, 3)
            }
        };
        self.sign(x)
    }

    // ---- ordinary parameters

    pub fn mean(&mut self) -> f64 {
        if self.one_in(10) {
            self.octaves(-10, -1)
        } else {
            self.octaves(0, 10)
        }
    }

    pub fn dispersion(&mut self) -> f64 {
        if self.one_in(5) {
            1.0
        } else {
            1.0 + self.octaves(-10, 5)
        }
    }

    /// Within a few neighbours of 1 + 1e-9, where a lobe turns from a Poisson into a negative binomial.
    pub fn nearly_poisson(&mut self) -> f64 {
        self.beside(1.0 + 1e-9, 4)
    }

    /// Above 1 by little: the lobe's size r is large, and its log-gammas cancel.
    pub fn little_dispersion(&mut self) -> f64 {
        1.0 + self.octaves(-29, -11)
    }

    pub fn count(&mut self) -> f64 {
        if self.one_in(8) {
            self.between(0.0, 300.0)
        } else {
            self.whole(0, 3000)
        }
    }

    /// A log of a probability or of a weight.
    pub fn log(&mut self) -> f64 {
        match self.below(8) {
            0 => -self.octaves(-40, -1),
            1 => self.between(0.0, 20.0),
            2 => -self.between(0.0, 800.0),
            _ => -self.between(0.0, 60.0),
        }
    }

    pub fn share(&mut self) -> f64 {
        self.between(0.0, 0.5)
    }

    pub fn alpha(&mut self) -> f64 {
        self.between(1.0, 20.0)
    }

    pub fn beta(&mut self) -> f64 {
        self.octaves(-3, 4)
    }

    /// A small window end, of 3 or more.
    pub fn window(&mut self) -> u64 {
        3 + self.below(30)
    }

    /// A window end that is refused with number 2.
    pub fn window_too_far(&mut self) -> u64 {
        match self.below(4) {
            0 => 65536 + self.below(4),
            1 => u64::MAX - self.below(4),
            2 => 1 << (16 + self.below(48)),
            _ => 65536 + self.below(1 << 40),
        }
    }

    /// One of the two families.
    pub fn family(&mut self) -> u8 {
        self.below(2) as u8
    }

    /// Absent once in four times; any other number is presence.
    pub fn presence(&mut self) -> u64 {
        if self.one_in(4) {
            0
        } else {
            self.present()
        }
    }

    pub fn present(&mut self) -> u64 {
        if self.one_in(2) {
            1
        } else {
            1 + self.below(255)
        }
    }
}
