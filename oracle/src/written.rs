//! The four routines as docs/ROUTINES.md writes them, step by step, with the constants and the tables read off that page.
//! They are written from the page and not from the port, so that the page, the definition, is compared too.

use std::collections::HashMap;
use std::sync::OnceLock;

/// The patterns of each table row of the page, by its section and its first cell.
struct Page(HashMap<(String, String), Vec<u64>>);

impl Page {
    fn read(text: &str) -> Page {
        let mut rows = HashMap::new();
        let mut section = String::new();
        for line in text.lines() {
            if let Some(name) = line.strip_prefix("## ") {
                section = name.into();
            }
            let cells: Vec<&str> = line.split('|').map(str::trim).collect();
            if cells.len() > 3 {
                let pattern = |cell: &&str| u64::from_str_radix(cell.strip_prefix("`0x")?.strip_suffix('`')?, 16).ok();
                rows.insert((section.clone(), cells[1].into()), cells.iter().filter_map(pattern).collect());
            }
        }
        Page(rows)
    }

    fn row(&self, section: &str, name: &str) -> &[u64] {
        &self.0[&(section.into(), name.into())]
    }

    fn constant(&self, section: &str, name: &str) -> f64 {
        f64::from_bits(self.row(section, name)[0])
    }

    fn table<const N: usize, const ROWS: usize>(&self, section: &str) -> [[f64; N]; ROWS] {
        std::array::from_fn(|i| {
            let row = self.row(section, &i.to_string());
            assert_eq!(row.len(), N, "{section}, row {i}");
            std::array::from_fn(|j| f64::from_bits(row[j]))
        })
    }
}

struct Constants {
    per_step: f64,
    step_high: f64,
    step_low: f64,
    exp_shift: f64,
    exp_least: f64,
    exp_most: f64,
    c: [f64; 4],
    expm1_shift: f64,
    expm1_least: f64,
    expm1_most: f64,
    ln2: [f64; 2],
    normal: f64,
    largest: f64,
    scale: f64,
    bias: f64,
    offset: u64,
    scaled_offset: u64,
    b: [f64; 5],
    s: [f64; 7],
    stirling_constant: f64,
    powers: [[f64; 2]; 32],
    pieces: [[f64; 4]; 128],
}

fn constants() -> &'static Constants {
    static READ: OnceLock<Constants> = OnceLock::new();
    READ.get_or_init(|| {
        let page = Page::read(include_str!("../../docs/ROUTINES.md"));
        Constants {
            per_step: page.constant("exp", "PER_STEP"),
            step_high: page.constant("exp", "STEP_HIGH"),
            step_low: page.constant("exp", "STEP_LOW"),
            exp_shift: page.constant("exp", "SHIFT"),
            exp_least: page.constant("exp", "LEAST"),
            exp_most: page.constant("exp", "MOST"),
            c: ["C3", "C4", "C5", "C6"].map(|name| page.constant("exp", name)),
            expm1_shift: page.constant("expm1", "SHIFT"),
            expm1_least: page.constant("expm1", "LEAST"),
            expm1_most: page.constant("expm1", "MOST"),
            ln2: ["LN2_HIGH", "LN2_LOW"].map(|name| page.constant("ln", name)),
            normal: page.constant("ln", "NORMAL"),
            largest: page.constant("ln", "LARGEST"),
            scale: page.constant("ln", "SCALE"),
            bias: page.constant("ln", "BIAS"),
            offset: page.row("ln", "OFFSET")[0],
            scaled_offset: page.row("ln", "SCALED_OFFSET")[0],
            b: ["B1", "B2", "B3", "B4", "B5"].map(|name| page.constant("ln", name)),
            s: ["S0", "S1", "S2", "S3", "S4", "S5", "S6"].map(|name| page.constant("lgamma", name)),
            stirling_constant: page.constant("lgamma", "STIRLING_CONSTANT"),
            powers: page.table("exp's table"),
            pieces: page.table("ln's table"),
        }
    })
}

/// Row i of exp's table: T and D.
pub fn power(i: u64) -> [f64; 2] {
    constants().powers[(i % 32) as usize]
}

/// Row i of ln's table: C, B, H and L.
pub fn piece(i: u64) -> [f64; 4] {
    constants().pieces[(i % 128) as usize]
}

pub fn exp_tail(r: f64) -> f64 {
    let [c3, c4, c5, c6] = constants().c;
    let z = r * r;
    z * ((0.5 + r * c3) + z * ((c4 + r * c5) + z * c6))
}

pub fn held_above(v: f64, b: f64) -> f64 {
    if v > b {
        v
    } else {
        b
    }
}

pub fn held_below(v: f64, b: f64) -> f64 {
    if v < b {
        v
    } else {
        b
    }
}

const OCTAVE: u64 = 1 << 52;

pub fn exp(x: f64) -> f64 {
    let c = constants();
    let t = x * c.per_step + c.exp_shift;
    if !(t >= c.exp_least && t <= c.exp_most) {
        return if x < 0.0 {
            0.0
        } else if x >= 0.0 {
            f64::INFINITY
        } else {
            x
        };
    }
    let k = t - c.exp_shift;
    let r = (x - k * c.step_high) - k * c.step_low;
    let u = t.to_bits();
    let [value, rest] = power(u % 32);
    let m = (u / 32) % 4096;
    let a = f64::from_bits((m / 2) * OCTAVE);
    let b = f64::from_bits((m - m / 2) * OCTAVE);
    let y = value * a;
    let v = (y + y * ((rest + r) + exp_tail(r))) * b;
    if x < 0.0 {
        held_below(held_above(v, 0.0), 1.0)
    } else {
        held_above(v, 1.0)
    }
}

pub fn expm1(x: f64) -> f64 {
    if x == 0.0 {
        return x;
    }
    let c = constants();
    let t = x * c.per_step + c.expm1_shift;
    if !(t >= c.expm1_least && t <= c.expm1_most) {
        return if x < 0.0 {
            -1.0
        } else if x >= 0.0 {
            exp(x)
        } else {
            x
        };
    }
    let k = t - c.expm1_shift;
    let y = x - k * c.step_high;
    let l = k * c.step_low;
    let r = y - l;
    let u = t.to_bits();
    let [value, rest] = power(u % 32);
    let a = f64::from_bits(((u / 32) % 2048) * OCTAVE);
    let big = value * a;
    let small = big * rest;
    let h = exp_tail(r);
    let less = big - 1.0;
    let back = less - big;
    let g = (big - (less - back)) - (1.0 + back);
    let s = less + y;
    let e = y - (s - less);
    let v = s + ((h + (less + small) * (r + h)) + ((e + g) + (small - l)));
    if x < 0.0 {
        held_below(held_above(v, -1.0), 0.0)
    } else {
        held_above(v, 0.0)
    }
}

fn ln_head(r: f64, t: f64) -> f64 {
    let [b1, ..] = constants().b;
    t * (0.5 - r * b1)
}

fn ln_tail(r: f64, t: f64) -> f64 {
    let [_, b2, b3, b4, b5] = constants().b;
    (t * t) * ((r * b3 - b2) - t * (b4 - r * b5))
}

pub fn ln(x: f64) -> f64 {
    let c = constants();
    let (w, offset) = if x >= c.normal {
        if x > c.largest {
            return f64::INFINITY;
        }
        (x, c.offset)
    } else if x > 0.0 {
        (x * c.scale, c.scaled_offset)
    } else {
        return if x == 0.0 { f64::NEG_INFINITY } else { f64::NAN };
    };
    let q = w.to_bits() % (1 << 63) + offset;
    let k = f64::from_bits(0x4330000000000000 + q / OCTAVE) - c.bias;
    let digits = q % OCTAVE;
    let z = f64::from_bits(digits + 0x3fe6b00000000000);
    let [near, inverse, log_high, log_low] = piece((digits / (1 << 45)) % 128);
    let r = (z - near) * inverse;
    let high = k * c.ln2[0] + log_high;
    let sum = high + r;
    let rest = (high - sum) + r;
    let t = r * r;
    let v = sum + ((rest + ((log_low + k * c.ln2[1]) - ln_head(r, t))) + ln_tail(r, t));
    if v * x > v {
        v
    } else {
        0.0
    }
}

fn stirling(x: f64) -> f64 {
    let [s0, s1, s2, s3, s4, s5, s6] = constants().s;
    let i = 1.0 / x;
    let z = i * i;
    let y = z * z;
    let s = (s0 - z * s1) + y * ((s2 - z * s3) + y * ((s4 - z * s5) + y * s6));
    (x - 0.5) * (ln(x) - 1.0) + (constants().stirling_constant + i * s)
}

fn four_up(x: f64) -> f64 {
    let q = x * (x + 3.0);
    stirling(x + 4.0) - ln(q * (q + 2.0))
}

fn above_zero(x: f64) -> f64 {
    if x < 4.0 {
        if x == 1.0 || x == 2.0 {
            return 0.0;
        }
        return four_up(x);
    }
    stirling(x)
}

pub fn lgamma(x: f64) -> f64 {
    if !(x <= 0.0) {
        return above_zero(x);
    }
    let a = -x;
    let n = a.floor();
    if n == a {
        return f64::INFINITY;
    }
    let f = a - n;
    (above_zero(f) + above_zero(1.0 - f)) - above_zero(1.0 + a)
}
