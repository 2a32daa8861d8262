//! Function records: random ones, damaged ones, and those at each boundary.

use crate::rng::Rng;
use crate::values::{EDGES, NOT_FINITE, NOT_FINITE_64, double, number};

/// View box width, dpi, font size; code; what follows the code.
fn record(head: [u32; 3], code: u8, rest: &[u8]) -> Vec<u8> {
    let mut r: Vec<u8> = head.iter().flat_map(|n| n.to_le_bytes()).collect();
    r.push(code);
    r.extend(rest);
    r
}

const HEAD: [u32; 3] = [0x42c8_0000, 0x42c0_0000, 0x4180_0000];

fn length(unit: u8, bits: u64) -> Vec<u8> {
    let mut v = vec![unit];
    v.extend(bits.to_le_bytes());
    v
}

fn above_zero(rng: &mut Rng) -> u32 {
    loop {
        let bits = number(rng);
        if f32::from_bits(bits) > 0.0 && f32::from_bits(bits) < f32::MAX {
            return bits;
        }
    }
}

fn amount(rng: &mut Rng) -> u64 {
    match rng.below(4) {
        0 => rng.unit().to_bits(),
        1 => (rng.within(-4, 40) as f64 / 8.0).to_bits(),
        _ => double(rng),
    }
}

/// A random record that is taken.
pub fn random(rng: &mut Rng) -> Vec<u8> {
    let head = [above_zero(rng), above_zero(rng), number(rng) & 0x7fff_ffff];
    let code = rng.below(10) as u8;
    let mut rest = Vec::new();
    match code {
        0..=7 => rest.extend(amount(rng).to_le_bytes()),
        8 => rest = length(rng.below(10) as u8, double(rng)),
        _ => {
            let flag = rng.below(2) as u8;
            rest.push(flag);
            let color = rng.next().to_le_bytes();
            rest.extend(if flag == 1 { &color[..4] } else { &[0; 4] });
            rest.extend(&color[4..]);
            for _ in 0..3 {
                rest.extend(length(rng.below(10) as u8, double(rng)));
            }
        }
    }
    record(head, code, &rest)
}

pub struct Rule {
    pub name: &'static str,
    pub number: u8,
    pub break_it: fn(&mut Vec<u8>, &mut Rng),
}

/// A sound record of this code in place of the given one.
fn of_code(r: &mut Vec<u8>, rng: &mut Rng, fit: impl Fn(u8) -> bool) {
    while !fit(r[12]) {
        *r = random(rng);
    }
}

/// Where the lengths stand.
fn units(code: u8) -> &'static [usize] {
    if code == 8 { &[13] } else { &[22, 31, 40] }
}

pub static RULES: &[Rule] = &[
    Rule { name: "function: record cut", number: 2, break_it: |r, rng| r.truncate(rng.below(r.len())) },
    Rule {
        name: "function: record with a tail",
        number: 2,
        break_it: |r, rng| r.resize(r.len() + 1 + rng.below(30), 0),
    },
    Rule {
        name: "function: code above 9",
        number: 2,
        break_it: |r, rng| r[12] = if rng.percent(50) { 10 } else { rng.within(10, 255) as u8 },
    },
    Rule {
        name: "function: code of another length",
        number: 2,
        break_it: |r, _| r[12] = if r[12] == 8 { 9 } else { 8 },
    },
    Rule {
        name: "function: unit above 9",
        number: 2,
        break_it: |r, rng| {
            of_code(r, rng, |c| c > 7);
            let at = *rng.pick(units(r[12]));
            r[at] = *rng.pick(&[10, 11, 254, 255, 128]);
        },
    },
    Rule {
        name: "function: colour flag above 1",
        number: 2,
        break_it: |r, rng| {
            of_code(r, rng, |c| c == 9);
            r[13] = rng.within(2, 255) as u8;
        },
    },
    Rule {
        name: "function: bits of an absent colour",
        number: 2,
        break_it: |r, rng| {
            of_code(r, rng, |c| c == 9);
            r[13] = 0;
            r[14..18].fill(0);
            r[14 + rng.below(4)] = 1 << rng.below(8);
        },
    },
    Rule {
        name: "function: view box width not above 0, or the largest, or not finite",
        number: 3,
        break_it: |r, rng| {
            let bad = *rng.pick(NOT_FINITE);
            let bad = *rng.pick(&[0, 0x8000_0000, 0xbf80_0000, 0x7f7f_ffff, bad]);
            r[..4].copy_from_slice(&bad.to_le_bytes());
        },
    },
    Rule {
        name: "function: dpi not above 0, or not finite",
        number: 3,
        break_it: |r, rng| {
            let bad = *rng.pick(NOT_FINITE);
            let bad = *rng.pick(&[0, 0x8000_0000, 0xbf80_0000, bad]);
            r[4..8].copy_from_slice(&bad.to_le_bytes());
        },
    },
    Rule {
        name: "function: font size below 0, or not finite",
        number: 3,
        break_it: |r, rng| {
            let bad = *rng.pick(NOT_FINITE);
            let bad = *rng.pick(&[0x8000_0001, 0xbf80_0000, bad]);
            r[8..12].copy_from_slice(&bad.to_le_bytes());
        },
    },
    Rule {
        name: "function: number not finite, or beyond f32",
        number: 3,
        break_it: |r, rng| {
            let at = match r[12] {
                0..=7 => 13,
                code => 1 + *rng.pick(units(code)),
            };
            r[at..at + 8].copy_from_slice(&rng.pick(NOT_FINITE_64).to_le_bytes());
        },
    },
];

/// Records made by rule, the same in every run.
pub fn corners() -> Vec<Vec<u8>> {
    let mut all = Vec::new();
    for code in 0..=12 {
        for n in 0..=40 {
            all.push(record(HEAD, code, &vec![0; n]));
        }
    }
    for n in 0..13 {
        all.push(vec![0; n]);
    }
    let mut doubles: Vec<u64> = EDGES.iter().map(|b| f64::from(f32::from_bits(*b)).to_bits()).collect();
    doubles.extend(NOT_FINITE_64);
    doubles.extend([0x47ef_ffff_efff_ffff, 0xc7ef_ffff_efff_ffff, 1, 0x3ff0_0000_0000_0001, 0x3fef_ffff_ffff_ffff]);
    doubles.extend((0..=20).map(|i| (i as f64 / 20.0).to_bits()));
    for d in &doubles {
        for code in 0..=7 {
            all.push(record(HEAD, code, &d.to_le_bytes()));
        }
        for unit in 0..=9 {
            all.push(record(HEAD, 8, &length(unit, *d)));
            for place in 0..3 {
                let mut rest = vec![1, 9, 8, 7, 128, 1, 2, 3, 4];
                for i in 0..3 {
                    rest.extend(if i == place { length(unit, *d) } else { length(0, 1.5f64.to_bits()) });
                }
                all.push(record(HEAD, 9, &rest));
            }
        }
    }
    for b in EDGES.iter().chain(NOT_FINITE) {
        for i in 0..3 {
            let mut head = HEAD;
            head[i] = *b;
            all.push(record(head, 0, &0.5f64.to_le_bytes()));
            all.push(record(head, 8, &length([9, 4, 1][i], 3f64.to_bits())));
        }
    }
    for b in 0..=255 {
        all.push(record(HEAD, 8, &length(b, 1f64.to_bits())));
        for at in [0, 1, 4, 8, 9, 18, 27] {
            let mut rest = vec![0; 36];
            rest[at] = b;
            all.push(record(HEAD, 9, &rest));
            rest[0] = 1;
            all.push(record(HEAD, 9, &rest));
        }
    }
    all
}
