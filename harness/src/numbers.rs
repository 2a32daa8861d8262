//! Worked numbers, for the program crates/worked_numbers: the answers of its stored output, from Rust's own operations and, for octaves, from the oracle's.
//! A line is a function, its arguments' bits in hex, and the answer; every NaN is 7fc00000.

use std::process::ExitCode;

use oracle::octaves::octaves;

fn bits(x: f32) -> String {
    format!("{:08x}", if x.is_nan() { 0x7fc0_0000 } else { x.to_bits() })
}

/// A number that is taken, and what it is read as: +0 where it is not finite.
fn taken(x: f32) -> String {
    if x.is_finite() { format!("{} {}", bits(x), bits(x)) } else { "not 00000000".to_string() }
}

/// Held between min and max; min for NaN.
fn bound(min: f32, val: f32, max: f32) -> f32 {
    match val {
        v if v > max => max,
        v if v >= min => v,
        _ => min,
    }
}

/// Near zero, finite, positive, sign. A NaN has no sign.
fn tests(x: f32) -> String {
    let near = x == 0.0 || (1..=4).contains(&x.to_bits());
    let sign = x.is_sign_negative() && !x.is_nan();
    format!("{} {} {} {}", near, x.is_finite(), x.is_finite() && x >= 0.0, sign)
}

/// How many arguments the function has, and its answer. None: no function of numbers alone.
fn answer(words: &[&str]) -> Option<(usize, String)> {
    let wide = || u64::from_str_radix(words.get(1)?, 16).ok().map(f64::from_bits);
    let single = |i: usize| u32::from_str_radix(words.get(i)?, 16).ok().map(f32::from_bits);
    let x = || single(1);
    Some(match *words.first()? {
        "narrow" => (1, bits(wide()? as f32)),
        "f64_to_i32" => (1, (wide()? as i32).to_string()),
        "take_number" => (1, taken(wide()? as f32)),
        "f32_to_i32" => (1, (x()? as i32).to_string()),
        "round_f32" => (1, bits(x()?.round())),
        "octaves" => (1, octaves(x()?).to_string()),
        "take_single" => (1, taken(x()?)),
        "tests" => (1, tests(x()?)),
        "f32_bound" => (3, bits(bound(x()?, single(2)?, single(3)?))),
        _ => return None,
    })
}

/// Writes stdout of the crate in this folder again, and says how many answers moved.
pub fn numbers(folder: &str) -> Option<ExitCode> {
    let path = std::path::Path::new(folder).join("stdout");
    let before = std::fs::read_to_string(&path).expect("stdout can be read");
    let (mut after, mut worked, mut moved) = (String::new(), 0, 0);
    for line in before.lines() {
        let words: Vec<&str> = line.split(' ').collect();
        let now = match answer(&words) {
            Some((n, answer)) => {
                worked += 1;
                format!("{} {}", words[..=n].join(" "), answer)
            }
            None => line.to_string(),
        };
        if now != line {
            moved += 1;
            println!("{} -> {}", line, now);
        }
        after += &now;
        after.push('\n');
    }
    println!(
        "{} answers worked out, {} moved, {} lines kept as they are",
        worked,
        moved,
        before.lines().count() - worked
    );
    std::fs::write(&path, after).expect("stdout can be written");
    Some(ExitCode::SUCCESS)
}
