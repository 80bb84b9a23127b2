//! Samples, codes and factors (document 01, "Samples" and "Scale words").

use crate::numbers::Refusal;

/// Does the sample lie from -2^(15-s) to 2^(15-s)-1?
fn fits(sample: i32, factor: u8) -> bool {
    let limit = 1 << (15 - factor);
    -limit <= sample && sample < limit
}

/// `number` divided by 2^`power`, rounded down; `div_euclid` rounds down for a divisor above 0.
fn divided(number: i32, power: u8) -> i32 {
    number.div_euclid(1 << power)
}

pub fn code_of(sample: i32, factor: u8) -> Result<i32, Refusal> {
    if factor > 7 || !fits(sample, factor) {
        return Err(Refusal::Range);
    }
    Ok(match factor {
        0..=2 => divided(sample, 2 - factor),
        _ => sample * (1 << (factor - 2)),
    })
}

pub fn sample_of(code: i32, factor: u8) -> Result<i32, Refusal> {
    if factor > 7 || !(-8192..=8191).contains(&code) {
        return Err(Refusal::Range);
    }
    Ok(match factor {
        0..=2 => code * (1 << (2 - factor)),
        _ => divided(code, factor - 2),
    })
}

/// The largest factor that all of 64 samples fit. Any 16-bit sample fits 0.
pub fn factor_of(samples: &[i16]) -> Result<u8, Refusal> {
    if samples.len() != 64 {
        return Err(Refusal::Length);
    }
    let all_fit = |factor: &u8| samples.iter().all(|x| fits(i32::from(*x), *factor));
    Ok((0..=7).rev().find(all_fit).unwrap_or(0))
}
