//! Samples, codes, factors: all of them.

use second::numbers::Refusal;
use second::sample::{code_of, factor_of, sample_of};

#[test]
fn every_sample_at_every_factor() {
    for factor in 0..=7u8 {
        let limit = 1 << (15 - factor);
        for x in -32800..32800 {
            let code = code_of(x, factor);
            if x < -limit || x >= limit {
                assert_eq!(code, Err(Refusal::Range), "{x} at {factor}");
                continue;
            }
            // x / 2^(2-s) in floating point, which holds these numbers exactly.
            let expected = (f64::from(x) / 2f64.powi(2 - i32::from(factor))).floor();
            let code = code.unwrap();
            assert_eq!(f64::from(code), expected, "{x} at {factor}");
            assert!((-8192..=8191).contains(&code));
            let remainder = match factor {
                0 => x & 3,
                1 => x & 1,
                _ => 0,
            };
            assert_eq!(sample_of(code, factor), Ok(x - remainder));
        }
    }
}

#[test]
fn every_code_at_every_factor() {
    for factor in 0..=7u8 {
        let limit = 1 << (15 - factor);
        for code in -8192..=8191 {
            let sample = sample_of(code, factor).unwrap();
            let expected = (f64::from(code) * 2f64.powi(2 - i32::from(factor))).floor();
            assert_eq!(f64::from(sample), expected, "{code} at {factor}");
            assert!((-limit..limit).contains(&sample));
        }
        assert_eq!(sample_of(-8193, factor), Err(Refusal::Range));
        assert_eq!(sample_of(8192, factor), Err(Refusal::Range));
    }
    for factor in [8, 9, 255] {
        assert_eq!(sample_of(0, factor), Err(Refusal::Range));
        assert_eq!(code_of(0, factor), Err(Refusal::Range));
    }
}

/// Every single sample among zeros, at a wandering place: the largest factor that it fits.
#[test]
fn factor_is_the_largest() {
    for x in i16::MIN..=i16::MAX {
        let mut samples = [0; 64];
        samples[(x as usize) % 64] = x;
        let factor = factor_of(&samples).unwrap();
        assert!(code_of(i32::from(x), factor).is_ok());
        assert!(factor == 7 || code_of(i32::from(x), factor + 1).is_err());
    }
    assert_eq!(factor_of(&[0; 64]), Ok(7));
    for length in [0, 1, 63, 65, 128] {
        assert_eq!(factor_of(&vec![0; length]), Err(Refusal::Length));
    }
}
