//! Programme bytes and names.

use second::numbers::Refusal;
use second::programme::{name_of, read, write, Programme};

#[test]
fn every_byte() {
    for byte in 0..=255u8 {
        let digits = format!("{byte:08b}");
        let ones = digits.matches('1').count();
        let part = |from, to| u8::from_str_radix(&digits[from..to], 2).unwrap();
        let expected = if ones % 2 == 0 {
            Ok(Programme {
                kind: part(0, 4),
                music: part(4, 5),
                mode: part(5, 7),
            })
        } else {
            Err(Refusal::Parity)
        };
        assert_eq!(read(byte), expected);
        if let Ok(programme) = expected {
            assert_eq!(write(programme), Ok(byte));
        }
    }
}

#[test]
fn out_of_range() {
    for (kind, music, mode) in [(16, 0, 0), (0, 2, 0), (0, 0, 4), (255, 255, 255)] {
        assert_eq!(write(Programme { kind, music, mode }), Err(Refusal::Range));
    }
    for kind in 16..=255 {
        assert_eq!(name_of(kind), Err(Refusal::Range));
    }
}

#[test]
fn names() {
    let all = "KEINE   NACHRICHPOLITIK SPEZWORTSPORT   LERNEN  HOER+LITKULTUR  \
               WISSEN  UNTERHALPOP     ROCK    U-MUSIK L-KLASS E-KLASS SPEZ MUS";
    let names: String = (0..16).map(|kind| name_of(kind).unwrap()).collect();
    assert_eq!(names, all);
}
