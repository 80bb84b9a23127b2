//! Call lines, answers, and the checker.

use second::answer::answer;
use second::calls;
use second::check::{answer_all, check};
use std::collections::HashMap;

/// Answers worked out from document 01 by hand.
#[test]
fn answers() {
    let zeros = |count| "0".repeat(count);
    let bit_44 = format!("{}10001000011101010001{}", zeros(43), zeros(14));
    let cleared = format!("{}00000000011101010001{}", zeros(43), zeros(14));
    let five = format!("{}00000000001101010001{}", zeros(43), zeros(14));
    let z77 = zeros(77);
    let (none, of_16) = ("08".repeat(32), zeros(128));
    let six_words = format!("{none} {none} 00 00 {} {}", zeros(64), zeros(512));
    let fresh = format!("{six_words} 0 0 {of_16} {of_16} {of_16}");
    let wrong = fresh.replacen("08", "09", 1);
    let opened = fresh.replacen(" 00 00 ", " 01 00 ", 1);
    let last = fresh.replacen(" 00 00 ", " 08 08 ", 1);
    // Two taken, with 1 to 16 blocks mended and none bad, and so many lost; the last programme with one more.
    let row = |number: fn(u32) -> u32| -> String {
        let numbers = (1..=16).map(|p| format!("{:08x}", number(p)));
        numbers.collect()
    };
    let (clean, mended) = (row(|p| 128 - p), row(|p| p));
    let more = format!("{}11", &mended[..126]);
    let counted = |lost: u64| format!("{six_words} 2 {lost} {clean} {mended} {of_16}");
    let off = |lost: u64| format!("{six_words} 2 {lost} {clean} {more} {of_16}");
    // Channels 29 to 32 have 1, 2, 3, 4 as their last character.
    let label = |channel: u8| format!("{}{:02x}", zeros(14), channel.saturating_sub(28));
    let labels: String = (1..=32).map(label).collect();
    let cases = [
        ("bwrite 0 0 0 8 0 0".to_string(), format!("0 {bit_44}")),
        ("bwrite 0 0 0 8192 0 0".to_string(), "2".to_string()),
        ("bwrite 0 0 0 0 2 0".to_string(), "2".to_string()),
        (format!("bread 2 {bit_44}"), format!("0 0 {bit_44}")),
        (format!("bread 3 {bit_44}"), format!("0 0 {bit_44}")),
        (format!("bread 2 1{}", zeros(76)), format!("0 1 {z77}")),
        (format!("bread 3 1{}", zeros(76)), format!("0 1 {z77}")),
        (format!("bread 2 {cleared}"), format!("0 2 {bit_44}")),
        (format!("bread 3 {cleared}"), format!("0 2 {bit_44}")),
        (
            format!("bread 2 111{}", zeros(74)),
            format!("0 4 111{}", zeros(74)),
        ),
        (format!("bread 3 111{}", zeros(74)), format!("0 3 {z77}")),
        (
            format!("bread 3 1111{}", zeros(73)),
            format!("0 4 1111{}", zeros(73)),
        ),
        // Five of the eight ones of a code word: the other three are turned, though five were wrong.
        (format!("bread 2 {five}"), format!("0 4 {five}")),
        (format!("bread 3 {five}"), format!("0 3 {bit_44}")),
        (format!("bread 2 2{}", zeros(76)), "2".to_string()),
        (format!("bread 3 2{}", zeros(76)), "2".to_string()),
        (format!("bread 1 {bit_44}"), "2".to_string()),
        (format!("bread 4 {bit_44}"), "2".to_string()),
        (format!("bread 0 2{}", zeros(76)), "2".to_string()),
        (
            format!("bcodes 1{}1", zeros(75)),
            "0 -8192 0 0 0 0 1".to_string(),
        ),
        (
            format!("fwrite a 1 {z77} {z77} {z77} {z77} 40 255"),
            format!("0 e25{}", zeros(77)),
        ),
        (
            format!("fwrite b 1 {z77} {z77} {z77} {z77} 40 255"),
            format!("0 1da{}", zeros(77)),
        ),
        (
            format!("fwrite b 2 {z77} {z77} {z77} {z77} 2 165"),
            "1 a5a5".to_string(),
        ),
        (
            format!("fwrite b 2 {z77} {z77} {z77} {z77} 0 165"),
            "1 -".to_string(),
        ),
        (
            format!("fwrite a 2 {z77} {z77} {z77} {z77} 40 1"),
            format!("2 {}", "01".repeat(40)),
        ),
        (
            format!("fread a e25{}", zeros(77)),
            format!("0 0 1 {z77} {z77} {z77} {z77}"),
        ),
        (
            format!("fread a 225{}", zeros(77)),
            format!("0 2 1 {z77} {z77} {z77} {z77}"),
        ),
        (format!("fread a 025{}", zeros(77)), "3".to_string()),
        (
            format!("fread b 1db{}", zeros(77)),
            format!("0 0 0 {z77} {z77} {z77} {z77}"),
        ),
        (format!("fread b e25{}", zeros(77)), "3".to_string()),
        ("fread a e25000".to_string(), "1".to_string()),
        ("fread a -".to_string(), "1".to_string()),
        ("code -256 7".to_string(), "0 -8192".to_string()),
        ("code 256 7".to_string(), "2".to_string()),
        ("sample -1 0".to_string(), "0 -4".to_string()),
        ("sample -1 8".to_string(), "2".to_string()),
        // -1 gives -1, 0 gives 0: 32767 * 31 + 32768.
        ("codes 0 -1 2".to_string(), "0 1048545".to_string()),
        ("codes 8 -1 1".to_string(), "0 65538".to_string()),
        (
            "samples 7 8191 2".to_string(),
            format!("0 {}", (255 + 32768) * 31 + 65538),
        ),
        ("samples 7 0 0".to_string(), "0 0".to_string()),
        (format!("factor -257{}", " 0".repeat(63)), "0 6".to_string()),
        ("factor 0".to_string(), "1".to_string()),
        ("factor -".to_string(), "1".to_string()),
        ("swrite 0 1".to_string(), "0 00000111010001".to_string()),
        ("swrite 0 8".to_string(), "2".to_string()),
        (
            format!("sread {}", "00001001110011".repeat(3)),
            "0 0 2 0".to_string(),
        ),
        (
            format!("sread {}1111111", "00001001110011".repeat(2) + &zeros(7)),
            "0 0 2 3".to_string(),
        ),
        // Factors 0 and 1 have five ones: seven and eight of 15 places.
        (
            format!("sread 0000011101000100000110000000{}", zeros(14)),
            "0 0 0 7".to_string(),
        ),
        (
            format!("sread 0000011101000100000111000000{}", zeros(14)),
            "0 0 1 7".to_string(),
        ),
        // Factors 0 and 2 have six.
        (
            format!("sread 0000100111001100001001010000{}", zeros(14)),
            "5".to_string(),
        ),
        (format!("sread {}", "1".repeat(42)), "5".to_string()),
        (format!("sread {}7", zeros(41)), "2".to_string()),
        (format!("sread {}7", "1".repeat(41)), "2".to_string()),
        (format!("sextra {}1", zeros(63)), "0 0 0 0 1".to_string()),
        (
            format!("sextra 1{}1{}1", zeros(40), zeros(21)),
            "0 0 0 2 1".to_string(),
        ),
        (
            format!("sextra {}", "1".repeat(64)),
            "5 4194303".to_string(),
        ),
        (format!("sextra {}3", zeros(63)), "2".to_string()),
        ("pread 170".to_string(), "0 10 1 1".to_string()),
        ("pread 171".to_string(), "6".to_string()),
        ("pwrite 10 1 1".to_string(), "0 170".to_string()),
        ("pwrite 10 1 4".to_string(), "2".to_string()),
        ("name 4".to_string(), "0 53504f5254202020".to_string()),
        ("name 16".to_string(), "2".to_string()),
        (
            "header 00000002000000100000000000000000".to_string(),
            "0 2 16".to_string(),
        ),
        (
            "header 000000020000000f0000000000000000".to_string(),
            "8".to_string(),
        ),
        ("header -".to_string(), "8".to_string()),
        ("run 0".to_string(), "0 0".to_string()),
        ("run 20480".to_string(), "0 4".to_string()),
        ("run 5119".to_string(), "1".to_string()),
        ("part 10240 2".to_string(), "0 5120 5120".to_string()),
        ("part 10240 1".to_string(), "0 5120 0".to_string()),
        ("part 10240 3".to_string(), "2 0".to_string()),
        ("part 10241 0".to_string(), "1 0".to_string()),
        ("fresh".to_string(), format!("0 {fresh}")),
        (
            format!("lose {last}"),
            format!("0 {}", fresh.replacen(" 0 0 ", " 0 1 ", 1)),
        ),
        (format!("lose {wrong}"), format!("2 {wrong}")),
        (format!("lose {}", counted(9)), format!("0 {}", counted(10))),
        (
            format!("lose {}", counted(999_997)),
            format!("0 {}", counted(999_998)),
        ),
        (
            format!("lose {}", counted(999_998)),
            format!("9 {}", counted(999_998)),
        ),
        (
            format!("lose {}", counted(999_999)),
            format!("2 {}", counted(999_999)),
        ),
        (
            format!("lose {}", counted(4_294_967_295)),
            format!("2 {}", counted(4_294_967_295)),
        ),
        (format!("lose {}", off(9)), format!("2 {}", off(9))),
        (
            format!("lose {}", off(999_998)),
            format!("2 {}", off(999_998)),
        ),
        (format!("reset {last}"), format!("0 {last}")),
        (format!("reset {wrong}"), format!("2 {wrong}")),
        (format!("reset {}", counted(9)), format!("0 {fresh}")),
        (format!("reset {}", counted(999_998)), format!("0 {fresh}")),
        (
            format!("reset {}", counted(999_999)),
            format!("2 {}", counted(999_999)),
        ),
        (format!("reset {}", off(0)), format!("2 {}", off(0))),
        (
            format!("service {} 010203040506 0000010111001110", counted(999_998)),
            format!("0 0 7 - {}", counted(999_998)),
        ),
        (
            format!("service {} 010203040506 0000010111001111", off(1)),
            format!("2 {}", off(1)),
        ),
        (
            format!("service {fresh} 010203040506 0000010111001111"),
            format!("0 0 0 - {opened}"),
        ),
        (
            format!("service {fresh} 010203040506 0000010111001110"),
            format!("0 0 7 - {fresh}"),
        ),
        (
            format!("service {last} 010203040506 0000010111001111"),
            format!("0 8 0 {labels} {opened}"),
        ),
        (
            format!("service {wrong} 010203040506 0000010111001111"),
            format!("2 {wrong}"),
        ),
    ];
    for (call, expected) in cases {
        assert_eq!(answer(&call), Some(expected), "{call}");
    }
}

fn answered(lines: impl Iterator<Item = String>) -> String {
    let calls: String = lines.map(|line| line + "\n").collect();
    let mut text = Vec::new();
    answer_all(calls.as_bytes(), &mut text).unwrap();
    String::from_utf8(text).unwrap()
}

fn verdict(text: &str, calls: Option<&mut dyn Iterator<Item = String>>) -> (bool, String) {
    let mut said = Vec::new();
    let right = check(text.as_bytes(), calls, &mut said).unwrap();
    let said = String::from_utf8(said).unwrap();
    (right, said.lines().last().unwrap_or("").to_string())
}

/// Every function is called, accepted and refused, with lines as long as the README says and no longer.
#[test]
fn lines_cover_the_surface() {
    let text = answered(calls::all()) + &answered(calls::random(1, 5000));
    let mut numbers: HashMap<&str, Vec<&str>> = HashMap::new();
    let mut longest = (0, 0);
    for line in text.lines() {
        let (call, answer) = line.split_once(" = ").unwrap();
        longest = (longest.0.max(call.len()), longest.1.max(line.len()));
        let name = call.split(' ').next().unwrap();
        let number = answer.split(' ').next().unwrap();
        let seen = numbers.entry(name).or_default();
        if !seen.contains(&number) {
            seen.push(number);
        }
    }
    assert_eq!(longest, (1185, 2788));
    for (name, expected) in [
        ("bwrite", "02"),
        ("bread", "02"),
        ("bcodes", "02"),
        ("fwrite", "012"),
        ("fread", "013"),
        ("code", "02"),
        ("sample", "02"),
        ("codes", "0"),
        ("samples", "0"),
        ("factor", "01"),
        ("swrite", "02"),
        ("sread", "025"),
        ("sextra", "025"),
        ("pread", "06"),
        ("pwrite", "02"),
        ("name", "02"),
        ("header", "08"),
        ("run", "01"),
        ("part", "012"),
        ("fresh", "0"),
        ("lose", "029"),
        ("reset", "02"),
        ("service", "02"),
        ("take", "01239"),
    ] {
        for number in expected.chars() {
            let seen = &numbers[name];
            assert!(
                seen.contains(&number.to_string().as_str()),
                "{name} never gave {number}"
            );
        }
    }
}

#[test]
fn unreadable_lines() {
    for line in [
        "",
        " ",
        "x",
        "pread",
        "pread  1",
        "pread 1 ",
        "pread 1 1",
        "pread +1",
        "pread 01",
        "code -0 3",
        "pread 1.0",
        "bread 2",
        "fresh\r",
    ] {
        assert_eq!(answer(line), None, "'{line}'");
    }
    assert_eq!(
        answered(["".to_string(), "x y".to_string()].into_iter()),
        " = ?\nx y = ?\n"
    );
    let mut text = Vec::new();
    answer_all(&b"\xff\xfe\npread 3"[..], &mut text).unwrap();
    assert_eq!(text, b"\xff\xfe = ?\npread 3 = 0 0 0 1\n");
}

#[test]
fn checker_finds_every_wrong_answer() {
    let text = answered(calls::random(7, 300));
    assert_eq!(
        verdict(&text, None),
        (true, "300 lines, 0 wrong".to_string())
    );
    assert!(verdict(&text, Some(&mut calls::random(7, 300))).0);
    // The last letter of each answer turned into another.
    let spoilt: String = text
        .lines()
        .map(|line| {
            let (rest, last) = line.split_at(line.len() - 1);
            format!("{rest}{}\n", if last == "0" { "1" } else { "0" })
        })
        .collect();
    assert_eq!(
        verdict(&spoilt, None),
        (false, "300 lines, 300 wrong".to_string())
    );
    let longer = text.replace('\n', " 0\n");
    assert_eq!(
        verdict(&longer, None),
        (false, "300 lines, 300 wrong".to_string())
    );
    // A line missing, one too many, another order, no line at all, no answer.
    let without_last = &text[..text.trim_end().rfind('\n').unwrap() + 1];
    assert!(verdict(without_last, None).0);
    assert!(!verdict(without_last, Some(&mut calls::random(7, 300))).0);
    assert!(!verdict(&text, Some(&mut calls::random(7, 299))).0);
    assert!(!verdict(&text, Some(&mut calls::random(8, 300))).0);
    assert!(!verdict("", None).0);
    assert!(!verdict("fresh\n", None).0);
}
