//! The folder for the restorers, whole.

use crate::hand::{header, listing, make, reel, transcript_at, Superframe};
use second::hand_on::{self, wav, Order};
use second::reel::End;
use std::collections::BTreeMap;
use std::ffi::{OsStr, OsString};
use std::fs;
use std::io;
use std::os::unix::ffi::OsStrExt;
use std::path::PathBuf;

/// A place for a folder that is not there, and is gone when the test is over.
struct Place(PathBuf);

impl Place {
    fn new(name: &str) -> Place {
        let place = PathBuf::from(env!("CARGO_TARGET_TMPDIR")).join(name);
        let _ = fs::remove_dir_all(&place);
        Place(place)
    }

    fn order(&self) -> Order {
        order(&[self.0.clone().into(), "some.reel".into(), "0123abcd".into()])
    }
}

impl Drop for Place {
    fn drop(&mut self) {
        let _ = fs::remove_dir_all(&self.0);
    }
}

/// What words that make sense ask for.
fn order(words: &[OsString]) -> Order {
    Order::parse(words).unwrap().unwrap()
}

struct Handed {
    end: End,
    files: BTreeMap<String, Vec<u8>>,
}

impl Handed {
    fn text(&self, name: &str) -> &str {
        std::str::from_utf8(&self.files[name]).unwrap()
    }
}

fn hand_on(name: &str, reel: &[u8]) -> Handed {
    hand_on_at(2, name, reel)
}

fn hand_on_at(radius: u8, name: &str, reel: &[u8]) -> Handed {
    let place = Place::new(&format!("{name}-{radius}"));
    let order = Order {
        radius,
        ..place.order()
    };
    let end = hand_on::write(reel, &order).unwrap();
    let mut files = BTreeMap::new();
    for file in fs::read_dir(&place.0).unwrap() {
        let path = file.unwrap().path();
        let name = path.file_name().unwrap().to_str().unwrap().to_string();
        files.insert(name, fs::read(path).unwrap());
    }
    Handed { end, files }
}

/// A superframe with three wrong bits in its last sync.
fn lost() -> Vec<u8> {
    let mut bytes = Superframe::zero().bytes();
    bytes[127 * 40] ^= 7;
    bytes
}

fn good() -> Vec<u8> {
    Superframe::zero().bytes()
}

#[test]
fn files_of_the_folder() {
    let handed = hand_on("files", &make("1 2"));
    let mut names: Vec<String> = Vec::new();
    for programme in 1..=16 {
        for kind in ["labels.txt", "marks.wav", "wav"] {
            names.push(format!("{programme:02}.{kind}"));
        }
    }
    for text in ["about", "listing", "names", "totals", "words"] {
        names.push(format!("{text}.txt"));
    }
    let found: Vec<&String> = handed.files.keys().collect();
    assert_eq!(found, names.iter().collect::<Vec<_>>());
    let about = "reel some.reel\nradius 2\ncommit 0123abcd\n";
    assert_eq!(handed.text("about.txt"), about);
}

/// The reel that samples/ has, with the line that the restorers were shown.
#[test]
fn damaged_sample() {
    let reel = make("1989 6 rate=100@2-3 sync=3@4 burst=5@5");
    let handed = hand_on("damaged", &reel);
    assert_eq!(handed.end, End::Ok);
    assert_eq!(
        handed.text("05.labels.txt"),
        "0.00000000\t0.01200000\tbad 22, no factor 192, lost 64\n"
    );
    let counts = "superframes 6\nlost 1\nsync 0\nclean 1850\nmended 586\nbad 124\nend ok\n";
    assert_eq!(handed.text("listing.txt"), counts);
    assert_eq!(handed.text("names.txt"), "");
}

#[test]
fn same_as_the_transcript() {
    let reel = make("7 12 rate=150@3-9 sync=3@5 tie%50");
    for radius in [2, 3] {
        assert_as_the_transcript(radius, &reel);
    }
}

/// Every sample and every mark as the transcript has it at that radius, and the words; zeros and 255 where a superframe is lost. The
/// listing is that of radius 2.
fn assert_as_the_transcript(radius: u8, reel: &[u8]) {
    let handed = hand_on_at(radius, "transcript", reel);
    let mut sound = vec![wav::header(16, 12 * 64); 16];
    let mut marks = vec![wav::header(8, 12 * 64); 16];
    let mut words = String::new();
    for line in transcript_at(radius, reel).lines() {
        let parts: Vec<&str> = line.split(' ').collect();
        match parts[0] {
            "words" => words += &format!("{line}\n"),
            "marks" => {
                for (c, digit) in parts[2].bytes().enumerate() {
                    marks[c / 2].push(128 + 16 * (digit - b'0'));
                }
            }
            "samples" => {
                for (c, sample) in parts[2..].iter().enumerate() {
                    let two = sample.parse::<i32>().unwrap() & 0xffff;
                    sound[c / 2].extend([(two % 256) as u8, (two / 256) as u8]);
                }
            }
            _ if line.ends_with("number 3") => {
                words += "lost\n";
                sound.iter_mut().for_each(|file| file.extend([0; 256]));
                marks.iter_mut().for_each(|file| file.extend([255; 128]));
            }
            _ => {}
        }
    }
    for p in 0..16 {
        assert_eq!(handed.files[&format!("{:02}.wav", p + 1)], sound[p]);
        assert_eq!(handed.files[&format!("{:02}.marks.wav", p + 1)], marks[p]);
        assert_eq!(marks[p][44..].contains(&192), radius == 3);
    }
    assert_eq!(words.matches("lost").count(), 1);
    assert_eq!(handed.text("words.txt"), words);
    assert_eq!(handed.text("listing.txt"), listing(reel));
    // Each of the blocks that the transcript counts is one of two programmes.
    let sum = |kind: usize| -> u64 {
        let lines = transcript_at(radius, reel);
        let counts = lines
            .lines()
            .filter_map(|line| line.strip_prefix("blocks "));
        counts
            .map(|line| line.split(' ').nth(kind).unwrap().parse::<u64>().unwrap())
            .sum()
    };
    let totals = |kind: usize| -> u64 {
        let lines = handed.text("totals.txt").lines().skip(2).take(16);
        lines
            .map(|line| {
                line.split(' ')
                    .nth(3 + 2 * kind)
                    .unwrap()
                    .parse::<u64>()
                    .unwrap()
            })
            .sum()
    };
    for kind in 0..3 {
        assert_eq!(totals(kind), 2 * sum(kind));
    }
}

/// Blocks with three wrong places: at radius 2 bad and to be heard, at radius 3 mended and no trouble. The listing is the same.
#[test]
fn three_wrong_places_at_each_radius() {
    let mut three = Superframe::zero();
    for (frame, blocks) in three.blocks.iter_mut().enumerate() {
        // The second block of B carries programmes 11 and 12.
        for place in [frame % 63, (frame + 1) % 63, (frame + 20) % 63] {
            blocks[5][place] ^= 1;
        }
    }
    let reel = reel(&[good(), three.bytes(), good(), three.bytes()]);
    let listing = "superframes 4\nlost 0\nsync 0\nclean 1920\nmended 0\nbad 128\nend ok\n";
    let start = "0.00000000\t0.00400000\tno factor 128\n";
    for (radius, mark, lines) in [
        (2, 160, "0.00000000\t0.00800000\tbad 64, no factor 128\n"),
        (3, 192, start),
    ] {
        let handed = hand_on_at(radius, "three", &reel);
        for p in 1..=16 {
            let theirs = p == 11 || p == 12;
            // The second superframe has no factors yet, and mark 3 wins.
            let last = if theirs { mark } else { 128 };
            let marks = [[176; 256].as_slice(), &[128; 128], &[last; 128]].concat();
            assert_eq!(handed.files[&format!("{p:02}.marks.wav")][44..], marks);
            let labels = handed.text(&format!("{p:02}.labels.txt"));
            assert_eq!(labels, if theirs { lines } else { start });
        }
        let about = format!("reel some.reel\nradius {radius}\ncommit 0123abcd\n");
        assert_eq!(handed.text("about.txt"), about);
        assert_eq!(handed.text("listing.txt"), listing);
        // 64 of 256 in each of the two superframes.
        let mut totals = "superframes 4\nlost 0\n".to_string();
        for p in 1..=16 {
            totals += &match (p, radius) {
                (11 | 12, 2) => format!("programme {p} clean 128 mended 0 bad 128\n"),
                (11 | 12, _) => format!("programme {p} clean 128 mended 128 bad 0\n"),
                _ => format!("programme {p} clean 256 mended 0 bad 0\n"),
            };
        }
        assert_eq!(handed.text("totals.txt"), totals + "end ok\n");
        // Mended, the sound is that of the zeros that were sent.
        let sound = &handed.files["11.wav"][44..];
        assert_eq!(sound.iter().all(|byte| *byte == 0), radius == 3);
    }
}

/// One sample of each side, behind a loss: its place in the file is its time.
#[test]
fn time_is_true_behind_a_loss() {
    let sample = Superframe::zero().code(1, 4, 1).code(1, 5, -1).bytes();
    let handed = hand_on("time", &reel(&[good(), good(), lost(), sample]));
    let sound = &handed.files["03.wav"];
    assert_eq!(sound.len(), 44 + 4 * 256);
    // Frame 2 of superframe 4 is pair 193. At factor 0 a code is four times as much as a sample.
    let place = 44 + 4 * 193;
    assert_eq!(sound[place..place + 4], [0x04, 0x00, 0xfc, 0xff]);
    assert!(sound[44..place].iter().all(|byte| *byte == 0));
    assert!(sound[place + 4..].iter().all(|byte| *byte == 0));
    assert!(handed.files["02.wav"][44..].iter().all(|byte| *byte == 0));
    let marks = &handed.files["03.marks.wav"][44..];
    let expected = [[176; 256].as_slice(), &[255; 128], &[128; 128]].concat();
    assert_eq!(marks, expected);
}

/// Between the factors that are missing at the start (pairs 0 to 127) and the next trouble.
#[test]
fn stretches_over_superframes() {
    let start = "0.00000000\t0.00400000\tno factor 128\n";
    // Lost superframe 52 is pair 3264 on, 53 is pair 3328 on: 3,136 and 3,200 untroubled pairs before it.
    for (k, lines) in [
        (52, "0.00000000\t0.10800000\tno factor 192, lost 64\n"),
        (
            53,
            &format!("{start}0.10400000\t0.11000000\tno factor 64, lost 64\n"),
        ),
    ] {
        let mut superframes = vec![good(); 160];
        superframes[k - 1] = lost();
        let handed = hand_on(&format!("lost-{k}"), &reel(&superframes));
        for p in 1..=16 {
            assert_eq!(handed.text(&format!("{p:02}.labels.txt")), lines);
        }
    }
    // A bad block in the last frame of superframe 52, pair 3327, and in the first of superframe 53.
    for (k, frame, lines) in [
        (52, 63, "0.00000000\t0.10400000\tbad 1, no factor 128\n"),
        (53, 0, &format!("{start}0.10400000\t0.10403125\tbad 1\n")),
    ] {
        let mut bad = Superframe::zero();
        // The third block of A carries programmes 5 and 6.
        bad.blocks[frame][2][..3].fill(1);
        let mut superframes = vec![good(); 160];
        superframes[k - 1] = bad.bytes();
        let handed = hand_on(&format!("bad-{k}"), &reel(&superframes));
        for p in 1..=16 {
            let lines = if p == 5 || p == 6 { lines } else { start };
            assert_eq!(handed.text(&format!("{p:02}.labels.txt")), lines);
        }
    }
}

#[test]
fn types_and_labels_of_a_reel() {
    let handed = hand_on("names", &make("5 300 phase=1"));
    let names = handed.text("names.txt");
    // The separator is complete in superframe 64, the group before it in 56, the last characters in 128.
    let kinds: Vec<&str> = names
        .lines()
        .map(|line| &line[..line.find(" channel").unwrap()])
        .collect();
    let expected = [["superframe 56"; 32], ["superframe 128"; 32]].concat();
    assert_eq!(kinds, expected);
    // Nothing new comes, until noise changes characters: those of channels 1L to 2R, once and back.
    let noise = hand_on("noise", &make("5 400 phase=1 chaff@201 sync2@201"));
    let more = noise.text("names.txt").strip_prefix(names).unwrap();
    let places: Vec<String> = more
        .lines()
        .map(|line| line.split(' ').take(5).collect::<Vec<_>>().join(" "))
        .collect();
    let line = |k: u32, channel: &str| format!("superframe {k} channel {channel} label");
    let channels = ["1L", "1R", "2L", "2R"];
    let both = [256, 384].map(|k| channels.map(|channel| line(k, channel)));
    assert_eq!(places, both.concat());
}

#[test]
fn short_reel() {
    let whole = make("3 4 sync=3@2");
    for (length, superframes) in [
        (16, 0),
        (16 + 5119, 0),
        (16 + 5120, 1),
        (16 + 4 * 5120 - 1, 3),
    ] {
        let cut = &whole[..length];
        let handed = hand_on(&format!("short-{length}"), cut);
        assert_eq!(handed.end, End::Short);
        assert_eq!(handed.text("listing.txt"), listing(cut));
        assert!(handed.text("listing.txt").ends_with("end short\n"));
        let lost = usize::from(superframes > 1);
        let clean = 64 * (superframes - lost);
        let mut totals = format!("superframes {superframes}\nlost {lost}\n");
        for p in 1..=16 {
            totals += &format!("programme {p} clean {clean} mended 0 bad 0\n");
        }
        assert_eq!(handed.text("totals.txt"), totals + "end short\n");
        assert_eq!(handed.text("words.txt").lines().count(), superframes);
        let pairs = 64 * superframes;
        let (sound, marks) = (&handed.files["16.wav"], &handed.files["16.marks.wav"]);
        assert_eq!(sound.len(), 44 + 4 * pairs);
        assert_eq!(sound[..44], wav::header(16, pairs as u32));
        assert_eq!(marks.len(), 44 + 2 * pairs);
        assert_eq!(marks[..44], wav::header(8, pairs as u32));
    }
}

#[test]
fn no_superframes() {
    let handed = hand_on("none", &header([0, 16, 0, 0]));
    assert_eq!((handed.end, handed.files.len()), (End::Ok, 53));
    assert_eq!(handed.files["01.wav"], wav::header(16, 0));
    assert_eq!(handed.files["16.marks.wav"], wav::header(8, 0));
    for name in ["01.labels.txt", "names.txt", "words.txt"] {
        assert_eq!(handed.text(name), "");
    }
    let counts = "superframes 0\nlost 0\nsync 0\nclean 0\nmended 0\nbad 0\nend ok\n";
    assert_eq!(handed.text("listing.txt"), counts);
}

#[test]
fn refused_header_leaves_no_folder() {
    let place = Place::new("refused");
    for reel in [header([1, 15, 0, 0]), vec![0; 15]] {
        let end = hand_on::write(&reel[..], &place.order()).unwrap();
        assert_eq!(end, End::Refused);
        assert!(!place.0.exists());
    }
}

#[test]
fn folder_that_is_there_is_not_touched() {
    let place = Place::new("there");
    fs::create_dir(&place.0).unwrap();
    let refuse = || {
        let error = hand_on::write(&make("1 1")[..], &place.order()).unwrap_err();
        assert_eq!(error.kind(), io::ErrorKind::AlreadyExists);
        fs::read_dir(&place.0).unwrap().count()
    };
    assert_eq!(refuse(), 0);
    fs::write(place.0.join("listing.txt"), b"mine").unwrap();
    assert_eq!(refuse(), 1);
    assert_eq!(fs::read(place.0.join("listing.txt")).unwrap(), b"mine");
}

/// A name is bytes, and a slash behind the folder does not count.
#[test]
fn words_as_they_were_given() {
    let place = Place::new("words");
    let mut folder = OsString::from(&place.0);
    folder.push("//");
    let name = OsStr::from_bytes(b"tape \xe4 1").to_os_string();
    let asked = order(&[folder.clone(), name, "c".into()]);
    hand_on::write(&make("1 1")[..], &asked).unwrap();
    let about = fs::read(place.0.join("about.txt")).unwrap();
    assert_eq!(about, b"reel tape \xe4 1\nradius 2\ncommit c\n");
    let asked = order(&[folder.clone()]);
    assert_eq!((asked.name, asked.commit), ("-".into(), "-".into()));
    assert_eq!(asked.radius, 2);
    for count in [0, 2, 5] {
        assert!(Order::parse(&vec![folder.clone(); count]).is_none());
    }
}

#[test]
fn radius_as_it_was_given() {
    let words = |radius: &OsStr| ["f".into(), "n".into(), "c".into(), radius.to_os_string()];
    for (word, radius) in [("2", 2), ("3", 3)] {
        assert_eq!(order(&words(word.as_ref())).radius, radius);
    }
    for word in ["", "0", "1", "4", "02", "+3", "3 ", "-2", "23", "258", "x"] {
        assert!(Order::parse(&words(word.as_ref())).unwrap().is_err());
    }
    let no_text = OsStr::from_bytes(b"3\xff");
    assert!(Order::parse(&words(no_text)).unwrap().is_err());
}
