//! Superframes and reels put together by hand, frame by frame.

use second::bits;
use second::block::{self, Block, Content};
use second::frame::{self, Letter};
use second::superframe::{self, State};

pub const SYNC_1: &str = "0000010111001111";
pub const SYNC_2: &str = "0000010111111111";
/// One wrong bit away from either.
pub const NEITHER: &str = "0000010111011111";

/// A superframe whose parts are all 0: every block a code word, every factor 0.
pub struct Superframe {
    /// For frame 1 to 64 (counted from 0) the eight blocks, four of A and four of B.
    pub blocks: Vec<[Block; 8]>,
    pub six: [u8; 6],
    pub sync: &'static str,
}

impl Superframe {
    pub fn zero() -> Superframe {
        Superframe {
            blocks: vec![[[0; block::LENGTH]; 8]; 64],
            six: [0; 6],
            sync: SYNC_1,
        }
    }

    /// Writes one code into its block, counted from 0, leaving the others of that block 0.
    pub fn code(mut self, frame: usize, channel: usize, code: i32) -> Superframe {
        let mut content = block::content(&self.blocks[frame][channel / 4]).unwrap();
        content.codes[channel % 4] = code;
        self.blocks[frame][channel / 4] = block::write(&content).unwrap();
        self
    }

    /// Writes the 64 extra bits of a programme, counted from 0, leaving the rest of each block.
    pub fn extra(mut self, programme: usize, digits: &str) -> Superframe {
        for (frame, bit) in bits::of_text(digits).into_iter().enumerate() {
            self.blocks[frame][programme / 2][75 + programme % 2] = bit;
        }
        self
    }

    /// The same scale word three times, and the information word.
    pub fn scale(self, programme: usize, word: &str, information: &str) -> Superframe {
        self.extra(programme, &format!("{word}{word}{word}{information}"))
    }

    pub fn bytes(&self) -> Vec<u8> {
        let service = [bits::of_bytes(&self.six), bits::of_text(self.sync)].concat();
        let mut bytes = Vec::new();
        for (letter, first) in [(Letter::A, 0), (Letter::B, 4)] {
            for (blocks, service) in self.blocks.iter().zip(&service) {
                let four: [Block; 4] = std::array::from_fn(|b| blocks[first + b]);
                let mut forty = [0; 40];
                frame::write(letter, *service, &four, &mut forty).unwrap();
                bytes.extend(forty);
            }
        }
        bytes
    }
}

pub fn header(fields: [u32; 4]) -> Vec<u8> {
    fields.map(u32::to_be_bytes).concat()
}

/// A right header and these superframes.
pub fn reel(superframes: &[Vec<u8>]) -> Vec<u8> {
    let header = header([superframes.len() as u32, 16, 0, 0]);
    [header, superframes.concat()].concat()
}

pub fn listing(reel: &[u8]) -> String {
    let mut text = Vec::new();
    second::listing::list(reel, &mut text).unwrap();
    String::from_utf8(text).unwrap()
}

pub fn transcript(reel: &[u8]) -> String {
    transcript_at(2, reel)
}

pub fn transcript_at(radius: u8, reel: &[u8]) -> String {
    let mut text = Vec::new();
    second::transcript::write(radius, reel, &mut text).unwrap();
    String::from_utf8(text).unwrap()
}

/// A reel as `second make` writes it.
pub fn make(words: &str) -> Vec<u8> {
    let words: Vec<String> = words.split(' ').map(str::to_string).collect();
    let order = second::make::Order::parse(&words[0], &words[1], &words[2..]).unwrap();
    let mut reel = Vec::new();
    second::make::make(&order, &mut reel).unwrap();
    reel
}

/// The superframes of a reel without a gap.
pub fn superframes(reel: &[u8]) -> Vec<&[u8]> {
    reel[16..].chunks(superframe::BYTES).collect()
}

/// A block of these four codes.
pub fn block_of(codes: [i32; 4], extra: [u8; 2]) -> Block {
    block::write(&Content { codes, extra }).unwrap()
}

/// A state in range with something in every place that may carry something, and no two programmes alike in their totals.
pub fn busy_state() -> State {
    let mut state = State::fresh();
    for channel in 0..32 {
        state.now[channel] = channel as u8 % 9;
        state.after[channel] = (channel as u8 + 4) % 9;
    }
    state.service.position = 5;
    state.service.stage = 3;
    for (n, byte) in state.service.group[..16].iter_mut().enumerate() {
        *byte = 100 + n as u8;
    }
    for (n, label) in state.service.labels.iter_mut().enumerate() {
        label[..2].copy_from_slice(&[n as u8 + 1, n as u8 + 65]);
    }
    state.totals.taken = 300;
    state.totals.lost = 7;
    for p in 0..16 {
        let n = p as u32;
        state.totals.clean[p] = 64 * 300 - (5 + n) - (100 + 11 * n);
        state.totals.mended[p] = 100 + 11 * n;
        state.totals.bad[p] = 5 + n;
    }
    state
}

/// Bytes from hexadecimal digits with blanks between.
pub fn unspaced(digits: &str) -> Vec<u8> {
    let digits: Vec<u8> = digits.bytes().filter(|byte| *byte != b' ').collect();
    let value = |digit: u8| char::from(digit).to_digit(16).unwrap() as u8;
    digits
        .chunks(2)
        .map(|two| 16 * value(two[0]) + value(two[1]))
        .collect()
}
