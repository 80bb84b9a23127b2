//! A second reader and writer of DSR reels, written from documents 01 and 02 and directive 3R1 alone.
//! README.md says what it is for and how it is used.

pub mod answer;
pub mod bits;
pub mod block;
pub mod calls;
pub mod check;
pub mod damage;
pub mod division;
pub mod frame;
pub mod hand_on;
pub mod listing;
pub mod make;
pub mod numbers;
pub mod programme;
pub mod radius;
pub mod random;
pub mod recipe;
pub mod reel;
pub mod sample;
pub mod scale;
pub mod service;
pub mod source;
pub mod superframe;
pub mod taking;
pub mod text;
pub mod totals;
pub mod transcript;
pub mod word;
