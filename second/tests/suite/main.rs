//! One file a subject. What is expected stands here as the documents print it or is worked out another way.

mod bench;
mod blocks;
mod calls;
mod commands;
mod folders;
mod frames;
mod hand;
mod names;
mod near;
mod programmes;
mod reads;
mod reels;
mod samples;
mod scales;
mod services;
mod stretches;
mod superframes;
mod takes;
mod totals;
mod tracks;
mod words;
