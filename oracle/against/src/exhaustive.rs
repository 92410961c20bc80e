//! Every code of up to 3 bytes over document 01's sample table.
//!
//! Each is decoded at place 0, listed, and its walks are checked.

use crate::compare::Compare;
use oracle::records::*;
use oracle::sample;

pub fn run(compare: &mut Compare, most: usize, job: u64, jobs: u64) {
    if job == 0 {
        compare.short(&sample::function(&[], 8, &[]), &[]);
    }
    for length in 1..=most {
        let mut files = sample::function(&vec![0; length], 8, &[]);
        let at = files.body[PAYLOAD].len() - length;
        for first in (0..256).filter(|first| first % jobs == job) {
            for rest in 0..1u32 << (8 * (length - 1)) {
                let code = [first as u8, rest as u8, (rest >> 8) as u8];
                files.body[PAYLOAD][at..].copy_from_slice(&code[..length]);
                compare.short(&files, &code[..length]);
            }
        }
    }
}
