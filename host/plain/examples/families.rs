//! Judges each named family and prints its answer and how long that took, with
//! the room that the small program lends and with the most the judge can use.

use plain::judge::judge;
use plain::make::families;
use plain::sheet::{read, read_number};
use std::time::Instant;

fn main() {
    for (states, moments) in [(4096, 4096), (16_384, 262_144)] {
        println!("room for {states} states and {moments} moments");
        let (mut table, mut words) = (vec![7; states], vec![7; states]);
        let (mut scratch, mut run) = (vec![7; 2 * states], vec![7; moments]);
        for family in families() {
            let start = Instant::now();
            let answer = judge(&family.sheet, &mut table, &mut words, &mut scratch, &mut run);
            let took = start.elapsed();
            println!(
                "{:40} {:2} {:5} {:6} {:6} {:12.1?}",
                family.name, answer.answer, answer.count, answer.a, answer.b, took
            );
        }
    }
    println!("reading, and the number alone, per sheet");
    for family in families().into_iter().take(10) {
        let times = 20_000u32;
        let start = Instant::now();
        for _ in 0..times {
            std::hint::black_box(read(std::hint::black_box(&family.sheet)).is_ok());
        }
        let reading = start.elapsed() / times;
        let start = Instant::now();
        for _ in 0..times {
            std::hint::black_box(read_number(std::hint::black_box(&family.sheet)));
        }
        let number = start.elapsed() / times;
        println!("{:40} {:5} bytes {reading:8.1?} {number:8.1?}", family.name, family.sheet.len());
    }
}
