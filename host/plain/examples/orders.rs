//! Judges each family in each of its four orders and prints R, the answer, the
//! nodes visited and how long that took.

use plain::families::{clashes, families, in_orders, odd_clashes, ORDERS};
use plain::judge::{explored, judge};
use std::time::Instant;

fn main() {
    let (mut table, mut words) = (vec![7; 16_384], vec![7; 16_384]);
    let (mut scratch, mut run) = (vec![7; 32_768], vec![7; 262_144]);
    for family in families().into_iter().chain(clashes()).chain(odd_clashes()) {
        let sheets = in_orders(&family.sheet).expect("a good sheet");
        for (order, sheet) in ORDERS.iter().zip(sheets) {
            let found = explored(&sheet, 16_384).expect("a good sheet");
            let start = Instant::now();
            let answer = judge(&sheet, &mut table, &mut words, &mut scratch, &mut run);
            let took = start.elapsed();
            let states = found.states.map_or("over 16384".to_string(), |r| r.to_string());
            println!(
                "{:55} {order:10} {states:>5} {:2} {:5} {:6} {:6} {:9} {took:12.1?}",
                family.name, answer.answer, answer.count, answer.a, answer.b, found.nodes
            );
        }
    }
}
