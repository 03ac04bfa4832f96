//! The reader: every sheet, whole and damaged in every way; number and place.

use crate::{boundary_sheets, differs, Places, Tally};
use plain::edges::edges;
use plain::make::{damage, random_sheet, Rng, DAMAGES};

pub fn suite(rng: &mut Rng, rounds: usize) -> bool {
    let mut tally = Tally::new("reader");
    let mut places = Places::new("reader");
    let mut check = |sheet: &[u8]| {
        let ours = (naxxurbi_calls::read(sheet), naxxurbi_calls::read_place(sheet));
        let told = plain::sheet::read_place(sheet);
        let plain = (plain::sheet::read_number(sheet), told);
        tally.count(told.0);
        places.keep(told.0, told.1);
        !differs("reader", sheet, &ours, &plain)
    };
    if !edges().iter().all(|edge| check(&edge.sheet)) {
        return false;
    }
    for round in 0..rounds {
        if round % 64 == 0 && !boundary_sheets(rng).iter().all(|sheet| check(sheet)) {
            return false;
        }
        let sheet = random_sheet(rng, 24);
        if !check(&sheet) {
            return false;
        }
        for way in 0..DAMAGES {
            if !check(&damage(rng, &sheet, way)) {
                return false;
            }
        }
    }
    let all = tally.complete(&[0, 1, 2, 3, 4, 5, 6, 7, 8, 9, 10]);
    places.complete() && all
}
