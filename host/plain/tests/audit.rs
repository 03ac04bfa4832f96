//! The auditor against document 02's order 2 read word by word over a whole
//! log, literal by literal, on random sheets and logs cut at random.

#![deny(warnings)]

use plain::audit::{audit, Account, BROKE_FIRST, BROKE_STEP, MOMENTS, PAST, UNLAWFUL};
use plain::make::{damage, random_sheet, Rng, DAMAGES};
use plain::sheet::{read, read_number, Sheet};
use plain::State;

fn is_true(literal: i8, state: State) -> bool {
    (state >> (literal.unsigned_abs() - 1) & 1 == 1) == (literal > 0)
}

fn lawful(sheet: &Sheet, state: State) -> bool {
    let mut limits = sheet.limits();
    state >> sheet.letters() == 0
        && limits.all(|limit| {
            let count = limit.literals.iter().filter(|&&literal| is_true(literal, state)).count();
            count == usize::from(limit.bound) || (!limit.exactly && count < limit.bound.into())
        })
}

fn starts(sheet: &Sheet, state: State) -> bool {
    sheet.first_rules().all(|rule| rule.iter().any(|&literal| is_true(literal, state)))
}

/// The whole log's account, with no pieces in it.
fn whole(sheet: &Sheet, log: &[State]) -> Account {
    let mut account = Account::new();
    account.count = log.len() as u32;
    account.last = log.last().copied().unwrap_or(0);
    let mut broke = vec![0; log.len()];
    for (i, step) in sheet.step_rules().enumerate() {
        for moment in 1..log.len() {
            if step.left.iter().all(|&literal| is_true(literal, log[moment - 1])) {
                let kept = step.right.iter().any(|&literal| is_true(literal, log[moment]));
                *if kept { &mut account.kept[i] } else { &mut account.broken[i] } += 1;
                if !kept && broke[moment] == 0 {
                    broke[moment] = i as u32 + 1;
                }
            }
        }
    }
    for moment in (0..log.len()).rev() {
        let what = match moment {
            _ if !lawful(sheet, log[moment]) => (UNLAWFUL, 0),
            0 if !starts(sheet, log[0]) => (BROKE_FIRST, 0),
            _ if broke[moment] != 0 => (BROKE_STEP, broke[moment]),
            _ => continue,
        };
        (account.what, account.rule) = what;
        account.moment = moment as u32;
    }
    account
}

#[test]
fn pieces_give_the_whole_logs_account() {
    let rng = &mut Rng::new(2);
    let mut seen = [0; 4];
    for _ in 0..3000 {
        let bytes = random_sheet(rng, 5);
        let sheet = read(&bytes).expect("a good sheet");
        let most = (1 << sheet.letters()) - 1;
        let log: Vec<State> = (0..rng.below(20))
            .map(|_| rng.number() as u32 as State & if rng.once_in(9) { State::MAX } else { most })
            .collect();
        let mut account = Account::new();
        let mut left = &log[..];
        while !left.is_empty() {
            let (piece, rest) = left.split_at(rng.within(0, left.len()));
            assert_eq!(audit(&bytes, &mut account, piece), 0);
            left = rest;
        }
        assert_eq!(account, whole(&sheet, &log));
        seen[account.what as usize] += 1;
    }
    assert!(seen.iter().all(|&times| times > 20), "{seen:?}");
}

#[test]
fn refusals_change_nothing() {
    let rng = &mut Rng::new(3);
    for way in 0..DAMAGES {
        let sheet = random_sheet(rng, 24);
        let bad = damage(rng, &sheet, way);
        let mut account = Account::new();
        account.count = MOMENTS + 1;
        let before = account.clone();
        let number = read_number(&bad);
        assert_eq!(audit(&bad, &mut account, &[1]), if number == 0 { PAST } else { number });
        assert_eq!(account, before);
    }
    let sheet = random_sheet(rng, 24);
    let mut account = Account::new();
    account.count = MOMENTS - 1;
    assert_eq!(audit(&sheet, &mut account, &[1, 1]), PAST);
    assert_eq!(audit(&sheet, &mut account, &[1]), 0);
    assert_eq!(audit(&sheet, &mut account, &[]), 0);
    assert_eq!(audit(&sheet, &mut account, &[1]), PAST);
    account.kept[254] = MOMENTS + 1;
    assert_eq!(audit(&sheet, &mut account, &[]), PAST);
}
