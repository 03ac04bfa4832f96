//! Which rules fight: the planner and the check on random sheets, many of which cannot be kept, with much room and little; the answers, the
//! marks and all three slices compared whole. What the planner proposes is put to the check, and to the judge.

use crate::{boundary_sheets, differs, Tally};
use naxxurbi_calls::State;
use plain::clash::{Plan, CROWDED, RULES};
use plain::edges::edges;
use plain::families::two_fight;
use plain::judge::reachable;
use plain::lent::Lent;
use plain::make::{damage, random_draft, Draft, Rng, DAMAGES};
use plain::named;

/// A check of proposed rules, ours or the plain one. It is lent no run.
type Check = fn(&[u8], &[u32], &mut [State], &mut [u32], &mut [State]) -> u32;

/// What the check says and leaves.
fn checked(check: Check, sheet: &[u8], rules: &[u32], lent: &Lent) -> (u32, Lent) {
    let mut lent = lent.clone();
    let answer = check(sheet, rules, &mut lent.table, &mut lent.words, &mut lent.scratch);
    (answer, lent)
}

/// What occurred: the answers; 14 for bad numbers, which changes nothing; a choice of no rules; and when the planner met 11.
struct Seen {
    check: Tally,
    planner: Tally,
    misnumbered: u64,
    weighed: u64,
    empty: u64,
    at_once: u64,
    dropping: u64,
    at_last: u64,
}

impl Seen {
    fn new() -> Seen {
        let (check, planner) = (Tally::new("check of fighting rules"), Tally::new("planner of fighting rules"));
        Seen { check, planner, misnumbered: 0, weighed: 0, empty: 0, at_once: 0, dropping: 0, at_last: 0 }
    }

    /// Checks a proposal with both: whether they agree.
    fn check(&mut self, sheet: &[u8], rules: &[u32], lent: &Lent) -> bool {
        let ours = checked(naxxurbi_calls::check_clash, sheet, rules, lent);
        let plain = checked(plain::clash::check_clash, sheet, rules, lent);
        if differs("check of fighting rules", sheet, &ours, &plain) {
            println!("  rules {rules:?}\n  lent {:?}", lent.lengths());
            return false;
        }
        self.check.count(ours.0);
        if ours.0 == 14 {
            let changed = ours.1 != *lent;
            *if changed { &mut self.weighed } else { &mut self.misnumbered } += 1;
        }
        true
    }

    /// Plans with both: the plan, if they agree.
    fn plan(&mut self, sheet: &[u8], lent: &Lent) -> Option<Plan> {
        let [mut ours, mut theirs] = [lent.clone(), lent.clone()];
        let (answer, marks) = naxxurbi_calls::clash(sheet, &mut ours.table, &mut ours.words, &mut ours.scratch);
        let plan = plain::clash::clash(sheet, &mut theirs.table, &mut theirs.words, &mut theirs.scratch);
        let ours = (answer, marks.to_vec(), ours);
        if differs("planner of fighting rules", sheet, &ours, &(plan.answer, plan.marks().to_vec(), theirs)) {
            println!("  lent {:?}", lent.lengths());
            return None;
        }
        self.planner.count(answer);
        let steps = sheet.get(6).map_or(0, |&count| usize::from(count));
        match (answer, plan.trials) {
            (0, _) => self.empty += u64::from(plan.rules.is_empty()),
            (CROWDED, 1) => self.at_once += 1,
            (CROWDED, trials) if trials <= 1 + steps => self.dropping += 1,
            (CROWDED, _) => self.at_last += 1,
            _ => {}
        }
        Some(plan)
    }

    /// A bad sheet, or one of anything: the planner, and two proposals.
    fn any(&mut self, rng: &mut Rng, sheet: &[u8]) -> bool {
        let lent = some_room(rng, 12);
        self.plan(sheet, &lent).is_some() && self.check(sheet, &[], &lent) && self.check(sheet, &[2, 1], &lent)
    }

    /// Prints what occurred; whether everything did.
    fn complete(&self) -> bool {
        let check = self.check.complete(&[0, 1, 2, 3, 4, 5, 6, 7, 8, 9, 10, 14, 17]);
        let planner = self.planner.complete(&[0, 1, 2, 3, 4, 5, 6, 7, 8, 9, 10, 12, 17]);
        let kinds = [self.misnumbered, self.weighed, self.empty, self.at_once, self.dropping, self.at_last];
        let [misnumbered, weighed, empty, at_once, dropping, at_last] = kinds;
        println!("fighting rules: 14 for bad numbers {misnumbered}, for others {weighed}; 0 with no rule {empty}");
        println!("fighting rules: 17 at once {at_once}, while dropping {dropping}, in the last pass {at_last}");
        check & planner & kinds.iter().all(|&times| times > 0)
    }
}

/// Slices for so many states and hardly more, none of their numbers zero.
fn some_room(rng: &mut Rng, states: usize) -> Lent {
    let more = [0; 3].map(|_: usize| rng.below(4).saturating_sub(1));
    Lent::filled(rng, [states + more[0], states + more[1], 2 * states + more[2], 0])
}

/// Rules that ask for much, in this order at any places among the step rules: nothing may follow; a letter holds and does not; a letter is never
/// to hold that is promised. Or nothing may follow after a rule that, by itself, keeps to few states.
fn add_fight(rng: &mut Rng, draft: &mut Draft) {
    let letter = rng.within(1, draft.letters.into()) as i8;
    let other = rng.within(1, draft.letters.into()) as i8;
    let literal = if rng.once_in(2) { letter } else { -letter };
    let rules = match rng.below(6) {
        0 => vec![(vec![], vec![])],
        1 => vec![(vec![literal], vec![]), (vec![], vec![literal])],
        2 => vec![(vec![], vec![literal]), (vec![other], vec![-literal]), (vec![-other], vec![-literal, other])],
        3 => {
            draft.promises.truncate(15);
            draft.promise(literal);
            vec![(vec![-literal], vec![-literal]), (vec![literal], vec![-literal])]
        }
        4 => vec![(vec![literal], vec![-literal, other]), (vec![other], vec![-other]), (vec![-literal], vec![literal])],
        _ => {
            draft.first.truncate(254);
            draft.first([literal]);
            vec![(vec![], vec![literal]), (vec![literal], vec![])]
        }
    };
    let mut from = 0;
    for rule in rules {
        let place = rng.within(from, draft.steps.len());
        draft.steps.insert(place, rule);
        from = place + 1;
    }
}

/// A sheet of few letters and mostly few step rules, which mostly cannot be kept.
fn fighting(rng: &mut Rng) -> Draft {
    let letters = rng.within(1, 5) as u8;
    let mut draft = random_draft(rng, letters);
    if !rng.once_in(16) {
        draft.steps.truncate(rng.below(7));
    }
    for _ in 0..rng.below(3) {
        add_fight(rng, &mut draft);
    }
    draft.steps.truncate(RULES);
    // Now and then as many as there can be, most of which ask for nothing.
    while rng.clone().once_in(32) && draft.steps.len() < RULES {
        let place = rng.clone().within(0, draft.steps.len());
        draft.steps.insert(place, (vec![1], vec![-1, 1]));
    }
    draft
}

/// How many states there is room for: about as many as the whole sheet has, as some choice may have, or all.
fn room(rng: &mut Rng, draft: &Draft) -> usize {
    let all = 1 << draft.letters;
    let whole = reachable(&draft.bytes(), all).expect("room for all states");
    match rng.below(6) {
        0 => whole.saturating_sub(1),
        1 | 2 => whole,
        3 => whole + 1,
        4 => rng.within(0, all),
        _ => all,
    }
}

/// Proposals: all rules, none, the plan's, that with one less, one more, in another order or with a number twice, any rules, any numbers.
fn proposals(rng: &mut Rng, steps: usize, plan: &Plan) -> Vec<Vec<u32>> {
    let all: Vec<u32> = (1..=steps as u32).collect();
    let some = |rng: &mut Rng| all.iter().copied().filter(|_| rng.once_in(2)).collect::<Vec<_>>();
    let mut proposals = vec![plan.rules.clone(), some(rng), some(rng)];
    if rng.once_in(3) {
        proposals.extend([all.clone(), Vec::new()]);
    }
    let mut less = plan.rules.clone();
    if !less.is_empty() {
        less.remove(rng.below(less.len()));
        proposals.push(less);
    }
    let mut more = plan.rules.clone();
    more.push(rng.within(0, steps + 1) as u32);
    proposals.push(more.clone());
    more.sort_unstable();
    proposals.push(more);
    let mut turned = plan.rules.clone();
    turned.reverse();
    proposals.push(turned);
    proposals.push((0..rng.below(4)).map(|_| rng.number() as u32 >> rng.within(0, 31)).collect());
    proposals
}

/// Whether our judge says what a plan means: 13 for the chosen rules, 12 with any single one of them left out.
fn judged_as_said(draft: &Draft, plan: &Plan, lent: &Lent) -> bool {
    let judged = |rules: &[u32]| {
        let steps = rules.iter().map(|&rule| draft.steps[rule as usize - 1].clone()).collect();
        let sheet = Draft { steps, ..draft.clone() }.bytes();
        let Lent { mut table, mut words, mut scratch, .. } = lent.clone();
        compare::judge(&sheet, &mut table, &mut words, &mut scratch, &mut []).answer
    };
    let less = |rule: u32| plan.rules.iter().copied().filter(|&other| other != rule).collect::<Vec<_>>();
    let answers: Vec<u32> = plan.rules.iter().map(|&rule| judged(&less(rule))).collect();
    !differs("a plan's judgement", &draft.bytes(), &(judged(&plan.rules), answers), &(13, vec![12; plan.rules.len()]))
}

/// One sheet: the plan, every proposal, and what a plan with rules means.
fn good(rng: &mut Rng, seen: &mut Seen, draft: &Draft) -> bool {
    let sheet = draft.bytes();
    let states = room(rng, draft);
    let lent = some_room(rng, states);
    let Some(plan) = seen.plan(&sheet, &lent) else {
        return false;
    };
    let accepted = |answer| !differs("the check of the plan", &sheet, &answer, &0);
    let found = plan.answer != 0 || accepted(checked(naxxurbi_calls::check_clash, &sheet, &plan.rules, &lent).0);
    found
        && (plan.answer != 0 || judged_as_said(draft, &plan, &lent))
        && proposals(rng, draft.steps.len(), &plan).iter().all(|rules| seen.check(&sheet, rules, &lent))
}

/// The sheets with a name, and one of 255 rules of which the first and the last fight, with room for as many states as there can be.
fn roomy(rng: &mut Rng, seen: &mut Seen) -> bool {
    let mut sheets: Vec<Vec<u8>> = named::all().into_iter().map(|named| named.sheet).collect();
    sheets.push(two_fight([1, RULES], 2).bytes());
    let lent = some_room(rng, 16_384);
    sheets.iter().all(|sheet| match seen.plan(sheet, &lent) {
        Some(plan) => seen.check(sheet, &plan.rules, &lent),
        None => false,
    })
}

pub fn suite(rng: &mut Rng, rounds: usize) -> bool {
    let mut seen = Seen::new();
    if !roomy(rng, &mut seen) {
        return false;
    }
    if !edges().iter().all(|edge| seen.any(rng, &edge.sheet)) {
        return false;
    }
    for round in 0..rounds {
        if round % 64 == 0 && !boundary_sheets(rng).iter().all(|sheet| seen.any(rng, sheet)) {
            return false;
        }
        let draft = fighting(rng);
        let way = rng.below(DAMAGES);
        let damaged = damage(rng, &draft.bytes(), way);
        // What a damage leaves good may have any number of states and rules; it is met elsewhere.
        let bad = plain::sheet::read_number(&damaged) == 0 || seen.any(rng, &damaged);
        if !bad || !good(rng, &mut seen, &draft) {
            return false;
        }
    }
    seen.complete()
}
