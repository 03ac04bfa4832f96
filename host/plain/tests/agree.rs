//! The judge and the checkers against the naive ones, on random sheets.

#![deny(warnings)]

use plain::check::{check_run, check_run_bytes, check_strikes, check_strikes_bytes, strikes_nodes};
use plain::edges::{edges, PLACES};
use plain::families::{self, any_order, in_orders, renamed, renamed_state, written};
use plain::judge::{explored, judge, Answer};
use plain::lent::Lent;
use plain::list::{each_lawful, first_states, lawful_states, next_states};
use plain::make::{self, damage, families, random_draft, random_sheet, Rng, DAMAGES};
use plain::rules::Rules;
use plain::sheet::{read, read_number, read_place};
use plain::{brute, brute::Outcome, State};
use std::collections::BTreeMap;
use std::ops::ControlFlow;

/// A paper's states, and its words, as the checkers are given them.
fn state_bytes(states: &[State]) -> Vec<u8> {
    states.iter().flat_map(|state| state.to_be_bytes()).collect()
}
fn word_bytes(words: &[u32]) -> Vec<u8> {
    words.iter().flat_map(|word| word.to_be_bytes()).collect()
}

/// Judges with slices like these and hands them back as they are afterwards.
fn judged(sheet: &[u8], lent: &Lent) -> Outcome {
    let Lent { mut table, mut words, mut scratch, mut run } = lent.clone();
    let answer = judge(sheet, &mut table, &mut words, &mut scratch, &mut run);
    Outcome { answer, table, words, scratch, run }
}

/// Judges with all the room there can be.
fn judged_freely(sheet: &[u8]) -> Outcome {
    judged(sheet, &Lent::all(7, [16_384, 16_384, 32_768, 262_144]))
}

fn accepted(sheet: &[u8], outcome: &Outcome) {
    let Answer { answer, count, a, b, .. } = outcome.answer;
    match answer {
        0 => {
            let run = &outcome.run[..b as usize];
            assert_eq!(check_run(sheet, run, a), 0);
            assert_eq!(check_run_bytes(sheet, &state_bytes(run), a), 0);
        }
        13 => {
            let (states, words) =
                (&outcome.table[..count as usize], &outcome.words[..count as usize]);
            assert_eq!(check_strikes(sheet, states, words), 0);
            assert_eq!(check_strikes_bytes(sheet, &state_bytes(states), &word_bytes(words)), 0);
        }
        _ => {}
    }
}

/// All numbers and all slices, with rooms on either side of what is needed.
#[test]
fn judge_agrees_with_brute() {
    let mut rng = Rng::new(1);
    let mut seen: BTreeMap<u32, usize> = BTreeMap::new();
    let (mut late, mut long, mut none, mut rounds) = (0, 0, 0, 0);
    for _ in 0..13_000 {
        let letters = rng.within(1, 5) as u8;
        let sheet = match rng.once_in(6) {
            true => written(&mut rng, letters).bytes(),
            false => random_draft(&mut rng, letters).bytes(),
        };
        let Some(meaning) = brute::meaning(&sheet) else {
            panic!("not a small good sheet: {sheet:?}");
        };
        let reached = meaning.reachable.len();
        let moments = meaning.run.as_ref().map_or(0, |(states, _)| states.len());
        none += usize::from(reached == 0);
        long += usize::from(moments > 2 * reached);
        let last_word = meaning.strikes.last().map_or(0, |&(word, _)| word);
        late += usize::from(last_word >= 96 && moments == 0);
        rounds = rounds.max(last_word / 32);
        for _ in 0..4 {
            let room = |rng: &mut Rng, need: usize| {
                *rng.pick(&[0, 1, need.saturating_sub(1), need, need, need + 1, need + 9])
            };
            let exact = |rng: &mut Rng, need: usize| {
                if rng.once_in(3) {
                    room(rng, need)
                } else {
                    need + rng.below(3)
                }
            };
            let lengths = [
                exact(&mut rng, reached),
                exact(&mut rng, reached),
                exact(&mut rng, 2 * reached),
                exact(&mut rng, moments),
            ];
            let lent = Lent::filled(&mut rng, lengths);
            let ours = judged(&sheet, &lent);
            let Lent { table, words, scratch, run } = &lent;
            let theirs = brute::judge(&sheet, table, words, scratch, run);
            assert_eq!(Some(&ours), theirs.as_ref(), "{sheet:?}");
            *seen.entry(ours.answer.answer).or_default() += 1;
            accepted(&sheet, &ours);
        }
    }
    println!("answers {seen:?}, late {late}, long {long}, none {none}, rounds {rounds}");
    for answer in [0, 11, 12, 13] {
        assert!(seen[&answer] > 1000, "{seen:?}");
    }
    assert!(late > 400 && long > 200 && none > 500 && rounds > 20);
}

/// Striking finds the states that occur in some obeying run.
#[test]
fn livable_states_are_those_of_obeying_runs() {
    let mut rng = Rng::new(2);
    let mut partly = 0;
    for _ in 0..3000 {
        let letters = rng.within(1, 4) as u8;
        let sheet = random_draft(&mut rng, letters).bytes();
        let meaning = brute::meaning(&sheet).expect("a small good sheet");
        let by_circles = brute::livable_by_circles(&sheet).expect("a small good sheet");
        assert_eq!(meaning.livable, by_circles, "{sheet:?}");
        assert_eq!(meaning.run.is_some(), !by_circles.is_empty());
        let all = meaning.reachable.len();
        partly += usize::from((1..all).contains(&by_circles.len()));
    }
    assert!(partly > 100, "{partly}");
}

/// Both checkers on good papers, damaged papers and made-up ones.
#[test]
fn checkers_agree_with_brute() {
    let mut rng = Rng::new(3);
    let (mut good_runs, mut bad_runs, mut good_lists, mut bad_lists) = (0, 0, 0, 0);
    for _ in 0..12_000 {
        let letters = rng.within(1, 4) as u8;
        let draft = random_draft(&mut rng, letters);
        let mut sheet = draft.bytes();
        let outcome = judged(&sheet, &Lent::all(7, [16, 16, 32, 256]));
        if rng.once_in(20) {
            sheet = damage(&mut rng, &sheet, 0);
        }
        if read(&sheet).is_ok_and(|sheet| sheet.letters() > 5) {
            continue;
        }
        let Answer { answer, count, a, b, .. } = outcome.answer;
        for _ in 0..4 {
            let mut states = match answer {
                0 => outcome.run[..b as usize].to_vec(),
                _ => (0..rng.within(0, 4)).map(|_| rng.below(1 << letters) as State).collect(),
            };
            let mut a = a;
            spoil(&mut rng, letters, &mut states);
            if rng.once_in(3) {
                a = rng.below(states.len() + 2) as u32;
            }
            let number = check_run(&sheet, &states, a);
            assert_eq!(Some(number), brute::check_run(&sheet, &states, a), "{sheet:?}");
            assert_eq!(number, check_run_bytes(&sheet, &state_bytes(&states), a));
            *(if number == 0 { &mut good_runs } else { &mut bad_runs }) += 1;

            let (mut states, mut words) = match answer {
                13 => {
                    let count = count as usize;
                    (outcome.table[..count].to_vec(), outcome.words[..count].to_vec())
                }
                _ => {
                    let states: Vec<State> = (0..1 << letters).collect();
                    let words = states.iter().map(|_| 32 + rng.below(3) as u32).collect();
                    (states, words)
                }
            };
            spoil_list(&mut rng, letters, &mut states, &mut words);
            let number = check_strikes(&sheet, &states, &words);
            assert_eq!(
                Some(number),
                brute::check_strikes(&sheet, &states, &words),
                "{sheet:?} {states:?} {words:?}"
            );
            let (states, words) = (state_bytes(&states), word_bytes(&words));
            assert_eq!(number, check_strikes_bytes(&sheet, &states, &words));
            *(if number == 0 { &mut good_lists } else { &mut bad_lists }) += 1;
        }
    }
    println!("runs {good_runs} {bad_runs}, lists {good_lists} {bad_lists}");
    for count in [good_runs, bad_runs, good_lists, bad_lists] {
        assert!(count > 2000);
    }
}

fn spoil(rng: &mut Rng, letters: u8, states: &mut Vec<State>) {
    if states.is_empty() {
        return;
    }
    let place = rng.below(states.len());
    match rng.below(8) {
        0 => states[place] ^= 1 << rng.below(letters as usize),
        1 => states[place] |= 1 << rng.within(letters.into(), 31),
        2 => states.truncate(place),
        3 => states.insert(place, states[place]),
        4 => drop(states.remove(place)),
        5 => states.push(states[place]),
        _ => {}
    }
}

fn spoil_list(rng: &mut Rng, letters: u8, states: &mut Vec<State>, words: &mut Vec<u32>) {
    if states.is_empty() {
        if rng.once_in(2) {
            states.push(rng.below(1 << letters) as State);
            words.push(32);
        }
        return;
    }
    let place = rng.below(states.len());
    match rng.below(12) {
        0 => spoil(rng, letters, states),
        1 => words[place] ^= 1 << rng.below(8),
        2 => words[place] = words[place].wrapping_add(*rng.pick(&[1, 32, u32::MAX, 64])),
        3 => words.iter_mut().for_each(|word| *word -= 32),
        4 => words.iter_mut().for_each(|word| *word += 3200),
        5 => {
            states.remove(place);
            words.remove(place);
        }
        // A state a second time, later or at the same word.
        6 | 7 => {
            let later = rng.within(place, states.len() - 1);
            let (state, word) = (states[place], words[later]);
            states.insert(later + 1, state);
            words.insert(later + 1, word);
        }
        8 => states.swap(0, place),
        9 => words[place] = rng.number() as u32,
        _ => {}
    }
}

/// Reader, number alone and naive reader on every kind of damage; a bad sheet
/// leaves the judge's slices alone and comes before anything else.
#[test]
fn every_fault_is_seen_and_told_alike() {
    let mut rng = Rng::new(4);
    let mut seen: BTreeMap<u32, usize> = BTreeMap::new();
    let mut places: BTreeMap<u32, usize> = BTreeMap::new();
    for round in 0..3000 {
        let good = random_sheet(&mut rng, 24);
        assert_eq!((read_number(&good), good.len() <= 4096), (0, true), "{good:?}");
        for way in 0..DAMAGES {
            let mut sheet = damage(&mut rng, &good, way);
            if round % 4 == 0 && read_number(&sheet) == 0 {
                let way = rng.below(DAMAGES);
                sheet = damage(&mut rng, &sheet, way);
            }
            let number = read_number(&sheet);
            let told = read(&sheet).err().map(|fault| (fault.number, fault.place));
            assert_eq!(told, brute::first_fault(&sheet), "{sheet:?}");
            assert_eq!(number, told.map_or(0, |(number, _)| number));
            assert_eq!(read_place(&sheet), told.map_or((0, 0), |(n, place)| (n, place as u32)));
            *seen.entry(number).or_default() += 1;
            if let Some((number, place)) = told {
                let (_, first, last) = PLACES[number as usize - 1];
                assert!((first..=last).contains(&place), "{number} at {place}");
                let farthest = places.entry(number).or_default();
                *farthest = place.max(*farthest);
                let lent = Lent::filled(&mut rng, [1, 2, 3, 4]);
                let Outcome { answer: said, table, words, scratch, run } = judged(&sheet, &lent);
                let answer = Answer { answer: number, place: place as u32, ..Answer::default() };
                assert_eq!(said, answer);
                assert_eq!(Lent { table, words, scratch, run }, lent);
                assert_eq!(check_run(&sheet, &[], 0), number);
                assert_eq!(check_strikes(&sheet, &[0], &[]), number);
                assert_eq!(check_run_bytes(&sheet, &[0], 0), number);
                assert_eq!(check_strikes_bytes(&sheet, &[0], &[]), number);
            }
        }
    }
    println!("faults {seen:?}, farthest places {places:?}");
    for number in 0..=10 {
        assert!(seen.get(&number).is_some_and(|&times| times > 1000), "{seen:?}");
    }
}

/// Each fault at its first and its last possible place, told by both readers and
/// the judge; the sheets' own places span exactly what is possible.
#[test]
fn every_fault_has_its_first_and_last_place() {
    let mut spans: BTreeMap<u32, (usize, usize)> = BTreeMap::new();
    for edge in edges() {
        let what = &edge.what;
        let told = read(&edge.sheet).err().map(|fault| (fault.number, fault.place));
        assert_eq!(told, Some((edge.number, edge.place)), "{what}");
        assert_eq!(brute::first_fault(&edge.sheet), told, "{what}");
        let place = edge.place as u32;
        let answer = Answer { answer: edge.number, place, ..Answer::default() };
        assert_eq!(judged(&edge.sheet, &Lent::all(7, [0; 4])).answer, answer, "{what}");
        let span = spans.entry(edge.number).or_insert((edge.place, edge.place));
        *span = (span.0.min(edge.place), span.1.max(edge.place));
    }
    let spans: Vec<(u32, usize, usize)> =
        spans.into_iter().map(|(number, (first, last))| (number, first, last)).collect();
    assert_eq!(spans, PLACES);
}

/// Random bytes and cut sheets never get past the naive reader either.
#[test]
fn any_bytes_are_read_alike() {
    let mut rng = Rng::new(5);
    for _ in 0..40_000 {
        let length = rng.below(24);
        let mut sheet: Vec<u8> = (0..length).map(|_| rng.byte()).collect();
        if length >= 8 && !rng.once_in(8) {
            let header = [1, 0, length as u8, rng.within(0, 25) as u8];
            sheet[..4].copy_from_slice(&header);
            sheet[4..].iter_mut().for_each(|byte| {
                if *byte % 4 != 0 {
                    *byte = (*byte as i8 / 32) as u8;
                }
            });
        }
        let told = read(&sheet).err().map(|fault| (fault.number, fault.place));
        assert_eq!(told, brute::first_fault(&sheet), "{sheet:?}");
        assert_eq!(read_number(&sheet), told.map_or(0, |(number, _)| number));
    }
    for draft in [make::w15(), make::long_run(3, 2), make::falling_promises(2)] {
        let sheet = draft.bytes();
        for length in 0..sheet.len() {
            let mut cut = sheet[..length].to_vec();
            if length > 2 {
                cut[1..3].copy_from_slice(&(length as u16).to_be_bytes());
            }
            let told = read(&cut).err().map(|fault| (fault.number, fault.place));
            assert_eq!(told, brute::first_fault(&cut));
            assert!(told.is_some());
        }
    }
}

/// Listings against a test of every state.
#[test]
fn listings_are_complete_and_in_order() {
    let mut rng = Rng::new(6);
    for _ in 0..4000 {
        let (letters, many) = (rng.within(1, 9) as u8, rng.within(3, 12) as u8);
        let draft = match rng.once_in(3) {
            true => written(&mut rng, many),
            false => random_draft(&mut rng, letters),
        };
        let letters = draft.letters;
        let rules = Rules::new(&read(&draft.bytes()).expect("a good sheet"));
        let states = || 0..1 << letters;
        let lawful: Vec<State> = states().filter(|&state| rules.lawful(state)).collect();
        assert_eq!(lawful_states(&rules), lawful);
        let first: Vec<State> = states().filter(|&state| rules.first(state)).collect();
        assert_eq!(first_states(&rules), first);
        for _ in 0..4 {
            let from = rng.below(1 << letters) as State;
            let next: Vec<State> = states().filter(|&to| rules.moves(from, to)).collect();
            assert_eq!(next_states(&rules, from), next);
        }
        assert!(!rules.lawful(1 << letters) && !rules.lawful(State::MAX));
        assert_eq!(next_states(&rules, 1 << letters), []);
        // Breaking off hands over no more.
        let most = rng.below(lawful.len() + 2);
        let mut taken = Vec::new();
        let flow = each_lawful(&rules, |state| {
            if taken.len() == most {
                return ControlFlow::Break(());
            }
            taken.push(state);
            ControlFlow::Continue(())
        });
        assert_eq!(flow.is_break(), lawful.len() > most);
        assert_eq!(taken, lawful[..most.min(lawful.len())]);
    }
}

/// The strike list, livable states and sample run of up to some hundred states,
/// each set worked out anew in each round from a table of moves.
struct ByTable {
    states: Vec<State>,
    moves: Vec<Vec<usize>>,
}

impl ByTable {
    fn new(rules: &Rules) -> ByTable {
        let all = 0..1 << rules.letters();
        let mut states: Vec<State> = all.clone().filter(|&state| rules.first(state)).collect();
        let lawful: Vec<State> = all.filter(|&state| rules.lawful(state)).collect();
        let mut place = 0;
        while let Some(&from) = states.get(place) {
            place += 1;
            for &to in &lawful {
                if rules.moves(from, to) && !states.contains(&to) {
                    states.push(to);
                }
            }
        }
        states.sort_unstable();
        let next =
            |&from: &State| (0..states.len()).filter(|&to| rules.moves(from, states[to])).collect();
        let moves = states.iter().map(next).collect();
        ByTable { states, moves }
    }

    /// Fewest moves through live states to where the promise is kept.
    fn distances(&self, rules: &Rules, live: &[bool], promise: usize) -> Vec<Option<usize>> {
        let count = self.states.len();
        let kept = |s: usize| live[s] && rules.kept(promise, self.states[s]);
        let mut distance: Vec<Option<usize>> = (0..count).map(|s| kept(s).then_some(0)).collect();
        loop {
            let before = distance.clone();
            for s in (0..count).filter(|&s| live[s] && before[s].is_none()) {
                let near = self.moves[s].iter().filter_map(|&t| before[t]).min();
                distance[s] = near.map(|near| near + 1);
            }
            if distance == before {
                return distance;
            }
        }
    }

    fn judge(&self, rules: &Rules) -> Outcome {
        let count = self.states.len();
        let mut live = vec![true; count];
        let (mut table, mut words) = (Vec::new(), Vec::new());
        let promises = rules.promises();
        for round in 1.. {
            let before = table.len();
            for reason in 0..=promises {
                let goes_on: Vec<bool> = match reason {
                    0 => (0..count).map(|s| self.moves[s].iter().any(|&t| live[t])).collect(),
                    _ => {
                        let distances = self.distances(rules, &live, reason - 1);
                        distances.iter().map(Option::is_some).collect()
                    }
                };
                for s in 0..count {
                    if live[s] && !goes_on[s] {
                        live[s] = false;
                        table.push(self.states[s]);
                        words.push(32 * round + reason as u32);
                    }
                }
            }
            if table.len() == before {
                break;
            }
        }
        let mut outcome = Outcome {
            answer: Answer { answer: 13, count: count as u32, a: 0, b: 0, place: 0 },
            table,
            words,
            scratch: Vec::new(),
            run: Vec::new(),
        };
        let Some(mut here) = (0..count).find(|&s| live[s] && rules.first(self.states[s])) else {
            return outcome;
        };
        let distances: Vec<_> =
            (0..promises).map(|promise| self.distances(rules, &live, promise)).collect();
        let (mut aim, mut moments) = (0, BTreeMap::new());
        outcome.words.clear();
        outcome.table = (0..count).filter(|&s| live[s]).map(|s| self.states[s]).collect();
        while !moments.contains_key(&(here, aim)) {
            moments.insert((here, aim), outcome.run.len());
            outcome.run.push(self.states[here]);
            if promises > 0 && rules.kept(aim, self.states[here]) {
                aim = (aim + 1) % promises;
            }
            let next = self.moves[here].iter().copied().filter(|&t| live[t]);
            here = next
                .min_by_key(|&t| (distances.get(aim).map(|d| d[t].expect("livable")), t))
                .expect("livable");
        }
        outcome.answer = Answer {
            answer: 0,
            count: outcome.table.len() as u32,
            a: moments[&(here, aim)] as u32,
            b: outcome.run.len() as u32,
            place: 0,
        };
        outcome
    }
}

/// More states than brute takes: classes, witnesses and choices matter here.
#[test]
fn judge_agrees_on_larger_sheets() {
    let mut rng = Rng::new(7);
    let mut sheets: Vec<Vec<u8>> = Vec::new();
    for _ in 0..1200 {
        let letters = rng.within(5, 7) as u8;
        sheets.push(random_draft(&mut rng, letters).bytes());
    }
    for _ in 0..2500 {
        let letters = rng.within(5, 10) as u8;
        sheets.push(make::machine(&mut rng, letters).bytes());
    }
    for letters in 1..=6 {
        sheets.push(make::dense(letters).bytes());
        sheets.push(make::counter(letters).bytes());
        sheets.push(make::counter_to_dead_end(letters).bytes());
        sheets.push(make::long_run(letters, letters).bytes());
        // Counters with more moves and with promises.
        for _ in 0..40 {
            let mut draft = match rng.below(3) {
                0 => make::counter(letters),
                1 => make::counter_to_dead_end(letters),
                _ => make::long_run(letters, rng.within(1, 16) as u8),
            };
            for _ in 0..rng.within(1, 4).min(draft.steps.len()) {
                let step = rng.below(draft.steps.len());
                draft.steps.remove(step);
            }
            for _ in 0..rng.below(4) {
                let letter = rng.within(1, letters.into()) as i8;
                draft.promise(if rng.once_in(2) { letter } else { -letter });
            }
            draft.promises.truncate(16);
            sheets.push(draft.bytes());
        }
    }
    let mut seen: BTreeMap<u32, usize> = BTreeMap::new();
    let mut rounds = 0;
    for sheet in sheets {
        let rules = Rules::new(&read(&sheet).expect("a good sheet"));
        let theirs = ByTable::new(&rules).judge(&rules);
        let ours = judged_freely(&sheet);
        assert_eq!(ours.answer, theirs.answer, "{sheet:?}");
        assert_eq!(ours.table[..theirs.table.len()], theirs.table, "{sheet:?}");
        assert_eq!(ours.words[..theirs.words.len()], theirs.words, "{sheet:?}");
        assert_eq!(ours.run[..theirs.run.len()], theirs.run, "{sheet:?}");
        assert!(ours.table[theirs.table.len()..].iter().all(|&number| number == 0));
        assert!(ours.words[theirs.words.len()..].iter().all(|&number| number == 0));
        assert!(ours.run[theirs.run.len()..].iter().all(|&number| number == 7));
        accepted(&sheet, &ours);
        demand_3(&rules, &ours);
        *seen.entry(ours.answer.answer).or_default() += 1;
        rounds = rounds.max(ours.words.iter().max().map_or(0, |word| word / 32));
    }
    println!("answers {seen:?}, rounds {rounds}");
    assert!(seen[&0] > 300 && seen[&13] > 300 && rounds >= 64, "{seen:?} {rounds}");
}

/// At most K times p moments; each promise again in fewer than K times p moves.
fn demand_3(rules: &Rules, outcome: &Outcome) {
    let Answer { answer, count, a, b, .. } = outcome.answer;
    let (a, b) = (a as usize, b as usize);
    let most = count as usize * rules.promises();
    if answer != 0 || most == 0 || b * most > 1 << 20 {
        return;
    }
    assert!(b <= most);
    let after = |moment: usize| if moment + 1 == b { a } else { moment + 1 };
    for promise in 0..rules.promises() {
        for moment in 0..b {
            let reading = std::iter::successors(Some(moment), |&moment| Some(after(moment)));
            let kept = |moment: usize| rules.kept(promise, outcome.run[moment]);
            assert!(reading.take(most).any(kept));
        }
    }
}

/// Sheets of up to 24 letters: the papers are accepted, whatever they are.
#[test]
fn papers_of_large_sheets_are_accepted() {
    let mut rng = Rng::new(8);
    let mut seen: BTreeMap<u32, usize> = BTreeMap::new();
    for _ in 0..600 {
        let letters = rng.within(6, 24) as u8;
        let sheet = random_draft(&mut rng, letters).bytes();
        let outcome = judged(&sheet, &Lent::all(7, [2048, 2048, 4096, 32_768]));
        accepted(&sheet, &outcome);
        let rules = Rules::new(&read(&sheet).expect("a good sheet"));
        demand_3(&rules, &outcome);
        *seen.entry(outcome.answer.answer).or_default() += 1;
    }
    println!("answers {seen:?}");
    assert!(seen[&0] > 50 && seen[&11] > 50 && seen[&13] > 50, "{seen:?}");
}

/// The named families, with the numbers they were made for.
#[test]
fn families_are_as_they_are_meant() {
    for family in families() {
        accepted(&family.sheet, &judged_freely(&family.sheet));
    }
    let answer = |draft: make::Draft| judged_freely(&draft.bytes()).answer;
    let can = |count, a, b| Answer { answer: 0, count, a, b, place: 0 };
    let cannot = |count| Answer { answer: 13, count, a: 0, b: 0, place: 0 };
    let no_room = Answer { answer: 11, ..Answer::default() };
    assert_eq!(answer(make::w15()), cannot(4));
    assert_eq!(answer(make::exactly(20, 3)), can(1140, 0, 1));
    assert_eq!(answer(make::free(12)), can(4096, 0, 1));
    assert_eq!(answer(make::free(14)), can(16_384, 0, 1));
    assert_eq!(answer(make::free(15)), no_room);
    assert_eq!(answer(make::free(24)), no_room);
    assert_eq!(answer(make::exactly(24, 12)), no_room);
    assert_eq!(answer(make::dense(10)), can(1024, 1, 11));
    assert_eq!(answer(make::counter(12)), can(4096, 0, 4096));
    assert_eq!(answer(make::counter(14)), can(16_384, 0, 16_384));
    assert_eq!(answer(make::counter(15)), no_room);
    assert_eq!(answer(make::long_run(12, 16)), can(4096, 0, 65_536));
    assert_eq!(answer(make::long_run(14, 16)), can(16_384, 0, 262_144));

    // One state a round, from the last back to 0.
    let outcome = judged_freely(&make::counter_to_dead_end(12).bytes());
    assert_eq!(outcome.answer, cannot(4096));
    for place in 0..4096 {
        let number = place as u32;
        assert_eq!(
            (outcome.table[place], outcome.words[place]),
            (State::from(4095 - number), 32 * (number + 1))
        );
    }
    // Reasons 16, 15, ... 1 over and over, a new round but from 1 to 16.
    let outcome = judged_freely(&make::falling_promises(8).bytes());
    assert_eq!(outcome.answer, cannot(4096));
    let (mut round, mut reason) = (1, 16);
    for place in 0..4096 {
        assert_eq!(outcome.words[place], 32 * round + reason, "{place}");
        if reason == 1 {
            reason = 16;
        } else {
            reason -= 1;
            round += 1;
        }
    }
}

/// The numbers of the letters say nothing: a sheet of up to 24 letters in
/// another order has the same states and words under other numbers.
#[test]
fn the_order_of_the_letters_is_nothing() {
    let mut rng = Rng::new(9);
    let mut seen: BTreeMap<u32, usize> = BTreeMap::new();
    for _ in 0..1500 {
        let letters = rng.within(4, 24) as u8;
        let sheet = written(&mut rng, letters).bytes();
        let numbers = any_order(&mut rng, letters);
        let other = renamed(&sheet, &numbers).expect("a good sheet");
        let room = Lent::all(7, [600, 600, 1200, 9600]);
        let [ours, theirs] = [judged(&sheet, &room), judged(&other, &room)];
        accepted(&sheet, &ours);
        accepted(&other, &theirs);
        let Answer { answer, count, .. } = ours.answer;
        assert_eq!((answer, count), (theirs.answer.answer, theirs.answer.count), "{sheet:?}");
        let entries = |outcome: &Outcome, numbers: Option<&[i8]>| {
            let state = |state| numbers.map_or(state, |numbers| renamed_state(state, numbers));
            let states = outcome.table.iter().map(|&number| state(number));
            let mut list: Vec<(State, u32)> =
                states.zip(outcome.words.iter().copied()).take(count as usize).collect();
            list.sort_unstable();
            list
        };
        assert_eq!(entries(&ours, Some(&numbers)), entries(&theirs, None), "{sheet:?}");
        *seen.entry(answer).or_default() += 1;
    }
    println!("answers {seen:?}");
    assert!(seen[&0] > 150 && seen[&13] > 150, "{seen:?}");
}

/// What is forced is seen: nodes visited in each order of the letters.
#[test]
fn forced_letters_cost_nothing() {
    let nodes = |sheet: &[u8]| explored(sheet, 16_384).expect("a good sheet");
    let most = |draft: make::Draft| {
        let found = in_orders(&draft.bytes()).expect("a good sheet").map(|sheet| nodes(&sheet));
        assert!(found.iter().all(|order| order.states == found[0].states));
        (found[0].states, found.iter().map(|order| order.nodes).max().unwrap_or(0))
    };
    // One branch for the first states, and one for the next state of each.
    assert_eq!(most(families::ring_with_flags(8, 16)), (Some(256), 257));
    assert_eq!(most(families::ring_with_flags(8, 8)), (Some(256), 257));
    // 2,048 classes; in three of four a flag hangs on the free letter, which
    // takes two branches more.
    assert_eq!(most(families::register_with_flags(12)), (Some(4096), 5121));
    for (caches, states, bound) in [(3, 810, 40_000), (4, 1360, 120_000), (5, 248, 3000)] {
        let (found, nodes) = most(families::cache_protocol(caches));
        assert!(found == Some(states) && nodes < bound, "{caches} {found:?} {nodes}");
    }
    let (found, nodes) = most(families::chained_definitions());
    assert!(found == Some(64) && nodes < 500, "{found:?} {nodes}");
    // A clash costs one way down.
    for family in families::clashes() {
        for sheet in in_orders(&family.sheet).expect("a good sheet") {
            let outcome = judged_freely(&sheet);
            let count = outcome.answer.count as usize;
            let (states, words) = (&outcome.table[..count], &outcome.words[..count]);
            assert_eq!(outcome.answer.answer, 13);
            assert!(explored(&sheet, 1).expect("a good sheet").nodes < 30, "{}", family.name);
            assert!(strikes_nodes(&sheet, states, words) < 30, "{}", family.name);
            accepted(&sheet, &outcome);
        }
    }
    assert_eq!(judged_freely(&families::odd_clash(16, 2, 0).bytes()).answer.answer, 13);
}
