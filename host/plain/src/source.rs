//! The case studies and experiments of source document 000, as sheets.
//!
//! Its normal form is nearly a sheet's: initial clauses are first rules, step
//! clauses are step rules, a "sometime" clause with nothing before it is a
//! promise, a constraint is a limit. What differs is said where it is encoded.

use crate::judge::judge;
use crate::make::{Draft, Family, Rng};

/// A clause holding at every moment: a first rule, and a step rule that always
/// applies.
pub(crate) fn always(draft: &mut Draft, clause: &[i8]) {
    draft.first(clause).step([], clause);
}

// ---------------------------------------------------------------------------
// Section 5.3: random sheets

/// Between 1 and `most` literals of different letters, each as likely either way.
fn clause(rng: &mut Rng, letters: u8, most: usize) -> Vec<i8> {
    let size = rng.within(1, most);
    let mut left: Vec<i8> = (1..=letters as i8).collect();
    (0..size)
        .map(|_| {
            let letter = left.swap_remove(rng.below(left.len()));
            if rng.once_in(2) {
                letter
            } else {
                -letter
            }
        })
        .collect()
}

/// An initial clause of at most five literals.
fn initial_clause(rng: &mut Rng, draft: &mut Draft) {
    let list = clause(rng, draft.letters, 5);
    draft.first(list);
}

/// A step clause of at most five literals, parted anywhere into its sides; the
/// right side keeps at least one.
fn step_clause(rng: &mut Rng, draft: &mut Draft) {
    let list = clause(rng, draft.letters, 5);
    let (left, right) = list.split_at(rng.below(list.len()));
    draft.step(left, right);
}

/// Table 1: ten letters, four clauses, a "sometime" for each letter, and one
/// constrained set of so many letters. The document leaves its bound open;
/// here exactly one of them holds.
pub fn random_formula(rng: &mut Rng, constrained: u8) -> Draft {
    let mut draft = Draft::new(10);
    draft.exactly(1, (1..=constrained as i8).collect::<Vec<_>>());
    for _ in 0..4 {
        match rng.below(2) {
            0 => initial_clause(rng, &mut draft),
            _ => step_clause(rng, &mut draft),
        }
    }
    for letter in 1..=10 {
        draft.promise(if rng.once_in(2) { letter } else { -letter });
    }
    draft
}

/// Table 2: a letter for each state of a machine, exactly one of which holds,
/// and two next states for each, the first of them on a circle through all, so
/// that every state can be visited for ever. A sheet has at most 16 promises,
/// so at most 16 of the states are promised.
pub fn state_machine(rng: &mut Rng, states: u8) -> Draft {
    let mut draft = Draft::new(states);
    let all: Vec<i8> = (1..=states as i8).collect();
    let mut circle = all.clone();
    for place in (1..circle.len()).rev() {
        circle.swap(place, rng.below(place + 1));
    }
    draft.exactly(1, all.clone()).first([circle[0]]);
    for (place, &here) in circle.iter().enumerate() {
        let next = circle[(place + 1) % circle.len()];
        draft.step([here], [next, *rng.pick(&all)]);
    }
    for &state in all.iter().take(16) {
        draft.promise(state);
    }
    draft
}

/// What the columns of Tables 3 to 5 share: rules, and the shape of the limits.
struct Overlapping {
    letters: u8,
    promises: usize,
    bound: u8,
    /// For each column the size of each of the three lists, and how many
    /// letters two of them share.
    columns: [(u8, u8); 3],
}

/// Tables 3 to 5.
const OVERLAPPING: [Overlapping; 3] = [
    // Sums 6, 9 and 12 of the sizes over 6 letters.
    Overlapping { letters: 10, promises: 4, bound: 1, columns: [(2, 0), (3, 1), (4, 2)] },
    // Sums 9, 12 and 15 over 9 letters.
    Overlapping { letters: 10, promises: 4, bound: 2, columns: [(3, 0), (4, 1), (5, 2)] },
    // Sums 12, 15 and 18 over 12 letters.
    Overlapping { letters: 15, promises: 5, bound: 1, columns: [(4, 0), (5, 1), (6, 2)] },
];

/// Tables 3 to 5, columns a, b and c: ten initial clauses and twenty step
/// clauses, drawn again until all three columns can be kept, as the document
/// says of its own. No letter stands in all three lists, for the coverage
/// equals the sum less the overlap. In Table 3, column c, every letter then
/// stands in two lists of three; if exactly one of each list held, the lists
/// together would count to three, an odd number. So the limits say "at most".
pub fn overlapping(rng: &mut Rng, set: usize) -> [Draft; 3] {
    let Overlapping { letters, promises, bound, columns } = OVERLAPPING[set];
    loop {
        let mut rules = Draft::new(letters);
        for _ in 0..10 {
            initial_clause(rng, &mut rules);
        }
        for _ in 0..20 {
            step_clause(rng, &mut rules);
        }
        for _ in 0..promises {
            let literal = clause(rng, letters, 1)[0];
            rules.promise(literal);
        }
        let drafts = columns.map(|(size, shared)| {
            let mut draft = rules.clone();
            let own = size - shared;
            for list in 0..3 {
                let letter = |place| ((list * own + place) % (3 * own) + 1) as i8;
                draft.at_most(bound, (0..size).map(letter).collect::<Vec<_>>());
            }
            draft
        });
        if drafts.iter().all(can_be_kept) {
            return drafts;
        }
    }
}

fn can_be_kept(draft: &Draft) -> bool {
    let (mut table, mut words) = (vec![0; 16_384], vec![0; 16_384]);
    let mut scratch = vec![0; 32_768];
    // With no room for a run, 12 says that there is one.
    judge(&draft.bytes(), &mut table, &mut words, &mut scratch, &mut []).answer == 12
}

// ---------------------------------------------------------------------------
// Section 3.3 and Table 6: four dining philosophers

/// Which of Table 6's columns.
#[derive(Clone, Copy, Debug, PartialEq, Eq)]
pub enum Dinner {
    /// The net alone.
    Net,
    /// And each philosopher eats again and again.
    AllEat,
    /// And philosophers 1 and 2 once eat at the same time.
    TwoEat,
}

/// A net of places (forks 1 to 4, thinking 5 to 8, eating 9 to 12) and
/// transitions (13 to 16 put the forks down, 17 to 20 take them up), exactly one
/// of which fires. A transition's condition is a clause that always holds.
///
/// "Sometime" is not "again and again", so for the last column letter 21 stands
/// for "it has happened": it may begin only with both eating, and then stays.
pub fn philosophers(dinner: Dinner) -> Draft {
    let mut draft = Draft::new(if dinner == Dinner::TwoEat { 21 } else { 20 });
    draft.exactly(1, (13..=20).collect::<Vec<_>>());
    // Philosopher i eats with forks i and i - 1, philosopher 1 with 1 and 4.
    let forks = |i: i8| [i, (i + 2) % 4 + 1];
    for i in 1..=4 {
        let [thinks, eats, put_down, take_up] = [i + 4, i + 8, i + 12, i + 16];
        draft.first([i]).first([thinks]).first([-eats]);
        always(&mut draft, &[-put_down, eats]);
        always(&mut draft, &[-take_up, thinks]);
        draft.step([put_down], [-eats]).step([put_down], [thinks]);
        draft.step([take_up], [eats]).step([take_up], [-thinks]);
        for fork in forks(i) {
            always(&mut draft, &[-take_up, fork]);
            draft.step([put_down], [fork]).step([take_up], [-fork]);
        }
        // A place changes through its own transitions alone.
        let next = i % 4 + 1;
        let fork_rests = [-put_down, -take_up, -(next + 12), -(next + 16)];
        for (place, rests) in
            [(i, &fork_rests[..]), (thinks, &fork_rests[..2]), (eats, &fork_rests[..2])]
        {
            for literal in [place, -place] {
                draft.step([rests, &[literal]].concat(), [literal]);
            }
        }
    }
    match dinner {
        Dinner::Net => {}
        Dinner::AllEat => draft.promises.extend(9..=12),
        Dinner::TwoEat => {
            for eats in [9, 10] {
                draft.first([-21, eats]).step([-21], [-21, eats]);
            }
            draft.step([21], [21]).promise(21);
        }
    }
    draft
}

// ---------------------------------------------------------------------------
// Section 3.1: five-a-side football

/// Which of section 3.1's teams.
#[derive(Clone, Copy, Debug, PartialEq, Eq)]
pub enum Team {
    /// Who rests will play again.
    Plain,
    /// Besides, at most three rest or are injured.
    Viable,
    /// And there is a goalkeeper, in turn each of the six.
    Goalkeeper,
    /// A viable team whose players all get injured sometime.
    AllInjured,
}

/// Six players: playing 1 to 6, resting 7 to 12, injured 13 to 18, goalkeeper
/// 19 to 24. At most five play; each does exactly one of the three.
///
/// The document writes "who rests will sometime play" with a new letter for
/// each player. None is needed: who rests goes on resting or plays, so it says
/// that each player is again and again not resting. In the same way "who is not
/// the goalkeeper will be" says that each is so again and again, and since an
/// injured player stays injured, "sometime injured" is "injured again and again".
pub fn football(team: Team) -> Draft {
    let mut draft = Draft::new(if team == Team::Goalkeeper { 24 } else { 18 });
    let players = 1..=6;
    draft.at_most(5, players.clone().collect::<Vec<_>>());
    for player in players {
        let [playing, resting, injured, keeper] = [player, player + 6, player + 12, player + 18];
        draft.exactly(1, [playing, resting, injured]);
        draft.first([if player == 6 { resting } else { playing }]);
        draft.step([playing], [playing, resting, injured]);
        draft.step([resting], [playing, resting]);
        draft.step([injured], [injured]);
        draft.promise(-resting);
        if team == Team::Goalkeeper {
            always(&mut draft, &[-keeper, playing]);
            draft.promise(keeper);
        }
        if team == Team::AllInjured {
            draft.promise(injured);
        }
    }
    if team != Team::Plain {
        draft.at_most(3, (7..=18).collect::<Vec<_>>());
    }
    if team == Team::Goalkeeper {
        draft.at_most(1, (19..=24).collect::<Vec<_>>());
    }
    draft
}

/// All of them, the random ones always the same.
pub fn families() -> Vec<Family> {
    let mut rng = Rng::new(2012);
    let mut families = Vec::new();
    let mut add = |name: String, draft: &Draft| {
        families.push(Family { name, sheet: draft.bytes() });
    };
    for constrained in 1..=10 {
        let name = format!("Table 1, {constrained} of 10 constrained");
        add(name, &random_formula(&mut rng, constrained));
    }
    for states in [5, 10, 15, 20] {
        add(format!("Table 2, machine of {states} states"), &state_machine(&mut rng, states));
    }
    for set in 0..3 {
        for (column, draft) in ["a", "b", "c"].iter().zip(&overlapping(&mut rng, set)) {
            add(format!("Table {}, overlapping {column}", set + 3), draft);
        }
    }
    for (column, dinner) in [("a", Dinner::Net), ("b", Dinner::AllEat), ("c", Dinner::TwoEat)] {
        add(format!("Table 6, philosophers {column}"), &philosophers(dinner));
    }
    for (name, team) in [
        ("five-a-side football", Team::Plain),
        ("football, viable team", Team::Viable),
        ("football, goalkeeper", Team::Goalkeeper),
        ("football, all injured", Team::AllInjured),
    ] {
        add(name.to_string(), &football(team));
    }
    families
}
