//! All cases, and how many of them there are.

use crate::case::Case;
use crate::group::Group;
use crate::{near, replies, scattered};
use samples::Dice;

/// A case with its name: in what it differs from the one beside it, or its place among the random ones.
pub type Named = (String, Case);

/// The cases near the boundaries, which are the same for every seed, and the random ones of the seed, if one is given.
pub fn all(seed: Option<u64>) -> Vec<Named> {
    let mut cases = near::all();
    let random = seed.map_or(Vec::new(), random);
    let named = |(place, case)| (format!("random {}", place), case);
    cases.extend(random.into_iter().enumerate().map(named));
    cases
}

fn random(seed: u64) -> Vec<Case> {
    let mut dice = Dice::seeded(seed);
    let mut cases = Vec::new();
    for n in [3, 5, 7, 3, 5, 7] {
        let mut group = Group::new(dice.below(1 << 40), n);
        for _ in 0..4 {
            cases.extend((0..12).map(|_| group.message()));
            cases.extend(group.change_of_view());
        }
    }
    cases.extend((0..400).map(|_| scattered::answer(&mut dice)));
    cases.extend((0..150).map(|_| scattered::merge(&mut dice)));
    cases.extend((0..250).map(|_| replies::count(&mut dice)));
    cases
}

/// How many cases of each kind were given each number.
pub fn summary(cases: &[Named]) -> String {
    let mut numbers = [[0; 12]; 3];
    let (mut parts, mut searches) = (0, 0);
    for (_, case) in cases {
        let (kind, refusal) = match case {
            Case::Answer(_, _, told) => (0, told.as_ref().err()),
            Case::Merge(_, _, told) => (1, told.as_ref().err()),
            Case::Count(_, _, told) => (2, told.as_ref().err()),
            Case::Steps(..) => {
                searches += 1;
                continue;
            }
            _ => {
                parts += 1;
                continue;
            }
        };
        numbers[kind][usize::from(refusal.map_or(0, |number| number.code()))] += 1;
    }
    let random = cases.iter().filter(|(name, _)| name.starts_with("random"));
    let random = random.count();
    format!(
        "{} cases near the boundaries and {} random ones; by number 0 to 11: answers {:?}, merges {:?}, counts {:?}; \
         {} of the parts, and {} of halving",
        cases.len() - random,
        random,
        numbers[0],
        numbers[1],
        numbers[2],
        parts,
        searches
    )
}
