//! A test in parts that are worked out side by side.

use std::thread;

/// What each part gives, by a seed of its own. If one of them fails, all do.
pub fn side_by_side<P, S>(parts: &[P], asked: impl Fn(u64, P) -> S + Sync) -> Vec<S>
where
    P: Copy + Send,
    S: Send,
{
    let asked = &asked;
    thread::scope(|scope| {
        let seeded = (1..).zip(parts.iter().copied());
        let running: Vec<_> = seeded
            .map(|(seed, part)| scope.spawn(move || asked(seed, part)))
            .collect();
        let given = running.into_iter();
        given
            .map(|part| part.join().expect("a part that passes"))
            .collect()
    })
}

/// What all parts give together.
pub fn together<P, S>(
    parts: &[P],
    asked: impl Fn(u64, P) -> S + Sync,
    add: impl Fn(&mut S, &S),
) -> S
where
    P: Copy + Send,
    S: Default + Send,
{
    let mut all = S::default();
    let given = side_by_side(parts, asked);
    given.iter().for_each(|part| add(&mut all, part));
    all
}
