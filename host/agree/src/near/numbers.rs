//! "The first that applies wins, in this order".

use super::named;
use crate::case::Case;
use crate::cases::Named;
use reference::numbers::ORDER;

/// No number, each number alone, and every two of them.
pub fn all() -> Vec<Named> {
    let mut cases = vec![named("no number", Case::applying(Vec::new()))];
    for (place, number) in ORDER.iter().enumerate() {
        let name = format!("number {}", number.code());
        cases.push(named(name, Case::applying(vec![*number])));
        for other in &ORDER[..place] {
            let name = format!("numbers {} and {}", number.code(), other.code());
            cases.push(named(name, Case::applying(vec![*number, *other])));
        }
    }
    cases
}
