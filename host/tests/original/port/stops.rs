//! Stops before every access.

use crate::common::registers::WRITE;
use crate::common::run::{Left, Limits};

/// Makes a run with every budget and with every length of its script, up to the whole
/// run's and one access more. With the whole script the run ends with number `end`,
/// and uses all answers.
pub fn before_every_access<W>(script: &[u32], end: u32, mut run: impl FnMut(&Limits) -> Left<W>) {
    let whole = run(&Limits::new(12 * (script.len() + 1), script));
    assert_eq!((whole.number, whole.answers), (end, script.len()));
    let mut cut = |budget, answers| {
        let left = run(&Limits::new(budget, &script[..answers]));
        let made = 2 * left.accesses;
        assert_eq!(left.log[..made], whole.log[..made]);
        left
    };
    for budget in 0..=whole.accesses + 1 {
        let left = cut(budget, script.len());
        let ended = budget >= whole.accesses;
        assert_eq!(left.number, if ended { end } else { 4 });
        assert_eq!(left.accesses, budget.min(whole.accesses));
    }
    for answers in 0..script.len() {
        let left = cut(whole.accesses, answers);
        assert_eq!((left.number, left.answers), (4, answers));
        // A read would be next.
        assert!(whole.log[2 * left.accesses] < WRITE);
    }
}
