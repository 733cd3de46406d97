//! The cases of a test: how many there are, and which branches they reach.

use std::collections::{BTreeMap, BTreeSet};
use std::fmt::Debug;
use std::panic::{AssertUnwindSafe, catch_unwind};
use std::{env, thread};

/// Counts the cases of a test, and compares two sides in each.
///
/// A test without a case fails. A difference ends the test. With `LPSPI_COUNT` set the differing cases are
/// counted, and the test fails at its end.
pub struct Cases {
    test: &'static str,
    counting: bool,
    cases: u64,
    differing: u64,
}

impl Cases {
    pub fn new(test: &'static str) -> Self {
        Self {
            test,
            counting: env::var_os("LPSPI_COUNT").is_some(),
            cases: 0,
            differing: 0,
        }
    }

    /// Counts one case.
    pub fn count(&mut self) {
        self.cases += 1;
    }

    /// Counts one case, in which the other side must leave what the port left.
    pub fn compare<L: PartialEq + Debug>(
        &mut self,
        inputs: &dyn Debug,
        port: &L,
        other: impl FnOnce() -> L,
    ) {
        self.count();
        if self.counting {
            // The other side's panic is a difference too.
            let same = catch_unwind(AssertUnwindSafe(|| other() == *port));
            self.differing += u64::from(!same.unwrap_or(false));
        } else {
            let other = other();
            let parted = || format!("{inputs:X?}:\nport {port:X?}\nother {other:X?}");
            assert!(*port == other, "{}", parted());
        }
    }
}

impl Drop for Cases {
    fn drop(&mut self) {
        let Self {
            test,
            counting,
            cases,
            differing,
        } = *self;
        assert!(cases > 0 || thread::panicking(), "{test}: no case");
        if counting {
            println!("{test}: {differing} of {cases} cases differ");
            assert!(differing == 0 || thread::panicking());
        } else {
            println!("{test}: {cases} cases");
        }
    }
}

/// How many cases reach each branch of a list.
pub struct Tally<B>(BTreeMap<B, u32>);

impl<B: Copy + Ord + Debug> Tally<B> {
    /// A tally of all the branches that there are.
    pub fn new(branches: impl IntoIterator<Item = B>) -> Self {
        Self(branches.into_iter().map(|branch| (branch, 0)).collect())
    }

    /// Counts the branches of a case, which must be in the list.
    pub fn count(&mut self, reached: BTreeSet<B>) {
        for branch in reached {
            let count = self.0.get_mut(&branch);
            *count.unwrap_or_else(|| panic!("{branch:?} is not in the list")) += 1;
        }
    }

    /// Prints all counts. Each must be what is asked of its branch, or more.
    pub fn demand(&self, name: &dyn Debug, least: impl Fn(B) -> u32) {
        println!("{name:?}: {:?}", self.0);
        assert!(!self.0.is_empty(), "{name:?}: no branch");
        let missed: Vec<_> = self
            .0
            .iter()
            .filter(|(branch, count)| **count < least(**branch))
            .collect();
        assert!(
            missed.is_empty(),
            "{name:?}: too seldom reached: {missed:?}"
        );
    }
}
