//! Crystal tolerance: for a wanted clock c and source figures that differ by D, the two SCKDIV values of the first clock entry differ by at
//! most 2 * (D div (2c) + 1); figures that agree give equal words; a larger source never gives a smaller SCKDIV.

mod common;

use common::Random;
use common::registers::{CCR, MEN, WRITE};
use common::run::found;
use lpspi_host::{CcrCache, ClockConfigs, Lpspi, set_clock_hz};

/// The CCR word of clocks that are not 0.
fn clock(source: u32, wanted: u32) -> u32 {
    ClockConfigs::from_hz(source, wanted).unwrap().as_raw()
}

fn sckdiv(word: u32) -> u32 {
    word & 0xFF
}

/// 2 * (D div (2c) + 1)
fn bound(wanted: u32, s: u32, t: u32) -> u64 {
    2 * (u64::from(s.abs_diff(t)) / (2 * u64::from(wanted)) + 1)
}

/// SCKDIV at the lower and at the upper clamp.
const LOW_CLAMP: u32 = 4;
const HIGH_CLAMP: u32 = 254;

/// How many pairs there were of each sort.
#[derive(Debug, Default)]
struct Seen {
    equal: u32,
    reached: u32,
    low_clamp: u32,
    high_clamp: u32,
    both_clamps: u32,
}

impl Seen {
    /// Holds the three sentences against the words that two figures were answered.
    fn hold(&mut self, wanted: u32, figures: [u32; 2], words: [u32; 2]) {
        let inputs = || format!("clock {wanted}, sources {figures:?}: {words:08X?}");
        assert!(
            figures[0] != figures[1] || words[0] == words[1],
            "{}",
            inputs()
        );
        let mut both = [0, 1].map(|i| (figures[i], sckdiv(words[i])));
        both.sort();
        let [(s, a), (t, b)] = both;
        assert!(a <= b, "{}", inputs());
        assert!(u64::from(b - a) <= bound(wanted, s, t), "{}", inputs());
        self.equal += u32::from(s == t);
        self.reached += u32::from(u64::from(b - a) == bound(wanted, s, t));
        self.low_clamp += u32::from(a == LOW_CLAMP && b > LOW_CLAMP);
        self.high_clamp += u32::from(a < HIGH_CLAMP && b == HIGH_CLAMP);
        self.both_clamps += u32::from(a == LOW_CLAMP && b == HIGH_CLAMP);
    }

    fn pair(&mut self, wanted: u32, figures: [u32; 2]) {
        let words = figures.map(|source| clock(source, wanted));
        self.hold(wanted, figures, words);
    }

    fn all_above(&self, least: u32) {
        let clamps = [self.low_clamp, self.high_clamp, self.both_clamps];
        let fewest = clamps
            .into_iter()
            .fold(self.equal.min(self.reached), u32::min);
        assert!(fewest > least, "{self:?}");
    }
}

/// Every pair of figures from 1 to well past the upper clamp, for the smallest clocks. The first that reaches the bound is 6 and 7.
#[test]
fn every_pair_for_small_clocks() {
    let (mut seen, mut first) = (Seen::default(), None);
    for wanted in 1..=3 {
        let answers = || (1..=270 * wanted).map(|source| clock(source, wanted));
        let words: Vec<u32> = answers().collect();
        for (t, v) in (1..).zip(answers()) {
            for (s, u) in (1..=t).zip(&words) {
                let reached = seen.reached;
                seen.hold(wanted, [s, t], [*u, v]);
                if seen.reached > reached {
                    first = first.or(Some((wanted, s, t, sckdiv(*u), sckdiv(v))));
                }
            }
        }
    }
    assert_eq!(first, Some((1, 6, 7, 4, 6)));
    seen.all_above(500);
}

/// The figures around both clamps, the least and the greatest, each with each in both orders, for clocks below 2^24.
#[test]
fn pairs_at_the_clamps() {
    let mut random = Random::new("pairs_at_the_clamps");
    let mut seen = Seen::default();
    for _ in 0..1_000 {
        let wanted = (random.any_size() / 256).max(1);
        // The clamp to 3 acts up to 4c, and h is 3 up to 6c; it is 128 from 254c + 1 on, and the clamp to 128 acts from 256c + 1 on.
        let edges = [4, 6, 254, 256].map(|times| times * u64::from(wanted));
        let near = edges.iter().flat_map(|edge| edge - 3..=edge + 3);
        let mut figures: Vec<u32> = near.map(|figure| u32::try_from(figure).unwrap()).collect();
        figures.extend([1, u32::MAX]);
        for s in &figures {
            for t in &figures {
                seen.pair(wanted, [*s, *t]);
                random.cases.count();
            }
        }
    }
    seen.all_above(500);
}

#[test]
fn random_pairs() {
    let mut random = Random::new("random_pairs");
    let mut seen = Seen::default();
    for _ in 0..400_000 {
        let wanted = random.any_size().max(1);
        let s = random.any_size().max(1);
        // Mostly figures that are near each other, as a crystal's are.
        let t = match random.below(4) {
            0 => random.any_size(),
            1 => s,
            _ => s.saturating_add(random.any_size() >> 8),
        };
        let mut figures = [s, t.max(1)];
        if random.flag() {
            figures.reverse();
        }
        seen.pair(wanted, figures);
        random.cases.count();
    }
    seen.all_above(500);
}

/// Between the clamps the bound is reached for every k: from a figure at its divider's upper edge, D = 2ck + 1 moves SCKDIV by 2(k + 1).
#[test]
fn the_bound_is_reached() {
    let mut random = Random::new("the_bound_is_reached");
    for steps in 0..125 {
        for _ in 0..20 {
            let wanted = (random.any_size() / 256).max(1);
            let half = 3 + random.below(125 - steps as usize) as u32;
            let s = 2 * wanted * half;
            let t = s + 2 * wanted * steps + 1;
            let [u, v] = [s, t].map(|source| sckdiv(clock(source, wanted)));
            let moved = (2 * (half - 1), 2 * (half + steps));
            assert_eq!((u, v), moved, "clock {wanted}, sources {s} and {t}");
            assert_eq!(u64::from(moved.1 - moved.0), bound(wanted, s, t));
            random.cases.count();
        }
    }
}

/// A figure that is too high is on the safe side: SCK of a true source of at most 256 times the wanted clock is at most that clock.
#[test]
fn a_figure_above_the_source_keeps_the_clock() {
    let mut random = Random::new("a_figure_above_the_source_keeps_the_clock");
    let (mut kept, mut clamped, mut over) = (0, 0, 0);
    for _ in 0..200_000 {
        let (wanted, figure) = (random.any_size().max(1), random.any_size().max(1));
        let source = 1 + random.below(figure as usize) as u32;
        let divider = u64::from(sckdiv(clock(figure, wanted))) + 2;
        let [wanted, figure, source] = [wanted, figure, source].map(u64::from);
        let keeps = source <= wanted * divider;
        // Past 256 times the clock the clamp has its way, whatever the figure.
        assert_eq!(
            keeps,
            source <= 256 * wanted,
            "source {source}, figure {figure}, clock {wanted}"
        );
        *(match (keeps, figure <= 256 * wanted) {
            (true, true) => &mut kept,
            (true, false) => &mut clamped,
            (false, _) => &mut over,
        }) += 1;
        random.cases.count();
    }
    assert!(kept.min(clamped).min(over) > 500, "{kept} {clamped} {over}");
}

/// `set_clock_hz` writes CCR once, with the word that `from_hz` answers, and the driver keeps its DBT and SCKDIV.
#[test]
fn a_run_sets_the_same_word() {
    let mut random = Random::new("a_run_sets_the_same_word");
    for _ in 0..2_000 {
        let (source, wanted) = (random.any_size().max(1), random.any_size().max(1));
        let driver = Lpspi::of_number(random.word());
        let waits = random.below(4);
        let mut script = vec![random.word(), random.word()];
        script.extend((0..waits).map(|_| random.word() | MEN));
        script.extend([random.word() & !MEN, random.word()]);
        let mut log = found(2 * (script.len() + 3));
        let run = set_clock_hz(driver, source, wanted, log.len() / 2, &script, &mut log);
        assert_eq!((run.result, run.accesses), (Ok(()), 7 + waits));
        let made = log[..2 * run.accesses].chunks(2);
        let ccr: Vec<u32> = made
            .filter(|pair| pair[0] == WRITE + CCR)
            .map(|pair| pair[1])
            .collect();
        let word = clock(source, wanted);
        assert_eq!(ccr, [word], "source {source}, clock {wanted}");
        let [low, dbt, _, _] = word.to_le_bytes();
        assert_eq!(
            run.driver,
            Lpspi {
                ccr_cache: CcrCache { dbt, sckdiv: low },
                ..driver
            }
        );
        random.cases.count();
    }
}

/// p and h as document 02 has the second clock entry (No. 6) take them, by trying them all.
fn second_entry(source: u32, wanted: u32) -> (u32, u32) {
    let pairs = (0..=7).flat_map(|p| (3..=128).map(move |h| (p, h)));
    let keeps = |&(p, h): &(u32, u32)| source <= wanted * (1 << p) * 2 * h;
    pairs
        .filter(keeps)
        .min_by_key(|&(p, h)| ((1 << p) * h, p))
        .unwrap()
}

/// SCKDIV of a word that the second clock entry would write.
fn second_sckdiv(source: u32, wanted: u32) -> u32 {
    2 * (second_entry(source, wanted).1 - 1)
}

/// Order and bound do not hold of the second clock entry, which is not built: this holds document 02's rule for it, and no code, against
/// docs/CALLS.md. The smallest figures that show it, by the larger and then by the smaller: 131 and 257 for a clock of 1 (order), 195 and
/// 257 (bound). The nearest are 256 and 257.
#[test]
fn not_of_a_second_entry_with_a_prescaler() {
    for wanted in 1..=3 {
        let edge = 256 * wanted;
        let sckdivs: Vec<u32> = (1..=edge + 1).map(|s| second_sckdiv(s, wanted)).collect();
        let second = |source: u32| sckdivs[source as usize - 1];
        let pairs = || (1..=edge + 1).flat_map(|t| (1..=t).map(move |s| (s, t)));
        let unordered = pairs().find(|&(s, t)| second(s) > second(t));
        let further =
            |&(s, t): &(u32, u32)| u64::from(second(s).abs_diff(second(t))) > bound(wanted, s, t);
        let unbounded = pairs().find(further);
        assert_eq!(unordered, Some((130 * wanted + 1, edge + 1)));
        assert_eq!(unbounded, Some((194 * wanted + 1, edge + 1)));
        assert!(further(&(edge, edge + 1)));
    }
    assert_eq!(
        [131, 195, 256, 257].map(|s| second_sckdiv(s, 1)),
        [130, 194, 254, 128]
    );
}
