//! What every comparison with the Rust original does: it reads its arguments, goes through the cases, counts what came, shows
//! the first differences, and fails where there is one.

mod arguments;

use crate::no::No;
use crate::random::Random;
use causeylark::Refusal;
use std::collections::BTreeMap;
use std::fmt::Debug;

const SHOWN: usize = 10;

/// In as many cases as this, every kind has to come at least once.
pub const ENOUGH: usize = 2_000;

/// What comes of a call: the call, a refusal's number or 0, and why.
pub type Call = (&'static str, u32, &'static str);

/// A comparison that counts kinds, and adds up sums of its own beside them.
pub struct Comparison<Kind, Sums> {
    pub random: Random,
    pub cases: usize,
    pub sums: Sums,
    pub differences: usize,
    case: usize,
    counts: BTreeMap<Kind, u64>,
}

/// The numbers after --cases and --seed. So many cases, if it is not said.
fn numbers(tool: &str, mut cases: usize) -> Result<(usize, u64), String> {
    let mut seed = 1;
    let mut words = std::env::args().skip(1);
    while let Some(word) = words.next() {
        let number = words.next().and_then(|number| number.parse().ok());
        match (word.as_str(), number) {
            ("--cases", Some(number)) => cases = number as usize,
            ("--seed", Some(number)) => seed = number,
            _ => return Err(format!("{tool}: --cases N or --seed N, and not {word}")),
        }
    }
    Ok((cases, seed))
}

impl<Kind: Ord + Debug, Sums: Default> Comparison<Kind, Sums> {
    /// As the arguments of this tool ask.
    pub fn asked(tool: &str, cases: usize) -> Comparison<Kind, Sums> {
        let (cases, seed) = arguments::or_end(numbers(tool, cases));
        Comparison {
            random: Random(seed),
            cases,
            sums: Sums::default(),
            differences: 0,
            case: 0,
            counts: BTreeMap::new(),
        }
    }

    pub fn each_case(&mut self, compare: impl Fn(&mut Self)) {
        for case in 1..=self.cases {
            self.case = case;
            compare(self);
        }
    }

    pub fn count(&mut self, kind: Kind) {
        *self.counts.entry(kind).or_default() += 1;
    }

    pub fn difference(&mut self, what: &str, wanted: impl Debug, found: impl Debug) {
        self.differences += 1;
        if self.differences <= SHOWN {
            println!(
                "case {}: {what}\n  wanted {wanted:?}\n  found  {found:?}",
                self.case
            );
        }
    }

    /// A line for each kind that came: how often, and the kind.
    pub fn show(&self, line: impl Fn(&Kind) -> String) {
        for (kind, count) in &self.counts {
            println!("{count:>9}  {}", line(kind));
        }
    }

    /// Each of these has to have come, in so many cases.
    pub fn demand(&mut self, kinds: impl IntoIterator<Item = Kind>, enough: usize) {
        for kind in kinds {
            if self.cases >= enough && !self.counts.contains_key(&kind) {
                self.difference("never came", kind, "none");
            }
        }
    }

    /// Ends the program with 1 where there is a difference.
    pub fn end(&self) {
        if self.differences > 0 {
            std::process::exit(1);
        }
    }
}

impl<Sums: Default> Comparison<Call, Sums> {
    /// Counts what should come of a call, and compares it with what came. Gives why it should; `good` where nothing is wrong.
    pub fn answer<T: PartialEq + Debug>(
        &mut self,
        call: &'static str,
        good: &'static str,
        wanted: Result<T, No>,
        said: Result<T, Refusal>,
    ) -> &'static str {
        let (number, why) = wanted
            .as_ref()
            .map_or_else(|no| (no.number, no.why), |_| (0, good));
        self.count((call, number, why));
        let wants = wanted.map_err(|no| (no.number, no.place));
        let says = said.map_err(|refusal| (refusal.number(), refusal.place()));
        if wants != says {
            self.difference(call, (wants, why), says);
        }
        why
    }
}
