//! The counts of the questions, printed: by question, filter and number; what is left out, by reason and share.
use super::{Asked, Key};
use calls::model::LeftOut;
use std::collections::BTreeSet;

impl Asked {
    /// Prints the counts. Answers whether nothing differs and, if any question was asked, each number occurred.
    pub fn report(&self) -> bool {
        if self.states == 0 {
            return true;
        }
        println!(
            "\nquestion, filter: answers with 0, 1, 2, 21, 22; equal to the crate's; left out of that, by reason and share"
        );
        let keys: BTreeSet<Key> = self.numbers.keys().map(|k| k.0).collect();
        for key in keys {
            self.report_question(key);
        }
        self.report_left_out();
        println!("\nwhat the answers show:");
        for (what, count) in &self.shown {
            println!("{count:9}  {what}");
        }
        if let Some(said) = &self.shortest {
            println!("\nthe shortest difference of a question\n{said}");
        }
        let with = |n: u32| self.numbers.iter().filter(|(k, _)| k.1 == n).map(|(_, c)| c).sum::<u64>();
        println!(
            "\n{} states and {} of their nodes asked about: {} answers compared (1: {}, 2: {}, 21: {}, 22: {}), {} of the crate's; {} s; {} differ",
            self.states,
            self.nodes,
            self.asked(),
            with(1),
            with(2),
            with(21),
            with(22),
            self.crates.values().sum::<u64>(),
            self.spent.as_secs(),
            self.differences
        );
        self.differences == 0
    }

    fn report_question(&self, key: Key) {
        let of = |n: u32| self.numbers.get(&(key, n)).copied().unwrap_or(0);
        let crates = self.crates.get(&key).copied().unwrap_or(0);
        let left: Vec<String> = self
            .left_out
            .iter()
            .filter(|(k, _)| k.0 == key)
            .map(|(k, n)| format!("{} {n} ({})", reason(k.1), share(*n, of(0))))
            .collect();
        let name = if key.1 == 0 { key.0.to_string() } else { format!("{}, {}", key.0, key.1) };
        println!(
            "{name:32} {:9} {:7} {:7} {:8} {:8} {crates:9}  {}",
            of(0),
            of(1),
            of(2),
            of(21),
            of(22),
            left.join(", ")
        );
    }

    /// What is left out of the comparison with the crate, of all that the crate was asked.
    fn report_left_out(&self) {
        let asked: u64 = self.crates.values().chain(self.left_out.values()).sum();
        println!("\nleft out of the comparison with the crate, of {asked} answers:");
        for why in [LeftOut::SteppedIn, LeftOut::NotFinite] {
            let n = self.left_out.iter().filter(|(k, _)| k.1 == why).map(|(_, n)| n).sum();
            println!("{n:9}  {} ({})", reason(why), share(n, asked));
        }
    }
}

fn reason(why: LeftOut) -> &'static str {
    match why {
        LeftOut::SteppedIn => "a walk of the crate steps into a dropped node",
        LeftOut::NotFinite => "a number that is not finite",
    }
}

fn share(n: u64, of: u64) -> String {
    format!("{:.3}%", 100.0 * n as f64 / of.max(1) as f64)
}
