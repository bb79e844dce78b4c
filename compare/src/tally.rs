//! Counts of what was compared, by outcome and by pair of sides.

use std::collections::BTreeMap;
use std::fmt::Debug;

use crate::sides::{Answer, Refusal};

/// How many inputs are shown of those that differ.
pub const EXAMPLES: usize = 5;

fn shortened(text: &str, most: usize) -> String {
    if text.chars().count() > most {
        text.chars().take(most).chain("..".chars()).collect()
    } else {
        text.into()
    }
}

#[derive(Default)]
struct Pair {
    equal: u64,
    known: BTreeMap<&'static str, (u64, String)>,
    differ: u64,
    examples: Vec<String>,
}

/// Why the original is not asked about an input, whatever it would answer.
#[derive(Clone, Copy, PartialEq, Eq, PartialOrd, Ord)]
pub enum LeftOut {
    /// Its fields do not suffice.
    Fields,
    /// The program is 15 since Req 08, and was sound before.
    Since08,
}

/// The answers of the three sides to one input; None where a side gives none.
pub struct Answers<T> {
    pub original: Option<Answer<T>>,
    pub document: Option<Answer<T>>,
    pub ours: Option<Answer<T>>,
    pub left_out: Option<LeftOut>,
}

#[derive(Default)]
pub struct Tally {
    inputs: u64,
    /// How many of them the original answers, and about how many it is not asked.
    compared: u64,
    left_out: BTreeMap<LeftOut, u64>,
    outcomes: BTreeMap<String, u64>,
    pairs: BTreeMap<&'static str, Pair>,
}

impl Tally {
    /// Counts one input. `known` names a written-down difference between the original and the
    /// document; anything else that is not equal is a fault.
    pub fn count<T: PartialEq + Debug>(
        &mut self,
        answers: &Answers<T>,
        label: impl Fn(&T) -> String,
        show: impl Fn() -> String,
        known: impl Fn(&Answer<T>, &Answer<T>) -> Option<&'static str>,
    ) {
        self.inputs += 1;
        self.compared += u64::from(answers.original.is_some());
        if let Some(why) = answers.left_out {
            *self.left_out.entry(why).or_default() += 1;
        }
        let outcome = match answers.document.as_ref().or(answers.original.as_ref()) {
            None => "not judged".into(),
            Some(Ok(value)) => label(value),
            Some(Err(refusal)) => format!("refused {:2}", refusal.number),
        };
        *self.outcomes.entry(outcome).or_default() += 1;
        self.pair("original and document", &answers.original, &answers.document, &show, &known);
        self.pair("ours and document", &answers.ours, &answers.document, &show, &|_, _| None);
        self.pair("original and ours", &answers.original, &answers.ours, &show, &known);
    }

    /// Counts what the original does by itself with an input that is left out for its fields, and what
    /// the rules make of it in these.
    pub fn count_left_out<T: PartialEq + Debug>(
        &mut self,
        original: T,
        due: Option<T>,
        show: impl Fn() -> String,
    ) {
        let due = Some(due.ok_or(Refusal { number: 12, place: 0 }));
        let name = "original where left out, and the rules in its fields";
        self.pair(name, &Some(Ok(original)), &due, &show, &|_, _| None);
    }

    /// Counts what the original answers by itself where a program is 15 since Req 08, and what the rules
    /// without it would say.
    pub fn count_since_08<T: PartialEq + Debug>(
        &mut self,
        original: Option<Answer<T>>,
        before: Option<Answer<T>>,
        show: impl Fn() -> String,
    ) {
        let name = "original where 15 since Req 08, and the rules without it";
        self.pair(name, &original, &before, &show, &|_, _| None);
    }

    fn pair<T: PartialEq + Debug>(
        &mut self,
        name: &'static str,
        a: &Option<Answer<T>>,
        b: &Option<Answer<T>>,
        show: &dyn Fn() -> String,
        known: &dyn Fn(&Answer<T>, &Answer<T>) -> Option<&'static str>,
    ) {
        let (Some(a), Some(b)) = (a, b) else {
            return;
        };
        let pair = self.pairs.entry(name).or_default();
        if a == b {
            pair.equal += 1;
        } else if let Some(label) = known(a, b) {
            let entry = pair.known.entry(label).or_insert((0, show()));
            entry.0 += 1;
            if show().len() < entry.1.len() {
                entry.1 = show();
            }
        } else {
            pair.differ += 1;
            if pair.examples.len() < EXAMPLES {
                let [x, a, b] =
                    [show(), format!("{a:?}"), format!("{b:?}")].map(|t| shortened(&t, 300));
                pair.examples.push(format!("{x}\n      {a}\n      {b}"));
            }
        }
    }

    /// Prints the counts, at once; answers whether nothing differed but what is written down.
    pub fn report(&self, title: &str) -> bool {
        let outcomes: Vec<_> = self.outcomes.iter().map(|(k, n)| format!("{k}: {n}")).collect();
        let mut lines =
            vec![format!("{title}: {} inputs", self.inputs), format!("  {}", outcomes.join(", "))];
        let compared = self.compared;
        let [wide, since_08] = [LeftOut::Fields, LeftOut::Since08]
            .map(|why| self.left_out.get(&why).copied().unwrap_or_default());
        if compared + wide + since_08 > 0 {
            let rest = self.inputs - compared - wide - since_08;
            lines.push(format!(
                "  original: {compared} compared, {wide} left out for its fields, {since_08} as 15 since Req 08, {rest} without an answer"
            ));
        }
        for (name, pair) in &self.pairs {
            lines.push(format!("  {name}: {} equal, {} differ", pair.equal, pair.differ));
            lines.extend(pair.known.iter().map(|(label, (n, example))| {
                format!("    known, {label}: {n}, e.g. {}", shortened(example, 60))
            }));
            lines.extend(pair.examples.iter().map(|example| format!("    DIFFERS {example}")));
        }
        println!("{}", lines.join("\n"));
        self.pairs.values().all(|pair| pair.differ == 0)
    }
}
