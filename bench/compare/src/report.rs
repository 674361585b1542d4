//! What is counted, and the first difference.

use std::collections::BTreeMap;
use std::fmt::{self, Debug, Display};

/// How often each kind of answer was met.
#[derive(Default)]
pub struct Counts(BTreeMap<(&'static str, &'static str), u64>);

impl Counts {
    pub fn add(&mut self, call: &'static str, kind: &'static str) {
        *self.0.entry((call, kind)).or_default() += 1;
    }

    /// Counts a refusal, or 0 as an acceptance.
    pub fn refusal(&mut self, call: &'static str, number: u8) {
        self.add(call, refusal_name(number));
    }

    pub fn take_in(&mut self, other: Counts) {
        for (kind, count) in other.0 {
            *self.0.entry(kind).or_default() += count;
        }
    }

    /// The kinds that a run has to meet and did not.
    pub fn missing(&self) -> Vec<(&'static str, &'static str)> {
        let absent = |kind: &&(&'static str, &'static str)| !self.0.contains_key(*kind);
        WANTED.iter().filter(absent).copied().collect()
    }
}

impl Display for Counts {
    fn fmt(&self, f: &mut fmt::Formatter<'_>) -> fmt::Result {
        for ((call, kind), count) in &self.0 {
            writeln!(f, "{count:>12}  {call}: {kind}")?;
        }
        Ok(())
    }
}

/// Kinds of answers without which a run would test too little.
const WANTED: &[(&str, &str)] = &[
    ("lawful", "accepted"),
    ("lawful", "refused 1"),
    ("lawful", "refused 2"),
    ("lawful", "refused 3"),
    ("lawful", "refused 4"),
    ("lawful", "refused 5"),
    ("lawful", "refused 6"),
    ("lawful", "refused 7"),
    ("certify", "accepted"),
    ("certify", "refused 8"),
    ("certify", "refused 9"),
    ("certify", "refused 10"),
    ("certify", "refused 12"),
    ("certify", "refused 102"),
    ("place", "accepted, saves placed"),
    ("place", "accepted, idle slots left"),
    ("place", "refused 11, carrying 9"),
    ("place", "refused 11, carrying 10"),
    ("least capacity", "some"),
    ("least capacity", "none"),
    ("least capacity", "the largest"),
    ("least capacity", "refused 13"),
    ("run", "goes on"),
    ("run", "exit"),
    ("run", "trap 1, an illegal slot"),
    ("run", "trap 1, a fall out of the image"),
    ("run", "trap 2"),
    ("run", "trap 3"),
    ("run", "trap 4"),
    ("supply", "accepted"),
    ("supply", "refused 13"),
    ("rig step", "yes"),
    ("rig step", "no"),
    ("rig step", "ended"),
    ("rig step", "refused 21"),
    ("rig step", "refused 22"),
    ("rig step", "refused 101"),
    ("rig step", "refused 102"),
    ("rig cut", "accepted"),
    ("rig cut", "refused 21"),
    ("rig cut", "refused 23"),
    ("rig record", "accepted"),
    ("rig record", "refused 24"),
    ("rig", "ended, after falling back"),
    ("rig", "ended, after cuts alone"),
    ("rehearse", "accepted"),
    ("rehearse", "refused 101"),
    ("rehearse", "refused 102"),
    ("rehearse", "refused 103"),
];

fn refusal_name(number: u8) -> &'static str {
    const NAMES: [(u8, &str); 20] = [
        (1, "refused 1"),
        (2, "refused 2"),
        (3, "refused 3"),
        (4, "refused 4"),
        (5, "refused 5"),
        (6, "refused 6"),
        (7, "refused 7"),
        (8, "refused 8"),
        (9, "refused 9"),
        (10, "refused 10"),
        (11, "refused 11"),
        (12, "refused 12"),
        (13, "refused 13"),
        (21, "refused 21"),
        (22, "refused 22"),
        (23, "refused 23"),
        (24, "refused 24"),
        (101, "refused 101"),
        (102, "refused 102"),
        (103, "refused 103"),
    ];
    let named = NAMES.iter().find(|(of, _)| *of == number);
    named.map_or("accepted", |(_, name)| name)
}

/// Where library and twin part.
pub struct Difference {
    call: &'static str,
    library: String,
    twin: String,
    input: String,
}

impl Difference {
    /// The same difference, with more of its input.
    pub fn from(mut self: Box<Self>, input: &dyn Display) -> Box<Difference> {
        self.input = input.to_string();
        self
    }
}

pub type Outcome = Result<(), Box<Difference>>;

impl Display for Difference {
    fn fmt(&self, f: &mut fmt::Formatter<'_>) -> fmt::Result {
        writeln!(f, "DIFFERENCE at {}", self.call)?;
        writeln!(f, "{}", self.input)?;
        writeln!(f, "library: {}", self.library)?;
        writeln!(f, "twin:    {}", self.twin)
    }
}

/// Holds an answer of the library against the twin's.
pub fn same<T: PartialEq + Debug>(
    call: &'static str,
    library: &T,
    twin: &T,
    input: &dyn Display,
) -> Outcome {
    if library == twin {
        return Ok(());
    }
    Err(Box::new(Difference {
        call,
        library: format!("{library:?}"),
        twin: format!("{twin:?}"),
        input: input.to_string(),
    }))
}

/// Bytes as two hexadecimal digits each.
pub struct Hex<'b>(pub &'b [u8]);

impl Display for Hex<'_> {
    fn fmt(&self, f: &mut fmt::Formatter<'_>) -> fmt::Result {
        self.0.iter().try_for_each(|byte| write!(f, "{byte:02x}"))
    }
}
