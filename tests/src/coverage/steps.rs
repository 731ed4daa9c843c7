//! What steps did, or why there was none: of bare steps, and of the step that
//! follows each kind of arrival (M-104).

use super::{Rule, RULES};
use crate::line::arrival::Arrival;
use crate::line::steps::Stepped;

const ARRIVALS: [Arrival; 13] = [
    Arrival::Stored,
    Arrival::StoredBehind,
    Arrival::Quoted,
    Arrival::QuotedBehind,
    Arrival::Dropped,
    Arrival::QuotedDropped,
    Arrival::Hello,
    Arrival::ImmediateClear,
    Arrival::Quote,
    Arrival::Clear,
    Arrival::DiscardOn,
    Arrival::Unlock,
    Arrival::DiscardOff,
];

const STEPPED: [Stepped; 8] = [
    Stepped::NoRead,
    Stepped::Locked,
    Stepped::Nothing,
    Stepped::Key,
    Stepped::KeyCompletes,
    Stepped::TokenFits,
    Stepped::TokenAbsentee,
    Stepped::Timeout,
];

/// What a step follows: a key's arrival, or nothing.
#[derive(Clone, Copy, Debug, PartialEq, Eq)]
pub enum StepKind {
    OfKey,
    Bare,
}

#[derive(Clone, Debug, PartialEq, Eq)]
pub struct Steps {
    bare: [u64; STEPPED.len()],
    after: [[u64; STEPPED.len()]; ARRIVALS.len()],
    /// Rules met within steps, by their kind.
    rules: [[u64; RULES.len()]; 2],
    /// The step that is under way.
    under_way: Option<StepKind>,
}

impl Default for Steps {
    fn default() -> Self {
        Steps {
            bare: Default::default(),
            after: Default::default(),
            rules: [[0; RULES.len()]; 2],
            under_way: None,
        }
    }
}

impl Steps {
    pub fn begin(&mut self, kind: StepKind) {
        self.under_way = Some(kind);
    }

    pub fn met_if(&mut self, holds: bool, rule: Rule) {
        if let Some(kind) = self.under_way {
            self.rules[kind as usize][rule as usize] += u64::from(holds);
        }
    }

    /// A bare step has ended.
    pub fn bare(&mut self, stepped: Stepped) {
        self.under_way = None;
        self.bare[stepped as usize] += 1;
    }

    /// The step of a key has ended.
    pub fn after(&mut self, arrival: Arrival, stepped: Stepped) {
        self.under_way = None;
        self.after[arrival as usize][stepped as usize] += 1;
    }

    pub fn add(&mut self, other: &Steps) {
        let mine = self.bare.iter_mut().chain(self.after.as_flattened_mut());
        let mine = mine.chain(self.rules.as_flattened_mut());
        let more = other.bare.iter().chain(other.after.as_flattened());
        let more = more.chain(other.rules.as_flattened());
        mine.zip(more).for_each(|(mine, more)| *mine += more);
    }

    /// Each thing that can be reached, with its count.
    pub fn table(&self) -> Vec<(String, u64)> {
        let bare = |stepped| (format!("bare step: {stepped:?}"), self.bare[stepped as usize]);
        let mut table: Vec<(String, u64)> = STEPPED.map(bare).to_vec();
        for arrival in ARRIVALS {
            let counts = STEPPED.into_iter().zip(self.after[arrival as usize]);
            let counts = counts.filter(|(stepped, _)| can_follow(arrival, *stepped));
            table.extend(counts.map(|(done, n)| (format!("key {arrival:?}: {done:?}"), n)));
        }
        for kind in [StepKind::OfKey, StepKind::Bare] {
            let rules = RULES.iter().zip(self.rules[kind as usize]);
            let rules = rules.filter(|(rule, _)| is_of_step(**rule));
            table.extend(rules.map(|(rule, n)| (format!("{rule:?}, step {kind:?}"), n)));
        }
        table
    }
}

/// Whether a step can meet the rule, that of a key and a bare one. It goes by the
/// order of `rules!`: the lists of steps, accents and tokens, and the screen's.
fn is_of_step(rule: Rule) -> bool {
    let lists = [Rule::StepHeldFits..=Rule::PartialDropped, Rule::EchoTab..=Rule::RubNoEcho];
    lists.iter().any(|list| list.contains(&rule))
}

/// Whether an arrival can leave a line on which its step does this.
fn can_follow(arrival: Arrival, stepped: Stepped) -> bool {
    match arrival {
        // At least one key waits: this one, or 64 others.
        Arrival::Stored
        | Arrival::StoredBehind
        | Arrival::Quoted
        | Arrival::QuotedBehind
        | Arrival::Dropped
        | Arrival::QuotedDropped => !matches!(stepped, Stepped::Nothing | Stepped::Timeout),
        // No read is left.
        Arrival::ImmediateClear => stepped == Stepped::NoRead,
        // No key and no token is left.
        Arrival::Clear => matches!(
            stepped,
            Stepped::NoRead | Stepped::Locked | Stepped::Nothing | Stepped::Timeout
        ),
        // The first finds the line unlocked, the second unlocks it.
        Arrival::DiscardOn | Arrival::Unlock => stepped != Stepped::Locked,
        Arrival::Hello | Arrival::Quote | Arrival::DiscardOff => true,
    }
}

#[cfg(test)]
mod tests {
    use super::*;

    #[test]
    fn a_step_is_counted_by_what_came_before_it() {
        let mut steps = Steps::default();
        steps.begin(StepKind::Bare);
        steps.met_if(true, Rule::StepQuoted);
        steps.bare(Stepped::Key);
        steps.met_if(true, Rule::RubTab);
        steps.after(Arrival::Hello, Stepped::Timeout);
        let mut twice = steps.clone();
        twice.add(&steps);
        let met: Vec<(String, u64)> = twice.table().into_iter().filter(|row| row.1 > 0).collect();
        let expected = ["bare step: Key", "key Hello: Timeout", "StepQuoted, step Bare"];
        assert_eq!(met, expected.map(|name| (name.into(), 2)));
    }

    #[test]
    fn only_what_can_be_reached_is_asked_for() {
        let table = Steps::default().table();
        let asked = |name: &str| table.iter().any(|row| row.0 == name);
        assert!(asked("key Dropped: TokenAbsentee") && !asked("key Dropped: Nothing"));
        assert!(asked("key ImmediateClear: NoRead") && !asked("key ImmediateClear: Timeout"));
        assert!(asked("key Clear: Timeout") && !asked("key Clear: TokenFits"));
        assert!(asked("key DiscardOff: Locked") && !asked("key Unlock: Locked"));
    }
}
