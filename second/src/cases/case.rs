//! What a case is: something that a long comparison has to meet, with a name that is counted.

use crate::wire::begin;

/// Whether a case holds, and its name.
pub type Case<S = String> = (bool, S);

/// A case whose name is typed in.
pub fn case(holds: bool, name: &str) -> Case {
    (holds, name.to_string())
}

/// What is counted, if it holds.
pub fn holding<S: ToString>(all: &[Case<S>]) -> Vec<String> {
    all.iter().filter(|(holds, _)| *holds).map(|(_, case)| case.to_string()).collect()
}

/// What can be counted, whether it holds or not.
pub fn named<S: ToString>(all: &[Case<S>]) -> Vec<String> {
    all.iter().map(|(_, case)| case.to_string()).collect()
}

/// What is counted of a call with these bytes, by what it has to be answered. `all` has the cases of a call of this
/// number, with these arguments and this status.
pub fn met_by_status(all: fn(u8, &[u8], u8) -> Vec<Case>, bytes: &[u8], expected: &[u8]) -> Vec<String> {
    match (bytes, expected) {
        ([number, arguments @ ..], [_, answer @ ..]) => holding(&all(*number, arguments, begin(answer))),
        _ => Vec::new(),
    }
}
