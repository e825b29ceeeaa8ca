// Stand-in. Not run: names only.
pub struct Insertion;
pub struct StateChanges;
pub fn compute_state_changes() {}
pub fn transactions_to_summaries() {}
