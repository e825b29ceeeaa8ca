// Stand-in. Not run: names only.
pub fn build_state_context() {}
pub fn build_upcoming_state_context() {}
pub fn deserialize_box() {}
pub fn evaluate_scripts() {}
pub fn validate_single_transaction() {}
