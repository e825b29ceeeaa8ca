// Stand-in. Not run: names only.
pub struct EmissionSource;
pub struct UtxoValidator;
pub fn proofs_from_storage() {}
