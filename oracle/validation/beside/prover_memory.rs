// Stand-in. Not run: names only.
pub struct ProverMemoryEstimate;
