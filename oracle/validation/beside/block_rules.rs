// Stand-in. Not run: names only.
pub fn validate_block_rules() {}
pub const MAX_EXTENSION_SIZE: usize = 32_768;
