// Stand-in. Empty: the tests of the Rust are not here.
