fn main() {
    source::lay_out("chain/src", &["config.rs", "error.rs", "voting.rs"]);
}
