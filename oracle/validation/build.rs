fn main() {
    source::lay_out("validation/src", &["lib.rs", "voting.rs"]);
}
