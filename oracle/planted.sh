#!/usr/bin/env bash
# Plants a fault in a copy of the node's boundary, one after another, and asks the recorded answers of it: each fault must make some differ.
set -euo pipefail
shopt -s inherit_errexit
cd "$(dirname "$0")/.."
source=${ERGO_RUST_SRC:-$PWD/../shared/docs/src}
rows=crates/vectors/data/rust.rows
folder=$(mktemp -d)
trap 'rm -rf "$folder"' EXIT

# A name and the lines of a sed script.
faults=(
'forced before the rise
s/^    if let Some(start) = starting_height {/    if boundary_height == voting.version2_activation_height \&\& table.get(\&Parameter::BlockVersion) == Some(\&1) {\n        table.insert(Parameter::BlockVersion, 2);\n    }\n&/
s/^        if bv == 1 {/        if false \&\& bv == 1 {/'
'409 heeded without a rise
s/^    let activated_update = if activated {/    let disables = parsed_update.rules.contains(\&409u16);\n&/
s/!activated_update.rules.contains(&409u16)/!disables/'
'409 ignored
/&& !activated_update.rules.contains(&409u16)/d'
'a computed step for 9
s/parameter_step(signed_id)\.unwrap_or_else/parameter_step(signed_id).filter(|_| signed_id.unsigned_abs() != 9).unwrap_or_else/'
'a version that does not wrap
s/bv\.wrapping_add(1)/bv.saturating_add(1)/'
'a step up that is clamped
s/^                current_value + step$/                (current_value + step).min(max)/'
'a step down at the least value
s/} else if current_value > min {/} else if current_value >= min {/'
'entry 9 before the votes
s/^    let base = table\.clone();/    if table.get(\&Parameter::BlockVersion) == Some(\&4) \&\& !(activated \&\& parsed_update.rules.contains(\&409u16)) {\n        table.entry(Parameter::SubblocksPerBlock).or_insert(SUBBLOCKS_PER_BLOCK_DEFAULT);\n    }\n&/'
)

# How many boundaries differ from the rows, with these edits of the node's voting.rs.
differing() {
    cp -r "$source/chain" "$source/validation" "$folder"
    chmod -R u+w "$folder/chain" "$folder/validation"
    while read -r edit; do
        cp "$folder/chain/src/voting.rs" "$folder/before"
        sed -i "$edit" "$folder/chain/src/voting.rs"
        if cmp -s "$folder/before" "$folder/chain/src/voting.rs"; then
            echo "does not apply: $edit" >&2
            return 1
        fi
    done <<< "$1"
    ERGO_RUST_SRC=$folder CARGO_TARGET_DIR=$folder/target cargo build --quiet --profile checked --offline --package oracle
    "$folder/target/checked/oracle" check $rows > "$folder/report" || true
    grep -q 'rows asked' "$folder/report" || return 1
    grep -c '^differs: compute_boundary_parameters' "$folder/report" || true
}

# Without a fault none differs.
test "$(differing '$a // No fault.')" = 0

for fault in "${faults[@]}"; do
    count=$(differing "${fault#*$'\n'}")
    echo "${fault%%$'\n'*}: $count differ"
    test "$count" -gt 0
done
