# shellcheck shell=bash disable=SC2154
# The vectors, and the known answers of the self test, are those that the model writes today.
# touched by: model/* crates/vectors/* crates/vectors_queries/* include/tillerclover_known.h

test_vectors() {
    need_cargo && log in_model cargo run --quiet --profile gate --locked --bin vectors -- "$work/vectors.bin" "$work/queries.bin" &&
        grep -E '^(vectors|queries): ' "$work/log" && log cmp "$work/vectors.bin" crates/vectors/data/vectors.bin &&
        log cmp "$work/queries.bin" crates/vectors_queries/data/queries.bin &&
        log in_model cargo run --quiet --profile gate --locked --bin known -- "$work/known.h" && cat "$work/log" &&
        log cmp "$work/known.h" include/tillerclover_known.h
}
