//! Writes the known answers of include/tillerclover_known.h.

#![forbid(unsafe_code)]

use std::fs;

use model::known::{steps, table};
use model::options::Program;

const PROGRAM: Program = Program {
    name: "known",
    help: "\
known FILE

Writes the steps of the self test and what comes of them to FILE, which is
include/tillerclover_known.h; src/known.rs describes the form.

  --help      this text
",
    valued: &[],
    flags: &[],
    free: 1,
};

fn main() {
    let options = PROGRAM.options();
    let Some(file) = options.free(0) else { PROGRAM.stop("name the file to write; see known --help") };
    let steps = steps();
    let text = format!(
        "/* Tillerclover: known answers, for tillerclover_self_test.h alone. Made by model/src/bin/known.rs, of the second model. */\n\
         #ifndef TILLERCLOVER_KNOWN_H\n#define TILLERCLOVER_KNOWN_H\n\n#include <stdint.h>\n\n\
         enum {{\n    TILLERCLOVER_KNOWN_STEPS = {}\n}};\n\n\
         /* clang-format off */\nstatic const uint8_t tillerclover_known[] = {{\n{}}};\n/* clang-format on */\n\n#endif\n",
        steps.len(),
        table(&steps)
    );
    if let Err(fault) = fs::write(file, &text) {
        PROGRAM.stop(format!("{file}: {fault}"));
    }
    println!("known: {} steps, {} bytes", steps.len(), steps.iter().map(|step| 11 + step.bytes.len()).sum::<usize>());
}
