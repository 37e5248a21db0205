//! Compares the proved library's store with the model's, step by step.

#![forbid(unsafe_code)]

use std::process::exit;

use model::options::Program;
use model::queries::nearly;
use model::random::Random;
use model::store;
use tillerclover::store as library;

const PROGRAM: Program = Program {
    name: "stores",
    help: "\
stores [--steps N] [--seed S]

Asks the library and the model what to write next, for stores and images of any
length and content and for any position, and which image is in force. Most stores
are of the right length, and nearly hold the image.

  --steps N   so many steps (default 300000)
  --seed S    another choice of stores (default 1)
  --help      this text

Ends with 0 when all are equal, with 1 when one is not.
",
    valued: &["--steps", "--seed"],
    flags: &[],
    free: 0,
};

struct Case {
    store: Vec<u8>,
    image: Vec<u8>,
    from: usize,
}

/// A store whose images differ from the new one in a few bytes, or in many, or a store of any length.
fn any_case(random: &mut Random) -> Case {
    let n = if random.chance(5) { random.below(3000) } else { random.below(40) };
    let image = random.bytes(n);
    let mut store = nearly(random, &image);
    if random.chance(10) {
        let length = random.below(2 * store.len());
        store.resize(length, 0);
    }
    let from = if random.chance(40) { 0 } else { random.below(store.len() + 3) };
    Case { store, image, from }
}

fn by_library(case: &Case) -> store::Step {
    match library::next(&case.store, &case.image, case.from) {
        library::Step::Write { place, byte } => store::Step::Write { place, byte },
        library::Step::Done => store::Step::Done,
        library::Step::Unfit => store::Step::Unfit,
    }
}

fn main() {
    let options = PROGRAM.options();
    let (steps, seed) = (PROGRAM.number(&options, "--steps", 300_000), PROGRAM.number(&options, "--seed", 1));
    let mut random = Random::new(seed);
    let (mut copies, mut marks, mut done, mut unfit, mut differences) = (0_u64, 0_u64, 0_u64, 0_u64, 0_u64);
    for _ in 0..steps {
        let case = any_case(&mut random);
        let n = case.image.len();
        let (own, other) = (store::next(&case.store, &case.image, case.from), by_library(&case));
        let found = store::current(&case.store, n).map(|(_, image)| image);
        match own {
            store::Step::Write { place, .. } if place < 2 * n => copies += 1,
            store::Step::Write { .. } => marks += 1,
            store::Step::Done => done += 1,
            store::Step::Unfit => unfit += 1,
        }
        if own != other || found != library::current(&case.store, n) {
            differences += 1;
            println!("store {:02x?}, image {:02x?}, from {}", case.store, case.image, case.from);
            println!("model {own:?}, library {other:?}");
            if differences == 5 {
                break;
            }
        }
    }
    println!(
        "stores: {steps} steps ({copies} bytes to copy, {marks} marks, {done} done, {unfit} unfit), {differences} differences"
    );
    exit(i32::from(differences > 0));
}
