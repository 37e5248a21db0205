//! Prints a journal of a terminal at random, of at least so many lines, for tests and to
//! measure: `journal LINES [SEED [FOLDER LENGTH]]`; with a folder in files of that many lines.

#[path = "../tests/writer.rs"]
mod writer;

use writer::Writer;

fn main() {
    let words: Vec<String> = std::env::args().collect();
    let number = |place: usize, other: u64| words.get(place).and_then(|word| word.parse().ok()).unwrap_or(other);
    let (lines, seed) = (number(1, 1000), number(2, 1));
    let mut writer = Writer::new(seed);
    writer.set_up();
    let Some(folder) = words.get(3) else {
        writer.day(lines);
        print!("{}", writer.text);
        return;
    };
    let mut file = 0;
    while writer.lines < lines {
        file += 1;
        let until = writer.lines + number(4, 1000);
        writer.day(until.min(lines));
        let last = writer.lines >= lines;
        let name = if last { format!("{folder}/journal") } else { format!("{folder}/journal.{file:06}") };
        let text = if last { std::mem::take(&mut writer.text) } else { writer.next_file() };
        std::fs::write(name, text).expect("the folder takes files");
    }
}
