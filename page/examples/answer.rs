//! Answers a file of questions on this machine, as the page's module does in a browser:
//!
//!     answer QUESTIONS.json      the answers, as a list
//!
//! The file has `files`, each in digits, and `questions`, each with the number of its file.

use std::{env, fs};

use serde_json::{json, Value};

fn main() {
    let path = env::args().nth(1).expect("usage: answer QUESTIONS.json");
    let all: Value = serde_json::from_slice(&fs::read(path).expect("the questions")).expect("JSON");
    let files: Vec<Vec<u8>> = texts(&all["files"]).map(|text| answers::hex::read(text).expect("digits")).collect();
    let answers: Vec<Value> =
        all["questions"].as_array().expect("questions").iter().map(|one| answer(one, &files)).collect();
    println!("{}", Value::Array(answers));
}

fn texts(list: &Value) -> impl Iterator<Item = &str> {
    list.as_array().into_iter().flatten().filter_map(Value::as_str)
}

fn answer(one: &Value, files: &[Vec<u8>]) -> Value {
    let file = one["file"].as_u64().map_or(&[][..], |place| &files[place as usize]);
    let (mut answer, bytes) = tillerclover_page::answer(&one["question"], file);
    answer["bytes"] = json!(answers::hex::write(&bytes));
    answer
}
