//! Tests of the library through its Rust binding, for tests/library. `rust run GRAMMAR SENTENCE` prints the output of
//! `aggen run`, and ends with its status; `plan` likewise. A translator is also moved to another thread.

use aggen::{Refusal, Translator};
use std::io::Write;
use std::process::exit;

fn result(command: &str, grammar: &[u8], sentence: &[u8]) -> Result<Vec<u8>, Refusal> {
    let mut translator = Translator::build(grammar)?;
    if command == "plan" {
        return translator.plan();
    }
    let text = translator.translate(sentence)?;
    let file = translator.parse(sentence)?;
    assert_eq!(translator.evaluate(&file)?, text);
    let sentence = sentence.to_vec();
    let moved = std::thread::spawn(move || translator.translate(&sentence));
    assert_eq!(moved.join().expect("the thread ends")?, text);
    Ok(text)
}

fn main() {
    let words: Vec<String> = std::env::args().skip(1).collect();
    let [command, grammar, sentence] = words.as_slice() else {
        exit(2);
    };
    let read = |path: &String| std::fs::read(path).expect("the file can be read");
    match result(command, &read(grammar), &read(sentence)) {
        Ok(text) => std::io::stdout().write_all(&text).expect("standard output can be written"),
        Err(refusal) => {
            let first = refusal.message.split([' ', ':']).next().unwrap_or_default();
            assert_eq!(refusal.number.as_deref(), (first != "NoMemory").then_some(first));
            if let Some((line, column)) = refusal.place {
                assert!(refusal.message.contains(&format!(":{line}:{column})")));
            }
            if let Some(offset) = refusal.offset {
                assert!(refusal.message.contains(&format!(" at {offset}")));
            }
            eprintln!("{refusal}");
            exit(refusal.status);
        }
    }
    assert!(aggen::version().starts_with(char::is_numeric));
}
