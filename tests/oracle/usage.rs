//! The words that a program was called with: those that ask for help, and those it does not know.

use std::process::ExitCode;

/// The words behind the program's name. What is no text is no word that a program knows.
pub fn words() -> Vec<String> {
    std::env::args_os()
        .skip(1)
        .map(|word| word.to_string_lossy().into_owned())
        .collect()
}

/// Whether help is asked for, wherever among the words.
pub fn asks_for_help(words: &[String]) -> bool {
    words.iter().any(|word| word == "-h" || word == "--help")
}

/// Says what is wrong with the words, and where help is.
pub fn refuse(program: &str, reason: &str) -> ExitCode {
    eprintln!("{program}: {reason}; 'target/oracle/{program} --help' says what there is");
    ExitCode::from(2)
}

/// How a program that takes no words ends if there are some.
pub fn end_at_words(program: &str, help: &str) -> Option<ExitCode> {
    let words = words();
    if asks_for_help(&words) {
        print!("{help}");
        return Some(ExitCode::SUCCESS);
    }
    let word = words.first()?;
    Some(refuse(program, &format!("unknown word: {word}")))
}
