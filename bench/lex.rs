//! The yardstick of bench/lex.py: the tokens and bracket trees of a text in plain Rust.
mod lexer;

use lexer::{brackets, tokens};

fn main() {
    let words: Vec<String> = std::env::args().collect();
    let text = std::fs::read(&words[2]).unwrap();
    let count = if words[1] == "tokens" { tokens(&text).unwrap().len() } else { brackets(&text).unwrap().len() };
    println!("{count}");
}
