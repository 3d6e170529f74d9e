// The reference: answers cases by the rules alone, and makes random cases.
//   reference answer             cases on standard input, one a line; the same lines with their answers on standard output
//   reference cases SEED COUNT   COUNT random cases, always the same for one seed
//   reference whys SEED COUNT    the same for the question why a draw waited
//   reference texts SEED COUNT   the same for texts: a list to be written, or a text to be read, most of them damaged
//   reference words              cases on standard input, in words
// Built by `rustc -O main.rs`, with nothing but the standard library.
mod cases;
mod dice;
mod rules;
mod text;
mod texts;
use dice::Dice;
use std::io::{self, BufRead, BufWriter, Write};

fn each_line(answer: impl Fn(&str) -> String) {
    let mut out = BufWriter::new(io::stdout().lock());
    for line in io::stdin().lock().lines() {
        writeln!(out, "{}", answer(&line.expect("lines of text"))).expect("room for the answers");
    }
}

/// Every case has dice of its own, so that case number i of a seed is the same whatever the count.
fn each_case(seed: &str, count: &str, case: impl Fn(&mut Dice) -> String) {
    let number = |word: &str| word.parse::<u64>().expect("a decimal number");
    let mut out = BufWriter::new(io::stdout().lock());
    for i in 0..number(count) {
        writeln!(out, "{}", case(&mut Dice::new(number(seed), i))).expect("room for the cases");
    }
}

fn main() {
    let words: Vec<String> = std::env::args().skip(1).collect();
    let words: Vec<&str> = words.iter().map(String::as_str).collect();
    match words[..] {
        ["answer"] => each_line(text::answered),
        ["words"] => each_line(text::in_words),
        ["cases", seed, count] => each_case(seed, count, cases::a_case),
        ["whys", seed, count] => each_case(seed, count, cases::a_why),
        ["texts", seed, count] => each_case(seed, count, texts::a_case),
        _ => {
            eprintln!("usage: reference answer | reference words | reference cases | whys | texts SEED COUNT");
            std::process::exit(2);
        }
    }
}
