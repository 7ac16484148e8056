// The matcher as plain Rust, to be timed against the proved one, and what draws the lines that both are timed on.
//
//     plain lists|search|bare|fit TIMES   so many calls, as `bench_calls` does them, with the tables of standard input
//     plain serve                         the same conversation as `shelf`
//     plain pairs CLASS KIND COUNT N      lines for so many pairs of a class and a kind
//     plain classes                       the classes, and of each the kinds of its pairs
//     plain shelf PARTS N                 lines for so many parts, and for four cards
//     plain conversation LINES N          lines for a conversation
mod classes;
mod drawing;
mod files;
mod graphs;
mod line;
mod lists;
mod measure;
mod search;
mod serve;
mod shelf;
mod sums;
mod table;

use measure::Stock;
use std::env;
use std::error::Error;

fn main() -> Result<(), Box<dyn Error>> {
    let args: Vec<String> = env::args().skip(1).collect();
    let words: Vec<&str> = args.iter().map(String::as_str).collect();
    match words[..] {
        ["serve"] => serve::serve()?,
        ["pairs", class, kind, count, inputs] => {
            classes::write_pairs(class, kind, count.parse()?, inputs.parse()?)?
        }
        ["classes"] => classes::write_classes()?,
        ["shelf", parts, inputs] => files::write_shelf(parts.parse()?, inputs.parse()?)?,
        ["conversation", lines, inputs] => {
            files::write_conversation(lines.parse()?, inputs.parse()?)?
        }
        [what, times] => {
            let sum = Stock::read()?.sum(what, times.parse()?)?;
            println!("{what}: {times} times, sum {sum}");
        }
        _ => return Err("the head of bench/main.rs says what the arguments are".into()),
    }
    Ok(())
}
