//! The proved library timed beside plain Rust that does the same work on the
//! same bytes, in one run; docs/PERFORMANCE.md says how to read it.

mod agree;
mod lengths;
mod plain;
mod timing;
mod work;

use timing::{measured, HEADING};

const USAGE: &str = "usage:
  bench              figures as a table, once the results are found to be equal
  bench only WORD    of the works with this word in their name
  bench agree        only whether the results are equal
  bench lengths      how many lengths the sheets of drawn tables take
";

fn main() {
    let words: Vec<String> = std::env::args().skip(1).collect();
    let words: Vec<&str> = words.iter().map(String::as_str).collect();
    let wanted = match words[..] {
        [] => Some(""),
        ["only", word] => Some(word),
        ["agree"] => None,
        ["lengths"] => return lengths::grown(),
        _ => {
            eprint!("{USAGE}");
            std::process::exit(2);
        }
    };
    let works = work::all();
    let agreed = agree::drawn().and_then(|count| {
        let each: Result<Vec<u64>, String> = works.iter().map(|work| work.agree()).collect();
        Ok(count + each?.iter().sum::<u64>())
    });
    match (agreed, wanted) {
        (Ok(count), None) => println!("library and plain Rust agree on {count} calls"),
        (Ok(_), Some(word)) => {
            println!("{HEADING}");
            for work in works.iter().filter(|work| work.name.contains(word)) {
                println!("{}", measured(work));
            }
        }
        (Err(what), _) => {
            eprintln!("{what}");
            std::process::exit(1);
        }
    }
}
