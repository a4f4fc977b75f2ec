// The reference bench: list, run, report, tell, ever, generate and count, each a subcommand of one program.
// Why: an independent second reading of the rules, to be compared with the proved one.

mod actions;
mod claim;
mod count;
mod damage;
mod ever;
mod generate;
mod lengths;
mod limits;
mod lines;
mod machine;
mod model;
mod orders;
mod plan;
mod random;
mod reader;
mod report;
mod requests;
mod results;
mod room;
mod run;
mod search;
mod second;
mod sheet;
mod sketch;
mod slow;
mod tell;
mod term;

use plan::Mode;
use requests::Requests;
use std::io::{stdin, stdout, BufWriter, Read, Result, Write};
use std::process::exit;

const USAGE: &str =
    "use: reference list | run | report | tell | ever | generate PROGRAM SEED | count SEEDS,
with --with 1,2,3 where these requests of document 02 are in";

fn main() -> Result<()> {
    let mut words: Vec<String> = std::env::args().skip(1).collect();
    let requests = take_requests(&mut words).unwrap_or_else(|wrong| wrong_use(&wrong));
    let words: Vec<&str> = words.iter().map(String::as_str).collect();
    let mut out = BufWriter::new(stdout().lock());
    match words[..] {
        ["list"] => report::list(&standard_input()?, requests, &mut out)?,
        ["report"] if requests.report => lengths::report(&standard_input()?, requests, &mut out)?,
        ["report"] => wrong_use("report came with request 2: give --with 2"),
        ["ever"] => ever::ever(&standard_input()?, requests, &mut out)?,
        ["tell"] => tell::tell(&standard_input()?, requests, &mut out)?,
        ["run"] => report::run(&standard_input()?, requests, &mut out)?,
        ["generate", word, seed] => {
            let mode = Mode::of(word).unwrap_or_else(|| wrong_use(USAGE));
            out.write_all(&generate::input(mode, number(seed), requests))?
        }
        ["count", seeds] => count::count(number(seeds), requests, &mut out)?,
        _ => wrong_use(USAGE),
    }
    out.flush()
}

/// Takes --with and its list off the words.
fn take_requests(words: &mut Vec<String>) -> std::result::Result<Requests, String> {
    let Some(place) = words.iter().position(|word| word == "--with") else {
        return Ok(Requests::default());
    };
    if place + 1 == words.len() {
        return Err("--with wants the numbers of requests, as --with 1,2,3".to_string());
    }
    let list = words.remove(place + 1);
    words.remove(place);
    Requests::of(&list)
}

fn wrong_use(words: &str) -> ! {
    eprintln!("{words}");
    exit(2)
}

fn standard_input() -> Result<Vec<u8>> {
    let mut input = Vec::new();
    stdin().lock().read_to_end(&mut input)?;
    Ok(input)
}

fn number(word: &str) -> u64 {
    word.parse().unwrap_or_else(|_| wrong_use(USAGE))
}
