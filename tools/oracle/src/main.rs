//! The oracle's program: answers rows, writes what `letters` must, makes rows, compares, stores.
//! `oracle help` lists its modes.

use oracle::make::Rows;
use oracle::row::{Answer, Row, ROW};
use oracle::{compare, direct, entries, exchange, lines, make, rules, store};
use std::io::{self, BufWriter, Read, Write};
use std::process::ExitCode;

const HELP: &str = "\
oracle answers [--power-before-ask-6]
                               rows of 24 bytes in, docs/SCOPE.md's answers of 88 bytes out; or those by the power
                               of before Ask 6, which took numbers below the normal range
oracle plain                   the same rows answered by the untouched crate, nothing refused
oracle ruled                   the same, with docs/SCOPE.md's four rules in place of std's functions
oracle lines                   rows of 16 bytes in, what the program `letters` must write out
oracle exchange                records after their lengths in, what the program `exchange` must write out
oracle records --rows N --seed S
                               writes N records, each after its length
oracle forward                 rows of 24 bytes in, what the program `forward` must write out
oracle points --rows N --seed S
                               writes N rows for it
oracle rows --rows N --seed S [--entries LIST]
                               writes N rows
oracle compare --rows N --seed S [--entries LIST] [--ported LIST] -- COMMAND...
                               runs COMMAND over N rows and holds its answers to the oracle's
oracle store --rows N --seed S [--entries LIST] --to FILE
                               writes N records of 112 bytes, a row and its answer each";

fn main() -> ExitCode {
    let words: Vec<String> = std::env::args().skip(1).collect();
    match run(&words) {
        Ok(true) => ExitCode::SUCCESS,
        Ok(false) => ExitCode::from(1),
        Err(said) => {
            eprintln!("oracle: {said}");
            ExitCode::from(2)
        }
    }
}

fn run(words: &[String]) -> Result<bool, String> {
    let mode = words.first().map_or("help", String::as_str);
    let said = |e: io::Error| e.to_string();
    match mode {
        "answers" => {
            match words[1..].iter().map(String::as_str).collect::<Vec<_>>()[..] {
                [] => (),
                ["--power-before-ask-6"] => rules::power_before_ask_6(),
                _ => {
                    return Err(format!(
                        "answers takes --power-before-ask-6 or nothing\n{HELP}"
                    ))
                }
            }
            stream(entries::answer).map_err(said)?
        }
        "plain" => stream(direct::plain::answer).map_err(said)?,
        "ruled" => stream(direct::ruled::answer).map_err(said)?,
        "lines" => {
            let mut input = Vec::new();
            io::stdin().read_to_end(&mut input).map_err(said)?;
            lines::write(&input, BufWriter::new(io::stdout().lock())).map_err(said)?;
        }
        "exchange" => {
            let mut input = Vec::new();
            io::stdin().read_to_end(&mut input).map_err(said)?;
            let mut out = BufWriter::new(io::stdout().lock());
            for record in exchange::records(&input) {
                out.write_all(&exchange::reply(record)).map_err(said)?;
            }
            out.flush().map_err(said)?;
        }
        "forward" => {
            let mut input = Vec::new();
            io::stdin().read_to_end(&mut input).map_err(said)?;
            let mut out = BufWriter::new(io::stdout().lock());
            for row in input.chunks_exact(ROW) {
                out.write_all(&exchange::forward(row)).map_err(said)?;
            }
            out.flush().map_err(said)?;
        }
        "points" => {
            let asked = Asked::read(&words[1..])?;
            let mut out = BufWriter::new(io::stdout().lock());
            for row in make::records::points(asked.count, asked.seed) {
                out.write_all(&row).map_err(said)?;
            }
            out.flush().map_err(said)?;
        }
        "records" => {
            let asked = Asked::read(&words[1..])?;
            let mut out = BufWriter::new(io::stdout().lock());
            for record in make::records::stream(asked.count, asked.seed) {
                out.write_all(&record).map_err(said)?;
            }
            out.flush().map_err(said)?;
        }
        "rows" => {
            let asked = Asked::read(&words[1..])?;
            let mut out = BufWriter::new(io::stdout().lock());
            for row in asked.rows() {
                out.write_all(&row.bytes()).map_err(said)?;
            }
            out.flush().map_err(said)?;
        }
        "compare" => {
            let asked = Asked::read(&words[1..])?;
            return compare::run(asked.rows(), &asked.ported, &asked.command);
        }
        "store" => {
            let asked = Asked::read(&words[1..])?;
            let to = asked.to.as_deref().ok_or("store needs --to FILE")?;
            store::write(asked.seed, &asked.entries, asked.count, to).map_err(said)?;
        }
        "help" => println!("{HELP}"),
        other => return Err(format!("there is no mode {other}\n{HELP}")),
    }
    Ok(true)
}

/// What a mode was asked for. Entry 0 stands for rows that name no entry.
struct Asked {
    count: usize,
    seed: u64,
    entries: Vec<u8>,
    ported: Vec<u8>,
    to: Option<String>,
    command: Vec<String>,
}

impl Asked {
    fn read(words: &[String]) -> Result<Asked, String> {
        let all = oracle::make::all_entries();
        let mut asked = Asked {
            count: 0,
            seed: 0,
            entries: all.clone(),
            ported: all,
            to: None,
            command: Vec::new(),
        };
        let mut words = words.iter();
        while let Some(word) = words.next() {
            if word == "--" {
                asked.command = words.cloned().collect();
                break;
            }
            let value = words
                .next()
                .ok_or_else(|| format!("{word} needs a value"))?;
            let wrong = || format!("{word} cannot be {value}");
            match word.as_str() {
                "--rows" => asked.count = value.parse().map_err(|_| wrong())?,
                "--seed" => asked.seed = value.parse().map_err(|_| wrong())?,
                "--entries" => asked.entries = list(value).ok_or_else(wrong)?,
                "--ported" => asked.ported = list(value).ok_or_else(wrong)?,
                "--to" => asked.to = Some(value.clone()),
                _ => return Err(format!("there is no option {word}\n{HELP}")),
            }
        }
        Ok(asked)
    }

    fn rows(&self) -> impl Iterator<Item = Row> + Send + 'static {
        Rows::new(self.seed, &self.entries).take(self.count)
    }
}

fn list(text: &str) -> Option<Vec<u8>> {
    let known = oracle::make::all_entries();
    let entries: Option<Vec<u8>> = text
        .split(',')
        .map(|word| word.trim().parse().ok())
        .collect();
    entries.filter(|e| e.iter().all(|n| known.contains(n)))
}

/// Answers each whole row of standard input.
fn stream(answer: impl Fn(&Row) -> Answer) -> io::Result<()> {
    let mut input = io::stdin().lock();
    let mut out = BufWriter::with_capacity(1 << 16, io::stdout().lock());
    let mut row = [0; ROW];
    loop {
        match input.read_exact(&mut row) {
            Ok(()) => out.write_all(&answer(&Row::read(&row)).bytes())?,
            Err(e) if e.kind() == io::ErrorKind::UnexpectedEof => return out.flush(),
            Err(e) => return Err(e),
        }
    }
}
