//! The oracle's program.

use std::fs;
use std::io::{self, BufRead, BufReader, BufWriter, Write};
use std::process::ExitCode;

use oracle::answer::answer;
use oracle::compare::{agree, compare, survey};
use oracle::generate::Generator;
use oracle::sample::sample;

const USAGE: &str = "\
usage: oracle                                       answer the requests of standard input
       oracle generate SEED N KINDS                 write N requests
       oracle survey SEED N KINDS                   tell how they are answered
       oracle agree SEED N KINDS                    hold the Rust to document 01's second reading
       oracle compare SEED N KINDS PROGRAM WORD..   hold a replay program to the oracle on them
       oracle sample SEED KINDS REQUESTS ANSWERS    write a sample to two files
       oracle kinds KINDS                           write what they stand for
KINDS: request words parted by commas, and `bad`; `today`: those that the replay program answers";

fn main() -> ExitCode {
    let words: Vec<String> = std::env::args().skip(1).collect();
    let words: Vec<&str> = words.iter().map(String::as_str).collect();
    match run(&words) {
        Ok(true) => ExitCode::SUCCESS,
        Ok(false) => ExitCode::FAILURE,
        Err(error) => {
            eprintln!("oracle: {error}");
            ExitCode::from(2)
        }
    }
}

/// Runs one command: whether all was well.
fn run(words: &[&str]) -> Result<bool, String> {
    match words {
        [] => taken(answer_all(io::stdin().lock(), io::stdout().lock()))?,
        ["generate", seed, n, kinds] => {
            let generator = Generator::new(number(seed)?, kinds)?;
            taken(generate(&generator, number(n)?))?;
        }
        ["survey", seed, n, kinds] => {
            survey(&Generator::new(number(seed)?, kinds)?, number(n)?);
        }
        ["agree", seed, n, kinds] => {
            return Ok(agree(&Generator::new(number(seed)?, kinds)?, number(n)?));
        }
        ["compare", seed, n, kinds, program @ ..] if !program.is_empty() => {
            let generator = Generator::new(number(seed)?, kinds)?;
            return compare(&generator, number(n)?, program).map_err(|e| e.to_string());
        }
        ["sample", seed, kinds, requests, answers] => {
            let lines = sample(number(seed)?, kinds)?;
            write_lines(requests, lines.iter())?;
            write_lines(answers, lines.iter().map(|line| answer(line)))?;
        }
        ["kinds", kinds] => {
            let generator = Generator::new(0, kinds)?;
            let names: Vec<&str> = generator.kinds().iter().map(|kind| kind.name).collect();
            println!("{}", names.join(","));
        }
        _ => return Err(USAGE.to_string()),
    }
    Ok(true)
}

/// A reader that wants no more of our output is no fault.
fn taken(written: io::Result<()>) -> Result<(), String> {
    match written {
        Err(error) if error.kind() != io::ErrorKind::BrokenPipe => Err(error.to_string()),
        _ => Ok(()),
    }
}

fn number(word: &str) -> Result<u64, String> {
    word.parse().map_err(|_| format!("not a number: {word}"))
}

fn write_lines<L: AsRef<[u8]>>(path: &str, lines: impl Iterator<Item = L>) -> Result<(), String> {
    let mut text = Vec::new();
    for line in lines {
        text.extend(line.as_ref());
        text.push(b'\n');
    }
    fs::write(path, text).map_err(|e| format!("{path}: {e}"))
}

/// Answers line by line; what is known is written out before more input is waited for.
fn answer_all(input: impl io::Read, output: impl Write) -> io::Result<()> {
    let mut input = BufReader::with_capacity(1 << 16, input);
    let mut output = BufWriter::new(output);
    let mut line = Vec::new();
    while input.read_until(b'\n', &mut line)? > 0 {
        // What the end of input cuts off is no request: a request is ended by 0x0A.
        let answer = match line.strip_suffix(b"\n") {
            Some(line) => answer(line),
            None => "bad request".to_string(),
        };
        output.write_all(answer.as_bytes())?;
        output.write_all(b"\n")?;
        if input.buffer().is_empty() {
            output.flush()?;
        }
        line.clear();
    }
    output.flush()
}

fn generate(generator: &Generator, n: u64) -> io::Result<()> {
    let mut output = BufWriter::new(io::stdout().lock());
    for index in 0..n {
        output.write_all(&generator.request(index).1)?;
        output.write_all(b"\n")?;
    }
    output.flush()
}
