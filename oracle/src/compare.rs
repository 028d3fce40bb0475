//! Holds a replay program to the oracle on generated requests, and tells how these are answered.

use std::collections::BTreeMap;
use std::io::{self, BufRead, BufReader, BufWriter, Read, Write};
use std::process::{Command, Stdio};
use std::sync::mpsc::{Receiver, RecvTimeoutError, SyncSender, sync_channel};
use std::thread;
use std::time::{Duration, Instant};

use crate::answer::{Answer, full_answer};
use crate::generate::Generator;
use crate::reading;
use crate::request::Request;

/// How many differences are shown.
const SHOWN: u64 = 5;
/// How much of a line is shown.
const WIDTH: usize = 300;
/// How long the program may take over one answer.
const PATIENCE: Duration = Duration::from_secs(60);

/// Runs `program` on the first `n` requests and compares its answers with the oracle's. Prints what
/// was asked and what differs; true where nothing does.
///
/// Request `i` follows from the seed and `i` alone, so the thread that writes the requests and the
/// one that compares the answers draw them each for itself: nothing is held but one line, however
/// much the program buffers.
pub fn compare(generator: &Generator, n: u64, program: &[&str]) -> io::Result<bool> {
    let began = Instant::now();
    let mut child = Command::new(program[0])
        .args(&program[1..])
        .stdin(Stdio::piped())
        .stdout(Stdio::piped())
        .spawn()
        .map_err(|e| io::Error::new(e.kind(), format!("{}: {e}", program[0])))?;
    let input = child.stdin.take().expect("a pipe");
    let output = child.stdout.take().expect("a pipe");
    let (sender, answers) = sync_channel(1_024);
    let asking = generator.clone();
    thread::spawn(move || send_requests(&asking, n, input));
    thread::spawn(move || pass_answers(output, sender));

    let mut tally = Tally::default();
    tally.take_answers(generator, n, answers);
    if tally.broken.is_some() {
        child.kill()?;
    }
    let status = child.wait()?;
    if tally.broken.is_none() && !status.success() {
        tally.broken = Some(format!("the program ended with {status}"));
    }
    tally.print(generator);
    println!("{:.1} s", began.elapsed().as_secs_f64());
    Ok(tally.differing() == 0 && tally.broken.is_none())
}

/// Prints how the oracle answers the first `n` requests.
pub fn survey(generator: &Generator, n: u64) {
    let mut tally = Tally::default();
    for index in 0..n {
        let (kind, line) = generator.request(index);
        tally.count(kind, &full_answer(&line));
    }
    tally.print(generator);
}

/// Holds the Rust to the second reading of document 01 on the first `n` requests, as `compare` holds
/// a program to the oracle. What the Rust cannot answer is the reading's alone.
pub fn agree(generator: &Generator, n: u64) -> bool {
    let mut tally = Tally::default();
    for index in 0..n {
        let (kind, line) = generator.request(index);
        let answer = full_answer(&line);
        let read = Request::read(&line).and_then(|request| reading::answer(&request));
        let read = read.unwrap_or_else(|| answer.line.clone()) + "\n";
        tally.take_answer(index, kind, &line, &answer, read.as_bytes());
    }
    tally.print(generator);
    tally.differing() == 0
}

/// Writes the requests. A program that ends early leaves the rest unread: its answers tell.
fn send_requests(generator: &Generator, n: u64, input: impl Write) {
    let mut input = BufWriter::with_capacity(1 << 16, input);
    for index in 0..n {
        let (_, mut line) = generator.request(index);
        line.push(b'\n');
        if input.write_all(&line).is_err() {
            return;
        }
    }
    let _ = input.flush();
}

/// Hands on the program's lines, each with its 0x0A.
fn pass_answers(output: impl Read, sender: SyncSender<Vec<u8>>) {
    let mut output = BufReader::with_capacity(1 << 16, output);
    let mut line = Vec::new();
    while output.read_until(b'\n', &mut line).is_ok_and(|read| read > 0) {
        if sender.send(std::mem::take(&mut line)).is_err() {
            return;
        }
    }
}

/// What was asked, what was answered, and what differs.
#[derive(Default)]
struct Tally {
    /// By place of the kind and sort of answer: how many.
    answers: BTreeMap<(usize, String), u64>,
    /// By place of the kind: how many answers differ.
    differing: BTreeMap<usize, u64>,
    /// Why not all requests were answered, or more than all.
    broken: Option<String>,
}

impl Tally {
    /// Takes an answer to each request, as long as they come.
    fn take_answers(&mut self, generator: &Generator, n: u64, answers: Receiver<Vec<u8>>) {
        for index in 0..n {
            let (kind, line) = generator.request(index);
            let expected = full_answer(&line);
            match answers.recv_timeout(PATIENCE) {
                Ok(answer) => self.take_answer(index, kind, &line, &expected, &answer),
                Err(error) => {
                    let how = match error {
                        RecvTimeoutError::Timeout => "has not answered",
                        RecvTimeoutError::Disconnected => "ended before it answered",
                    };
                    self.broken =
                        Some(format!("the program {how} request {index}: {}", shown(&line)));
                    return;
                }
            }
        }
        match answers.recv_timeout(PATIENCE) {
            Err(RecvTimeoutError::Disconnected) => {}
            Err(RecvTimeoutError::Timeout) => self.broken = Some("the program does not end".into()),
            Ok(more) => self.broken = Some(format!("one answer too many: {}", shown(&more))),
        }
    }

    fn count(&mut self, kind: usize, answer: &Answer) {
        *self.answers.entry((kind, sort_of(answer))).or_default() += 1;
    }

    fn take_answer(&mut self, index: u64, kind: usize, line: &[u8], expected: &Answer, got: &[u8]) {
        self.count(kind, expected);
        let expected = expected.line.as_bytes();
        if got.strip_suffix(b"\n") == Some(expected) {
            return;
        }
        *self.differing.entry(kind).or_default() += 1;
        if self.differing() <= SHOWN {
            println!("request {index}: {}", shown(line));
            println!("  oracle:  {}", shown(expected));
            println!("  program: {}", shown(got));
        }
    }

    fn differing(&self) -> u64 {
        self.differing.values().sum()
    }

    fn print(&self, generator: &Generator) {
        println!("{:<12}{:>12}{:>10}  the oracle's answers", "requests", "", "differ");
        for (place, kind) in generator.kinds().iter().enumerate() {
            let of_kind = || self.answers.iter().filter(|((at, _), _)| *at == place);
            let asked: u64 = of_kind().map(|(_, count)| count).sum();
            let differ = self.differing.get(&place).copied().unwrap_or(0);
            let sorts: Vec<String> =
                of_kind().map(|((_, sort), count)| format!("{sort}: {count}")).collect();
            let line = format!("{:<12}{asked:>12}{differ:>10}  {}", kind.name, sorts.join(", "));
            println!("{}", line.trim_end());
        }
        let asked: u64 = self.answers.values().sum();
        println!("{:<12}{asked:>12}{:>10}", "all", self.differing());
        if let Some(broken) = &self.broken {
            println!("{broken}");
        }
    }
}

/// The sort of an answer: its first word, with a refusal's number, whether bytes are none, about how
/// many rows a walk has, and whether the Rust has no answer.
fn sort_of(answer: &Answer) -> String {
    let words: Vec<&str> = answer.line.split(' ').collect();
    let sort = match words[..] {
        ["header", _, _, _, _, _, rows, ..] | ["command" | "commandby", rows, ..] => {
            format!("{} of {} rows", words[0], about(rows))
        }
        [first @ ("refused" | "bad"), second, ..] => format!("{first} {second}"),
        [first, "-", ..] => format!("{first} -"),
        _ => words[0].to_string(),
    };
    if answer.is_past_the_rust { format!("{sort} (past the Rust)") } else { sort }
}

/// About how many rows these are.
fn about(rows: &str) -> &'static str {
    match rows.parse().unwrap_or(usize::MAX) {
        0 => "0",
        1..=9 => "1 to 9",
        10..=29 => "10 to 29",
        30..=60 => "30 to 60",
        _ => "more",
    }
}

/// A line as it can be printed: cut, and without what a terminal would act on.
fn shown(line: &[u8]) -> String {
    let line = line.strip_suffix(b"\n").unwrap_or(line);
    let head = line[..line.len().min(WIDTH)].escape_ascii();
    if line.len() <= WIDTH { head.to_string() } else { format!("{head}... ({} bytes)", line.len()) }
}
