//! Runs the program `sheet` on many streams of cards and compares what it prints, byte for byte,
//! with the model of the cards (docs/REFERENCE.md, Cards).
//!
//!     cargo run --release --offline --bin sheet_fuzz -- PATH_TO_SHEET COUNT SEED
//!
//! The streams are those of `compare::streams`. The same seed makes the same streams.
//! A stream agrees if the program's output is the model's and its exit status is 0; a program that
//! isn't done after 5 seconds is stopped and disagrees. At the end come the counts, and the first
//! five streams that disagreed in hexadecimal. The exit status is 1 if a stream disagreed.

use std::io::{Read, Write};
use std::process::{Child, Command, ExitCode, Stdio};
use std::sync::atomic::{AtomicBool, Ordering};
use std::sync::Mutex;
use std::thread;
use std::time::{Duration, Instant};

use compare::cards::printed;
use compare::streams::Streams;

const WORKERS: usize = 2;
const LIMIT: Duration = Duration::from_secs(5);
const SHOWN: usize = 5;

// ---- running the program

/// A program that runs, and since when; the watch stops it after the limit.
type Running = Mutex<Option<(Child, Instant)>>;

/// What the program did with a stream.
struct Outcome {
    output: Vec<u8>,
    /// None if a signal ended it, ours too.
    status: Option<i32>,
}

fn run(path: &str, stream: &[u8], pauses: &[usize], running: &Running) -> Outcome {
    let mut child = Command::new(path)
        .stdin(Stdio::piped())
        .stdout(Stdio::piped())
        .stderr(Stdio::null())
        .spawn()
        .unwrap_or_else(|error| panic!("{path} doesn't start: {error}"));
    let mut input = child.stdin.take().expect("a pipe");
    let mut answers = child.stdout.take().expect("a pipe");
    *running.lock().unwrap() = Some((child, Instant::now()));
    // A program that stops reading closes the pipe; what it printed decides.
    let mut from = 0;
    for &to in pauses.iter().chain([&stream.len()]) {
        if input.write_all(&stream[from..to]).is_err() {
            break;
        }
        from = to;
        if to < stream.len() {
            thread::sleep(Duration::from_micros(300));
        }
    }
    drop(input);
    let mut output = Vec::new();
    answers
        .read_to_end(&mut output)
        .expect("the program's output");
    loop {
        let mut slot = running.lock().unwrap();
        let (child, _) = slot.as_mut().expect("put there above");
        if let Some(status) = child.try_wait().expect("the program's status") {
            *slot = None;
            let status = status.code();
            return Outcome { output, status };
        }
        drop(slot);
        thread::sleep(Duration::from_micros(50));
    }
}

/// Stops programs that run past the limit.
fn watch(slots: &[Running], done: &AtomicBool) {
    while !done.load(Ordering::Relaxed) {
        for slot in slots {
            if let Some((child, since)) = slot.lock().unwrap().as_mut() {
                if since.elapsed() > LIMIT {
                    // It may have ended by itself meanwhile.
                    let _ = child.kill();
                }
            }
        }
        thread::sleep(Duration::from_millis(50));
    }
}

// ---- the counts

#[derive(Default)]
struct Counts {
    streams: u64,
    /// By the model's refusal number, 0 accepted.
    by_number: [u64; 20],
    /// Sheets in which the model marks a cell.
    marked: u64,
    disagreed: u64,
    shown: Vec<String>,
}

fn work(path: &str, count: u64, streams: &Mutex<Streams>, counts: &Mutex<Counts>, slot: &Running) {
    loop {
        let (stream, pauses) = {
            let mut streams = streams.lock().unwrap();
            if streams.made() == count {
                return;
            }
            streams.next_stream()
        };
        let outcome = run(path, &stream, &pauses, slot);
        let (text, number) = printed(&stream);
        let agrees = outcome.output == text.as_bytes() && outcome.status == Some(0);
        let mut counts = counts.lock().unwrap();
        counts.streams += 1;
        counts.by_number[usize::from(number)] += 1;
        counts.marked += u64::from(text.contains('+'));
        if !agrees {
            counts.disagreed += 1;
            if counts.shown.len() < SHOWN {
                let hex: String = stream.iter().map(|byte| format!("{byte:02x}")).collect();
                let status = outcome.status;
                let output = String::from_utf8_lossy(&outcome.output).into_owned();
                counts.shown.push(format!(
                    "stream {hex}\nstatus {status:?} (none: ended by a signal)\n\
                     program:\n{output}model:\n{text}"
                ));
            }
        }
    }
}

fn main() -> ExitCode {
    let given: Vec<String> = std::env::args().skip(1).collect();
    let numbers: Vec<u64> = given.iter().skip(1).flat_map(|x| x.parse().ok()).collect();
    let (3, &[count, seed]) = (given.len(), &numbers[..]) else {
        eprintln!("usage: sheet_fuzz PATH_TO_SHEET COUNT SEED");
        return ExitCode::from(2);
    };
    let path = given[0].as_str();
    let streams = Mutex::new(Streams::new(seed));
    let counts = Mutex::new(Counts::default());
    let slots: [Running; WORKERS] = Default::default();
    let done = AtomicBool::new(false);
    thread::scope(|scope| {
        scope.spawn(|| watch(&slots, &done));
        let workers: Vec<_> = slots
            .iter()
            .map(|slot| scope.spawn(|| work(path, count, &streams, &counts, slot)))
            .collect();
        let ended: Vec<_> = workers.into_iter().map(|worker| worker.join()).collect();
        done.store(true, Ordering::Relaxed);
        for worker in ended {
            worker.expect("a worker");
        }
    });
    let counts = counts.into_inner().unwrap();
    println!("streams {}", counts.streams);
    println!("accepted {}", counts.by_number[0]);
    println!("marked {}", counts.marked);
    for (number, count) in counts.by_number.iter().enumerate().skip(1) {
        // 12 to 18 are no refusals of cards.
        if number <= 11 || *count > 0 {
            println!("refused {number}: {count}");
        }
    }
    println!("disagreed {}", counts.disagreed);
    for text in &counts.shown {
        print!("{text}");
    }
    ExitCode::from(u8::from(counts.disagreed > 0))
}
