//! The differential test: the library, called through the driver, against the model.
//!
//! differ PROFILE DRIVER-COMMAND [CALLS] [SEED]
//!
//! PROFILE is large, for include/shelf.h, or small, for include/small.h. Calls of include/console.h are among both.
//!
//! Some calls come in pairs, on two shelves: where request 04 says so, the library must give both the same bytes. Others are
//! steps of a round trip from the console to a shelf and back, of which request 06 says what the library must give, or calls
//! of sheets, of which request 07 does, or of files, of which request 08 does.
//!
//! Exits with 0 where the two agreed on every field and every byte, and every class of answers was reached.

use second::trial::alike::Pair;
use second::trial::call::{Answer, Call, FIELDS, SEND_ON};
use second::trial::console::trips::Trip;
use second::trial::coverage::Coverage;
use second::trial::generate::{Generator, Together};
use second::trial::profile::Profile;
use second::trial::saved::trips::Trip as FileTrip;
use second::trial::sheets::trips::Trip as SheetTrip;
use std::io::{BufReader, Read, Write};
use std::process::{Child, ChildStdin, Command, ExitCode, Stdio};
use std::sync::mpsc::{sync_channel, Receiver, SyncSender};
use std::thread;
use std::time::Instant;

const DEFAULT_CALLS: u64 = 300_000;
const DEFAULT_SEED: u64 = 6_201;

/// Calls that travel together, and how many such batches may be on the way.
const BATCH: u64 = 200;
const BATCHES: usize = 8;

struct Arguments {
    profile: Profile,
    command: String,
    calls: u64,
    seed: u64,
}

fn arguments() -> Option<Arguments> {
    let mut arguments = std::env::args().skip(1);
    let profile = Profile::named(&arguments.next()?)?;
    let command = arguments.next()?;
    let calls = arguments.next().map_or(Some(DEFAULT_CALLS), |text| text.parse().ok())?;
    let seed = arguments.next().map_or(Some(DEFAULT_SEED), |text| text.parse().ok())?;
    Some(Arguments { profile, command, calls, seed })
}

fn main() -> ExitCode {
    let Some(arguments) = arguments() else {
        eprintln!("differ large|small DRIVER-COMMAND [CALLS] [SEED]");
        return ExitCode::from(2);
    };
    let Arguments { profile, command, calls, seed } = &arguments;
    println!("{profile} profile, seed {seed}, {calls} calls");
    match run(&arguments) {
        Ok(coverage) => judge(&coverage),
        Err(disagreement) => {
            println!("{disagreement}");
            println!("again with: differ {profile} '{command}' {calls} {seed}");
            ExitCode::FAILURE
        }
    }
}

fn judge(coverage: &Coverage) -> ExitCode {
    print!("{coverage}");
    let missing = coverage.missing();
    for class in &missing {
        println!("never reached: {class}");
    }
    if missing.is_empty() {
        println!("agreed on every field and every byte");
        ExitCode::SUCCESS
    } else {
        ExitCode::FAILURE
    }
}

fn run(arguments: &Arguments) -> Result<Coverage, String> {
    let began = Instant::now();
    let mut driver = start(&arguments.command)?;
    let stdin = driver.stdin.take().expect("it is piped");
    let stdout = driver.stdout.take().expect("it is piped");
    let (sender, receiver) = sync_channel(BATCHES);
    let &Arguments { profile, calls, seed, .. } = arguments;
    let feeder = thread::spawn(move || feed(stdin, &sender, calls, Generator::new(profile, seed)));
    let result = compare_all(arguments, BufReader::with_capacity(1 << 18, stdout), &receiver);
    // Without its receiver the feeder stops, and without the feeder the driver does.
    drop(receiver);
    feeder.join().map_err(|_| "the feeder broke down".to_string())?;
    let coverage = result.inspect_err(|_| drop(driver.kill()))?;
    let status = driver.wait().map_err(|error| error.to_string())?;
    if !status.success() {
        return Err(format!("the driver ended with {status}"));
    }
    let seconds = began.elapsed().as_secs_f64();
    println!("{seconds:.1} s, {:.0} calls a second", arguments.calls as f64 / seconds);
    Ok(coverage)
}

fn start(command: &str) -> Result<Child, String> {
    Command::new("sh")
        .arg("-c")
        .arg(format!("exec {command}"))
        .stdin(Stdio::piped())
        .stdout(Stdio::piped())
        .spawn()
        .map_err(|error| format!("{command}: {error}"))
}

/// A call with the model's answer. Where others were made up together with it, they are next to it in its batch, and all are
/// judged at the last of them.
struct Tried {
    call: Call,
    model: Answer,
    is_first: bool,
    ends: Together,
}

type Batch = Vec<Tried>;

/// Makes up calls, asks the model, and passes the calls on to the driver.
fn feed(mut driver: ChildStdin, sender: &SyncSender<Batch>, calls: u64, mut generator: Generator) {
    let mut left = calls;
    let mut bytes = Vec::new();
    while left > 0 {
        let batch = batch(&mut generator, left.min(BATCH));
        left -= batch.len() as u64;
        bytes.clear();
        batch.iter().for_each(|tried| tried.call.send(&mut bytes));
        bytes.push(SEND_ON);
        // The answers must be awaited before the calls go out, or both pipes may fill up. Where the other side is gone,
        // compare_all says why.
        if sender.send(batch).is_err() || driver.write_all(&bytes).is_err() {
            return;
        }
    }
}

/// So many calls. Of those that belong together the last ones are lost where they do not fit in, and the others are not
/// judged together.
fn batch(generator: &mut Generator, size: u64) -> Batch {
    let mut batch = Vec::new();
    while (batch.len() as u64) < size {
        let tried = generator.tried();
        let last = tried.calls.len() - 1;
        batch.extend(tried.calls.into_iter().enumerate().map(|(place, (call, model))| {
            let ends = if place == last { tried.together } else { Together::Alone };
            Tried { call, model, is_first: place == 0, ends }
        }));
    }
    batch.truncate(size as usize);
    batch
}

fn compare_all(arguments: &Arguments, mut answers: impl Read, receiver: &Receiver<Batch>) -> Result<Coverage, String> {
    let mut coverage = Coverage::new(arguments.profile);
    let mut number = 0u64;
    for batch in receiver {
        let mut together: Vec<Answer> = Vec::new();
        for (place, tried) in batch.iter().enumerate() {
            number += 1;
            let library = compare(&mut answers, tried).map_err(|disagreement| match disagreement {
                Disagreement::NoAnswer => {
                    format!("call {number}: {}", who_ends_the_driver(&arguments.command, &batch[place..]))
                }
                Disagreement::Told(why) => format!("call {number}: {why}"),
            })?;
            coverage.count(&tried.call, &library);
            if tried.is_first {
                together.clear();
            }
            together.push(library);
            let calls = batch[place + 1 - together.len()..=place].iter().map(|tried| &tried.call).collect();
            judge_together(arguments.profile, tried.ends, calls, &together, &mut coverage)
                .map_err(|why| format!("call {number}: {why}"))?;
        }
    }
    let mut rest = Vec::new();
    answers.read_to_end(&mut rest).map_err(|error| error.to_string())?;
    if rest.is_empty() {
        Ok(coverage)
    } else {
        Err(format!("{} bytes after the last answer", rest.len()))
    }
}

enum Disagreement {
    NoAnswer,
    Told(String),
}

/// The driver ended before it sent on its answers: each call that is left is made again in a driver of its own.
fn who_ends_the_driver(command: &str, batch: &[Tried]) -> String {
    let alone = |tried: &Tried| {
        let mut driver = start(command).ok()?;
        let mut bytes = Vec::new();
        tried.call.send(&mut bytes);
        // The pipe is closed at the end of this line. What is not written is not answered either.
        driver.stdin.take()?.write_all(&bytes).ok()?;
        let said = compare(&mut driver.stdout.take()?, tried);
        driver.wait().ok()?;
        Some(matches!(said, Err(Disagreement::NoAnswer)))
    };
    match batch.iter().position(|tried| alone(tried).unwrap_or(true)) {
        Some(after) => format!("the driver ends at the call {after} after this one\n{}", told(&batch[after].call)),
        None => "the driver ended here or soon after, but not where each call is made alone".to_string(),
    }
}

/// The library's answer, where it is the model's.
fn compare(answers: &mut impl Read, Tried { call, model, .. }: &Tried) -> Result<Answer, Disagreement> {
    let mut head = [0; 2 + 8 * FIELDS];
    answers.read_exact(&mut head).map_err(|_| Disagreement::NoAnswer)?;
    let mut library = Answer { fields: fields(&head), buffers: model.buffers.clone() };
    for buffer in &mut library.buffers {
        answers.read_exact(buffer).map_err(|_| Disagreement::NoAnswer)?;
    }
    let why = if head[0] != call.parts().place {
        format!("answered as call {} of the header\n{}", head[0], told(call))
    } else if head[1] != 0 {
        format!("a byte beside the buffers or in a const one was written\n{}", told(call))
    } else if library != *model {
        format!("the two disagree\n{}{}", told(call), difference(model, &library))
    } else {
        return Ok(library);
    };
    Err(Disagreement::Told(why))
}

/// What is asked of the library's answers to calls that were made up together.
fn judge_together(
    profile: Profile,
    together: Together,
    calls: Vec<&Call>,
    answers: &[Answer],
    coverage: &mut Coverage,
) -> Result<(), String> {
    match (together, calls.as_slice(), answers) {
        (Together::Pair, &[one, other], [of_one, of_other]) => {
            let pair = Pair { calls: [one, other], answers: [of_one, of_other] };
            compare_pair(profile, &pair)?;
            coverage.count_pair(&pair);
        }
        (Together::Trip, ..) => {
            let trip = Trip { calls, answers: answers.iter().collect() };
            trip.judge(profile).map_err(|why| complaint("a round trip", why, &trip.calls, &trip.answers))?;
            coverage.count_trip(&trip);
        }
        (Together::Sheets, ..) => {
            let trip = SheetTrip { calls, answers: answers.iter().collect() };
            trip.judge(profile).map_err(|why| complaint("sheets", why, &trip.calls, &trip.answers))?;
            coverage.count_sheets(&trip);
        }
        (Together::Files, ..) => {
            let trip = FileTrip { calls, answers: answers.iter().collect() };
            trip.judge(profile).map_err(|why| complaint("files", why, &trip.calls, &trip.answers))?;
            coverage.count_files(&trip);
        }
        _ => {}
    }
    Ok(())
}

/// The library's answers to calls that follow one another, where they are not what request 06, 07 or 08 says.
fn complaint(kind: &str, why: &str, calls: &[&Call], answers: &[&Answer]) -> String {
    let steps = calls.iter().zip(answers);
    let steps = steps.map(|(call, answer)| format!("{}  fields: {:x?}\n", told(call), answer.fields));
    format!("the two disagree: {kind}, {why}\n{}", steps.collect::<String>())
}

/// The library's answers to two calls, where request 04 says that they are the same.
fn compare_pair(profile: Profile, pair: &Pair) -> Result<(), String> {
    if pair.agrees() || !pair.must_agree(profile) {
        return Ok(());
    }
    let [one, other] = pair.calls.map(told);
    let [of_one, of_other] = pair.answers.map(|answer| answer.fields);
    let mut text = format!("the two disagree: two shelves that are alike get different bytes\n{one}beside {other}");
    text += &format!("  fields: {of_one:x?} and {of_other:x?}\n");
    for (name, which) in [("response", 2), ("set", 3)] {
        let [one, other] = pair.answers.map(|answer| &answer.buffers[which]);
        if let Some(place) = one.iter().zip(other).position(|(one, other)| one != other) {
            text += &format!("  {name}, byte {place}: {:02x} and {:02x}\n", one[place], other[place]);
        }
    }
    Err(text)
}

fn fields(head: &[u8]) -> [u64; FIELDS] {
    let words = head[2..].as_chunks().0;
    std::array::from_fn(|i| u64::from_le_bytes(words[i]))
}

/// The whole call, to make it again.
fn told(call: &Call) -> String {
    let parts = call.parts();
    let mut text = format!("the call: {}\n", parts.name);
    for (name, number) in parts.numbers {
        text += &format!("  {name} = {number}\n");
    }
    for (name, bytes) in parts.buffers {
        let hex: String = bytes.iter().map(|byte| format!("{byte:02x}")).collect();
        text += &format!("  {name}, {} bytes: {hex}\n", bytes.len());
    }
    text
}

fn difference(model: &Answer, library: &Answer) -> String {
    let mut text = format!("  fields: model {:x?}, library {:x?}\n", model.fields, library.fields);
    for (which, (left, right)) in model.buffers.iter().zip(&library.buffers).enumerate() {
        for (at, (left, right)) in left.iter().zip(right).enumerate().filter(|(_, (left, right))| left != right) {
            text += &format!("  written buffer {which}, byte {at}: model {left:02x}, library {right:02x}\n");
        }
    }
    text
}
