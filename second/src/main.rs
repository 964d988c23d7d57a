//! The second program's commands.

#![forbid(unsafe_code)]

use second::assembler::labels::LABELS_LIMIT;
use second::case::{self, Case};
use second::make::lookup;
use second::{answer, back, count, make, program, show, speed};
use std::io::{self, BufRead, BufWriter, Read, Write};
use std::path::Path;
use std::process::ExitCode;

const USAGE: &str = "usage:
  second answer < cases > replies
  second make KIND COUNT SEED > cases
      KIND: assemble encode decode step run print list machine all line
  second assemble M FILE
  second run M FILE [BUDGET] < input > output 2> record
  second count < cases
  second show < cases
  second back COUNT SEED
  second bench LABELS > source
      LABELS: 20 500
  second bench NAMES LABELS > source
      NAMES: alike middle mixed; LABELS: 1 to 512
  second speed [WORK]
  second speed source FILE..
";

fn main() -> ExitCode {
    let arguments: Vec<String> =
        std::env::args_os().skip(1).map(|given| given.to_string_lossy().into_owned()).collect();
    let words: Vec<&str> = arguments.iter().map(String::as_str).collect();
    let done = match words.as_slice() {
        ["answer"] => answer_all(),
        ["make", kind, count, seed] => make_all(kind, count, seed),
        ["assemble", cells, _] => assemble_file(cells),
        ["run", cells, _] => run_file(cells, program::USUAL_BUDGET),
        ["run", cells, _, steps] => match program::budget(steps) {
            Some(steps) => run_file(cells, steps),
            None => Err(USAGE.to_string()),
        },
        ["count"] => count_all(),
        ["show"] => for_each_case(|case, out| write!(out, "{}", show::show(case))),
        ["back", count, seed] => back_all(count, seed),
        ["bench", labels @ ("20" | "500")] => {
            put(&make::bench::source(labels.parse().unwrap_or(0)), ExitCode::SUCCESS)
        }
        ["bench", names, labels] => lookup_source(names, labels),
        ["speed"] => speed_all(|_| true),
        ["speed", work] => speed_all(|name| name == *work),
        ["speed", "source", _, ..] => speed_files(),
        _ => Err(USAGE.to_string()),
    };
    match done {
        Ok(code) => code,
        Err(message) => {
            eprint!("{}", message);
            ExitCode::from(2)
        }
    }
}

type Done = Result<ExitCode, String>;

fn failed(error: io::Error) -> String {
    format!("second: {}\n", error)
}

/// A line of an input without its LF, or none at the input's end. A last line that has no LF is
/// malformed.
fn next_line(input: &mut impl BufRead, at: u64) -> Result<Option<Vec<u8>>, String> {
    let mut line = Vec::new();
    input.read_until(b'\n', &mut line).map_err(failed)?;
    match line.pop() {
        None => Ok(None),
        Some(b'\n') => Ok(Some(line)),
        Some(_) => Err(format!("second: line {}: it ends without its LF\n", at)),
    }
}

/// Hands each case of the standard input over; a malformed line ends everything with its number.
fn for_each_case(mut each: impl FnMut(&Case, &mut dyn Write) -> io::Result<()>) -> Done {
    let mut input = io::stdin().lock();
    let mut out = BufWriter::new(io::stdout().lock());
    let mut at = 1;
    while let Some(line) = next_line(&mut input, at)? {
        let case = std::str::from_utf8(&line).map_err(|_| "not ASCII").and_then(case::read);
        let case = case.map_err(|why| format!("second: line {}: {}\n", at, why))?;
        each(&case, &mut out).map_err(failed)?;
        at += 1;
    }
    out.flush().map_err(failed)?;
    Ok(ExitCode::SUCCESS)
}

fn answer_all() -> Done {
    for_each_case(|case, out| writeln!(out, "{}", answer::answer(case)))
}

fn count_all() -> Done {
    let mut counts = count::Counts::default();
    for_each_case(|case, _| {
        counts.add(case);
        Ok(())
    })?;
    put(&counts.to_string(), ExitCode::SUCCESS)
}

/// Does the works whose names are wanted; each line is printed as soon as its work is done.
fn speed_all(wanted: impl Fn(&str) -> bool) -> Done {
    let mut out = io::stdout().lock();
    let mut done = 0;
    for work in speed::WORKS.iter().filter(|work| wanted(work.name)) {
        writeln!(out, "{}", work.line()).map_err(failed)?;
        done += 1;
    }
    for work in speed::SOURCES.iter().filter(|work| wanted(work.name)) {
        writeln!(out, "{}", work.line()).map_err(failed)?;
        done += 1;
    }
    if done == 0 {
        return Err(USAGE.to_string());
    }
    Ok(ExitCode::SUCCESS)
}

/// Does the work of "Speed" on each file that the third word and those behind it name, under the
/// file's own name without its ending; each line is printed as soon as its work is done.
fn speed_files() -> Done {
    let mut out = io::stdout().lock();
    for file in std::env::args_os().skip(3) {
        let source = std::fs::read(&file).map_err(failed)?;
        let name = Path::new(&file).file_stem().unwrap_or_default().to_string_lossy();
        let times = speed::SOURCE_TIMES;
        let work = speed::SourceWork { name: &name, source: &source, times };
        writeln!(out, "{}", work.line()).map_err(failed)?;
    }
    Ok(ExitCode::SUCCESS)
}

/// A source by which the look-up of labels is measured.
fn lookup_source(names: &str, labels: &str) -> Done {
    let names = lookup::Names::of_name(names).ok_or_else(|| USAGE.to_string())?;
    let labels = number(labels)? as usize;
    if !(1..=LABELS_LIMIT).contains(&labels) {
        return Err(USAGE.to_string());
    }
    put(lookup::source(names, labels), ExitCode::SUCCESS)
}

/// Prints bytes and ends with a code.
fn put(bytes: impl AsRef<[u8]>, code: ExitCode) -> Done {
    let mut out = io::stdout().lock();
    out.write_all(bytes.as_ref()).and_then(|()| out.flush()).map_err(failed)?;
    Ok(code)
}

/// A count or a seed.
fn number(text: &str) -> Result<u64, String> {
    text.parse::<u64>().map_err(|_| USAGE.to_string())
}

/// Lists the images of so many sources, and so many images, and assembles them again. 1 is for a
/// difference; each is told with its case.
fn back_all(count: &str, seed: &str) -> Done {
    let (count, seed) = (number(count)?, number(seed)?);
    let mut all_back = true;
    for kind in [make::Kind::Assemble, make::Kind::List] {
        let mut maker = make::Maker::new(kind, seed);
        let mut tally = back::Tally::default();
        for _ in 0..count {
            let case = maker.next_case();
            if let Err(why) = tally.add(&case) {
                eprintln!("{}: {}", why, case);
            }
        }
        all_back &= tally.differ == 0;
        let made = match kind {
            make::Kind::Assemble => {
                format!("sources: {} made, {} accepted", tally.made, tally.accepted())
            }
            _ => format!("images: {} made", tally.made),
        };
        put(format!("{}, {}\n", made, tally), ExitCode::SUCCESS)?;
    }
    Ok(if all_back { ExitCode::SUCCESS } else { ExitCode::FAILURE })
}

fn make_all(kind: &str, count: &str, seed: &str) -> Done {
    let kind = make::Kind::of_name(kind).ok_or_else(|| USAGE.to_string())?;
    let (count, seed) = (number(count)?, number(seed)?);
    let mut out = BufWriter::new(io::stdout().lock());
    let mut maker = make::Maker::new(kind, seed);
    for _ in 0..count {
        writeln!(out, "{}", maker.next_case()).map_err(failed)?;
    }
    out.flush().map_err(failed)?;
    Ok(ExitCode::SUCCESS)
}

/// The bytes of the file that the third word names, as the system gave it.
fn source() -> Result<Vec<u8>, String> {
    std::fs::read(std::env::args_os().nth(3).unwrap_or_default()).map_err(failed)
}

/// M is judged before the file is opened.
fn assemble_file(cells: &str) -> Done {
    let cells = match program::memory_size(cells) {
        Some(cells) => cells,
        None => return put(&program::bad_size_text(), ExitCode::FAILURE),
    };
    match program::assemble_text(cells, &source()?) {
        Ok(text) => put(&text, ExitCode::SUCCESS),
        Err(text) => put(&text, ExitCode::FAILURE),
    }
}

/// Runs a rule on the standard input; the record goes to standard error. 3 is any stop but HALT.
fn run_file(cells: &str, steps: u32) -> Done {
    let cells = match program::memory_size(cells) {
        Some(cells) => cells,
        None => return put(&program::bad_size_text(), ExitCode::FAILURE),
    };
    let source = source()?;
    let mut input = Vec::new();
    io::stdin()
        .lock()
        .take(program::RUN_BYTES as u64 + 1)
        .read_to_end(&mut input)
        .map_err(failed)?;
    if input.len() > program::RUN_BYTES {
        return Err("second: more than 65536 bytes of input\n".to_string());
    }
    match program::run_rule(cells, &source, &input, steps) {
        Ok(ran) => {
            put(&ran.output, ExitCode::SUCCESS)?;
            eprint!("{}", ran.record);
            Ok(ExitCode::from(if ran.halted { 0 } else { 3 }))
        }
        Err(text) => put(&text, ExitCode::FAILURE),
    }
}
