// Reference bench program, written from docs/RULES.md alone (section 10).
//
//   bench           reads one script from standard input and prints its answer
//   bench --batch   reads records `LEN\n` + LEN bytes of script, and prints
//                   `== K\n` and the answer for each of them, K from 1

mod rules;

use rules::{make_plan, read_sheet, run_program, write_fault, Executive, Fault};
use std::io::{self, Write};

const START: &[u8] = b"start ";
const MAX_DIGITS: usize = 20;

/// Writes the whole answer for one script.
fn answer(script: &[u8], out: &mut dyn Write) -> io::Result<()> {
    let (sheet, rest) = script.split_at(find_start(script));
    let plan = match read_sheet(sheet).and_then(|sheet| make_plan(&sheet)) {
        Ok(plan) => plan,
        Err(fault) => return write_fault(&fault, out),
    };
    // The last line may end with the input. Without a start line nothing is left.
    let mut lines = rest.strip_suffix(b"\n").unwrap_or(rest).split(|&byte| byte == b'\n');
    let Some((line, instant)) = lines.next().and_then(|line| Some((line, line.strip_prefix(START)?)))
    else {
        return Ok(());
    };
    let Some(instant) = read_number(instant) else {
        return write_unknown(line, out);
    };
    let ranking = plan.policy;
    let mut executive = Executive::start(plan, ranking, instant);
    for line in lines {
        obey(&mut executive, line, out)?;
    }
    Ok(())
}

/// Where the first line that begins with `start ` begins, or the end.
fn find_start(script: &[u8]) -> usize {
    (0..script.len())
        .find(|&at| (at == 0 || script[at - 1] == b'\n') && script[at..].starts_with(START))
        .unwrap_or(script.len())
}

/// 1 to 20 digits, leading zeros allowed, at most 18446744073709551615.
fn read_number(text: &[u8]) -> Option<u64> {
    if !(1..=MAX_DIGITS).contains(&text.len()) || !text.iter().all(u8::is_ascii_digit) {
        return None;
    }
    text.iter().try_fold(0u64, |value, digit| {
        value.checked_mul(10)?.checked_add(u64::from(digit - b'0'))
    })
}

/// A command is a word, or a word, one space and a number.
fn read_command(line: &[u8]) -> Option<(&[u8], Option<u64>)> {
    match line.iter().position(|&byte| byte == b' ') {
        None => Some((line, None)),
        Some(at) => Some((&line[..at], Some(read_number(&line[at + 1..])?))),
    }
}

/// Does what one line of the script says, and answers it.
fn obey(executive: &mut Executive, line: &[u8], out: &mut dyn Write) -> io::Result<()> {
    match read_command(line) {
        Some((b"step", None)) => steps(executive, 1, out),
        Some((b"step", Some(count))) => steps(executive, count, out),
        Some((b"run", Some(count))) => match run(executive, count) {
            Ok(struck) => writeln!(out, "ran {count} {struck}"),
            Err(fault) => write_fault(&fault, out),
        },
        Some((b"end", None)) => write_reply(executive.end(), out),
        Some((b"rest", Some(number))) => write_reply(executive.rest(number), out),
        Some((b"resume", Some(number))) => write_reply(executive.resume(number), out),
        Some((b"counts", None)) => write_counts(executive, out),
        Some((b"figures", None)) => write_figures(executive, out),
        Some((b"coming", None)) => match executive.coming() {
            Some((instant, line)) => writeln!(out, "coming {instant} {line}"),
            None => writeln!(out, "coming none"),
        },
        Some((b"worst", None)) => match executive.worst() {
            Ok(Some((line, largest))) => writeln!(out, "worst {line} {largest}"),
            Ok(None) => writeln!(out, "worst none"),
            Err(fault) => write_fault(&fault, out),
        },
        _ => write_unknown(line, out),
    }
}

/// Steps with a line each, and no more after a fault line.
fn steps(executive: &mut Executive, count: u64, out: &mut dyn Write) -> io::Result<()> {
    for _ in 0..count {
        let clock = executive.clock();
        match executive.step() {
            Ok(unit) => {
                let (began, ended) = (u8::from(unit.began), u8::from(unit.ended));
                writeln!(out, "unit {clock} {} {began} {ended} {}", unit.line, unit.struck)?;
            }
            Err(fault) => return write_fault(&fault, out),
        }
    }
    Ok(())
}

/// Steps without a line each, up to the first fault: all that were struck out.
fn run(executive: &mut Executive, count: u64) -> Result<u64, Fault> {
    let mut struck = 0;
    for _ in 0..count {
        struck += executive.step()?.struck;
    }
    Ok(struck)
}

fn write_counts(executive: &Executive, out: &mut dyn Write) -> io::Result<()> {
    for number in 1..=executive.lines() {
        match executive.counts(number) {
            Ok(n) => writeln!(
                out,
                "{number} {} {} {} {} {}",
                n.made, n.ended, n.missed, n.aside, n.pending
            )?,
            Err(fault) => return write_fault(&fault, out),
        }
    }
    Ok(())
}

fn write_figures(executive: &Executive, out: &mut dyn Write) -> io::Result<()> {
    for number in 1..=executive.lines() {
        match executive.figures(number) {
            Ok(n) => writeln!(
                out,
                "{number} {} {} {} {} {}",
                n.number, n.sum, n.largest, n.hundredfold, n.periods
            )?,
            Err(fault) => return write_fault(&fault, out),
        }
    }
    Ok(())
}

fn write_reply(reply: Result<(), Fault>, out: &mut dyn Write) -> io::Result<()> {
    match reply {
        Ok(()) => writeln!(out, "ok"),
        Err(fault) => write_fault(&fault, out),
    }
}

fn write_unknown(line: &[u8], out: &mut dyn Write) -> io::Result<()> {
    out.write_all(b"? ")?;
    out.write_all(line)?;
    out.write_all(b"\n")
}

fn main() -> io::Result<()> {
    run_program(answer)
}
