// Reference program, written from docs/RULES.md alone.
//
//   plan           reads one sheet from standard input and prints its answer
//   plan --batch   reads records `LEN\n` + LEN bytes of sheet text, and prints
//                  `== K\n` and the answer for each of them, K from 1

mod rules;

use rules::{hyperperiod, make_plan, read_sheet, rehearse, run_program, write_fault, Kind};
use std::io::{self, Write};

/// Writes the whole answer for one sheet text (section 7).
fn answer(text: &[u8], out: &mut dyn Write) -> io::Result<()> {
    let planned = read_sheet(text)
        .and_then(|sheet| make_plan(&sheet))
        .and_then(|plan| Ok((hyperperiod(&plan.lines)?, plan)));
    let (h, plan) = match planned {
        Ok(both) => both,
        Err(fault) => return write_fault(&fault, out),
    };
    writeln!(out, "H {h}")?;
    for (index, line) in plan.lines.iter().enumerate() {
        let kind = if line.kind == Kind::Regular { 'R' } else { 'N' };
        writeln!(out, "{} {} {} {} {} {}", index + 1, kind, line.r, line.c, line.d, line.t)?;
    }
    match rehearse(&plan) {
        Ok(()) => writeln!(out, "passed"),
        Err(fault) => write_fault(&fault, out),
    }
}

fn main() -> io::Result<()> {
    run_program(answer)
}
