// The rules, written from docs/RULES.md alone: reading, planning, the
// rehearsal and the executive, and what both programs need to print.

// plan.rs and bench.rs each use their own part of this file.
#![allow(dead_code)]

use std::io::{self, Read, Write};

const MAX_TEXT: usize = 4096;
const MAX_LINES: usize = 24;
const MAX_REGULAR: usize = 8;
const MAX_NAME: usize = 12;
const MAX_DIGITS: usize = 7;
const MAX_NUMBER: u64 = 60_000;
const MAX_HYPERPERIOD: u64 = 1_000_000;
/// The executive's clock goes no further than this.
const LAST_INSTANT: u64 = 1_000_000_000_000;

// ---------------------------------------------------------------- the words

/// The policy of a sheet, and the ranking of that name.
#[derive(Clone, Copy, PartialEq, Eq)]
pub enum Policy {
    Dm,
    Ed,
}

/// Regular comes first: a regular job goes ahead of an ordinary one.
#[derive(Clone, Copy, PartialEq, Eq, PartialOrd, Ord)]
pub enum Kind {
    Regular,
    Ordinary,
}

/// One line, of a sheet (d is D) or of a plan (d is D*).
#[derive(Clone, Copy)]
pub struct Line {
    pub kind: Kind,
    pub r: u64,
    pub c: u64,
    pub d: u64,
    pub t: u64,
}

/// A sheet or a plan: both are a policy and a list of lines.
pub struct Sheet {
    pub policy: Policy,
    pub lines: Vec<Line>,
}

pub struct Fault {
    number: u32,
    places: (u64, u64),
}

impl Fault {
    fn layer(&self) -> u32 {
        match self.number {
            11..=16 => 1,
            20..=23 => 2,
            25..=27 => 3,
            _ => 4,
        }
    }
}

fn fault<T>(number: u32, first: u64, second: u64) -> Result<T, Fault> {
    Err(Fault { number, places: (first, second) })
}

/// The number of the line at an index.
fn number_of(index: usize) -> u64 {
    index as u64 + 1
}

// ------------------------------------------------- reading (section 2)

pub fn read_sheet(text: &[u8]) -> Result<Sheet, Fault> {
    if text.len() > MAX_TEXT {
        return fault(11, 0, 0);
    }
    let body = match text.split_last() {
        Some((b'\n', body)) => body,
        _ => return fault(12, 0, 0),
    };

    // The last newline is gone, so every piece is one line of the text.
    let mut pieces = body.split(|&byte| byte == b'\n');
    let policy = match pieces.next() {
        Some(b"DM") => Policy::Dm,
        Some(b"ED") => Policy::Ed,
        _ => return fault(13, 0, 1),
    };

    let mut lines: Vec<Line> = Vec::new();
    let mut regular = 0;
    for (index, piece) in pieces.enumerate() {
        if index == MAX_LINES {
            return fault(15, number_of(index), 0);
        }
        lines.push(read_line(piece, number_of(index), &mut regular)?);
    }
    Ok(Sheet { policy, lines })
}

/// Reads one task line; `regular` counts the R lines of the sheet so far.
fn read_line(piece: &[u8], line: u64, regular: &mut usize) -> Result<Line, Fault> {
    let mut fields = piece.split(|&byte| byte == b' ');

    let kind = match fields.next() {
        Some(b"R") => Kind::Regular,
        Some(b"N") => Kind::Ordinary,
        _ => return fault(13, line, 1),
    };
    if kind == Kind::Regular {
        *regular += 1;
        if *regular > MAX_REGULAR {
            return fault(16, line, 1);
        }
    }
    if !fields.next().is_some_and(is_name) {
        return fault(13, line, 2);
    }
    let r = read_field(fields.next(), 0, line, 3)?;
    let c = read_field(fields.next(), 1, line, 4)?;
    let d = read_field(fields.next(), c, line, 5)?;
    let t = read_field(fields.next(), d, line, 6)?;
    if fields.next().is_some() {
        return fault(13, line, 7);
    }
    Ok(Line { kind, r, c, d, t })
}

fn is_name(field: &[u8]) -> bool {
    (1..=MAX_NAME).contains(&field.len()) && field.iter().all(u8::is_ascii_alphanumeric)
}

/// A number field from `least` to 60,000: form first, then range.
fn read_field(field: Option<&[u8]>, least: u64, line: u64, place: u64) -> Result<u64, Fault> {
    match field.and_then(read_number) {
        None => fault(13, line, place),
        Some(value) if value < least || value > MAX_NUMBER => fault(14, line, place),
        Some(value) => Ok(value),
    }
}

/// 1 to 7 digits without a leading zero, or the single digit 0.
fn read_number(field: &[u8]) -> Option<u64> {
    let good_length = (1..=MAX_DIGITS).contains(&field.len());
    let leading_zero = field.len() > 1 && field[0] == b'0';
    if !good_length || leading_zero || !field.iter().all(u8::is_ascii_digit) {
        return None;
    }
    Some(field.iter().fold(0, |value, digit| value * 10 + u64::from(digit - b'0')))
}

// ------------------------------------------------- planning (section 3)

/// Fills a plan from a sheet; refusals come in the order 20, 21, 22, 23.
pub fn make_plan(sheet: &Sheet) -> Result<Sheet, Fault> {
    hyperperiod(&sheet.lines)?;

    let regular: Vec<usize> =
        (0..sheet.lines.len()).filter(|&i| sheet.lines[i].kind == Kind::Regular).collect();
    check_pairs(&sheet.lines, &regular)?;

    let regular_lines: Vec<Line> = regular.iter().map(|&i| sheet.lines[i]).collect();
    let Some(offsets) = find_offsets(&regular_lines) else {
        return fault(22, 0, 0);
    };
    let mut lines = sheet.lines.clone();
    for (&i, &offset) in regular.iter().zip(&offsets) {
        lines[i].r = offset;
    }
    change_deadlines(sheet.policy, &mut lines)?;
    Ok(Sheet { policy: sheet.policy, lines })
}

/// Euclid's rule down to a remainder of 0.
fn gcd(mut a: u64, mut b: u64) -> u64 {
    while b != 0 {
        (a, b) = (b, a % b);
    }
    a
}

/// Least common multiple of all periods, 1 without lines.
pub fn hyperperiod(lines: &[Line]) -> Result<u64, Fault> {
    let mut h = 1;
    for (index, line) in lines.iter().enumerate() {
        h = h / gcd(h, line.t) * line.t;
        if h > MAX_HYPERPERIOD {
            return fault(20, number_of(index), 0);
        }
    }
    Ok(h)
}

/// Every pair of regular lines must have some offsets that keep it apart.
fn check_pairs(lines: &[Line], regular: &[usize]) -> Result<(), Fault> {
    for (position, &i) in regular.iter().enumerate() {
        for &j in &regular[position + 1..] {
            if gcd(lines[i].t, lines[j].t) < lines[i].c + lines[j].c {
                return fault(21, number_of(i), number_of(j));
            }
        }
    }
    Ok(())
}

/// The pair test: offsets ri and rj, lengths ci and cj, p the gcd of the
/// periods, which is at least ci + cj.
fn apart(ri: u64, ci: u64, rj: u64, cj: u64, p: u64) -> bool {
    let distance = (rj + p - ri % p) % p; // (rj - ri) mod p
    distance >= ci && distance <= p - cj
}

/// The plain search: line by line, smallest offset first, and back to the
/// line before when a line has none left. None if there is no list at all.
fn find_offsets(regular: &[Line]) -> Option<Vec<u64>> {
    let divisors: Vec<Vec<u64>> = regular
        .iter()
        .map(|a| regular.iter().map(|b| gcd(a.t, b.t)).collect())
        .collect();
    let mut offsets: Vec<u64> = Vec::new();
    let mut first_candidate = 0;
    while offsets.len() < regular.len() {
        let j = offsets.len();
        let line = regular[j];
        let found = (first_candidate..line.t).find(|&candidate| {
            (0..j).all(|i| apart(offsets[i], regular[i].c, candidate, line.c, divisors[i][j]))
        });
        match found {
            Some(offset) => {
                offsets.push(offset);
                first_candidate = 0;
            }
            // Without an earlier line to go back to, the search has failed.
            None => first_candidate = offsets.pop()? + 1,
        }
    }
    Some(offsets)
}

/// Replaces D by D*; only regular lines change.
fn change_deadlines(policy: Policy, lines: &mut [Line]) -> Result<(), Fault> {
    let least_ordinary =
        lines.iter().filter(|line| line.kind == Kind::Ordinary).map(|line| line.d).min();
    for (index, line) in lines.iter_mut().enumerate() {
        if line.kind == Kind::Ordinary {
            continue;
        }
        line.d = match (policy, least_ordinary) {
            (Policy::Ed, _) => line.c,
            (Policy::Dm, Some(m)) => line.d.min(m - 1),
            (Policy::Dm, None) => line.d,
        };
        if line.d < line.c {
            return fault(23, number_of(index), 0);
        }
    }
    Ok(())
}

// ------------------------------------------------- rankings (section 4)

/// The rank of a job: of two jobs the one with the smaller rank goes ahead,
/// and of equal ranks the one of the lower line.
fn rank(ranking: Policy, line: &Line, release: u64) -> (Kind, u64) {
    match ranking {
        Policy::Dm => (line.kind, line.d),
        Policy::Ed => (line.kind, release + line.d),
    }
}

// ------------------------------------------ the rehearsal (sections 5 and 6)

/// The state of one line during the rehearsal. Its job is pending while
/// `left` is above 0; `due` and `rank` then belong to that job.
struct Running {
    line: Line,
    next_release: u64,
    left: u64,
    due: u64,
    rank: (Kind, u64),
}

impl Running {
    fn new(line: Line) -> Running {
        Running { line, next_release: line.r, left: 0, due: 0, rank: (line.kind, 0) }
    }

    /// Makes the job that is released at t.
    fn release(&mut self, t: u64, policy: Policy) {
        self.left = self.line.c;
        self.due = t + self.line.d;
        self.rank = rank(policy, &self.line, t);
        self.next_release = t + self.line.t;
    }
}

pub fn rehearse(plan: &Sheet) -> Result<(), Fault> {
    let h = hyperperiod(&plan.lines)?;
    let load: u64 = plan.lines.iter().map(|line| line.c * (h / line.t)).sum();
    if load > h {
        return fault(25, 0, 0);
    }

    let latest = plan.lines.iter().map(|line| line.r).max().unwrap_or(0);
    let (first_mark, second_mark) = (latest + h, latest + 2 * h);
    let mut running: Vec<Running> = plan.lines.iter().map(|&line| Running::new(line)).collect();

    run_units(&mut running, plan.policy, 0, first_mark)?;
    let left_at_first = units_left(&running);
    run_units(&mut running, plan.policy, first_mark, second_mark)?;
    if units_left(&running) != left_at_first {
        return fault(27, 0, 0);
    }
    Ok(())
}

fn units_left(running: &[Running]) -> Vec<u64> {
    running.iter().map(|line| line.left).collect()
}

/// Runs the units at start, start + 1, ..., end - 1, or up to the first miss.
fn run_units(running: &mut [Running], policy: Policy, start: u64, end: u64) -> Result<(), Fault> {
    for t in start..end {
        // 1. A pending job that is due now has missed; the lowest line tells.
        if let Some(index) = running.iter().position(|line| line.left > 0 && line.due == t) {
            return fault(26, t, number_of(index));
        }
        // 2. Releases.
        for line in running.iter_mut().filter(|line| line.next_release == t) {
            line.release(t, policy);
        }
        // 3. and 4. The job ahead of all others gets the unit. `min_by_key`
        // takes the first of equals, so ties go to the lower line.
        let pending = running.iter_mut().filter(|line| line.left > 0);
        if let Some(chosen) = pending.min_by_key(|line| line.rank) {
            chosen.left -= 1;
        }
    }
    Ok(())
}

// ------------------------------------------------- the executive (section 8)

/// A pending job.
struct Job {
    release: u64,
    /// Units that it still needs, from C down to 1.
    left: u64,
}

/// How many jobs of a line were made, and what became of them. The jobs that
/// are pending are not counted: there is one or none.
#[derive(Clone, Copy, Default)]
struct Tally {
    made: u64,
    ended: u64,
    missed: u64,
    aside: u64,
}

/// What the executive keeps of one line of the plan.
struct State {
    /// The first release at or after the clock, also while the line rests.
    next_release: u64,
    resting: bool,
    job: Option<Job>,
    tally: Tally,
    /// The instants of all starts of the line, in their order.
    starts: Vec<u64>,
}

/// What a step replies.
pub struct Unit {
    /// The line that had the unit, 0 for an idle unit.
    pub line: u64,
    pub began: bool,
    pub ended: bool,
    pub struck: u64,
}

/// What the executive says of one line.
pub struct Counts {
    pub made: u64,
    pub ended: u64,
    pub missed: u64,
    pub aside: u64,
    pub pending: u64,
}

/// The jitter figures of one line.
pub struct Figures {
    /// How many deviations there are.
    pub number: u128,
    pub sum: u128,
    pub largest: u128,
    /// 100 x sum.
    pub hundredfold: u128,
    /// number x T.
    pub periods: u128,
}

pub struct Executive {
    plan: Sheet,
    ranking: Policy,
    clock: u64,
    /// One for each line of the plan.
    states: Vec<State>,
    /// The index of the line whose job had the last unit, as long as that job
    /// is pending.
    last: Option<usize>,
}

impl Executive {
    pub fn start(plan: Sheet, ranking: Policy, instant: u64) -> Executive {
        let clock = instant.min(LAST_INSTANT);
        let states = plan
            .lines
            .iter()
            .map(|line| State {
                next_release: first_release(line, clock),
                resting: false,
                job: None,
                tally: Tally::default(),
                starts: Vec::new(),
            })
            .collect();
        Executive { plan, ranking, clock, states, last: None }
    }

    /// Gives the plan back.
    pub fn stop(self) -> Sheet {
        self.plan
    }

    pub fn clock(&self) -> u64 {
        self.clock
    }

    pub fn step(&mut self) -> Result<Unit, Fault> {
        let t = self.clock;
        if t == LAST_INSTANT {
            return fault(31, LAST_INSTANT, 0);
        }
        let mut unit = Unit { line: 0, began: false, ended: false, struck: 0 };

        // 1. What is due now has missed its deadline.
        for (line, state) in self.plan.lines.iter().zip(&mut self.states) {
            if state.job.as_ref().is_some_and(|job| job.release + line.d == t) {
                state.job = None;
                state.tally.missed += 1;
                unit.struck += 1;
            }
        }

        // 2. Releases; a line at rest lets its release go by.
        for (line, state) in self.plan.lines.iter().zip(&mut self.states) {
            if state.next_release == t {
                state.next_release = t + line.t;
                if !state.resting {
                    state.job = Some(Job { release: t, left: line.c });
                    state.tally.made += 1;
                }
            }
        }

        // 3. The job ahead of all others. Only a smaller rank takes the place
        // of one found before, so ties go to the lower line.
        let mut first: Option<(usize, (Kind, u64))> = None;
        for (index, (line, state)) in self.plan.lines.iter().zip(&self.states).enumerate() {
            if let Some(job) = &state.job {
                let rank = rank(self.ranking, line, job.release);
                if first.is_none_or(|(_, best)| rank < best) {
                    first = Some((index, rank));
                }
            }
        }

        // 4. It has one unit less left.
        self.last = None;
        if let Some((index, _)) = first {
            let line = &self.plan.lines[index];
            let state = &mut self.states[index];
            if let Some(job) = &mut state.job {
                unit.line = number_of(index);
                unit.began = job.left == line.c;
                if unit.began {
                    state.starts.push(t);
                }
                job.left -= 1;
                unit.ended = job.left == 0;
            }
            if unit.ended {
                state.job = None;
                state.tally.ended += 1;
            } else {
                self.last = Some(index);
            }
        }

        self.clock = t + 1;
        Ok(unit)
    }

    /// The job of the last unit is over.
    pub fn end(&mut self) -> Result<(), Fault> {
        let Some(index) = self.last else {
            return fault(32, 0, 0);
        };
        self.states[index].job = None;
        self.states[index].tally.ended += 1;
        self.last = None;
        Ok(())
    }

    pub fn rest(&mut self, number: u64) -> Result<(), Fault> {
        let index = self.ordinary(number)?;
        let state = &mut self.states[index];
        if state.resting {
            return fault(35, number, 0);
        }
        state.resting = true;
        if state.job.take().is_some() {
            state.tally.aside += 1;
        }
        if self.last == Some(index) {
            self.last = None;
        }
        Ok(())
    }

    pub fn resume(&mut self, number: u64) -> Result<(), Fault> {
        let index = self.ordinary(number)?;
        let state = &mut self.states[index];
        if !state.resting {
            return fault(35, number, 0);
        }
        state.resting = false;
        Ok(())
    }

    pub fn counts(&self, number: u64) -> Result<Counts, Fault> {
        let state = &self.states[self.index_of(number)?];
        let Tally { made, ended, missed, aside } = state.tally;
        Ok(Counts { made, ended, missed, aside, pending: u64::from(state.job.is_some()) })
    }

    /// Worked out from the whole list of starts at every question.
    pub fn figures(&self, number: u64) -> Result<Figures, Fault> {
        let index = self.index_of(number)?;
        let period = u128::from(self.plan.lines[index].t);
        let mut deviations: Vec<u128> = Vec::new();
        for pair in self.states[index].starts.windows(2) {
            let difference = u128::from(pair[1]) - u128::from(pair[0]);
            deviations.push(difference.abs_diff(period));
        }
        let count = deviations.len() as u128;
        let sum: u128 = deviations.iter().sum();
        Ok(Figures {
            number: count,
            sum,
            largest: deviations.iter().copied().max().unwrap_or(0),
            hundredfold: 100 * sum,
            periods: count * period,
        })
    }

    /// The coming release, as its instant and its line: instant by instant
    /// from the clock on, and at each of them the lines in their order.
    pub fn coming(&self) -> Option<(u64, u64)> {
        if self.states.iter().all(|state| state.resting) {
            return None; // also without lines
        }
        (self.clock..).find_map(|instant| {
            let mut lines = self.plan.lines.iter().zip(&self.states);
            let index =
                lines.position(|(line, state)| !state.resting && has_release(line, instant))?;
            Some((instant, number_of(index)))
        })
    }

    /// The worst line and its largest deviation. Only a larger one takes the
    /// place of one found before, so ties go to the lower line.
    pub fn worst(&self) -> Result<Option<(u64, u128)>, Fault> {
        let mut worst: Option<(u64, u128)> = None;
        for number in 1..=self.lines() {
            let figures = self.figures(number)?;
            if figures.number > 0 && worst.is_none_or(|(_, most)| figures.largest > most) {
                worst = Some((number, figures.largest));
            }
        }
        Ok(worst)
    }

    /// How many lines the plan has.
    pub fn lines(&self) -> u64 {
        self.states.len() as u64
    }

    /// The index of the line with a number.
    fn index_of(&self, number: u64) -> Result<usize, Fault> {
        match number {
            0 => fault(33, number, 0),
            _ if number > self.lines() => fault(33, number, 0),
            _ => Ok(number as usize - 1),
        }
    }

    /// The index of the line with a number, which must not be a regular one.
    fn ordinary(&self, number: u64) -> Result<usize, Fault> {
        let index = self.index_of(number)?;
        match self.plan.lines[index].kind {
            Kind::Regular => fault(34, number, 0),
            Kind::Ordinary => Ok(index),
        }
    }
}

/// The first release of a line at or after an instant.
fn first_release(line: &Line, instant: u64) -> u64 {
    let before = instant.saturating_sub(line.r);
    line.r + before.div_ceil(line.t) * line.t
}

/// Whether a line has a release at an instant.
fn has_release(line: &Line, instant: u64) -> bool {
    instant >= line.r && (instant - line.r) % line.t == 0
}

// ------------------------------------------------- what both programs need

pub fn write_fault(fault: &Fault, out: &mut dyn Write) -> io::Result<()> {
    let (first, second) = fault.places;
    writeln!(out, "fault {} {} {} {}", fault.number, fault.layer(), first, second)
}

/// Writes the answer for one text.
pub type Answer = fn(&[u8], &mut dyn Write) -> io::Result<()>;

/// Answers standard input: one text or, with `--batch`, records of them.
pub fn run_program(answer: Answer) -> io::Result<()> {
    let mut input = Vec::new();
    io::stdin().lock().read_to_end(&mut input)?;
    let mut out = io::BufWriter::new(io::stdout().lock());
    if std::env::args_os().nth(1).is_some_and(|argument| argument == "--batch") {
        answer_batch(&input, answer, &mut out)?;
    } else {
        answer(&input, &mut out)?;
    }
    out.flush()
}

fn answer_batch(mut batch: &[u8], answer: Answer, out: &mut dyn Write) -> io::Result<()> {
    let mut number = 0;
    while !batch.is_empty() {
        number += 1;
        let Some((text, rest)) = next_record(batch) else {
            let message = format!("record {number} of the batch is damaged");
            return Err(io::Error::new(io::ErrorKind::InvalidData, message));
        };
        writeln!(out, "== {number}")?;
        answer(text, out)?;
        batch = rest;
    }
    Ok(())
}

/// Cuts the next record off a batch: its text and what follows it.
fn next_record(batch: &[u8]) -> Option<(&[u8], &[u8])> {
    let end = batch.iter().position(|&byte| byte == b'\n')?;
    let length: usize = std::str::from_utf8(&batch[..end]).ok()?.parse().ok()?;
    let rest = &batch[end + 1..];
    (length <= rest.len()).then(|| rest.split_at(length))
}
