//! The calls of libsiptrace, and what they answer in the words of the programs.
// Each program that includes this file calls one of its functions.
#![allow(dead_code)]

use std::{fs, io, io::Read};

/// `struct siptrace_verdict` of siptrace.h.
#[repr(C)]
#[derive(Clone, Copy, Default)]
pub struct Verdict {
    kind: u32,
    entries: u64,
    transactions: u64,
    entry: u64,
    transaction: u64,
    reason: u32,
    unit: u32,
    line: usize,
}

/// `struct siptrace_summary` of siptrace.h.
#[repr(C)]
#[derive(Default)]
pub struct Summary {
    findings: usize,
    end: u32,
    entries: u64,
    transactions: u64,
    entry: u64,
    reason: u32,
}

/// `struct siptrace_seed` of siptrace.h.
#[repr(C)]
pub struct Seed {
    bytes: [u8; 16],
}

const ANSWERED: u32 = 0;
const NO_ROOM: u32 = 2;
const END_OF_LOG: u32 = 1;

#[link(name = "siptrace", kind = "static")]
unsafe extern "C" {
    fn siptrace_judge(log: *const u8, length: usize, seed: &Seed, verdict: &mut Verdict) -> u32;
    fn siptrace_survey(log: *const u8, length: usize, seed: &Seed, findings: *mut Verdict, room: usize, summary: &mut Summary) -> u32;
}

/// The verdict on a log, or None where memory is wanting.
pub fn judge(log: &[u8], seed: &Seed) -> Option<Verdict> {
    let mut verdict = Verdict::default();
    // The pointer of a slice is not null and has its length, and the verdict is borrowed by nobody else.
    let status = unsafe { siptrace_judge(log.as_ptr(), log.len(), seed, &mut verdict) };
    (status == ANSWERED).then_some(verdict)
}

/// The findings of a log and their summary, or None where memory is wanting.
pub fn survey(log: &[u8], seed: &Seed) -> Option<(Vec<Verdict>, Summary)> {
    let mut summary = Summary::default();
    // Few logs have many findings: where this room is too small, the call says how much is wanted.
    let mut room = 4;
    loop {
        let mut findings = vec![Verdict::default(); room];
        // The pointer of a Vec is not null, and it has room for its length. Nobody else borrows it, or the summary.
        let status = unsafe { siptrace_survey(log.as_ptr(), log.len(), seed, findings.as_mut_ptr(), room, &mut summary) };
        if status == ANSWERED {
            findings.truncate(summary.findings);
            return Some((findings, summary));
        }
        if status != NO_ROOM {
            return None;
        }
        room = summary.findings;
    }
}

fn reason(number: u32) -> &'static str {
    match number {
        1 => "NoHeadEnd",
        2 => "BareLineEnd",
        3 => "StartLine",
        4 => "FieldLine",
        5 => "Value",
        6 => "Repeated",
        7 => "Missing",
        8 => "MethodMismatch",
        9 => "NoLength",
        10 => "ShortBody",
        11 => "LongBody",
        12 => "NoCookie",
        20 => "Header",
        21 => "EntryLine",
        22 => "Truncated",
        23 => "Order",
        24 => "Limit",
        _ => "?",
    }
}

pub fn text(verdict: &Verdict) -> String {
    let Verdict { entry, transaction, .. } = verdict;
    let told = format!("{} {}", verdict.reason, reason(verdict.reason));
    match (verdict.kind, verdict.unit) {
        (1, _) => format!("legal entries {} transactions {}", verdict.entries, verdict.transactions),
        (2, 1) => format!("malformed {entry} head {told}"),
        (2, 2) => format!("malformed {entry} line {} {told}", verdict.line),
        (2, _) => format!("malformed {entry} body {told}"),
        (3, _) => format!("breach {entry} transaction {transaction}"),
        (4, _) => format!("undecided {entry} transaction {transaction}"),
        _ => format!("log fault {entry} {told}"),
    }
}

/// The last line of a survey, as the program sipsurvey writes it.
pub fn last_line(summary: &Summary) -> String {
    if summary.end == END_OF_LOG {
        return format!("end entries {} transactions {} findings {}", summary.entries, summary.transactions, summary.findings);
    }
    format!("log fault {} {} {}", summary.entry, summary.reason, reason(summary.reason))
}

/// A seed of the system's random bytes.
pub fn random_seed() -> io::Result<Seed> {
    let mut bytes = [0; 16];
    fs::File::open("/dev/urandom")?.read_exact(&mut bytes)?;
    Ok(Seed { bytes })
}
