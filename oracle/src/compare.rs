//! Runs a program that reads and writes as `batch_main` does beside the original, through a pipe, and compares every answer.
use crate::answer::{answer, named};
use crate::case::{Answer, Case};
use crate::make::{Rng, blocks, long, longer, longest, random, wide, wider};
use crate::{damage, short};
use std::io::{BufReader, Read, Write};
use std::process::{Child, Command, Stdio};
use std::sync::mpsc::{Receiver, SyncSender, sync_channel};
use std::time::Instant;

/// The kinds of lists, and how many there are of each: all short ones, and of the others so many for each ten thousand of COUNT.
/// The last two are for a program with larger rooms than `batch_main` (oracle/large).
pub const KINDS: [(&str, usize); 10] =
    [("short", 0), ("random", 10000), ("blocks", 5000), ("damaged", 5000), ("wide", 50), ("long", 10), ("wider", 10), ("longer", 1), ("longest", 1), ("surplus", 10)];

/// Cases on their way to the program, and the number of their kind.
type Batch = (usize, Vec<Case>);

#[derive(Default)]
struct Tally {
    lists: u64,
    gates: [u64; 2],
    blocks: [u64; 2],
    refused: [u64; 19],
    /// Lists in which t and tdg alone rose. T as the machine spends it never does: see `rises`.
    rose: u64,
}

impl Tally {
    fn add(&mut self, case: &Case, answer: &Answer) {
        self.lists += 1;
        match answer {
            Answer::Refused { number, .. } => self.refused[*number as usize] += 1,
            Answer::Done { counts, gates } => {
                self.rose += (named(gates) > named(&case.list)) as u64;
                for k in 0..2 {
                    self.gates[k] += counts[k] as u64;
                    self.blocks[k] += counts[6 + k] as u64;
                }
            }
        }
    }

    fn print(&self, kind: &str, seconds: f64) {
        let refused: Vec<String> = (1..19).filter(|&k| self.refused[k] > 0).map(|k| format!("{k}: {}", self.refused[k])).collect();
        let refused = if refused.is_empty() { "none".to_string() } else { refused.join(", ") };
        println!(
            "{kind}: {} lists, {} gates in, {} out, {} blocks closed, {} replaced, refused {refused}; T rose in none, t and tdg alone in {}; {seconds:.1} s",
            self.lists, self.gates[0], self.gates[1], self.blocks[0], self.blocks[1], self.rose
        );
    }
}

/// Hands cases on in batches: first to the side that compares, so that it reads while the program works, then to the program.
struct Feed<W: Write> {
    kind: usize,
    cases: Vec<Case>,
    bytes: Vec<u8>,
    to: SyncSender<Batch>,
    program: W,
}

impl<W: Write> Feed<W> {
    fn give(&mut self, case: Case) {
        case.encode(&mut self.bytes);
        self.cases.push(case);
        if self.bytes.len() > 1 << 18 {
            self.flush();
        }
    }

    fn flush(&mut self) {
        if self.cases.is_empty() {
            return;
        }
        // where the other side has stopped at a difference, it says so; there is nothing left to do here
        if self.to.send((self.kind, std::mem::take(&mut self.cases))).is_ok() {
            let _ = self.program.write_all(&self.bytes);
        }
        self.bytes.clear();
    }
}

fn make<W: Write>(feed: &mut Feed<W>, seed: u64, count: usize, kinds: &[String]) {
    for (k, &(kind, share)) in KINDS.iter().enumerate() {
        if !kinds.iter().any(|x| x == kind) {
            continue;
        }
        feed.kind = k;
        let mut r = Rng(seed.wrapping_mul(KINDS.len() as u64) + k as u64);
        let one = match kind {
            "random" => random,
            "blocks" => blocks,
            "damaged" => damage::damaged,
            "wide" => wide,
            "long" => long,
            "wider" => wider,
            "longer" => longer,
            "longest" => longest,
            "surplus" => damage::surplus,
            _ => {
                short::each(&mut |case| feed.give(case));
                feed.flush();
                continue;
            }
        };
        for _ in 0..count * share / 10000 {
            feed.give(one(&mut r));
        }
        feed.flush();
    }
}

/// The counts say that more T is spent than before.
fn rises(answer: &Answer) -> bool {
    matches!(answer, Answer::Done { counts, .. } if counts[5] > counts[4])
}

/// The kinds' tallies, or the first difference or rise of T.
fn judge(from: Receiver<Batch>, program: &mut impl Read) -> Result<u64, String> {
    let (mut all, mut kind, mut tally, mut since) = (0, usize::MAX, Tally::default(), Instant::now());
    for (k, cases) in from {
        if k != kind {
            if kind != usize::MAX {
                tally.print(KINDS[kind].0, since.elapsed().as_secs_f64());
            }
            (kind, tally, since) = (k, Tally::default(), Instant::now());
        }
        for case in &cases {
            let wanted = answer(case);
            let told = || format!("of kind {}, list {} from 0:\n{case}", KINDS[k].0, tally.lists);
            match Answer::read(program) {
                Err(e) => return Err(format!("no answer ({e}) to the list {}the original:\n{wanted}", told())),
                Ok(got) if !wanted.same(case.right(&wanted), &got) => {
                    let (got, rooms) = got;
                    return Err(format!("a difference at the list {}the original:\n{wanted}the program (rooms {rooms}):\n{got}", told()));
                }
                Ok(_) if rises(&wanted) => return Err(format!("T rises in the list {}the original:\n{wanted}", told())),
                Ok(_) => tally.add(case, &wanted),
            }
            all += 1;
        }
    }
    if kind != usize::MAX {
        tally.print(KINDS[kind].0, since.elapsed().as_secs_f64());
    }
    match program.read(&mut [0]) {
        Ok(0) => Ok(all),
        _ => Err("the program writes more than it was asked".to_string()),
    }
}

fn start(program: &str) -> Child {
    let child = Command::new(program).stdin(Stdio::piped()).stdout(Stdio::piped()).spawn();
    child.unwrap_or_else(|e| panic!("{program} does not start: {e}"))
}

pub fn compare(program: &str, seed: u64, count: usize, kinds: Vec<String>) -> Result<u64, String> {
    if let Some(k) = kinds.iter().find(|k| !KINDS.iter().any(|(kind, _)| kind == k)) {
        return Err(format!("no kind of lists is called {k}"));
    }
    let mut child = start(program);
    let (to, from) = sync_channel(8);
    let stdin = child.stdin.take().expect("a pipe to the program");
    let stdout = child.stdout.take().expect("a pipe from the program");
    std::thread::spawn(move || {
        let mut feed = Feed { kind: 0, cases: Vec::new(), bytes: Vec::new(), to, program: stdin };
        make(&mut feed, seed, count, &kinds);
    });
    let result = judge(from, &mut BufReader::with_capacity(1 << 16, stdout));
    if result.is_err() {
        let _ = child.kill();
    }
    let status = child.wait().map_err(|e| e.to_string())?;
    match result {
        Ok(_) if !status.success() => Err(format!("the program ended with {status}")),
        other => other,
    }
}
