//! A case and an answer, as `batch_main` reads and writes them.
use crate::gates::{MOST_GATES, WIDTH};
use std::fmt;
use std::io::{self, Read};

/// A list with all that the entry point is called with. The rooms are how many numbers they have; `ask` is the sum of 1, 2 and 4 for the rooms
/// that the program is to look at wrongly, as if one number more had to be 0.
#[derive(Clone)]
pub struct Case {
    pub wires: u64,
    pub bits: u64,
    pub qubit_cap: u64,
    pub term_cap: u64,
    pub out: u64,
    pub terms: u64,
    pub steps: u64,
    pub ask: u64,
    pub list: Vec<i32>,
}

#[derive(PartialEq)]
pub enum Answer {
    Refused { number: u32, place: u32, field: u32 },
    Done { counts: [u32; 8], gates: Vec<i32> },
}

impl Case {
    /// With rooms that are exactly what the list needs.
    pub fn new(wires: u64, bits: u64, qubit_cap: u64, term_cap: u64, list: Vec<i32>) -> Self {
        let g = (list.len() / WIDTH) as u64;
        Case { wires, bits, qubit_cap, term_cap, out: list.len() as u64, terms: 9 * g, steps: 2 * (g + 128), ask: 0, list }
    }

    pub fn encode(&self, bytes: &mut Vec<u8>) {
        let head = [self.wires, self.bits, self.qubit_cap, self.term_cap, self.list.len() as u64, self.out, self.terms, self.steps, self.ask];
        bytes.extend(head.iter().flat_map(|x| x.to_le_bytes()));
        bytes.extend(self.list.iter().flat_map(|x| x.to_le_bytes()));
    }

    /// The sum of 1, 2 and 4 for the rooms that must be found right: all three, but for one that is looked at wrongly and goes on where its
    /// promised numbers end.
    pub fn right(&self, answer: &Answer) -> u32 {
        let done = matches!(answer, Answer::Done { .. }) as u64;
        let g = (self.list.len() / WIDTH) as u64;
        let rooms = [(self.out, WIDTH as u64 * g), (self.terms, 9 * g), (self.steps, 2 * (g + 128))];
        let wrong = |i: usize| self.ask >> i & 1 == 1 && rooms[i].0 > done * rooms[i].1;
        (0..3).filter(|&i| !wrong(i)).map(|i| 1 << i).sum()
    }

    /// The next case, or none where the input ends.
    pub fn read(input: &mut impl Read) -> io::Result<Option<Self>> {
        let mut head = [0; 72];
        match input.read_exact(&mut head) {
            Err(e) if e.kind() == io::ErrorKind::UnexpectedEof => return Ok(None),
            other => other?,
        }
        let [wires, bits, qubit_cap, term_cap, n, out, terms, steps, ask] =
            std::array::from_fn(|i| u64::from_le_bytes(head[8 * i..8 * i + 8].try_into().unwrap()));
        let list = read_words(input, n as usize)?.into_iter().map(|x| x as i32).collect();
        Ok(Some(Case { wires, bits, qubit_cap, term_cap, out, terms, steps, ask, list }))
    }
}

fn read_words(input: &mut impl Read, n: usize) -> io::Result<Vec<u32>> {
    let mut bytes = vec![0; 4 * n];
    input.read_exact(&mut bytes)?;
    Ok(bytes.chunks(4).map(|b| u32::from_le_bytes(b.try_into().unwrap())).collect())
}

impl Answer {
    /// The words of an answer with these rooms right.
    pub fn encode(&self, right: u32, bytes: &mut Vec<u8>) {
        let mut word = |x: u32| bytes.extend(x.to_le_bytes());
        match self {
            Answer::Refused { number, place, field } => [*number, right, *place, *field].into_iter().for_each(word),
            Answer::Done { counts, gates } => {
                word(0);
                word(right);
                counts.iter().for_each(|&x| word(x));
                gates.iter().for_each(|&x| word(x as u32));
            }
        }
    }

    /// The next answer, and which rooms are right.
    pub fn read(input: &mut impl Read) -> io::Result<(Self, u32)> {
        let head = read_words(input, 3)?;
        if head[0] != 0 {
            return Ok((Answer::Refused { number: head[0], place: head[2], field: read_words(input, 1)?[0] }, head[1]));
        }
        let rest = read_words(input, 7)?;
        let counts = std::array::from_fn(|i| if i == 0 { head[2] } else { rest[i - 1] });
        if counts[1] > MOST_GATES as u32 {
            return Err(io::Error::other(format!("{} gates out", counts[1])));
        }
        let gates = read_words(input, WIDTH * counts[1] as usize)?.into_iter().map(|x| x as i32).collect();
        Ok((Answer::Done { counts, gates }, head[1]))
    }

    pub fn same(&self, right: u32, got: &(Self, u32)) -> bool {
        *self == got.0 && got.1 == right
    }
}

impl fmt::Display for Case {
    fn fmt(&self, f: &mut fmt::Formatter<'_>) -> fmt::Result {
        let Case { wires, bits, qubit_cap, term_cap, out, terms, steps, list, .. } = self;
        writeln!(
            f,
            "wires {wires}, bits {bits}, caps {qubit_cap} and {term_cap}, rooms {out}, {terms} and {steps}, {} numbers:",
            list.len()
        )?;
        list.chunks(WIDTH).try_for_each(|g| writeln!(f, "  {g:?}"))
    }
}

impl fmt::Display for Answer {
    fn fmt(&self, f: &mut fmt::Formatter<'_>) -> fmt::Result {
        match self {
            Answer::Refused { number, place, field } => writeln!(f, "refused {number} {place} {field}"),
            Answer::Done { counts, gates } => {
                writeln!(f, "done, counts {counts:?}:")?;
                gates.chunks(WIDTH).try_for_each(|g| writeln!(f, "  {g:?}"))
            }
        }
    }
}
