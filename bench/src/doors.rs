
// ---- appended by bench/run: the original's private functions under public names, so that they can be timed

pub mod doors {
    use super::*;

    pub fn invert(rows: &[Parity], n: usize, a: &mut Vec<Parity>, inv: &mut Vec<Parity>) -> bool {
        invert_into(rows, n, a, inv)
    }

    pub fn column(candidates: Parity, vectors: &[(Parity, Angle)]) -> usize {
        best_column(candidates, vectors)
    }

    /// What a walk is given again and again, so that only the first allocates.
    #[derive(Default)]
    pub struct Room {
        scratch: Scratch,
        gates: Vec<Gate>,
    }

    /// The walk of some terms over `n` wires: the gates that it made, or `None` where the budget was spent.
    pub fn walk<'a>(room: &'a mut Room, n: usize, terms: &[(Parity, Angle)], state: &mut Vec<Parity>, wires: &[Qubit], two: usize, all: usize) -> Option<&'a [Gate]> {
        let mut budget = Budget::with_buffer(std::mem::take(&mut room.gates), two, all);
        let mut phases = room.scratch.pool.pop().unwrap_or_default();
        phases.extend_from_slice(terms);
        state.clear();
        state.extend((0..n).map(|i| (1 as Parity) << i));
        let made = gray_synth(n, phases, state, &mut budget, wires, &mut room.scratch);
        room.gates = budget.gates;
        made.then_some(&room.gates[..])
    }
}
