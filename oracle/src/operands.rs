
/// Stand-in for the function that the text calls and does not have: a gate's qubits, and how many they are.
pub(crate) fn qubit_operands(gate: &Gate) -> (usize, [Qubit; 3]) {
    match gate {
        Gate::x(q) | Gate::h(q) | Gate::s(q) | Gate::sdg(q) | Gate::z(q) | Gate::t(q) | Gate::tdg(q) | Gate::y(q) | Gate::sx(q)
        | Gate::reset(q) | Gate::rz(_, q) | Gate::p(_, q) | Gate::rx(_, q) | Gate::ry(_, q) => (1, [*q, 0, 0]),
        Gate::measure { qubit, .. } => (1, [*qubit, 0, 0]),
        Gate::swap(a, b) => (2, [*a, *b, 0]),
        Gate::cnot { control, target } | Gate::cz { control, target } | Gate::cy { control, target } | Gate::ch { control, target } => {
            (2, [*control, *target, 0])
        }
        Gate::cp { control, target, .. } | Gate::crx { control, target, .. } | Gate::cry { control, target, .. }
        | Gate::crz { control, target, .. } => (2, [*control, *target, 0]),
        Gate::ccx { control1, control2, target } | Gate::ccz { control1, control2, target } => (3, [*control1, *control2, *target]),
        Gate::cswap { control, first, second } => (3, [*control, *first, *second]),
    }
}
