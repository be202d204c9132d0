//! Times the reading of a laboratory's text beside the reading of our list of the same gates; and import, export, qasm and trace as a whole. Tells how deep
//! the stack of each goes.
mod paint;

use paint::deepest;
use std::hint::black_box;
use std::time::Instant;

/// The most gates of a text.
const GATES: usize = 896;

/// Bytes of the longest answer, which is trace's: a line for each gate.
const TRACE_BYTES: usize = 85 * GATES;

/// A room in which every answer fits.
type Room = [u8; TRACE_BYTES];

type Door = unsafe extern "C" fn(*const u8, usize, *mut Room, *mut usize) -> u64;

unsafe extern "C" {
    fn dilkovan_list(text: *const u8, text_length: usize, out: *mut Room, length: *mut usize) -> u64;
    fn dilkovan_import(text: *const u8, text_length: usize, out: *mut Room, length: *mut usize) -> u64;
    fn dilkovan_export(text: *const u8, text_length: usize, out: *mut Room, length: *mut usize) -> u64;
    fn dilkovan_qasm(text: *const u8, text_length: usize, out: *mut Room, length: *mut usize) -> u64;
    fn dilkovan_trace(text: *const u8, text_length: usize, out: *mut Room, length: *mut usize) -> u64;
}

fn call(door: Door, text: &str) -> (u64, String) {
    let (mut out, mut length) = ([0; TRACE_BYTES], 0);
    let refused = unsafe { door(text.as_ptr(), text.len(), &mut out, &mut length) };
    (refused, String::from_utf8_lossy(&out[..length]).into_owned())
}

/// Microseconds a call, the median of many.
fn time(door: Door, text: &str) -> f64 {
    let (mut out, mut length, mut times) = ([0; TRACE_BYTES], 0, Vec::new());
    for _ in 0..2000 {
        let t = Instant::now();
        black_box(unsafe { door(black_box(text).as_ptr(), text.len(), &mut out, &mut length) });
        times.push(t.elapsed().as_secs_f64() * 1e6);
    }
    times.sort_by(|a, b| a.total_cmp(b));
    times[times.len() / 2]
}

/// The statements in turn, on all wires and bits that a list may have.
fn compare(name: &str, statements: &[&str]) -> (String, String) {
    let mut lab = String::from("OPENQASM 2.0;\ninclude \"qelib1.inc\";\nqreg q[4096];\ncreg c[1024];\n");
    (0..GATES).for_each(|i| lab += &format!("{}\n", statements[i % statements.len()]));
    let (refused, ours) = call(dilkovan_import, &lab);
    assert_eq!(refused, 0, "{name}: {ours}");
    assert_eq!(call(dilkovan_export, &ours), (0, lab.clone()), "{name}: export is not the text");
    let wrong = |text: &str| format!("{}x\n", &text[..text.len() - 1]);
    let (their_wrong, our_wrong) = (wrong(&lab), wrong(&ours));
    assert_eq!(call(dilkovan_import, &their_wrong), (1, format!("refused 13 {} 0\n", GATES + 4)));
    assert_eq!(call(dilkovan_list, &our_wrong), (1, format!("refused 11 {} 0\n", GATES + 7)));
    let (theirs, listed) = (time(dilkovan_import, &their_wrong), time(dilkovan_list, &our_wrong));
    println!(
        "| {name} | {} | {} | {listed:.1} | {theirs:.1} | {:.2} | {:.1} | {:.1} | {:.1} | {:.1} |",
        ours.len(), lab.len(), theirs / listed, time(dilkovan_import, &lab), time(dilkovan_export, &ours), time(dilkovan_qasm, &lab), time(dilkovan_trace, &lab),
    );
    (lab, ours)
}

/// A call whose room isn't on the stack.
fn roomy(door: Door, text: String) -> Box<dyn Fn() + Send> {
    Box::new(move || {
        let (mut out, mut length) = (vec![0u8; TRACE_BYTES], 0);
        unsafe { door(text.as_ptr(), text.len(), out.as_mut_ptr().cast(), &mut length) };
    })
}

/// The deepest stack of a door on some texts.
fn deep(door: Door, texts: &[String]) -> usize {
    deepest(texts.iter().map(|text| roomy(door, text.clone())).collect())
}

fn main() {
    println!("| statements | our bytes | their bytes | list's reading | import's reading | ratio | import | export | qasm | trace |");
    println!("|---|---|---|---|---|---|---|---|---|---|");
    let texts = [
        compare("x", &["x q[0];"]),
        compare("h", &["h q[0];"]),
        compare("cx, long numbers", &["cx q[4095],q[4094];"]),
        compare("rz, long turns", &["rz(-2147483648*pi/4) q[4095];"]),
        compare("measure", &["measure q[4095] -> c[1023];"]),
        compare("ccx, the longest", &["ccx q[4095],q[4094],q[4093];"]),
        compare("each in turn", &[
            "x q[7];", "t q[15];", "tdg q[3];", "s q[1];", "sdg q[2];", "z q[9];", "rz(3*pi/4) q[4];", "cx q[1],q[12];", "cz q[5],q[6];", "h q[0];", "y q[8];", "reset q[7];",
            "ccx q[0],q[1],q[2];", "measure q[3] -> c[4];",
        ]),
    ];
    let (labs, lists): (Vec<String>, Vec<String>) = texts.into_iter().unzip();
    println!();
    println!(
        "Deepest stack of a call on these texts: list {} bytes, import {}, export {}, qasm {}, trace {}.",
        deep(dilkovan_list, &lists), deep(dilkovan_import, &labs), deep(dilkovan_export, &lists), deep(dilkovan_qasm, &labs), deep(dilkovan_trace, &labs),
    );
}
