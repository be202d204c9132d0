//! The doors of the library: lists of numbers, then our texts and the laboratories'.

use std::io::Write;

/// Numbers to a gate.
const WIDTH: usize = 6;

/// Bytes that the longest answer to a text may have.
const LIST_BYTES: usize = 12 * WIDTH * 896 + 256;

extern "C" {
    fn dilkovan_cnot_min(
        list: *const i32, list_length: usize, wires: usize, bits: usize, qubit_cap: usize, term_cap: usize,
        out: *mut i32, out_length: usize, terms: *mut u64, terms_length: usize, steps: *mut u32, steps_length: usize,
        counts: *mut [u64; 8],
    ) -> u64;
    fn dilkovan_list(text: *const u8, text_length: usize, out: *mut [u8; LIST_BYTES], length: *mut usize) -> u64;
    fn dilkovan_qasm(text: *const u8, text_length: usize, out: *mut [u8; LIST_BYTES], length: *mut usize) -> u64;
}

type Door = unsafe extern "C" fn(*const u8, usize, *mut [u8; LIST_BYTES], *mut usize) -> u64;

/// The new gates, or the refusal's number, place and field.
fn shorten(list: &[i32], wires: usize, bits: usize, qubit_cap: usize, term_cap: usize) -> Result<Vec<i32>, (u16, u32, u16)> {
    let g = list.len() / WIDTH;
    let (mut out, mut terms, mut steps, mut counts) = (vec![0; list.len()], vec![0; 9 * g], vec![0; 2 * (g + 128)], [0; 8]);
    // Each slice goes as its pointer and its length, and the rooms are apart since each is borrowed as &mut.
    let answer = unsafe {
        dilkovan_cnot_min(
            list.as_ptr(), list.len(), wires, bits, qubit_cap, term_cap, out.as_mut_ptr(), out.len(),
            terms.as_mut_ptr(), terms.len(), steps.as_mut_ptr(), steps.len(), &mut counts,
        )
    };
    if answer != 0 {
        return Err(((answer >> 32) as u16, answer as u32, (answer >> 48) as u16));
    }
    out.truncate(WIDTH * counts[1] as usize);
    Ok(out)
}

/// The printed bytes: an answer, or a refusal's line.
fn answer(door: Door, text: &[u8]) -> Result<Vec<u8>, Vec<u8>> {
    let (mut out, mut length) = ([0; LIST_BYTES], 0);
    let refused = unsafe { door(text.as_ptr(), text.len(), &mut out, &mut length) };
    let printed = out[..length].to_vec();
    if refused == 0 { Ok(printed) } else { Err(printed) }
}

fn main() -> std::io::Result<()> {
    let lists = [
        // x, t, x is one tdg, since an x in front of a t turns the phase around
        [1, 0, 0, 0, 0, 4, 2, 0, 0, 0, 0, 5, 1, 0, 0, 0, 0, 6],
        // the last gate is on a wire that isn't there
        [1, 0, 0, 0, 0, 4, 2, 0, 0, 0, 0, 5, 1, 1, 0, 0, 0, 6],
    ];
    for list in lists {
        match shorten(&list, 1, 0, 128, 512) {
            Ok(gates) => {
                println!("{} gates in, {} out:", list.len() / WIDTH, gates.len() / WIDTH);
                gates.chunks(WIDTH).for_each(|g| println!("{} {} {} {} {} {}", g[0], g[1], g[2], g[3], g[4], g[5]));
            }
            Err((number, place, field)) => println!("refused {number} {place} {field}"),
        }
    }
    let texts: [(Door, &str); 3] = [
        // two t are one s
        (dilkovan_list, "head 4\n1\n0\n128\n512\ngates 2\n2 0 0 0 0\n2 0 0 0 0\n"),
        // the second gate is missing
        (dilkovan_list, "head 4\n1\n0\n128\n512\ngates 2\n2 0 0 0 0\n"),
        // a laboratory's text, with an x before a t
        (dilkovan_qasm, "OPENQASM 2.0;\ninclude \"qelib1.inc\";\nqreg q[1];\nx q[0];\nt q[0];\nx q[0];\n"),
    ];
    for (door, text) in texts {
        let (told, printed) = match answer(door, text.as_bytes()) {
            Ok(printed) => ("taken", printed),
            Err(printed) => ("refused", printed),
        };
        println!("a text {told}, {} bytes:", printed.len());
        std::io::stdout().write_all(&printed)?;
    }
    Ok(())
}
