//! How deep a call's stack goes.

const DEPTH: usize = 1 << 20;

/// The stack below a frame is painted, the call is made, and what it left of the paint tells.
#[inline(never)]
fn depth(call: &dyn Fn()) -> usize {
    let here = 0u8;
    let base = &raw const here as usize;
    for at in base - DEPTH..base - 512 {
        unsafe { std::ptr::write_volatile(at as *mut u8, 0xa5) }
    }
    call();
    let kept = (base - DEPTH..base).take_while(|&at| unsafe { std::ptr::read_volatile(at as *const u8) } == 0xa5).count();
    DEPTH - kept
}

/// The deepest of some calls, on a thread whose stack is there as a whole.
pub fn deepest(calls: Vec<Box<dyn Fn() + Send>>) -> usize {
    let thread = std::thread::Builder::new().stack_size(4 * DEPTH);
    let worker = thread.spawn(move || calls.iter().map(|call| depth(call)).max().unwrap_or(0));
    worker.unwrap().join().unwrap()
}
