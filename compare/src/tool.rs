//! The proved tool: its C functions, and a safe function around each.
//!
//! Nothing checks these declarations against the tool's source. Slices never overlap and their
//! pointers are never null, which is all the tool asks for. What stands behind a pointer for a number
//! begins as a value that is no right answer, so that a number left unwritten is seen.

use separate::machine::Run;

extern "C" {
    fn sedge_fresh(threads: u8, nodes: u8, out: *mut u8, out_length: usize) -> u8;
    fn sedge_check(saved: *const u8, saved_length: usize) -> u8;
    fn sedge_step(saved: *mut u8, saved_length: usize, thread: u8, node: u8) -> u8;
    fn sedge_run(
        saved: *mut u8,
        saved_length: usize,
        schedule: *const u8,
        schedule_length: usize,
        answers: *mut u8,
        answers_length: usize,
        executed: *mut u32,
        waited: *mut u32,
        unread: *mut usize,
    ) -> u8;
    fn sedge_status(saved: *const u8, saved_length: usize, status: *mut u8) -> u8;
    fn sedge_waiting(saved: *const u8, saved_length: usize, waiting: *mut u8) -> u8;
    fn sedge_in_use(saved: *const u8, saved_length: usize, in_use: *mut u8) -> u8;
    fn sedge_chain(
        saved: *const u8,
        saved_length: usize,
        from: u8,
        out: *mut u8,
        out_length: usize,
        length: *mut u8,
    ) -> u8;
}

const UNWRITTEN: u8 = 0xd7;

pub fn fresh(threads: u8, nodes: u8, out: &mut [u8]) -> u8 {
    unsafe { sedge_fresh(threads, nodes, out.as_mut_ptr(), out.len()) }
}

pub fn check(saved: &[u8]) -> u8 {
    unsafe { sedge_check(saved.as_ptr(), saved.len()) }
}

pub fn step(saved: &mut [u8], thread: u8, node: u8) -> u8 {
    unsafe { sedge_step(saved.as_mut_ptr(), saved.len(), thread, node) }
}

pub fn run(saved: &mut [u8], schedule: &[u8], answers: &mut [u8]) -> Run {
    let mut run = Run { stop: UNWRITTEN, executed: u32::MAX, waited: u32::MAX, unread: usize::MAX };
    run.stop = unsafe {
        sedge_run(
            saved.as_mut_ptr(),
            saved.len(),
            schedule.as_ptr(),
            schedule.len(),
            answers.as_mut_ptr(),
            answers.len(),
            &mut run.executed,
            &mut run.waited,
            &mut run.unread,
        )
    };
    run
}

pub fn status(saved: &[u8]) -> (u8, u8) {
    let mut value = UNWRITTEN;
    let number = unsafe { sedge_status(saved.as_ptr(), saved.len(), &mut value) };
    (number, value)
}

pub fn waiting(saved: &[u8]) -> (u8, u8) {
    let mut value = UNWRITTEN;
    let number = unsafe { sedge_waiting(saved.as_ptr(), saved.len(), &mut value) };
    (number, value)
}

pub fn in_use(saved: &[u8]) -> (u8, u8) {
    let mut value = UNWRITTEN;
    let number = unsafe { sedge_in_use(saved.as_ptr(), saved.len(), &mut value) };
    (number, value)
}

pub fn chain(saved: &[u8], from: u8, out: &mut [u8]) -> (u8, u8) {
    let mut length = UNWRITTEN;
    let number =
        unsafe { sedge_chain(saved.as_ptr(), saved.len(), from, out.as_mut_ptr(), out.len(), &mut length) };
    (number, length)
}
