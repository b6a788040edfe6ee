//! The exported calls of the proved library, as safe functions. A slice passes as a pointer and a
//! length; no call asks anything of its numbers or bytes, so there is nothing to test before it.

use plain::step::Step;

mod exported {
    extern "C" {
        pub fn tangvrak_fresh(buffer: *mut u8, size: usize) -> u64;
        pub fn tangvrak_step(
            buffer: *mut u8,
            size: usize,
            who: u32,
            code: u32,
            a: u32,
            b: u32,
            v: u32,
        ) -> u64;
        pub fn tangvrak_run(
            buffer: *mut u8,
            size: usize,
            steps: *const u8,
            steps_size: usize,
            slots: *mut u8,
            slots_size: usize,
        ) -> u64;
        pub fn tangvrak_fill(buffer: *const u8, size: usize) -> u64;
        pub fn tangvrak_audit(buffer: *const u8, size: usize) -> u64;
    }
}

pub fn fresh(buffer: &mut [u8]) -> u64 {
    unsafe { exported::tangvrak_fresh(buffer.as_mut_ptr(), buffer.len()) }
}

pub fn step(buffer: &mut [u8], [who, code, a, b, v]: Step) -> u64 {
    unsafe { exported::tangvrak_step(buffer.as_mut_ptr(), buffer.len(), who, code, a, b, v) }
}

pub fn run(buffer: &mut [u8], steps: &[u8], slots: &mut [u8]) -> u64 {
    unsafe {
        exported::tangvrak_run(
            buffer.as_mut_ptr(),
            buffer.len(),
            steps.as_ptr(),
            steps.len(),
            slots.as_mut_ptr(),
            slots.len(),
        )
    }
}

pub fn fill(buffer: &[u8]) -> u64 {
    unsafe { exported::tangvrak_fill(buffer.as_ptr(), buffer.len()) }
}

pub fn audit(buffer: &[u8]) -> u64 {
    unsafe { exported::tangvrak_audit(buffer.as_ptr(), buffer.len()) }
}

/// The bytes of some steps, as a run takes them.
pub fn step_bytes(steps: &[Step]) -> Vec<u8> {
    steps
        .iter()
        .flatten()
        .flat_map(|number| number.to_le_bytes())
        .collect()
}
