//! How much stack a call takes: it runs on a thread whose stack is memory of our
//! own, painted beforehand, and what is no longer paint was used.

use std::ffi::c_void;

use faceting_register::register::Exported;

/// Much more than a call should take, so that too deep a call is told and harms
/// nothing.
const STACK: usize = 8 << 20;
const PAINT: u64 = 0x5a17_ac0d_e5ca_1e5d;

/// Stacks begin and end at whole pages of this length.
const PAGE: usize = 4096;

/// The arguments of a call, and what it returned.
struct Call {
    function: Exported,
    job: (*const u8, usize),
    workspace: (*mut u8, usize),
    answer: (*mut u8, usize),
    code: i64,
}

extern "C" fn on_the_thread(call: *mut c_void) -> *mut c_void {
    // The starter waits for the end of the thread, so that all of it is still there.
    let call = unsafe { &mut *call.cast::<Call>() };
    call.code = unsafe {
        (call.function)(
            call.job.0,
            call.job.1,
            call.workspace.0,
            call.workspace.1,
            call.answer.0,
            call.answer.1,
        )
    };
    std::ptr::null_mut()
}

/// Longer than the attributes of a thread are on any Linux.
type Attributes = [u64; 32];

extern "C" {
    fn pthread_attr_init(attributes: *mut Attributes) -> i32;
    fn pthread_attr_setstack(attributes: *mut Attributes, low: *mut c_void, length: usize) -> i32;
    fn pthread_attr_destroy(attributes: *mut Attributes) -> i32;
    fn pthread_create(
        thread: *mut usize,
        attributes: *const Attributes,
        start: extern "C" fn(*mut c_void) -> *mut c_void,
        argument: *mut c_void,
    ) -> i32;
    fn pthread_join(thread: usize, result: *mut *mut c_void) -> i32;
}

fn checked(status: i32, what: &str) -> Result<(), String> {
    match status {
        0 => Ok(()),
        _ => Err(format!("{what} fails with {status}")),
    }
}

/// Runs the call on that stack, and waits for its end.
fn run_on(stack: &mut [u64], call: &mut Call) -> Result<(), String> {
    let mut attributes: Attributes = [0; 32];
    let (mut thread, mut result) = (0, std::ptr::null_mut());
    // The stack and the call outlive the thread, which is joined before the end.
    unsafe {
        checked(pthread_attr_init(&mut attributes), "pthread_attr_init")?;
        let low = stack.as_mut_ptr().cast();
        let set = pthread_attr_setstack(&mut attributes, low, size_of_val(stack));
        checked(set, "pthread_attr_setstack")?;
        let argument: *mut Call = call;
        let made = pthread_create(&mut thread, &attributes, on_the_thread, argument.cast());
        checked(made, "pthread_create")?;
        checked(pthread_join(thread, &mut result), "pthread_join")?;
        checked(
            pthread_attr_destroy(&mut attributes),
            "pthread_attr_destroy",
        )
    }
}

/// The bytes of stack that the function takes for a job, and what it returns.
pub fn used(
    function: Exported,
    job: &[u8],
    workspace: &mut [u8],
    answer: &mut [u8],
) -> Result<(usize, i64), String> {
    let mut call = Call {
        function,
        job: (job.as_ptr(), job.len()),
        workspace: (workspace.as_mut_ptr(), workspace.len()),
        answer: (answer.as_mut_ptr(), answer.len()),
        code: 0,
    };
    let mut nothing = Call {
        function: does_nothing,
        ..call
    };
    // What a thread takes that does nothing is no concern of the function's.
    let own = depth(&mut nothing)?;
    let deepest = depth(&mut call)?;
    Ok((deepest.saturating_sub(own), call.code))
}

extern "C" fn does_nothing(
    _: *const u8,
    _: usize,
    _: *mut u8,
    _: usize,
    _: *mut u8,
    _: usize,
) -> i64 {
    0
}

/// From the top of the stack to the lowest word that is no longer paint.
fn depth(call: &mut Call) -> Result<usize, String> {
    let mut memory = vec![PAINT; (STACK + PAGE) / 8];
    let skipped = memory.as_ptr().align_offset(PAGE);
    let stack = &mut memory[skipped..skipped + STACK / 8];
    run_on(stack, call)?;
    let untouched = stack.iter().take_while(|&&word| word == PAINT).count();
    Ok(STACK - 8 * untouched)
}

#[cfg(test)]
mod tests {
    use super::*;

    /// Takes a little more than the bytes that the job's length names.
    extern "C" fn takes_stack(
        _: *const u8,
        length: usize,
        _: *mut u8,
        _: usize,
        _: *mut u8,
        _: usize,
    ) -> i64 {
        let mut bytes = [0u8; 1000];
        std::hint::black_box(&mut bytes);
        match length {
            0..1000 => i64::from(bytes[0]),
            _ => {
                takes_stack(
                    std::ptr::null(),
                    length - 1000,
                    std::ptr::null_mut(),
                    0,
                    std::ptr::null_mut(),
                    0,
                ) + i64::from(std::hint::black_box(&bytes)[1])
            }
        }
    }

    #[test]
    fn the_depth_of_a_call_is_measured() {
        for length in [0, 10_000, 500_000, 3_000_000] {
            let job = vec![0; length];
            let (bytes, _) = used(takes_stack, &job, &mut [], &mut []).expect("threads");
            assert!(bytes >= length, "{bytes} for {length}");
            assert!(bytes <= length + length / 4 + 4_000, "{bytes} for {length}");
        }
    }
}
