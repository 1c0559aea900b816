//! The exported function as an engine: its workspace stays dirty from the call
//! before, has exactly the length that is asked for, and stands between marked
//! bytes; or it is new memory for each call.

use std::ffi::c_void;
use std::mem::MaybeUninit;

use faceting_register::register::{exported, Exported, NotLinked};
use faceting_register::Engine;

use super::fence::Fence;
use super::Probe;

/// Where the workspace of a call lies.
enum Memory {
    /// In memory that is kept, between marked bytes.
    Kept(Fence),
    /// In memory of its own that was never written, so that a memory checker sees
    /// each access beside it and each use of what it holds.
    Fresh,
}

/// The exported function with its workspace under watch.
pub struct Guard {
    function: Exported,
    memory: Memory,
    calls: usize,
    outside: bool,
}

impl Guard {
    /// The linked function.
    pub fn open() -> Result<Guard, NotLinked> {
        exported().map(Guard::over)
    }

    /// Any function of that form: a stand-in for tests, or one that was loaded.
    pub fn over(function: Exported) -> Guard {
        Guard {
            function,
            memory: Memory::Kept(Fence::default()),
            calls: 0,
            outside: false,
        }
    }

    /// The function in a shared library that is named at run time, so that many
    /// altered copies can be tried without building this program again.
    pub fn load(library: &str) -> Result<Guard, String> {
        load(library).map(Guard::over)
    }

    /// With a new workspace for each call, to be run under a memory checker.
    pub fn with_fresh_memory(self) -> Guard {
        Guard {
            memory: Memory::Fresh,
            ..self
        }
    }

    /// The function itself, for those who lend it memory of their own.
    pub fn function(&self) -> Exported {
        self.function
    }
}

/// The function may read the job and write workspace and answer, each over its own
/// length; they do not overlap, and it keeps none of them.
fn call(function: Exported, job: &[u8], workspace: (*mut u8, usize), answer: &mut [u8]) -> i64 {
    let (start, length) = workspace;
    unsafe {
        function(
            job.as_ptr(),
            job.len(),
            start,
            length,
            answer.as_mut_ptr(),
            answer.len(),
        )
    }
}

impl Engine for Guard {
    fn name(&self) -> &'static str {
        "register"
    }

    fn answer(&mut self, job: &[u8], workspace: usize, answer: &mut [u8]) -> i64 {
        self.calls += 1;
        match &mut self.memory {
            Memory::Kept(fence) => {
                let lent = fence.take(workspace, self.calls);
                let parts = (lent.as_mut_ptr(), lent.len());
                let code = call(self.function, job, parts, answer);
                self.outside |= !fence.intact();
                code
            }
            Memory::Fresh => {
                let mut lent: Vec<MaybeUninit<u8>> = Vec::with_capacity(workspace);
                let parts = (lent.as_mut_ptr().cast(), workspace);
                call(self.function, job, parts, answer)
            }
        }
    }
}

impl Probe for Guard {
    fn fault(&self) -> Option<&'static str> {
        self.outside.then_some("wrote beside its workspace")
    }

    fn fill_workspace(&mut self, byte: u8) {
        if let Memory::Kept(fence) = &mut self.memory {
            fence.fill(byte);
        }
    }
}

extern "C" {
    fn dlopen(file: *const std::ffi::c_char, mode: i32) -> *mut c_void;
    fn dlsym(library: *mut c_void, name: *const std::ffi::c_char) -> *mut c_void;
}

/// Resolve every name at once.
const RTLD_NOW: i32 = 2;

fn load(library: &str) -> Result<Exported, String> {
    let file = std::ffi::CString::new(library).map_err(|error| error.to_string())?;
    // Both strings end with a zero byte; the library stays loaded to the end.
    let found = unsafe {
        let opened = dlopen(file.as_ptr(), RTLD_NOW);
        match opened.is_null() {
            true => return Err(format!("cannot load {library}; its path needs a '/'")),
            false => dlsym(opened, c"register_answer".as_ptr()),
        }
    };
    match found.is_null() {
        true => Err(format!("{library} has no function register_answer")),
        // The name promises that form, as it does where the library is linked.
        false => Ok(unsafe { std::mem::transmute::<*mut c_void, Exported>(found) }),
    }
}
