//! The proved function behind a safe call.

use std::fmt;

use crate::engine::Engine;

/// Whether the library with the exported function is linked.
pub const LINKED: bool = cfg!(has_register);

/// The exported function as C sees it: each slice is its pointer and its length.
pub type Exported = unsafe extern "C" fn(
    job: *const u8,
    job_length: usize,
    workspace: *mut u8,
    workspace_length: usize,
    answer: *mut u8,
    answer_length: usize,
) -> i64;

/// The exported function that takes a package beside the job, as C sees it.
pub type ExportedNoble = unsafe extern "C" fn(
    job: *const u8,
    job_length: usize,
    package: *const u8,
    package_length: usize,
    workspace: *mut u8,
    workspace_length: usize,
    answer: *mut u8,
    answer_length: usize,
) -> i64;

/// The library was not there when this crate was built.
#[derive(Clone, Copy, Debug, PartialEq, Eq)]
pub struct NotLinked;

impl fmt::Display for NotLinked {
    fn fmt(&self, f: &mut fmt::Formatter<'_>) -> fmt::Result {
        f.write_str("the register is not linked: run './library register', then build again")
    }
}

impl std::error::Error for NotLinked {}

#[cfg(has_register)]
mod linked {
    extern "C" {
        pub fn register_answer(
            job: *const u8,
            job_length: usize,
            workspace: *mut u8,
            workspace_length: usize,
            answer: *mut u8,
            answer_length: usize,
        ) -> i64;

        pub fn register_batch(
            row: *const u8,
            row_length: usize,
            workspace: *mut u8,
            workspace_length: usize,
            answer: *mut u8,
            answer_length: usize,
        ) -> i64;

        pub fn register_plain(
            job: *const u8,
            job_length: usize,
            workspace: *mut u8,
            workspace_length: usize,
            answer: *mut u8,
            answer_length: usize,
        ) -> i64;

        pub fn register_noble(
            job: *const u8,
            job_length: usize,
            package: *const u8,
            package_length: usize,
            workspace: *mut u8,
            workspace_length: usize,
            answer: *mut u8,
            answer_length: usize,
        ) -> i64;
    }
}

/// The function itself, for those who lend it memory of their own kind.
#[cfg(has_register)]
pub fn exported() -> Result<Exported, NotLinked> {
    Ok(linked::register_answer)
}

/// The function itself, for those who lend it memory of their own kind.
#[cfg(not(has_register))]
pub fn exported() -> Result<Exported, NotLinked> {
    Err(NotLinked)
}

/// The function that answers a row of jobs. Its slices are the row, the workspace and
/// the buffer for the records.
#[cfg(has_register)]
pub fn exported_batch() -> Result<Exported, NotLinked> {
    Ok(linked::register_batch)
}

/// The function that answers a row of jobs. Its slices are the row, the workspace and
/// the buffer for the records.
#[cfg(not(has_register))]
pub fn exported_batch() -> Result<Exported, NotLinked> {
    Err(NotLinked)
}

/// The function that writes the numbers of a job's plain entries.
#[cfg(has_register)]
pub fn exported_plain() -> Result<Exported, NotLinked> {
    Ok(linked::register_plain)
}

/// The function that writes the numbers of a job's plain entries.
#[cfg(not(has_register))]
pub fn exported_plain() -> Result<Exported, NotLinked> {
    Err(NotLinked)
}

/// The function that answers a job with a package.
#[cfg(has_register)]
pub fn exported_noble() -> Result<ExportedNoble, NotLinked> {
    Ok(linked::register_noble)
}

/// The function that answers a job with a package.
#[cfg(not(has_register))]
pub fn exported_noble() -> Result<ExportedNoble, NotLinked> {
    Err(NotLinked)
}

/// The register with a workspace that is kept from call to call.
pub struct Register {
    function: Exported,
    batch: Exported,
    plain: Exported,
    noble: ExportedNoble,
    workspace: Vec<u8>,
}

impl Register {
    /// The register, where its library is linked.
    pub fn open() -> Result<Register, NotLinked> {
        Ok(Register {
            function: exported()?,
            batch: exported_batch()?,
            plain: exported_plain()?,
            noble: exported_noble()?,
            workspace: Vec::new(),
        })
    }

    /// One of the functions, with so many bytes of the workspace.
    fn call(
        &mut self,
        function: Exported,
        given: &[u8],
        workspace: usize,
        answer: &mut [u8],
    ) -> i64 {
        let lent = lend(&mut self.workspace, workspace);
        // The linked function reads what is given and writes workspace and answer, each
        // over its own length; they do not overlap, and it keeps none of them.
        unsafe {
            function(
                given.as_ptr(),
                given.len(),
                lent.as_mut_ptr(),
                lent.len(),
                answer.as_mut_ptr(),
                answer.len(),
            )
        }
    }
}

/// So many bytes of a workspace, which grows where it is shorter.
fn lend(workspace: &mut Vec<u8>, length: usize) -> &mut [u8] {
    if workspace.len() < length {
        workspace.resize(length, 0);
    }
    &mut workspace[..length]
}

impl Engine for Register {
    fn name(&self) -> &'static str {
        "register"
    }

    fn answer(&mut self, job: &[u8], workspace: usize, answer: &mut [u8]) -> i64 {
        self.call(self.function, job, workspace, answer)
    }

    fn answer_row(&mut self, row: &[u8], workspace: usize, answer: &mut [u8]) -> Option<i64> {
        Some(self.call(self.batch, row, workspace, answer))
    }

    fn plain(&mut self, job: &[u8], workspace: usize, answer: &mut [u8]) -> Option<i64> {
        Some(self.call(self.plain, job, workspace, answer))
    }

    fn noble(
        &mut self,
        job: &[u8],
        package: &[u8],
        workspace: usize,
        answer: &mut [u8],
    ) -> Option<i64> {
        let lent = lend(&mut self.workspace, workspace);
        // As above, with the package, which is read alone, beside the job.
        let code = unsafe {
            (self.noble)(
                job.as_ptr(),
                job.len(),
                package.as_ptr(),
                package.len(),
                lent.as_mut_ptr(),
                lent.len(),
                answer.as_mut_ptr(),
                answer.len(),
            )
        };
        Some(code)
    }
}
