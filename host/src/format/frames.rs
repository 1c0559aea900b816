//! Files of jobs, as the proved program `orbit_list` reads them: each job behind
//! its length, a u16.

/// One job behind its length, as it stands in a file of jobs.
pub fn frame(job: &[u8]) -> Result<Vec<u8>, String> {
    let length = u16::try_from(job.len());
    let length = length.map_err(|_| format!("{} bytes are too long for a job", job.len()))?;
    Ok([&length.to_le_bytes(), job].concat())
}

/// The jobs of a file of jobs.
pub fn jobs(mut bytes: &[u8]) -> Result<Vec<&[u8]>, String> {
    let mut jobs = Vec::new();
    while !bytes.is_empty() {
        let short = || format!("job {} is not there whole", jobs.len());
        let (length, rest) = bytes.split_first_chunk().ok_or_else(short)?;
        let length = usize::from(u16::from_le_bytes(*length));
        let (job, rest) = rest.split_at_checked(length).ok_or_else(short)?;
        jobs.push(job);
        bytes = rest;
    }
    Ok(jobs)
}
