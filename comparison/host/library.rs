//! Woolquern's static library, called as any C program would.

#[cfg(library)]
mod linked {
    include!("../../include/woolquern.rs");

    pub fn run(text: &[u8], out: &mut [u8]) -> usize {
        unsafe { woolquern_run(text.as_ptr(), text.len(), out.as_mut_ptr(), out.len()) }
    }

    pub fn marks(text: &[u8], marks: &mut [u8], out: &mut [u8]) -> usize {
        unsafe {
            woolquern_marks(
                text.as_ptr(),
                text.len(),
                marks.as_mut_ptr(),
                marks.len(),
                out.as_mut_ptr(),
                out.len(),
            )
        }
    }

    pub fn looped(
        text: &[u8],
        unroll: usize,
        counts: &mut [u64],
        settled: &mut [u8],
        out: &mut [u8],
    ) -> usize {
        unsafe {
            woolquern_loop(
                text.as_ptr(),
                text.len(),
                unroll,
                counts.as_mut_ptr(),
                counts.len(),
                settled.as_mut_ptr(),
                settled.len(),
                out.as_mut_ptr(),
                out.len(),
            )
        }
    }
}

#[cfg(not(library))]
mod linked {
    const ABSENT: &str = "this host was built without Woolquern's library";

    pub fn run(_: &[u8], _: &mut [u8]) -> usize {
        unreachable!("{}", ABSENT)
    }

    pub fn marks(_: &[u8], _: &mut [u8], _: &mut [u8]) -> usize {
        unreachable!("{}", ABSENT)
    }

    pub fn looped(_: &[u8], _: usize, _: &mut [u64], _: &mut [u8], _: &mut [u8]) -> usize {
        unreachable!("{}", ABSENT)
    }
}

pub const PRESENT: bool = cfg!(library);

/// Longer than any printed line: 64 ranges of at most 30 bytes.
pub const OUT_LENGTH: usize = 4_096;

/// What the lent buffer holds before a call.
const UNTOUCHED: u8 = 0xA5;

pub use linked::{looped, marks, run};

/// The printed line without its line feed, or what is wrong with the call.
pub fn line(text: &[u8]) -> Result<String, String> {
    let mut out = [UNTOUCHED; OUT_LENGTH];
    let written = run(text, &mut out);
    if written == 0 || written > OUT_LENGTH {
        return Err(format!("answered {} bytes written", written));
    }
    let (line, beyond) = out.split_at(written);
    if beyond.iter().any(|byte| *byte != UNTOUCHED) {
        return Err("changed the buffer beyond the line".to_string());
    }
    check_short_buffer(text, written)?;
    let line = String::from_utf8_lossy(line);
    match line.strip_suffix('\n') {
        Some(line) => Ok(line.to_string()),
        None => Err(format!("wrote {:?}, which no line feed ends", line)),
    }
}

/// A buffer one byte too short is left alone.
fn check_short_buffer(text: &[u8], needed: usize) -> Result<(), String> {
    let mut out = [UNTOUCHED; OUT_LENGTH];
    let written = run(text, &mut out[..needed - 1]);
    if written != 0 || out.iter().any(|byte| *byte != UNTOUCHED) {
        return Err(format!(
            "answered {} to a buffer of {} bytes for a line of {}, or changed it",
            written,
            needed - 1,
            needed
        ));
    }
    Ok(())
}
