//! Whole runs, and the programs over texts.
use crate::{raw, Fault};

type Run = unsafe extern "C" fn(*const u8, usize, *const u8, usize, *mut u8, usize, *mut raw::Outcome);

/// The report of a source under the text of a run file, as `pcboard run` prints it.
pub fn run(source: &[u8], run: &[u8]) -> Result<Vec<u8>, Fault> {
    report(raw::zebludor_run, source, run)
}

/// The report of a text of Intel HEX.
pub fn run_hex(text: &[u8], run: &[u8]) -> Result<Vec<u8>, Fault> {
    report(raw::zebludor_run_hex, text, run)
}

/// A report that has no room tells its length, and is the same when it is asked for again.
fn report(call: Run, program: &[u8], run: &[u8]) -> Result<Vec<u8>, Fault> {
    let mut out = vec![0; 1 << 12];
    loop {
        let mut outcome = raw::Outcome::default();
        unsafe { call(program.as_ptr(), program.len(), run.as_ptr(), run.len(), out.as_mut_ptr(), out.len(), &mut outcome) };
        match outcome.status {
            1 => return Err(Fault { number: outcome.fault, line: Some(outcome.line).filter(|&line| line != 0) }),
            2 if outcome.length as usize > out.len() => out.resize(outcome.length as usize, 0),
            _ => {
                out.truncate(outcome.length as usize);
                return Ok(out);
            }
        }
    }
}

/// How a program ended: its exit status, and what it printed.
#[derive(Clone, Debug, PartialEq, Eq)]
pub struct Ended {
    pub status: u8,
    pub out: Vec<u8>,
    pub err: Vec<u8>,
}

/// What `pcboard` prints of these words, in which FILE and RUN name the two texts, and of what is typed.
pub fn pcboard(words: &[&str], file: &[u8], run: &[u8], input: &[u8]) -> Ended {
    program(raw::zebludor_pcboard, words, [file, run, input])
}

/// What `pcprobe` prints likewise.
pub fn pcprobe(words: &[&str], file: &[u8], run: &[u8], input: &[u8]) -> Ended {
    program(raw::zebludor_pcprobe, words, [file, run, input])
}

type Program = unsafe extern "C" fn(
    *const u8,
    usize,
    *const u8,
    usize,
    *const u8,
    usize,
    *const u8,
    usize,
    *mut u8,
    usize,
    *mut u8,
    usize,
    *mut raw::Ended,
);

/// An output that has no room tells its length, and is the same when it is asked for again. At status 3 nothing is said of either.
fn program(call: Program, words: &[&str], [file, run, input]: [&[u8]; 3]) -> Ended {
    let lines: String = words.iter().map(|word| format!("{word}\n")).collect();
    let (mut out, mut err) = (vec![0; 1 << 16], vec![0; 1 << 12]);
    loop {
        let mut ended = raw::Ended::default();
        unsafe {
            call(
                lines.as_ptr(),
                lines.len(),
                file.as_ptr(),
                file.len(),
                run.as_ptr(),
                run.len(),
                input.as_ptr(),
                input.len(),
                out.as_mut_ptr(),
                out.len(),
                err.as_mut_ptr(),
                err.len(),
                &mut ended,
            )
        };
        let (wanted, told) = if ended.status == 3 { (0, 0) } else { (ended.out as usize, ended.err as usize) };
        if wanted <= out.len() && told <= err.len() {
            out.truncate(wanted);
            err.truncate(told);
            return Ended { status: ended.status, out, err };
        }
        out.resize(wanted.max(out.len()), 0);
        err.resize(told.max(err.len()), 0);
    }
}

/// From now on the calls of this thread hold so many bytes at most, its sessions among them; 0 lifts the limit.
pub fn limit(bytes: u64) {
    unsafe { raw::zebludor_limit(bytes) }
}
