//! Sessions.
use crate::{raw, Fault};

/// A board that stops at any clock and goes back to any, by the commands of `docs/debugger.md` and `docs/probe.md`. It stays in the thread
/// that began it: what memory the calls of a thread hold is counted by thread.
///
/// ```compile_fail
/// fn elsewhere<T: Send>(_: T) {}
/// fn moves(session: zebludor_sys::Session) {
///     elsewhere(session);
/// }
/// ```
#[derive(Debug)]
pub struct Session {
    session: raw::Session,
    room: Vec<u8>,
}

/// Why a line isn't answered.
#[derive(Clone, Debug, PartialEq, Eq)]
pub enum Refused {
    /// By a fault, whose line this is.
    Fault(u8, String),
    /// The command is made, and there is no memory for its text.
    Memory,
}

type Begin = unsafe extern "C" fn(*mut raw::Session, *const u8, usize, *const u8, usize, *mut raw::Begun);

impl Session {
    /// One of `pcprobe`, of a source and the text of a run file.
    pub fn new(source: &[u8], run: &[u8]) -> Result<Session, Fault> {
        Session::begun(raw::zebludor_session_new, source, run)
    }

    /// One of `pcprobe`, of a text of Intel HEX.
    pub fn new_hex(text: &[u8], run: &[u8]) -> Result<Session, Fault> {
        Session::begun(raw::zebludor_session_new_hex, text, run)
    }

    /// One of `pcboard debug`, of a source.
    pub fn debug(source: &[u8], run: &[u8]) -> Result<Session, Fault> {
        Session::begun(raw::zebludor_debug_new, source, run)
    }

    /// One of `pcboard debug`, of a text of Intel HEX.
    pub fn debug_hex(text: &[u8], run: &[u8]) -> Result<Session, Fault> {
        Session::begun(raw::zebludor_debug_new_hex, text, run)
    }

    fn begun(begin: Begin, program: &[u8], run: &[u8]) -> Result<Session, Fault> {
        let mut session = raw::Session { at: std::ptr::null_mut(), is_there: false };
        let mut begun = raw::Begun::default();
        unsafe { begin(&mut session, program.as_ptr(), program.len(), run.as_ptr(), run.len(), &mut begun) };
        match begun.fault {
            0 => Ok(Session { session, room: vec![0; 1 << 12] }),
            number => Err(Fault { number, line: Some(begun.line).filter(|&line| line != 0) }),
        }
    }

    /// What the session's program prints of a line. The command is made once, however long its text is.
    pub fn command(&mut self, line: &str) -> Result<String, Refused> {
        let (room, mut told) = (&mut self.room, raw::Told::default());
        unsafe { raw::zebludor_session_command(&mut self.session, line.as_ptr(), line.len(), room.as_mut_ptr(), room.len(), &mut told) };
        if told.status == 2 {
            room.resize(told.length as usize, 0);
            unsafe { raw::zebludor_session_text(&mut self.session, room.as_mut_ptr(), room.len(), &mut told) };
        }
        if told.status != 0 {
            return Err(Refused::Memory);
        }
        let text = String::from_utf8_lossy(&room[..told.length as usize]).into_owned();
        match told.fault {
            0 => Ok(text),
            number => Err(Refused::Fault(number, text)),
        }
    }
}

impl Drop for Session {
    fn drop(&mut self) {
        unsafe { raw::zebludor_session_drop(&mut self.session) }
    }
}
