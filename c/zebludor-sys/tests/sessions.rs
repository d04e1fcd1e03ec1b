//! Runs and sessions of the program of docs/for-test-benches.md, whose clocks are those of the instruction table: the jump takes 15, MOV 4.
use zebludor_sys::{limit, pcboard, run, Fault, Refused, Session};

const SOURCE: &[u8] = b"SEGMENT M AT 0F000h\ngo: MOV AX,7\n HLT\nENDS\nSEGMENT R AT 0FFFFh\n JMP FAR go\nENDS\n";
const RUN: &[u8] = b"{\"version\":1,\"ram\":64,\"sw1\":0,\"sw2\":0,\"budget\":100,\"keys\":[]}";

#[test]
fn a_session_goes_forth_and_back() {
    let mut session = Session::new(SOURCE, RUN).unwrap();
    for (line, wanted) in [("halted", "stop 1\n"), ("go 1000", "stop 1 clock 20\n"), ("back step", "clock 19\n")] {
        assert_eq!(session.command(line), Ok(wanted.to_string()));
    }
    assert_eq!(session.command("frob"), Err(Refused::Fault(51, "fault 51 BadCommand\n".to_string())));
    assert!(session.command("dump 0 4096").unwrap().len() > 1 << 12);
    assert!(matches!(Session::debug(SOURCE, RUN).unwrap().command("chips"), Err(Refused::Fault(51, _))));
}

#[test]
fn a_run_is_reported() {
    let report = String::from_utf8(run(SOURCE, RUN).unwrap()).unwrap();
    assert!(report.starts_with("clock 100\nAX=0007 "), "{report}");
    let ended = pcboard(&["run", "FILE", "RUN"], SOURCE, RUN, b"");
    assert_eq!((ended.status, ended.out, ended.err), (0, report.into_bytes(), Vec::new()));
}

#[test]
fn refusals_are_told() {
    assert_eq!(run(b"SEGMENT M AT 0F000h\n FROB\nENDS\n", RUN), Err(Fault { number: 4, line: Some(2) }));
    assert_eq!(Session::new(b"\n\nENDS\n", RUN).unwrap_err().line, Some(3));
    limit(1 << 16);
    let number = Session::new(SOURCE, RUN).unwrap_err().number;
    assert!([13, 37, 41, 53].contains(&number), "{number}"); // of what the memory is wanting for
    limit(0);
    assert!(Session::new(SOURCE, RUN).is_ok());
}
