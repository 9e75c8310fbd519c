//! The programs `explain` and `assemble`, as a user runs them.

use std::fs;
use std::io::Write;
use std::path::PathBuf;
use std::process::{Command, Output, Stdio};

use ivshmem_log::case;

fn run(program: &str, arguments: &[&str], input: &[u8]) -> Output {
    let mut child = Command::new(program)
        .args(arguments)
        .stdin(Stdio::piped())
        .stdout(Stdio::piped())
        .stderr(Stdio::piped())
        .spawn()
        .expect("the program should start");
    // One that reads a file takes nothing from here.
    let _ = child.stdin.take().expect("a pipe").write_all(input);
    child.wait_with_output().expect("the program should end")
}

fn explain(arguments: &[&str], input: &[u8]) -> (String, String, Option<i32>) {
    let output = run(env!("CARGO_BIN_EXE_explain"), arguments, input);
    let text = |bytes: Vec<u8>| String::from_utf8(bytes).expect("text");
    (text(output.stdout), text(output.stderr), output.status.code())
}

/// A file of this test run.
fn file(name: &str, bytes: &[u8]) -> PathBuf {
    let path = PathBuf::from(env!("CARGO_TARGET_TMPDIR")).join(name);
    fs::write(&path, bytes).expect("a file to write");
    path
}

fn log(text: &str) -> Vec<u8> {
    case::parse(text).expect("a case").remove(0).input()
}

const LOG: &str = "
00 0400 0200 00100000 0010000000000000 0010000000000000 0000100000000000 0100 0A11 0641
01 0000  01 0100  01 0300  01 0400
06 0000 0400
05 0000 0400 02 06000000
05 0000 6300 01 80000000
09 0000 0000 0000E0FE
09 0000 0800 40000000
09 0000 0C00 00000000
07 0000 0800 01000000
05 0300 0400 04 06000000
05 0300 6300 01 80000000
09 0300 0C00 00000000
07 0300 0800 01000000
05 0100 0400 02 02000000
07 0100 1000 05000000
07 0100 0C00 00000300
07 0000 1400 01000000
08 0000 0008
08 0000 1001
04 0000 3800 01
0B 0100 00100000 AB
0A 0000 00100000
0B 0100 00000000 AB
02 0100
00 0200 0100 00100000 0080000000000000 0000000000000000 0000100000000000 0100 0A11 0641
03 0100
";

const WORDS: &str = "       0  set up 4 peers, 2 vectors each: done
            State Table 4096, R/W 4096, outputs 4096, base 100000h
            protocol 1, subsystem vendor 110Ah, subsystem id 4106h
      39  connect peer 0: done
      42  connect peer 1: done
      45  connect peer 3: done
      48  connect peer 4: refused, 3 (there is no peer with this id)
      51  peer 0 reads register 04h (Maximum Peers): FFFFFFFFh
      56  peer 0 writes configuration 04h, 2 bytes (Command) = 6: done
      66  peer 0 writes configuration 63h, 1 byte (Message Control) = 80h: done
      76  peer 0 writes MSI-X 00h (entry 0 address low) = FEE00000h: done
      85  peer 0 writes MSI-X 08h (entry 0 data) = 40h: done
      94  peer 0 writes MSI-X 0Ch (entry 0 control) = 0: done
     103  peer 0 writes register 08h (Interrupt Control) = 1: done
     112  peer 3 writes configuration 04h, 4 bytes (Command, Status) = 6: done
     122  peer 3 writes configuration 63h, 1 byte (Message Control) = 80h: done
     132  peer 3 writes MSI-X 0Ch (entry 0 control) = 0: done
     141  peer 3 writes register 08h (Interrupt Control) = 1: done
     150  peer 1 writes configuration 04h, 2 bytes (Command) = 2: done
     160  peer 1 writes register 10h (State) = 5: done
            interrupt to peer 0, vector 0, address FEE00000h, data 40h
            interrupt to peer 3, vector 0, address 0, data 0
     169  peer 1 writes register 0Ch (Doorbell) = 30000h, vector 0 of peer 3: done
            interrupt to peer 3, vector 0, address 0, data 0
     178  peer 0 writes register 14h = 1: done
     187  peer 0 reads MSI-X 800h (PBA): 0
     192  peer 0 reads MSI-X 110h: 0
     197  peer 0 reads configuration 38h, 1 byte: 0
     203  peer 1 stores byte 4096 = ABh: done
     211  peer 0 loads byte 4096: ABh
     218  peer 1 stores byte 0 = ABh: refused, 9 (the peer may not store to this section)
     226  disconnect peer 1: done
            interrupt to peer 0, vector 0, address FEE00000h, data 40h
            interrupt to peer 3, vector 0, address 0, data 0
     229  set up 2 peers, 1 vector each: refused, 1 (the sections have 36864 bytes in all, and a log takes 32768)
            State Table 4096, R/W 32768, outputs 0, base 100000h
            protocol 1, subsystem vendor 110Ah, subsystem id 4106h
     268  reset peer 1: refused, 10 (no hub is set up)
";

#[test]
fn explain_prints_a_log_in_words() {
    let log = log(LOG);
    let path = file("explained.log", &log);
    for (arguments, input) in [(vec![], &log[..]), (vec![path.to_str().unwrap()], &[])] {
        assert_eq!(explain(&arguments, input), (WORDS.into(), String::new(), Some(0)));
    }
    assert_eq!(explain(&[], &[]), (String::new(), String::new(), Some(0)));
}

#[test]
fn explain_tells_where_a_log_is_bad() {
    let first = "       0  connect peer 0: refused, 10 (no hub is set up)\n";
    let bad = |input: &str, problem: &str| {
        let expected = (first.into(), format!("explain: standard input: {problem}\n"), Some(1));
        assert_eq!(explain(&[], &log(input)), expected);
    };
    bad("01 0000 0C 01 0000", "byte 3: 0Ch is no kind of record");
    bad(
        "01 0000 05 0000",
        "byte 6: the log ends inside the configuration write that begins at byte 3, after 3 of its 10 bytes",
    );
    let path = file("bad.log", &log("01 0000 FF"));
    let name = path.to_str().unwrap();
    let problem = format!("explain: {name}: byte 3: FFh is no kind of record\n");
    assert_eq!(explain(&[name], &[]), (first.into(), problem, Some(1)));
}

#[test]
fn explain_tells_what_it_cannot_read() {
    let (out, problem, status) = explain(&["no such log"], &[]);
    assert_eq!((out.as_str(), status), ("", Some(1)));
    assert!(problem.starts_with("explain: no such log: "), "{problem}");
    let folder = env!("CARGO_TARGET_TMPDIR");
    let (out, problem, status) = explain(&[folder], &[]);
    assert_eq!((out.as_str(), status), ("", Some(1)));
    assert!(problem.starts_with(&format!("explain: {folder}: ")), "{problem}");
    for wrong in [&["--help"][..], &["a", "b"]] {
        let (out, problem, status) = explain(wrong, &[]);
        assert_eq!((out.as_str(), status), ("", Some(2)));
        assert!(problem.starts_with("usage: explain [LOG]"), "{problem}");
    }
}

#[test]
fn assemble_makes_input_and_output() {
    let assemble = |arguments: &[&str]| {
        let output = run(env!("CARGO_BIN_EXE_assemble"), arguments, &[]);
        (String::from_utf8(output.stderr).expect("text"), output.status.code())
    };
    let case = file("one.txt", b"# one\n01 0000 > 80 0A\n06\nend > 84\n");
    let [stdin, stdout] = ["one.stdin", "one.stdout"].map(|name| file(name, b"old"));
    let [case, input, output] = [&case, &stdin, &stdout].map(|path| path.to_str().unwrap());
    assert_eq!(assemble(&[case, input, output]), (String::new(), Some(0)));
    assert_eq!(fs::read(&stdin).unwrap(), [1, 0, 0, 6]);
    assert_eq!(fs::read(&stdout).unwrap(), [0x80, 10, 0x84]);

    let problem = |name: &str, text: &str, problem: &str| {
        let path = file(name, text.as_bytes());
        let path = path.to_str().unwrap();
        assert_eq!(assemble(&[path, input, output]), (format!("assemble: {path}: {problem}\n"), Some(1)));
    };
    problem("bad.txt", "01\nxy", "line 2: neither a hexadecimal digit nor a blank");
    problem("two.txt", "01\nend > 84\n01\nend > 84", "2 runs, and only one has one input");
    let (text, status) = assemble(&["no such case", input, output]);
    assert!(text.starts_with("assemble: no such case: ") && status == Some(1), "{text}");
    let (text, status) = assemble(&[case]);
    assert!(text.starts_with("usage: assemble FILE STDIN STDOUT") && status == Some(2), "{text}");
}
