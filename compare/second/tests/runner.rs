//! The runner program.

mod common;
use common::*;
use std::io::Write;
use std::process::{Command, Stdio};

fn run(input: &[u8]) -> String {
    let mut child = Command::new(env!("CARGO_BIN_EXE_second"))
        .stdin(Stdio::piped())
        .stdout(Stdio::piped())
        .spawn()
        .unwrap();
    // The program may stop reading a long input before its end.
    let _ = child.stdin.take().unwrap().write_all(input);
    let output = child.wait_with_output().unwrap();
    assert!(output.status.success());
    String::from_utf8(output.stdout).unwrap()
}

#[test]
fn p2_and_empty() {
    let p2 = hex("01 00 00 00 02 03 02 03 00 06 08 01 00 00 02 00");
    assert_eq!(run(&p2), "value 0 int steps 4 unchecked 0\n");
    assert_eq!(run(&[]), "refused 1 at 0\n");
}

#[test]
fn it_uses_1_024_words() {
    let malloc_of = |count: u64| bare(malloc(to_array(count, 0)));
    assert_eq!(
        run(&malloc_of(1_024)),
        "value 1 c.array.1024.0 steps 1 unchecked 0\n"
    );
    assert_eq!(run(&malloc_of(1_025)), "room 0 int steps 1 unchecked 0\n");
}

#[test]
fn long_inputs() {
    assert_eq!(run(&vec![0; 16_384]), "refused 3 at 0\n");
    assert_eq!(run(&vec![0; 16_385]), "refused 4 at 0\n");
    assert_eq!(run(&vec![1; 1_000_000]), "refused 4 at 0\n");
}
