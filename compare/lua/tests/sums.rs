//! Programs over lent samples: what they give, and what gives nothing.

use lua::{Program, State};

const SUM: &str = "local s = ... local t = 0 for i = 1, #s do t = t + s[i] end return t";

fn run(text: &str) -> Option<i64> {
    let mut state = State::new().expect("memory");
    state.load_and_run(&Program::text(text), &[1, 2, u32::MAX])
}

#[test]
fn text_and_bytecode_give_the_sum() {
    let programs = [
        Program::text(SUM),
        Program::bytecode(SUM).expect("a program"),
    ];
    let mut state = State::new().expect("memory");
    for program in &programs {
        for length in [0, 1, 256] {
            let samples: Vec<u32> = (1..=length).collect();
            let wanted = i64::from(length * (length + 1) / 2);
            assert_eq!(state.load_and_run(program, &samples), Some(wanted));
        }
    }
}

#[test]
fn a_kept_program_runs_again_and_again() {
    let state = State::new().expect("memory");
    let mut kept = state.keep(&Program::text(SUM), &[1, 2]).expect("a program");
    for _ in 0..1_000 {
        assert_eq!(kept.run_again(), Some(3));
        assert_eq!(kept.run(&[3, 4, 5]), Some(12));
    }
}

#[test]
fn what_gives_no_integer_gives_none() {
    assert_eq!(run("return #... + 0"), Some(3));
    for text in [
        "return",
        "return 'x'",
        "return {}",
        "return nil + 1",
        "returns 1",
    ] {
        assert_eq!(run(text), None, "{text}");
    }
    assert!(Program::bytecode("returns 1").is_none());
}

#[test]
fn a_state_goes_on_after_an_error() {
    let mut state = State::new().expect("memory");
    for _ in 0..1_000 {
        assert_eq!(state.load_and_run(&Program::text("error"), &[]), None);
        assert_eq!(
            state.load_and_run(&Program::text("return nil + 1"), &[]),
            None
        );
    }
    assert_eq!(state.load_and_run(&Program::text(SUM), &[7]), Some(7));
}
