//! Replay: the printed text, each rule of the form from both sides, and the totals.

mod common;

use plain::replay;

const INPUT: &str = "2\n1 0\n2 0\n10\n0 2 1 0 0\n1 10 0 0 0\n1 12 2 0 0\n0 3 2 0 0\n0 4 0 0 0\n\
                     1 17 0 0 0\n0 4 0 0 0\n1 15 0 5 77\n1 16 0 0 0\n1 16 0 0 0\n";
const OUTPUT: &str = "2\n20 0\n20 1\n10\n30 0\n30 0\n30 0\n21 0\n22 0\n30 0\n23 0\n32 1\n33 1\n\
                      35 0\n5\n1\n0\n0\n1\n2\n";

#[track_caller]
fn prints(input: &str, output: &str) {
    let printed = String::from_utf8(replay(input.as_bytes())).unwrap();
    assert_eq!(printed, output, "{input:?}");
}

#[track_caller]
fn bad(input: &str, line: usize) {
    prints(input, &format!("bad file {line}\n"));
}

/// A text of no admissions and one step, which is only read.
#[track_caller]
fn good_step(step: &str) {
    let output = replay(format!("0\n1\n{step}\n").as_bytes());
    assert!(output.starts_with(b"0\n1\n"), "{step:?}");
}

#[test]
fn the_printed_text() {
    prints(INPUT, OUTPUT);
}

#[test]
fn the_least_text() {
    prints("0\n0\n", "0\n0\n5\n0\n0\n0\n0\n0\n");
}

#[test]
fn every_beginning_of_the_printed_text_names_the_line_it_lacks() {
    for end in 0..INPUT.len() {
        let beginning = &INPUT[..end];
        // A line that is not ended is wrong itself; after an LF the next line is missing.
        bad(beginning, beginning.matches('\n').count() + 1);
    }
}

#[test]
fn extra_lines() {
    for extra in ["\n", "0\n", "x", " ", "0 4 0 0 0\n", "\0"] {
        bad(&format!("{INPUT}{extra}"), 15);
        bad(&format!("0\n0\n{extra}"), 3);
    }
}

#[test]
fn lines_wrong_before_one_that_is_missing() {
    bad("3\n1 0\n2 0\n10\n", 4);
    bad("1\n1 0\n2 0\n", 3);
    bad("1\n1 0\n", 3);
    bad("0\n2\n0 4 0 0 0\n", 4);
    bad("0\n1\n0 4 0 0 0\n0 4 0 0 0\n", 4);
    // The first bad line is named.
    bad("1\nx\ny\n", 2);
}

#[test]
fn counts() {
    for count in [
        "",
        "x",
        "1 1",
        "01",
        "00",
        "+0",
        "-0",
        " 0",
        "0 ",
        "4294967296",
        "0\r",
    ] {
        bad(&format!("{count}\n0\n"), 1);
        bad(&format!("0\n{count}\n"), 2);
    }
    // A count that no text can fill: its lines are missing.
    bad("4294967295\n", 2);
    bad("4294967295\n1 0\n", 3);
    bad("0\n4294967295\n", 3);
    bad("0\n4294967295\n0 4 0 0 0\n", 4);
}

#[test]
fn numbers() {
    for good in ["0", "1", "9", "10", "4294967294", "4294967295"] {
        for place in 0..5 {
            let mut step = ["0"; 5];
            step[place] = good;
            good_step(&step.join(" "));
        }
        prints_admission(good);
    }
    let wrong = [
        "",
        "00",
        "01",
        "000",
        "4294967296",
        "4294967300",
        "10000000000",
        "18446744073709551616",
        "18446744073709551617",
        "340282366920938463463374607431768211456",
        "+1",
        "-1",
        "1.",
        "0x1",
        "a",
        "1_000",
        "1,0",
        "\u{661}",
        "1\t",
        "\t1",
        "1\r",
        "\0",
        "/",
        ":",
    ];
    for wrong in wrong {
        for place in 0..5 {
            let mut step = ["0"; 5];
            step[place] = wrong;
            bad(&format!("0\n1\n{}\n", step.join(" ")), 3);
        }
        bad(&format!("1\n{wrong} 0\n0\n"), 2);
        bad(&format!("1\n0 {wrong}\n0\n"), 2);
    }
}

/// A number as the meter of an admission: read, and answered by 20 or by 5.
fn prints_admission(meter: &str) {
    let small = meter.len() < 3;
    let (answer, fill) = if small { ("20 0", 1) } else { ("5 0", 0) };
    let input = format!("1\n{meter} 0\n0\n");
    prints(&input, &format!("1\n{answer}\n0\n5\n0\n0\n0\n0\n{fill}\n"));
}

#[test]
fn spaces_and_how_many_numbers() {
    good_step("0 4 0 0 0");
    for wrong in [
        "0 4 0 0",
        "0 4 0 0 0 0",
        "0  4 0 0 0",
        " 0 4 0 0 0",
        "0 4 0 0 0 ",
        "0\t4 0 0 0",
        "0 4 0 0 0\r",
        "0 4 0 0 0#",
        "04000",
        "",
        " ",
    ] {
        bad(&format!("0\n1\n{wrong}\n"), 3);
    }
    for wrong in ["1", "1 0 0", "1  0", " 1 0", "1 0 ", "", "1\t0"] {
        bad(&format!("1\n{wrong}\n0\n"), 2);
    }
    bad("\n", 1);
    bad("\n\n", 1);
    bad("", 1);
    bad("0\n\n0\n", 2);
    bad("\u{feff}0\n0\n", 1);
}

#[test]
fn nothing_is_run_when_a_later_line_is_bad() {
    prints(
        &INPUT.replace("1 16 0 0 0\n1 16 0 0 0\n", "1 16 0 0 0\n1 16 0 0 x\n"),
        "bad file 14\n",
    );
}

#[test]
fn bytes_that_are_no_text() {
    for byte in (0..=255u8).filter(|byte| !byte.is_ascii_digit() && *byte != b'\n') {
        let printed = replay(&[b'0', b'\n', byte, b'\n']);
        assert_eq!(printed, b"bad file 2\n", "{byte}");
        assert_eq!(replay(&[byte]), b"bad file 1\n");
    }
}

/// A good text of so many bytes: one step whose line is as long as needed cannot be, so many
/// steps of 10 bytes and some longer ones.
fn text_of(bytes: usize) -> String {
    // "0\n", a count of four digits and LF leave the rest to the steps.
    let rest = bytes - 2 - 5;
    let count = rest / 10;
    let mut longer = rest % 10;
    let mut text = format!("0\n{count}\n");
    for _ in 0..count {
        if longer > 0 {
            longer -= 1;
            text.push_str("9 10 0 0 0\n");
        } else {
            text.push_str("9 1 0 0 0\n");
        }
    }
    assert_eq!(text.len(), bytes);
    text
}

#[test]
fn the_most_bytes() {
    let most = text_of(65_536);
    let printed = replay(most.as_bytes());
    assert!(printed.starts_with(b"0\n6552\n3 0\n"));
    assert_eq!(
        printed.iter().filter(|&&byte| byte == b'\n').count(),
        2 + 6_552 + 6
    );
    prints(&text_of(65_537), "too long\n");
    prints(&format!("{most}\n"), "too long\n");
    // Too long comes before bad.
    prints(&"x".repeat(65_537), "too long\n");
    prints(&"x".repeat(65_536), "bad file 1\n");
    prints(&"\n".repeat(1 << 20), "too long\n");
}

#[test]
fn more_steps_than_a_run_may_have() {
    let steps = "1 17 0 0 0\n".repeat(4_999);
    let printed = replay(format!("0\n5000\n1 10 0 0 0\n{steps}").as_bytes());
    let expected = format!("0\n5000\n{}5\n0\n0\n0\n0\n0\n", "30 0\n".repeat(5_000));
    assert!(printed == expected.as_bytes());
}

#[test]
fn admissions_are_answered_like_steps() {
    let input = "6\n1 3\n1 0\n256 0\n2 4\n255 2\n7 1\n1\n0 1 7 0 0\n";
    let output = "6\n20 0\n7 0\n5 0\n5 0\n20 8\n20 12\n1\n7 0\n5\n0\n0\n0\n0\n14\n";
    prints(input, output);
}

#[test]
fn totals_add_the_swaps_of_all_rows() {
    // Two clients load one flag; both swap, one of them wins; the second has left by the end.
    let steps = [
        "0 2 1 0 0",
        "1 10 0 0 0",
        "2 10 0 0 0",
        "1 12 2 0 0",
        "2 12 2 3 0",
        "0 3 2 0 0",
        "1 14 0 0 0",
        "2 14 3 0 0",
        "1 16 0 0 0",
        "2 16 0 0 0",
        "2 16 0 0 0",
        "2 11 0 0 0",
    ];
    let answers = "30 0\n30 0\n30 0\n30 0\n30 0\n21 0\n32 1\n32 1\n33 1\n33 0\n34 0\n30 0\n";
    let input = format!("2\n1 0\n2 0\n12\n{}\n", steps.join("\n"));
    prints(
        &input,
        &format!("2\n20 0\n20 1\n12\n{answers}5\n1\n0\n0\n2\n2\n"),
    );
}
