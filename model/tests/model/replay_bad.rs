//! Bad replays: the first bad or missing line is named, and nothing follows it.

use super::replay::{lines, output, HEADER};

#[track_caller]
fn bad(input: &str, line: u32) {
    assert_eq!(
        output(input.as_bytes()),
        format!("bad={line}\n"),
        "{input:?}"
    );
}

/// A header and one good step stand before; its answer is written and kept.
#[track_caller]
fn bad_after_a_step(rest: &str, line: u32) {
    let input = format!("{HEADER}{}{rest}", lines("read dist s 4 4 0"));
    let expected = format!("step=1\nstatus=0\nvalue=442565897\nbad={line}\n");
    assert_eq!(output(input.as_bytes()), expected, "{rest:?}");
}

#[test]
fn empty_input_is_bad_at_line_1() {
    bad("", 1);
}

#[test]
fn a_missing_line_is_bad_at_the_line_after_the_last() {
    bad("lines=9\n", 2);
    bad("lines=9\nespi=4\n", 3);
    bad("lines=9\nespi=4\neppi=1\n", 4);
    let step = lines("read dist s 4 4 0");
    let ends: Vec<usize> = step.match_indices('\n').map(|(at, _)| at + 1).collect();
    for (index, end) in ends[..5].iter().enumerate() {
        bad_after_a_step(&step[..*end], 12 + index as u32);
    }
}

#[test]
fn a_rest_without_lf_is_bad_at_its_own_number() {
    bad("l", 1);
    bad("lines=9", 1);
    bad("lines=9\nespi=4", 2);
    bad("lines=9\nespi=4\neppi=1\nmbis=1", 4);
    bad_after_a_step("o", 11);
    bad_after_a_step("op=read", 11);
    // The last line of a step lacks its LF: the step is not answered.
    let step = lines("write dist s 4 164 4096");
    bad_after_a_step(step.trim_end_matches('\n'), 16);
}

#[test]
fn an_empty_line_is_bad() {
    bad("\n", 1);
    bad("\nlines=9\nespi=4\neppi=1\nmbis=1\n", 1);
    bad("lines=9\n\nespi=4\neppi=1\nmbis=1\n", 2);
    bad(&format!("{HEADER}\n"), 5);
    bad_after_a_step("\n", 11);
    bad_after_a_step("op=read\n\n", 12);
}

#[test]
fn cr_is_bad() {
    bad("lines=9\r\nespi=4\r\n", 1);
    bad("lines=9\nespi=4\r\neppi=1\nmbis=1\n", 2);
    bad("lines=9\rlines=9\n", 1);
    bad_after_a_step("op=read\r\n", 11);
    bad_after_a_step("\r\n", 11);
}

#[test]
fn spaces_and_other_bytes_are_bad() {
    for first in [
        " lines=9",
        "lines=9 ",
        "lines= 9",
        "lines =9",
        "lines=9\t",
        "lines=9\0",
        "Lines=9",
        "lines=0x9",
        "lines=9.",
        "lines=٩",
        "lines",
        "lines:9",
        "=9",
        "9",
    ] {
        bad(&format!("{first}\nespi=4\neppi=1\nmbis=1\n"), 1);
    }
    assert_eq!(output(b"lines=\xFF\n"), "bad=1\n");
    assert_eq!(output(b"\xFF\xFE\n"), "bad=1\n");
}

#[test]
fn numbers_with_leading_zeros_or_signs_are_bad() {
    for number in ["", "00", "01", "09", "+1", "-1", "-0", "1e1", "1_0", "0 "] {
        bad(&format!("lines={number}\nespi=4\n"), 1);
        bad_after_a_step(
            &format!("op=read\nframe=dist\nsec=s\nwidth={number}\noffset=4\nvalue=0\n"),
            14,
        );
        bad_after_a_step(
            &format!("op=read\nframe=dist\nsec=s\nwidth=4\noffset={number}\nvalue=0\n"),
            15,
        );
        bad_after_a_step(
            &format!("op=read\nframe=dist\nsec=s\nwidth=4\noffset=4\nvalue={number}\n"),
            16,
        );
    }
}

#[test]
fn numbers_over_4294967295_are_bad() {
    let over = [
        "4294967296",
        "4294967300",
        "9999999999",
        "42949672950",
        "18446744073709551616",
        "18446744073709551620",
    ];
    for number in over {
        for (index, key) in ["width", "offset", "value"].iter().enumerate() {
            let good = lines("read dist s 4 4 0");
            let old = ["width=4", "offset=4", "value=0"][index];
            let rest = good.replace(old, &format!("{key}={number}"));
            bad_after_a_step(&rest, 14 + index as u32);
        }
    }
    // 4294967295 itself is good in all three.
    let input = format!(
        "{HEADER}{}",
        lines("write redist ns 4294967295 4294967295 4294967295")
    );
    let expected = "step=1\nstatus=2\nvalue=0\nend=1\n";
    assert_eq!(output(input.as_bytes()), expected);
}

#[test]
fn a_shape_number_off_its_limit_is_a_bad_line() {
    for lines in ["32", "33", "4294967295", "4294967296", "4294967328"] {
        bad(&format!("lines={lines}\nespi=4\neppi=1\nmbis=1\n"), 1);
    }
    for espi in ["33", "4294967295"] {
        bad(&format!("lines=9\nespi={espi}\neppi=1\nmbis=1\n"), 2);
    }
    for eppi in ["3", "4294967295"] {
        bad(&format!("lines=9\nespi=4\neppi={eppi}\nmbis=1\n"), 3);
    }
    for mbis in ["2", "yes", "true", "", "01", "4294967295"] {
        bad(&format!("lines=9\nespi=4\neppi=1\nmbis={mbis}\n"), 4);
    }
}

#[test]
fn the_first_bad_line_is_the_one_named() {
    // Two bad numbers: the first is named, also when later lines are missing.
    bad("lines=32\nespi=33\neppi=3\nmbis=2\n", 1);
    bad("lines=32\n", 1);
    bad_after_a_step("op=no\nframe=no\n", 11);
}

#[test]
fn keys_in_another_order_are_bad() {
    bad("espi=4\nlines=9\neppi=1\nmbis=1\n", 1);
    bad("lines=9\neppi=1\nespi=4\nmbis=1\n", 2);
    bad("lines=9\nespi=4\nmbis=1\neppi=1\n", 3);
    bad("lines=9\nlines=9\n", 2);
    bad_after_a_step("frame=dist\nop=read\n", 11);
    bad_after_a_step("op=read\nsec=s\nframe=dist\n", 12);
    bad_after_a_step("op=read\nframe=dist\nwidth=4\n", 13);
    bad_after_a_step("op=read\nframe=dist\nsec=s\noffset=4\n", 14);
    bad_after_a_step("op=read\nframe=dist\nsec=s\nwidth=4\nvalue=0\n", 15);
    // The value line is present for reads too.
    let two_short = "op=read\nframe=dist\nsec=s\nwidth=4\noffset=4\nop=read\n";
    bad_after_a_step(two_short, 16);
    bad_after_a_step("end=1\n", 11);
}

#[test]
fn words_are_taken_as_they_stand() {
    for op in ["Read", "READ", "reads", "rea", "r", "", "writ", "writer"] {
        bad_after_a_step(&format!("op={op}\nframe=dist\n"), 11);
    }
    for frame in ["redis", "redistr", "Dist", "d", "", "0"] {
        bad_after_a_step(&format!("op=read\nframe={frame}\nsec=s\n"), 12);
    }
    for sec in ["S", "NS", "n", "sn", "nss", "", "0"] {
        bad_after_a_step(&format!("op=read\nframe=dist\nsec={sec}\n"), 13);
    }
}

#[test]
fn a_line_of_any_length_is_bad_and_not_read_on() {
    for length in [11, 12, 13, 1000, 100_000] {
        let digits = "9".repeat(length);
        bad(&format!("lines={digits}\n"), 1);
        bad(&format!("lines={digits}"), 1);
        let rest = format!("op=read\nframe=dist\nsec=s\nwidth=4\noffset={digits}\nvalue=0\n");
        bad_after_a_step(&rest, 15);
    }
}

#[test]
fn what_follows_a_bad_line_does_not_matter() {
    let step = lines("read dist s 4 4 0");
    bad(&format!("lines=9\nespi=4\neppi=1\nmbis=2\n{step}{step}"), 4);
    bad_after_a_step(&format!("op=none\n{step}{step}"), 11);
}
