//! Points 43 to 46: found on the way.

use crate::common::*;

#[test]
fn point_43_low_water_below_the_prompt_stays() {
    let mut bench = Bench::initiated();
    let mut read = start(ZZ2, b"? ", b"ab");
    read.low = Some(1);
    read.on(&mut bench);
    assert_eq!(bench.typed(&[21]).0, "08 20 08 08 20 08");
    assert_eq!(bench.host(UNREAD), done("", "03 06 01 00 00 02 00 00"));
}

#[test]
fn point_44_a_hidden_lf_as_the_only_input() {
    for code in [127, 23] {
        let mut bench = Bench::initiated();
        start(F | ZZ1 | UU1, b"", b"\n").on(&mut bench);
        assert_eq!(bench.typed(&[code]), pair("", ""));
        assert_eq!(bench.typed(&[code]), pair("07", ""));
        assert_eq!(bench.host(UNREAD), done("", "03 06 00 00 00 00 00 00"));
    }
}

#[test]
fn point_45_a_parameter_is_its_bytes() {
    let mut bench = Bench::default();
    let written = "0B 00 04 02 01 02 02 41 FF 7F 0A 02 0F";
    assert_eq!(bench.copied(&bytes("0B 00 04 02 FF 02 02 41 FF FF 0A 02 FF")), Ok(written.into()));
    for short in ["0B 00 04 02 01 02 02 41 FF", "0B 00 04", "0A 00 04 02 02 02", "0A 00 04 02 05"] {
        assert_eq!(bench.copied(&bytes(short)), Err(5), "{short}");
    }
}

#[test]
fn point_46_lines_of_another_form() {
    let strays = [
        "",
        "K",
        "K ",
        "K 1",
        "K 123",
        "K  41",
        "K 4G",
        "k 41",
        "S ",
        "S 1",
        "T 0",
        "F ",
        "D 1",
        "M 1",
        "M 0G",
        "M  05",
        "M 05 ",
        "R 1",
        "A",
        "A 1",
        "A 1 ",
        "A 1 2 3",
        "A 1  2",
        "A +1 2",
        "A -1 2",
        "A 65536 1",
        "A 1 65536",
        "A 000001 1",
        "X",
        " S",
        "S\r",
    ];
    for stray in strays {
        assert_eq!(run(&format!("{stray}\nS\n")), "?\n0 - -\n", "{stray:?}");
    }
}

#[test]
fn point_46_lines_at_the_edge() {
    assert_eq!(run(""), "");
    assert_eq!(run("\n"), "?\n");
    assert_eq!(run("S"), "0 - -\n");
    assert_eq!(run("M\nM \nR\nR \n"), "2 - -\n2 - -\n2 -\n2 -\n");
    assert_eq!(run("K fF\nA 00000 65535\nS\nF\nS\nD\n"), "0 - -\n1 - -\n0 - -\n0\n");
    assert_eq!(run("R 0c07\n"), "0 0C00\n");
    let long = "00".repeat(70_000);
    assert_eq!(run(&format!("M {long}\nR {long}\nM {long}0\n")), "2 - -\n2 -\n?\n");
}
