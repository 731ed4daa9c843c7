//! Cases A to K of page 01 and the two of M-101, to the byte.

mod common;
use common::*;

const A: &str = "02 01 90 00 50 00 02 00 00 00 02 00 00 00 02 00 00 3F 20";

fn after_a() -> Bench {
    let mut bench = Bench::initiated();
    assert_eq!(bench.host(A), done("3F 20", ""));
    bench
}

#[test]
fn case_a_is_read_as_its_fields() {
    let second::message::Message::StartRead(read) = second::message::read(&bytes(A)).unwrap()
    else {
        panic!("not a Start Read");
    };
    assert_eq!((read.underflow, read.echo_terminator, read.which_set), (1, true, 2));
    assert_eq!((read.max_length, read.end_of_data, read.end_of_prompt), (80, 2, 2));
    assert_eq!((read.low_water, read.data), (2, b"? ".to_vec()));
    assert_eq!(start(UU1 | T | ZZ2, b"? ", b"").bytes(), bytes(A));
    assert_eq!(Bench::default().copied(&bytes(A)), Ok(A.to_string()));
}

#[test]
fn case_b_a_read_with_a_deletion() {
    let mut bench = after_a();
    let (terminal, messages) = bench.typed(&[b'4', 127, b'3', b'5', 13]);
    assert_eq!(format!("3F 20 {terminal}"), "3F 20 34 08 20 08 33 35 0D 0A");
    assert_eq!(messages, "03 00 02 00 01 00 02 00 33 35 0D");
}

#[test]
fn case_c_a_byte_short() {
    let mut bench = Bench::initiated();
    let short = &bytes(A)[..18];
    bench.refused(5, short);
    assert_eq!(bench.copied(short), Err(5));
}

#[test]
fn case_d_a_full_buffer_at_once() {
    let mut bench = Bench::initiated();
    // The top column is E7 modulo 256.
    let data = [b'x'; WHOLE];
    let (terminal, messages) = start(ZZ2, b"", &data).max(BUFFER).on(&mut bench);
    assert_eq!(terminal, hex(&data));
    assert_eq!(messages, format!("03 04 {0} 00 E7 {0} {1}", word(WHOLE), hex(&data)));
    bench.refused(5, &start(ZZ2, b"", &data).max(BUFFER + 1).bytes());
}

#[test]
fn case_e_no_room_at_all() {
    let mut bench = Bench::initiated();
    let answer = start(ZZ2, b"", b"").max(0).on(&mut bench);
    assert_eq!(answer, pair("", "03 04 00 00 00 00 00 00"));
}

#[test]
fn case_f_del_at_once() {
    let mut bench = after_a();
    assert_eq!(bench.typed(&[127]), pair("07", ""));
}

#[test]
fn case_g_a_quoted_cr_is_data() {
    let mut bench = after_a();
    assert_eq!(bench.typed(&[22, 13]), pair("5E 4D", ""));
    assert_eq!(bench.host(UNREAD), done("", "03 06 02 00 00 04 01 00 0D"));
}

#[test]
fn case_h_tokens_valid_and_invalid() {
    let mut bench = Bench::initiated();
    start(ZZ2 | EE2, b"", b"").on(&mut bench);
    assert_eq!(bench.typed(&[27, 91, 65]), pair("", "03 01 00 00 00 00 00 00 1B 5B 41"));
    start(ZZ2 | EE2, b"", b"").on(&mut bench);
    assert_eq!(bench.typed(&[27, 91, 7]), pair("", "03 02 00 00 00 00 00 00 1B 5B 07"));
}

#[test]
fn case_i_a_token_that_finds_no_room() {
    let mut bench = Bench::initiated();
    start(ZZ2 | EE2, b"", b"").max(2).on(&mut bench);
    assert_eq!(bench.typed(&[27, 91, 65]), pair("", "03 18 00 00 00 00 00 00"));
    start(ZZ2, b"", b"").max(3).on(&mut bench);
    assert_eq!(bench.step(), done("", "03 01 00 00 00 00 00 00 1B 5B 41"));
}

#[test]
fn case_j_the_65th_waiting_key() {
    let mut bench = Bench::initiated();
    bench.keys(&[b'k'; 64]);
    assert_eq!(bench.key(b'k'), done("07", ""));
    assert_eq!(bench.dropped(), 1);
}

#[test]
fn case_k_a_word_and_a_small_area() {
    let mut bench = Bench::initiated();
    start(ZZ2, b"", b"gate 35 ").on(&mut bench);
    let (terminal, _) = bench.typed(&[23]);
    assert_eq!(terminal, "08 20 08 08 20 08 08 20 08");
    let (_, _, messages) = bench.host(UNREAD);
    assert!(messages.ends_with(&hex(b"gate ")));
    bench.areas.terminal = TERMINAL_AREA - 1;
    assert_eq!(bench.key(b'a').0, 1);
    bench.refused(1, &[12, 0]);
}

/// The three keys are one valid token: all are returned, and nothing waits for
/// the next read.
fn returned_whole(codes: [u8; 3]) {
    let mut bench = Bench::initiated();
    start(ZZ2 | EE2, b"", b"").on(&mut bench);
    assert_eq!(bench.typed(&codes), pair("", &format!("03 01 00 00 00 00 00 00 {}", hex(&codes))));
    assert_eq!(bench.host("0C 00"), done("", "0D 00 00 00"));
    start(ZZ2 | EE2, b"", b"").on(&mut bench);
    assert_eq!(bench.step(), done("", ""));
    assert_eq!(bench.host(UNREAD), done("", "03 06 00 00 00 00 00 00"));
}

#[test]
fn case_pf1_leaves_no_letter_behind() {
    returned_whole([27, 79, 80]);
}

#[test]
fn case_27_63_65() {
    returned_whole([27, 63, 65]);
}

#[test]
fn the_dropped_count_stops() {
    let mut bench = Bench::initiated();
    bench.keys(&[b'k'; 64]);
    for _ in 0..65_540 {
        bench.key(b'k');
    }
    assert_eq!(bench.dropped(), 65_535);
}
