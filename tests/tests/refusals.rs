//! Each row of the refusal table at its edges.

mod common;
use common::*;

#[test]
fn row_1_areas() {
    let (terminal, message) = (TERMINAL_AREA, MESSAGE_AREA);
    for (terminal, message, number) in [
        (terminal, message, 0),
        (terminal - 1, message, 1),
        (terminal, message - 1, 1),
        (0, 0, 1),
        (65_535, 65_535, 0),
    ] {
        let mut bench = Bench::initiated();
        bench.areas.terminal = terminal;
        bench.areas.message = message;
        assert_eq!(bench.key(b'a').0, number);
        assert_eq!(bench.step().0, number);
        assert_eq!(bench.tick().0, number);
        assert_eq!(bench.number("0C 00"), number);
        if number == 1 {
            // 1 comes before 2, 3, 4, 5 and 6.
            for message in ["", "00", "03", INITIATE, "05", "07 00 08 00 00"] {
                bench.refused(1, &bytes(message));
            }
        }
    }
}

#[test]
fn row_1_leaves_the_line_as_it_was() {
    let mut bench = Bench::initiated();
    start(ZZ2 | Q, b"", b"").timeout(1).on(&mut bench);
    bench.areas.message = MESSAGE_AREA - 1;
    bench.unchanged(|bench| {
        assert_eq!((bench.key(7).0, bench.step().0, bench.tick().0), (1, 1, 1));
    });
}

#[test]
fn row_2_lengths() {
    let mut bench = Bench::initiated();
    bench.refused(2, &[]);
    let mut write = vec![b'w'; LONGEST + 1];
    write[..5].copy_from_slice(&[7, 0, 0, 0, 0]);
    bench.refused(2, &write);
    assert_eq!(bench.host_bytes(&write[..LONGEST]).0, 0);
    // 2 comes before 3: the type is not looked at.
    bench.refused(2, &[0; LONGEST + 1]);
    let mut fresh = Bench::default();
    fresh.refused(2, &[]);
}

#[test]
fn row_3_types() {
    for mut bench in [Bench::default(), Bench::initiated()] {
        for kind in [0, 3, 4, 8, 9, 13, 14, 15, 16, 17, 128, 255] {
            bench.refused(3, &[kind]);
            bench.refused(3, &[kind, 0, 0, 0, 0, 0, 0, 0]);
        }
    }
}

#[test]
fn row_4_order_of_messages() {
    let mut bench = Bench::default();
    for kind in [2, 5, 6, 7, 10, 11, 12] {
        bench.refused(4, &[kind]);
        bench.refused(4, &[kind, 0]);
    }
    // A damaged Initiate is not accepted, so the first is still to come.
    bench.refused(5, &bytes("01 00"));
    bench.refused(4, &[12, 0]);
    assert_eq!(bench.number(INITIATE), 0);
    bench.refused(4, &bytes(INITIATE));
    bench.refused(4, &[1]);
    let read = start(ZZ2, b"", b"").bytes();
    assert_eq!(bench.host_bytes(&read).0, 0);
    bench.refused(4, &read);
    bench.refused(4, &[2]);
    assert_eq!(bench.number(UNREAD), 0);
    assert_eq!(bench.host_bytes(&read).0, 0);
}

#[test]
fn row_5_cut_short_and_left_over() {
    let mut bench = Bench::initiated();
    for whole in [UNREAD, "06 00", "0C 00"] {
        let whole = bytes(whole);
        bench.refused(5, &whole[..1]);
        bench.refused(5, &[whole.clone(), vec![0]].concat());
    }
    for message in ["07", "07 00", "07 00 00", "07 00 00 00", "0A", "0A 00 04", "0A 00 02 02"] {
        bench.refused(5, &bytes(message));
    }
    for message in ["0B", "0B 00 04", "0B 00 04 02", "0B 00 02 02 41 FF", "0B 00 08 02 01"] {
        bench.refused(5, &bytes(message));
    }
    let read = start(ZZ2, b"? ", b"ab").bytes();
    for end in 1..read.len() {
        bench.refused(5, &read[..end]);
    }
    bench.refused(5, &[read, vec![0]].concat());
    let mut fresh = Bench::default();
    let whole = bytes(&format!("{INITIATE} 01 02 00 01"));
    for end in (1..13).chain([14, 15, 16]) {
        fresh.refused(5, &whole[..end]);
    }
    assert_eq!(fresh.host_bytes(&whole).0, 0);
}

#[test]
fn row_5_values_and_selectors() {
    let mut bench = Bench::initiated();
    for message in ["07 C0 00 00 00", "07 00 03 00 00", "0B 00 08 02 00 00", "0B 00 08 02 04 00"] {
        bench.refused(5, &bytes(message));
    }
    for selector in ["00 02", "0B 02", "80 02", "FF 02", "04 00", "04 01", "04 03", "02 04"] {
        bench.refused(5, &bytes(&format!("0A 00 {selector}")));
        bench.refused(5, &bytes(&format!("0B 00 {selector} 01")));
    }
}

#[test]
fn row_5_the_start_read_test() {
    let mut bench = Bench::initiated();
    for flags in [3, 3 << 6, 3 << 14, 3 << 16, 4 << 8, 5 << 8, 6 << 8, 7 << 8] {
        bench.refused(5, &start(flags, b"", b"").bytes());
    }
    let mut long_set = start(ZZ1, b"", b"");
    long_set.set = vec![0; 33];
    bench.refused(5, &long_set.bytes());
    let mut prompt = start(ZZ2, b"", b"ab");
    prompt.prompt = 3;
    bench.refused(5, &prompt.bytes());
    let mut low = start(ZZ2, b"", b"ab");
    low.low = Some(3);
    bench.refused(5, &low.bytes());
    let mut display = start(ZZ2, b"", b"ab").bytes();
    display[12] = 3;
    bench.refused(5, &display);
    bench.refused(5, &start(ZZ2, b"", b"ab").max(1).bytes());
    bench.refused(5, &start(ZZ2, b"", b"ab").max(BUFFER + 1).bytes());
    bench.refused(5, &start(ZZ2, b"", b"ab").max(BUFFER + 256).bytes());
    // The edges that pass.
    let mut edge = start(3 << 8 | ZZ1 | 2 | II2 | EE2, b"ab", b"").max(BUFFER);
    edge.set = vec![0; 32];
    assert_eq!(bench.host_bytes(&edge.bytes()).0, 0);
}

#[test]
fn row_6_reads_and_writes_not_carried() {
    let mut bench = Bench::initiated();
    let mut display = start(ZZ2, b"", b"ab");
    display.display = 1;
    bench.refused(6, &display.bytes());
    for uu in 0..3 {
        bench.refused(6, &start(ZZ2 | K | uu, b"", b"").bytes());
    }
    bench.refused(5, &start(ZZ2 | K | 3, b"", b"").bytes());
    bench.refused(6, &start(ZZ2 | V, b"", b"").bytes());
    // Transparent, alone and with everything else that a Write can ask.
    for flags in ["00 08", "01 08", "BF 0E", "00 F8"] {
        bench.refused(6, &bytes(&format!("07 {flags} 00 00 41")));
    }
    // Nothing else is a reason: locks, L, prefix, postfix, first part, last part,
    // status and the unused bits.
    for flags in ["01 00", "02 00", "03 00", "04 00", "40 00", "80 00", "00 01", "00 02", "30 F4"] {
        assert_eq!(bench.number(&format!("07 {flags} 09 09 41")), 0);
    }
}

#[test]
fn row_6_characteristics_not_carried() {
    let mut bench = Bench::initiated();
    for selector in ["01 02", "03 02", "07 02", "0A 02"] {
        bench.refused(6, &bytes(&format!("0A 00 {selector}")));
        bench.refused(6, &bytes(&format!("0B 00 {selector} 01")));
        bench.refused(6, &bytes(&format!("0B 00 04 02 01 {selector} 01")));
    }
    bench.refused(6, &bytes("0A 00 08 02"));
    bench.refused(6, &bytes("0B 00 08 02 02 00"));
    bench.refused(6, &bytes("0B 00 02 02 41 03 02"));
    // 5 anywhere comes first.
    bench.refused(5, &bytes("0B 00 01 02 01 0B 02 01"));
}

#[test]
fn row_6_the_longest_answer() {
    let mut bench = Bench::initiated();
    for more in 0..8 {
        let (number, _, answer) = bench.host_bytes(&asked_for(MESSAGE_AREA - more));
        assert_eq!((number, bytes(&answer).len() + 2), (0, MESSAGE_AREA - more));
        bench.refused(6, &asked_for(MESSAGE_AREA + 1 + more));
    }
}

/// Asks for an answer that takes so much of the message area: its length, type and
/// flags are four bytes, attributes five each, the others three.
fn asked_for(length: usize) -> Vec<u8> {
    let plain = |attributes: usize| length - 4 - 5 * attributes;
    let attributes = (0..3).find(|count| plain(*count).is_multiple_of(3)).expect("one of three");
    let plain = plain(attributes) / 3;
    [vec![10, 0], [2, 2, 65].repeat(attributes), [4, 2].repeat(plain)].concat()
}

#[test]
fn calls_other_than_messages_are_never_refused_for_anything_but_areas() {
    let mut bench = Bench::default();
    for code in 0..=255 {
        assert_eq!((bench.key(code).0, bench.step().0, bench.tick().0), (0, 0, 0));
    }
}
