//! Points 104 to 107: what locks and unlocks, and a locked line.

use super::*;

/// A locked line with a half-typed read, and a key that waits.
fn locked() -> Bench {
    let mut bench = half_typed(0);
    assert_eq!(write(LOCK, b"").shown(&mut bench), "");
    bench.keys(b"c");
    bench
}

/// Whether steps are held back, that of a key and a bare one. If not, the
/// key shows one `c`, and the step another that waited.
fn is_locked(bench: &mut Bench) -> bool {
    let (key, step) = (bench.key(b'c'), bench.step());
    if key == done("", "") {
        assert_eq!(step, key);
        return true;
    }
    assert_eq!(key, done("63", ""));
    assert!([done("", ""), done("63", "")].contains(&step), "{step:?}");
    false
}

/// Whether steps are held back when all keys were cleared or the read is gone:
/// a read is started for the next key.
fn stays_locked(bench: &mut Bench) -> bool {
    assert_eq!(bench.number(UNREAD), 0);
    assert_eq!(bench.number("06 00"), 0);
    start(ZZ1, b"", b"").on(bench);
    is_locked(bench)
}

#[test]
fn point_108_a_fresh_line_is_unlocked() {
    assert!(!is_locked(&mut half_typed(0)));
}

#[test]
fn point_104_uu_locks_and_unlocks() {
    let locks = [(0, false), (LOCK, true), (UNLOCK_AFTER, false), (REDISPLAY_AFTER, false)];
    for (lock, after) in locks {
        for data in [&b""[..], b"A"] {
            let mut bench = half_typed(0);
            write(lock, data).on(&mut bench);
            assert_eq!(is_locked(&mut bench), after, "{lock} unlocked");
            let mut bench = locked();
            write(lock, data).on(&mut bench);
            assert_eq!(is_locked(&mut bench), after, "{lock} locked");
        }
    }
}

#[test]
fn point_105_uu_acts_under_discard() {
    let mut bench = half_typed(0);
    bench.key(DISCARD_KEY);
    for lock in [0, UNLOCK_AFTER, REDISPLAY_AFTER] {
        assert_eq!(write(LOCK, b"A").shown(&mut bench), "");
        assert!(is_locked(&mut bench));
        write(lock, b"A").on(&mut bench);
        assert!(!is_locked(&mut bench));
    }
}

#[test]
fn point_105_uu_acts_in_any_part() {
    for part in [0, B, E, B | E] {
        let mut bench = half_typed(0);
        assert_eq!(write(LOCK | part, b"A").shown(&mut bench), "41");
        assert!(is_locked(&mut bench));
        let shown = "41 0D 0A 3F 20 61 62";
        assert_eq!(write(REDISPLAY_AFTER | part, b"A").shown(&mut bench), shown);
        assert!(!is_locked(&mut bench));
        // So do prefix, postfix and L.
        let all = write(part | L | PP1 | QQ2, b"A").prefix(0).postfix(b'>');
        assert_eq!(all.shown(&mut bench), "0D 41 3E 0A");
    }
}

#[test]
fn point_106_15_unlocks_when_it_turns_discard_on() {
    // Its own step takes the key that waits.
    let mut bench = locked();
    assert_eq!(bench.key(DISCARD_KEY), done("63", "09 00"));
    assert!(!is_locked(&mut bench));
    write(LOCK, b"").on(&mut bench);
    assert_eq!(bench.key(DISCARD_KEY), done("", "09 01"));
    assert!(is_locked(&mut bench));
    assert_eq!(bench.key(DISCARD_KEY), done("63", "09 00"));
    assert!(!is_locked(&mut bench));
    // Don't-discard does not undo the lock of its Write.
    write(LOCK | D, b"").on(&mut bench);
    assert!(is_locked(&mut bench));
}

#[test]
fn point_106_a_stored_or_quoted_15_does_not_unlock() {
    let mut bench = locked();
    bench.keys(&[QUOTE_KEY, DISCARD_KEY]);
    assert!(is_locked(&mut bench));
    let mut bench = half_typed(3 * DDD);
    write(LOCK, b"").on(&mut bench);
    bench.keys(&[b'c', DISCARD_KEY]);
    assert!(is_locked(&mut bench));
}

#[test]
fn point_106_immediate_clear_unlocks() {
    let mut bench = locked();
    assert_eq!(bench.number(MAKE_IMMEDIATE_CLEAR), 0);
    // The read completes, two columns behind the prompt; nothing is rubbed out.
    assert_eq!(bench.key(BAND_KEY), done("", "04 00 03 | 03 03 02 00 00 04 00 00"));
    assert!(!stays_locked(&mut bench));
    assert_eq!(bench.number(UNREAD), 0);
    write(LOCK, b"").on(&mut bench);
    assert_eq!(bench.key(BAND_KEY), done("", TOLD));
    assert!(!stays_locked(&mut bench));
}

#[test]
fn point_106_what_leaves_the_lock() {
    let mut bench = locked();
    // 24 rubs out `ab`, and the keys that wait are gone.
    assert_eq!(bench.key(CLEAR_KEY), done("08 20 08 08 20 08", ""));
    assert!(stays_locked(&mut bench));
    assert_eq!(bench.number(MAKE_HELLO), 0);
    assert_eq!(bench.key(BAND_KEY), done("", TOLD));
    assert!(is_locked(&mut bench));
    // Clear Input; Unread with a key that waits, and always.
    for message in ["06 00", "05 01", UNREAD] {
        assert_eq!(bench.number(message), 0);
        assert!(stays_locked(&mut bench));
    }
    // Characteristics, Read Characteristics, Check Input.
    for message in ["0B 00 04 02 01 05 02 01", "0A 00 04 02", "0C 00"] {
        assert_eq!(bench.number(message), 0);
        assert!(is_locked(&mut bench));
    }
    // A largest read of 80.
    assert_eq!(bench.load(&[1, 0, 0, 0, 0, 0, 0, 1, 0, 80], &[1, 0, 0, 0, 0, 0, 0, 0, 0]), 0);
    assert!(is_locked(&mut bench));
    bench.refused(6, &bytes("07 00 08 00 00"));
    bench.refused(5, &bytes("07 C0 00 00 00"));
    assert!(is_locked(&mut bench));
}

/// Steps leave a locked line as it is.
fn held_back(bench: &mut Bench) {
    bench.unchanged(|bench| {
        for _ in 0..2 {
            assert_eq!(bench.step(), done("", ""));
        }
    });
}

#[test]
fn point_107_a_locked_step_takes_no_key() {
    let mut bench = half_typed(0);
    write(LOCK, b"").on(&mut bench);
    bench.keys(b"c\r");
    held_back(&mut bench);
    assert_eq!(bench.host("0C 00"), done("", "0D 00 02 00"));
    write(0, b"").on(&mut bench);
    assert_eq!(bench.step(), done("63", ""));
    assert_eq!(bench.step(), done("5E 4D", ""));
    // Without a read a step does nothing, locked or not.
    let mut bench = Bench::initiated();
    write(LOCK, b"").on(&mut bench);
    bench.keys(b"c");
    held_back(&mut bench);
}

#[test]
fn point_107_a_locked_step_takes_no_token() {
    let mut bench = Bench::initiated();
    start(ZZ2 | EE2, b"", b"").max(2).on(&mut bench);
    assert_eq!(bench.typed(&[ESC, b'[', b'A']), pair("", "03 18 00 00 00 00 00 00"));
    write(LOCK, b"").on(&mut bench);
    start(ZZ2, b"", b"").max(3).on(&mut bench);
    held_back(&mut bench);
    write(0, b"").on(&mut bench);
    assert_eq!(bench.step(), done("", "03 01 00 00 00 00 00 00 1B 5B 41"));
    // A partial one grows no further.
    start(ZZ2 | EE2, b"", b"").on(&mut bench);
    bench.typed(&[ESC, b'[']);
    write(LOCK, b"").on(&mut bench);
    bench.keys(b"A");
    held_back(&mut bench);
    write(0, b"").on(&mut bench);
    assert_eq!(bench.step(), done("", "03 01 00 00 00 00 00 00 1B 5B 41"));
}

#[test]
fn point_107_a_locked_step_does_not_time_out() {
    let mut bench = Bench::initiated();
    start(ZZ2 | Q, b"", b"a").timeout(0).on(&mut bench);
    write(LOCK, b"").on(&mut bench);
    held_back(&mut bench);
    assert_eq!(bench.tick(), done("", ""));
    write(0, b"").on(&mut bench);
    assert_eq!(bench.step(), done("", "03 05 01 00 00 01 01 00 61"));
}

#[test]
fn point_107_keys_arrive_while_locked() {
    let mut bench = locked();
    bench.keys(&[b'k'; 63]);
    assert_eq!(bench.key(b'k'), done("07", ""));
    assert_eq!(bench.dropped(), 1);
    assert_eq!(bench.host("0C 00"), done("", "0D 00 40 00"));
    assert_eq!(bench.host("06 00"), done("08 20 08 08 20 08", ""));
    // 22 marks the next key, and the mark is there when its step comes.
    bench.keys(&[QUOTE_KEY, DELETE_KEY]);
    write(0, b"").on(&mut bench);
    assert_eq!(bench.step(), done("5E 3F", ""));
}

#[test]
fn point_107_ticks_count_while_locked() {
    let mut bench = Bench::initiated();
    start(ZZ2 | Q, b"? ", b"").timeout(3).on(&mut bench);
    assert_eq!(bench.tick(), done("", ""));
    write(LOCK, b"").on(&mut bench);
    assert_eq!(bench.tick(), done("", ""));
    held_back(&mut bench);
    assert_eq!(bench.tick(), done("", "03 05 02 00 00 02 00 00"));
    // A key that waits holds idle where it is, locked or not.
    start(ZZ1 | Q, b"", b"").timeout(1).on(&mut bench);
    bench.keys(b"c");
    assert_eq!(bench.tick(), done("", ""));
    write(0, b"").on(&mut bench);
    assert_eq!(bench.step(), done("63", ""));
    write(LOCK, b"").on(&mut bench);
    assert_eq!(bench.tick(), done("", "03 05 00 00 00 01 01 00 63"));
}

#[test]
fn point_107_a_start_read_is_accepted_while_locked() {
    let mut bench = Bench::initiated();
    write(LOCK, b"").on(&mut bench);
    assert_eq!(start(ZZ1, b"? ", b"a").on(&mut bench), pair("3F 20 61", ""));
    bench.keys(b"b");
    held_back(&mut bench);
    assert_eq!(bench.host(UNREAD), done("", "03 16 03 00 00 03 01 00 61"));
    // It completes at once where it has no room.
    assert_eq!(start(ZZ2, b"", b"").max(0).on(&mut bench), pair("", "03 14 00 00 00 00 00 00"));
    start(ZZ1, b"", b"").on(&mut bench);
    held_back(&mut bench);
    write(UNLOCK_AFTER, b"").on(&mut bench);
    assert_eq!(bench.step(), done("62", ""));
}
