//! Numbers, names and pacing.

use model::{attempt_delay, name_ok, read_number, write_number};

const CUT: Result<(u64, usize), u8> = Err(1);
const BAD: Result<(u64, usize), u8> = Err(2);

#[test]
fn known_numbers() {
    assert_eq!(write_number(443), [0xBB, 0x03]);
    assert_eq!(read_number(&[0xBB, 0x03], 0), Ok((443, 2)));
    assert_eq!(read_number(&[0x80, 0x00], 0), BAD);
    assert_eq!(read_number(&[0x80], 0), CUT);
}

#[test]
fn number_edges() {
    let nine = [0xFF; 9];
    let with = |tail: &[u8]| read_number(&[&nine[..], tail].concat(), 0);
    assert_eq!(with(&[]), CUT);
    assert_eq!(with(&[1]), Ok((u64::MAX, 10)));
    for tenth in [0x00, 0x02, 0x80, 0x81, 0xFF] {
        assert_eq!(with(&[tenth]), BAD);
        assert_eq!(with(&[tenth, 1]), BAD);
    }
    assert_eq!(read_number(&[], 0), CUT);
    assert_eq!(read_number(&[5], 1), CUT);
    assert_eq!(read_number(&[5], usize::MAX), CUT);
    assert_eq!(read_number(&[0xFF, 0x7F, 9], 0), Ok((16_383, 2)));
    assert_eq!(read_number(&[0xFF, 0x80, 0x00], 0), BAD);
    assert_eq!(read_number(&[0x00], 0), Ok((0, 1)));
    assert_eq!(read_number(&[9, 0xAC, 0x02], 1), Ok((300, 3)));
}

#[test]
fn numbers_come_back() {
    let near = |n: u64| [n.wrapping_sub(1), n, n.wrapping_add(1)];
    for n in (0..64).flat_map(|bit| near(1 << bit)).chain([u64::MAX]) {
        let written = write_number(n);
        assert_eq!(read_number(&written, 0), Ok((n, written.len())));
        for cut in 0..written.len() {
            assert_eq!(read_number(&written[..cut], 0), CUT);
        }
    }
}

#[test]
fn every_pair_of_bytes_is_read_or_refused() {
    for pair in 0..=u16::MAX {
        let bytes = pair.to_le_bytes();
        match read_number(&bytes, 0) {
            Ok((n, after)) => assert_eq!(write_number(n), bytes[..after]),
            refused => assert!(bytes[0] >= 0x80 && (refused == CUT) == (bytes[1] >= 0x80)),
        }
    }
}

#[test]
fn names_that_hold() {
    let long = "a".repeat(63);
    for name in ["a", "a.", "a.b", "A-_9.x", "1.a", "a.0x1", "a.1b", "-.-", "_", &long] {
        assert!(name_ok(name.as_bytes()), "{name}");
    }
}

#[test]
fn names_that_break_the_rule() {
    let long = "a".repeat(64);
    let names = ["", ".", "..", "a..", ".a", "a..b", "1", "1.", "a.1", "a.1.", "a b", "a/b", &long];
    for name in names {
        assert!(!name_ok(name.as_bytes()), "{name}");
    }
    assert!(!name_ok(b"a\x80"));
    assert!(!name_ok(b"a\0"));
}

#[test]
fn every_byte_of_a_name() {
    for byte in 0..=255 {
        let letter = byte == b'-' || byte == b'_' || u8::is_ascii_alphanumeric(&byte);
        assert_eq!(name_ok(&[b'a', byte, b'a']), letter || byte == b'.');
        assert_eq!(name_ok(&[byte]), letter && !u8::is_ascii_digit(&byte));
    }
}

#[test]
fn known_delays() {
    assert_eq!(attempt_delay(1, 7, 0), 1);
    assert_eq!(attempt_delay(1, 7, 1), 1);
    assert_eq!(attempt_delay(1, 7, 2), 7);
    assert_eq!(attempt_delay(1, 2, 32), 2_147_483_648);
    assert_eq!(attempt_delay(1, 2, 33), 4_294_967_295);
    assert_eq!(attempt_delay(1, 3, 21), 3_486_784_401);
    assert_eq!(attempt_delay(1, 3, 22), 4_294_967_295);
    assert_eq!(attempt_delay(1, 65_535, 3), 4_294_836_225);
    assert_eq!(attempt_delay(1, 65_536, 3), 4_294_967_295);
    assert_eq!(attempt_delay(250_000_000, u32::MAX, 2), 1_073_741_823_750_000_000);
    assert_eq!(attempt_delay(4_294_967_297, u32::MAX, 2), u64::MAX);
    assert_eq!(attempt_delay(4_294_967_296, u32::MAX, 2), u64::MAX - 4_294_967_295);
    assert_eq!(attempt_delay(8_589_934_592, 2, 32), u64::MAX);
}

#[test]
fn delays_at_the_entry() {
    assert_eq!(attempt_delay(9, 0, u64::MAX), 9);
    assert_eq!(attempt_delay(9, 1, u64::MAX), 9);
    assert_eq!(attempt_delay(1, 2, u64::MAX), 4_294_967_295);
    assert_eq!(attempt_delay(0, u32::MAX, u64::MAX), 0);
    assert_eq!(attempt_delay(u64::MAX, 1, 5), u64::MAX);
}

#[test]
fn delays_follow_the_formula() {
    for multiplier in [2_u32, 3, 5, 255, 256, 65_535, 65_536, u32::MAX] {
        for count in 1..40_u32 {
            let power = multiplier.checked_pow(count - 1).unwrap_or(u32::MAX);
            assert_eq!(attempt_delay(1, multiplier, count.into()), power.into());
        }
    }
}
