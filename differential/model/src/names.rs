//! Document 01, "Sizes", the name rule; and the three uses of a name in parts
//! 4 and 5.

/// The name rule without the size of a name, which is tested before it.
pub fn name_ok(name: &[u8]) -> bool {
    // "one trailing dot is allowed"
    let labels: Vec<&[u8]> = without_dot(name).split(|&byte| byte == b'.').collect();
    // "labels of 1 to 63 bytes"
    let sized = labels.iter().all(|label| (1..=63).contains(&label.len()));
    // "A name has letters, digits, `-`, `_` and `.`"
    let spelled = labels.iter().all(|label| label.iter().all(letter));
    // "the last label isn't all digits"
    let ended = !labels[labels.len() - 1].iter().all(u8::is_ascii_digit);
    sized && spelled && ended
}

fn letter(byte: &u8) -> bool {
    byte.is_ascii_alphanumeric() || *byte == b'-' || *byte == b'_'
}

/// (H) "Names are compared byte for byte."
pub fn same_name(one: &[u8], other: &[u8]) -> bool {
    one == other
}

/// A name for connecting: "the origin's name loses its trailing dot", and as the
/// Rust corrects it, so do a service's target and an alternative's host.
pub fn without_dot(name: &[u8]) -> &[u8] {
    name.strip_suffix(b".").unwrap_or(name)
}

/// (H) The HTTPS name: the origin's, with a prefix unless the port is 443 (rule
/// 5.3).
pub fn https_name(origin: &[u8], port: u16) -> Vec<u8> {
    if port == 443 {
        return origin.to_vec();
    }
    [format!("_{port}._https.").as_bytes(), origin].concat()
}
