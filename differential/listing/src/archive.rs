//! The proved listing behind its test entry, where its static library was there at the build.

/// Numbers that the entry writes for an endpoint: target's case, high half, low half or name's
/// place, scope, port, rank, ECH place and 1 (0 none).
const ENDPOINT: usize = 7;
/// Endpoints in the longest listing.
pub const MOST: usize = 272;

/// An endpoint as the test entry writes it.
pub type Numbered = [u64; ENDPOINT];

#[cfg(archive)]
mod entry {
    extern "C" {
        pub fn list_state(
            state: *const u64,
            numbers: usize,
            names: *const u8,
            bytes: usize,
            out: *mut u64,
            room: usize,
        ) -> usize;
        pub fn list_rounds(
            state: *const u64,
            numbers: usize,
            names: *const u8,
            bytes: usize,
            rounds: usize,
        ) -> u64;
    }
}

pub const THERE: bool = cfg!(archive);

/// The listing of a flat state, none without the archive.
#[cfg(archive)]
pub fn list_state(state: &[u64], names: &[u8]) -> Option<Vec<Numbered>> {
    let mut out = [u64::MAX; MOST * ENDPOINT];
    // Three slices that don't overlap, each with its own length: all that the entry asks for.
    let count = unsafe {
        entry::list_state(
            state.as_ptr(),
            state.len(),
            names.as_ptr(),
            names.len(),
            out.as_mut_ptr(),
            out.len(),
        )
    };
    assert!(count <= MOST, "a listing of {count}");
    let (listed, rest) = out.split_at(count * ENDPOINT);
    assert!(rest.iter().all(|n| *n == u64::MAX), "a number beyond the listing was touched");
    Some(listed.chunks(ENDPOINT).map(|numbers| numbers.try_into().unwrap()).collect())
}

#[cfg(not(archive))]
pub fn list_state(_: &[u64], _: &[u8]) -> Option<Vec<Numbered>> {
    None
}

/// A flat state listed so many times, from that port of the origin down to 1: the sum of each
/// listing's length and of the port at the place that is the origin's modulo `MOST`, 0 beyond the
/// listing. None without the archive.
#[cfg(archive)]
pub fn list_rounds(state: &[u64], names: &[u8], rounds: usize) -> Option<u64> {
    // Two slices, each with its own length.
    let sum = unsafe {
        entry::list_rounds(state.as_ptr(), state.len(), names.as_ptr(), names.len(), rounds)
    };
    Some(sum)
}

#[cfg(not(archive))]
pub fn list_rounds(_: &[u64], _: &[u8], _: usize) -> Option<u64> {
    None
}
