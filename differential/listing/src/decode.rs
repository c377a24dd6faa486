//! The proved listing's numbers as document 01's bytes.

use crate::archive::Numbered;
use compare::write::number;
use model::flat::Flat;

/// Endpoints in order, each as an attempt answer ends: rank, target with its port, ECH.
pub type Listing = Vec<Vec<u8>>;

/// The host of a by-name endpoint: its own name or else the origin's, without one trailing dot.
fn connect_name(flat: &Flat, place: usize) -> &[u8] {
    let bare = |place: usize| {
        let name = flat.name(place);
        name.strip_suffix(b".").unwrap_or(name)
    };
    match bare(place) {
        [] => bare(0),
        own => own,
    }
}

/// The numbers of an endpoint as the bytes that end an attempt answer.
fn endpoint(flat: &Flat, numbers: &Numbered) -> Vec<u8> {
    let [case, high, low, scope, port, rank, ech] = *numbers;
    let mut out = Vec::new();
    number(&mut out, rank);
    number(&mut out, case);
    match case {
        0 => out.extend(u32::try_from(low).expect("an IPv4 address").to_be_bytes()),
        1 => {
            out.extend(high.to_be_bytes());
            out.extend(low.to_be_bytes());
            number(&mut out, scope);
        }
        _ => {
            let name = connect_name(flat, low as usize);
            number(&mut out, name.len() as u64);
            out.extend(name);
        }
    }
    number(&mut out, port);
    match ech.checked_sub(1) {
        None => number(&mut out, 0),
        Some(place) => {
            let bytes = flat.ech(place as usize);
            number(&mut out, bytes.len() as u64 + 1);
            out.extend(bytes);
        }
    }
    out
}

pub fn in_bytes(flat: &Flat, listed: &[Numbered]) -> Listing {
    listed.iter().map(|numbers| endpoint(flat, numbers)).collect()
}
