//! Document 01, part 5: when attempts may start (`move_on_*`), and which
//! queries are wanted.

use crate::bodies::{Bytes, Host, Mode, Type};
use crate::listing::{address_types, prefers_v6};
use crate::names::{https_name, same_name};
use crate::state::{elapsed, Held, Query, Refresh, State};

/// Whether endpoints may be attempted at all.
pub fn may_start(m: &State, now: u64) -> bool {
    let origin_is_address = m.origin_name().is_none();
    let mode_is_name = m.configuration.mode == Mode::Name;
    origin_is_address || mode_is_name || without_timeout(m) || with_timeout(m, now)
}

/// `move_on_without_timeout`
fn without_timeout(m: &State) -> bool {
    // `NameWithHttpsRr` asks for no address, so it waits for HTTPS alone.
    if m.configuration.mode == Mode::NameWithHttpsRr {
        return answered(m, Type::Https);
    }
    let address = some_address(m);
    let preferred = preferred_settled(m);
    let https = answered(m, Type::Https);
    address && preferred && https
}

/// `wait_for_preferred_address` off drops this test only.
fn preferred_settled(m: &State) -> bool {
    let needed = m.configuration.wait;
    let answered = answered(m, preferred_type(m));
    let hinted = preferred_hint(m);
    !needed || answered || hinted
}

/// `move_on_with_timeout`
fn with_timeout(m: &State, now: u64) -> bool {
    some_address(m) && m.held().any(|(_, held)| resolution_met(m, now, held))
}

/// "the resolution delay is met at equality"
fn resolution_met(m: &State, now: u64, held: &Held) -> bool {
    elapsed(now, held.when) >= m.configuration.resolution
}

/// Some held answer carries an address, or a service a hint of any family.
fn some_address(m: &State) -> bool {
    let answered = held_address(m);
    let hinted_v4 = m.services().any(|service| !service.v4_hints.is_empty());
    let hinted_v6 = m.services().any(|service| !service.v6_hints.is_empty());
    answered || hinted_v4 || hinted_v6
}

/// A held A or AAAA answer carries an address.
pub fn held_address(m: &State) -> bool {
    m.held().any(|(_, held)| !State::addresses(held).is_empty())
}

/// A record of that type, whatever its name, is answered, positively or not.
/// (H) "A refresh in flight leaves its record complete."
pub fn answered(m: &State, kind: Type) -> bool {
    m.held().any(|(query, _)| query.kind == kind)
}

fn preferred_type(m: &State) -> Type {
    if prefers_v6(m) {
        return Type::Aaaa;
    }
    Type::A
}

/// (H) Some service has a hint of the preferred family (rule 5.6).
fn preferred_hint(m: &State) -> bool {
    m.services().any(|service| match prefers_v6(m) {
        true => !service.v6_hints.is_empty(),
        false => !service.v4_hints.is_empty(),
    })
}

/// The next query: the first one wanted that has no record.
pub fn next_query(m: &State) -> Option<(Bytes, Type)> {
    wanted(m).into_iter().find(|(name, kind)| !asked(m, name, *kind))
}

fn asked(m: &State, name: &[u8], kind: Type) -> bool {
    m.queries.iter().any(|query| query.kind == kind && same_name(&query.name, name))
}

/// Every query wanted, in order: the origin's, the targets', the alternatives'.
fn wanted(m: &State) -> Vec<(Bytes, Type)> {
    let mut wanted = Vec::new();
    match m.configuration.mode {
        Mode::Ip => {
            wanted.extend(origin_https(m));
            wanted.extend(m.origin_name().into_iter().flat_map(|name| both(m, name)));
            // In the answer's order; services without ECH skipped if any has it.
            wanted.extend(m.usable_services().flat_map(|service| both(m, &service.name)));
            wanted.extend(alternative_names(m).flat_map(|name| both(m, name)));
        }
        // `NameWithHttpsRr` asks for the HTTPS record only, `Name` for none.
        Mode::NameWithHttpsRr => wanted.extend(origin_https(m)),
        Mode::Name => {}
    }
    wanted
}

fn origin_https(m: &State) -> Option<(Bytes, Type)> {
    let origin = m.origin_name()?;
    let name = https_name(origin, m.configuration.port);
    Some((name.into(), Type::Https))
}

fn both<'a>(m: &'a State, name: &'a Bytes) -> impl Iterator<Item = (Bytes, Type)> + 'a {
    address_types(m).iter().map(|kind| (name.clone(), *kind))
}

fn alternative_names(m: &State) -> impl Iterator<Item = &Bytes> {
    let alternatives = m.configuration.alternatives.iter();
    alternatives.filter_map(|alternative| match &alternative.host {
        Some(Host::Name(name)) => Some(name),
        _ => None,
    })
}

/// The next refresh, in record order: a stale answer, failed ones too, is asked
/// for anew once.
pub fn next_refresh(m: &State) -> Option<usize> {
    m.queries.iter().position(refresh_due)
}

fn refresh_due(query: &Query) -> bool {
    let stale = query.held.as_ref().is_some_and(|held| held.stale);
    stale && query.refresh == Refresh::Idle
}
