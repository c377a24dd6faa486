//! The adapter's own reading of document 01's bodies, into the original's types.

use happy_eyeballs::{
    AltSvc, ConnectionResult, DnsResult, EchConfig, HttpVersion, HttpVersions, Input, IpPreference,
    NetworkConfig, ResolutionMode, ScopedIpv6Addr, ServiceInfo, TargetName,
};
use std::net::{Ipv4Addr, Ipv6Addr};
use std::num::NonZeroU32;
use std::time::Duration;

pub const CUT: u8 = 1;
pub const BAD_NUMBER: u8 = 2;
pub const OUT_OF_RANGE: u8 = 3;
pub const BAD_NAME: u8 = 4;
pub const TOO_MANY: u8 = 5;
pub const TRAILING: u8 = 6;

type Read<T> = Result<T, u8>;

pub struct Fields<'a>(&'a [u8]);

impl<'a> Fields<'a> {
    pub fn new(bytes: &'a [u8]) -> Fields<'a> {
        Fields(bytes)
    }

    /// A number in its shortest form. The groups are gathered in 128 bits, so none is lost.
    pub fn number(&mut self) -> Read<u64> {
        let mut value: u128 = 0;
        for (place, &byte) in self.0.iter().enumerate() {
            if place == 9 && byte > 1 {
                return Err(BAD_NUMBER);
            }
            value += u128::from(byte & 0x7f) << (7 * place);
            if byte & 0x80 == 0 {
                if place > 0 && byte == 0 {
                    return Err(BAD_NUMBER);
                }
                self.0 = &self.0[place + 1..];
                return u64::try_from(value).map_err(|_| BAD_NUMBER);
            }
        }
        Err(CUT)
    }

    /// A number of at most `most`, else the refusal given.
    fn at_most(&mut self, most: u64, refusal: u8) -> Read<u64> {
        let n = self.number()?;
        if n > most {
            return Err(refusal);
        }
        Ok(n)
    }

    fn ranged(&mut self, most: u64) -> Read<u64> {
        self.at_most(most, OUT_OF_RANGE)
    }

    fn count(&mut self, most: u64) -> Read<u64> {
        self.at_most(most, TOO_MANY)
    }

    pub fn bytes(&mut self, count: u64) -> Read<&'a [u8]> {
        let count = usize::try_from(count).map_err(|_| CUT)?;
        if count > self.0.len() {
            return Err(CUT);
        }
        let (head, tail) = self.0.split_at(count);
        self.0 = tail;
        Ok(head)
    }

    fn v4(&mut self) -> Read<Ipv4Addr> {
        let octets: [u8; 4] = self.bytes(4)?.try_into().unwrap();
        Ok(octets.into())
    }

    fn v6(&mut self) -> Read<Ipv6Addr> {
        let octets: [u8; 16] = self.bytes(16)?.try_into().unwrap();
        Ok(octets.into())
    }

    fn name(&mut self, most: u64) -> Read<String> {
        let length = self.number()?;
        if length == 0 {
            return Err(BAD_NAME);
        }
        if length > most {
            return Err(TOO_MANY);
        }
        let name = self.bytes(length)?;
        if !is_name(name) {
            return Err(BAD_NAME);
        }
        Ok(String::from_utf8(name.to_vec()).unwrap())
    }

    fn port(&mut self) -> Read<u16> {
        Ok(self.ranged(0xffff)? as u16)
    }

    fn optional_port(&mut self) -> Read<Option<u16>> {
        let n = self.ranged(0x1_0000)?;
        Ok(n.checked_sub(1).map(|port| port as u16))
    }

    fn optional_ech(&mut self) -> Read<Option<EchConfig>> {
        match self.count(513)? {
            0 => Ok(None),
            n => Ok(Some(EchConfig::new(self.bytes(n - 1)?.to_vec()))),
        }
    }

    fn many<T>(&mut self, most: u64, item: impl Fn(&mut Self) -> Read<T>) -> Read<Vec<T>> {
        let count = self.count(most)?;
        (0..count).map(|_| item(self)).collect()
    }

    fn end(&self) -> Read<()> {
        if self.0.is_empty() {
            Ok(())
        } else {
            Err(TRAILING)
        }
    }
}

fn is_name(name: &[u8]) -> bool {
    let bare = name.strip_suffix(b".").unwrap_or(name);
    let labels: Vec<&[u8]> = bare.split(|&b| b == b'.').collect();
    let sound = labels.iter().all(|label| {
        (1..=63).contains(&label.len())
            && label.iter().all(|b| b.is_ascii_alphanumeric() || b"-_".contains(b))
    });
    sound && !labels[labels.len() - 1].iter().all(u8::is_ascii_digit)
}

/// A configuration as the original takes it.
pub struct Made {
    pub host: String,
    pub is_name: bool,
    pub port: u16,
    pub network: NetworkConfig,
}

pub fn configuration(body: &[u8]) -> Read<Made> {
    let mut fields = Fields::new(body);
    let port = fields.port()?;
    let kind = fields.ranged(2)?;
    let host = match kind {
        0 => fields.name(239)?,
        1 => fields.v4()?.to_string(),
        _ => fields.v6()?.to_string(),
    };
    let versions = fields.ranged(7)?;
    let ip = match fields.ranged(3)? {
        0 => IpPreference::DualStackPreferV6,
        1 => IpPreference::DualStackPreferV4,
        2 => IpPreference::Ipv6Only,
        _ => IpPreference::Ipv4Only,
    };
    let alt_svc = fields.many(4, alternative)?;
    let resolution_delay = Duration::from_nanos(fields.number()?);
    let connection_attempt_delay = Duration::from_nanos(fields.number()?);
    let multiplier = fields.ranged(u64::from(u32::MAX))? as u32;
    let multiplier = NonZeroU32::new(multiplier).ok_or(OUT_OF_RANGE)?;
    let flags = fields.ranged(3)?;
    let resolution = match fields.ranged(2)? {
        0 => ResolutionMode::Ip,
        1 => ResolutionMode::Name,
        _ => ResolutionMode::NameWithHttpsRr,
    };
    fields.end()?;
    Ok(Made {
        host,
        is_name: kind == 0,
        port,
        network: NetworkConfig {
            http_versions: HttpVersions {
                h3: versions & 1 != 0,
                h2: versions & 2 != 0,
                h1: versions & 4 != 0,
            },
            ip,
            alt_svc,
            resolution_delay,
            connection_attempt_delay,
            connection_attempt_delay_multiplier: multiplier,
            ech: flags & 1 != 0,
            wait_for_preferred_address: flags & 2 != 0,
            resolution,
        },
    })
}

fn alternative(fields: &mut Fields) -> Read<AltSvc> {
    let host = match fields.ranged(3)? {
        0 => Some(fields.name(253)?),
        1 => Some(fields.v4()?.to_string()),
        2 => Some(fields.v6()?.to_string()),
        _ => None,
    };
    let port = fields.optional_port()?;
    let http_version = match fields.ranged(2)? {
        0 => HttpVersion::H3,
        1 => HttpVersion::H2,
        _ => HttpVersion::H1,
    };
    Ok(AltSvc { host, port, http_version })
}

/// An input body, kinds 1 to 6.
pub fn input(body: &[u8]) -> Read<Input> {
    let mut fields = Fields::new(body);
    let kind = fields.number()?;
    if !(1..=6).contains(&kind) {
        return Err(OUT_OF_RANGE);
    }
    let id = fields.number()?.into();
    let input = match kind {
        1..=3 => {
            let flags = fields.ranged(3)?;
            let failed = flags & 2 != 0;
            let result = match kind {
                1 => DnsResult::Aaaa(items(&mut fields, failed, 8, scoped)?),
                2 => DnsResult::A(items(&mut fields, failed, 8, Fields::v4)?),
                _ => DnsResult::Https(items(&mut fields, failed, 4, service)?),
            };
            Input::DnsResult { id, result, stale: flags & 1 != 0 }
        }
        _ => {
            let result = match kind {
                4 => ConnectionResult::Success,
                5 => ConnectionResult::Failure(String::new()),
                _ => {
                    let length = fields.count(512)?;
                    ConnectionResult::EchRetry(EchConfig::new(fields.bytes(length)?.to_vec()))
                }
            };
            Input::ConnectionResult { id, result }
        }
    };
    fields.end()?;
    Ok(input)
}

fn items<'a, T>(
    fields: &mut Fields<'a>,
    failed: bool,
    most: u64,
    item: impl Fn(&mut Fields<'a>) -> Read<T>,
) -> Read<Result<Vec<T>, ()>> {
    if failed {
        return Ok(Err(()));
    }
    fields.many(most, item).map(Ok)
}

fn scoped(fields: &mut Fields) -> Read<ScopedIpv6Addr> {
    let ip = fields.v6()?;
    let scope = fields.ranged(u64::from(u32::MAX))? as u32;
    Ok(ScopedIpv6Addr::new(ip, NonZeroU32::new(scope)))
}

fn service(fields: &mut Fields) -> Read<ServiceInfo> {
    let priority = fields.ranged(0xffff)? as u16;
    let name = fields.name(253)?;
    let versions = fields.ranged(7)?;
    let all = [HttpVersion::H3, HttpVersion::H2, HttpVersion::H1];
    let offered = (0..3).filter(|bit| versions >> bit & 1 == 1);
    Ok(ServiceInfo {
        priority,
        target_name: TargetName::from(name.as_str()),
        alpn_http_versions: offered.map(|bit| all[bit]).collect(),
        port: fields.optional_port()?,
        ech_config: fields.optional_ech()?,
        ipv4_hints: fields.many(4, Fields::v4)?,
        ipv6_hints: fields.many(4, Fields::v6)?,
    })
}
