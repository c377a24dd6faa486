//! Document 01, "Sizes", and the ranges of "Numbers and bodies".

// "Query records 16, attempts 32"
pub const QUERIES: usize = 16;
pub const ATTEMPTS: usize = 32;
// "alternative services 4"
pub const ALTERNATIVES: u64 = 4;
// "addresses in an answer 8"
pub const ADDRESSES: u64 = 8;
// "services in an HTTPS answer 4"
pub const SERVICES: u64 = 4;
// "hints of each family 4"
pub const HINTS: u64 = 4;
// "ECH bytes 512"
pub const ECH_BYTES: u64 = 512;
// "name 1 to 253 bytes"
pub const NAME_BYTES: u64 = 253;
// "origin name at most 239 (the prefix `_65535._https.` adds 14)"
pub const ORIGIN_BYTES: u64 = 239;
// "body at most 4,096 bytes"
pub const BODY_BYTES: u64 = 4_096;

// "Ports and priorities are below 2^16"
pub const MOST_PORT: u64 = 0xFFFF;
pub const MOST_PRIORITY: u64 = (1 << 16) - 1;
// "port (0 none, else port+1)"
pub const MOST_PORT_FIELD: u64 = 65_536;
// "scope (0 none, below 2^32)"
pub const MOST_SCOPE: u64 = (1 << 32) - 1;
// "multiplier 1 to 2^32-1"
pub const MOST_MULTIPLIER: u64 = 0xFFFF_FFFF;
// "versions (bit 0 H3, bit 1 H2, bit 2 H1)"
pub const MOST_VERSIONS: u64 = 7;
// "flags 0 to 3 (bit 0 stale, bit 1 failed)"
pub const MOST_ANSWER_FLAGS: u64 = 3;
// "flags bit 0 `ech`, bit 1 `wait_for_preferred_address`"
pub const MOST_CONFIGURATION_FLAGS: u64 = 0b11;
// "preference 0 to 3"
pub const MOST_PREFERENCE: u64 = 0x3;
// "mode 0 to 2"
pub const MOST_MODE: u64 = 2;
// "version 0 to 2 (H3, H2, H1)"
pub const MOST_VERSION: u64 = 0x2;
// "host 0 name (length, bytes), 1 IPv4, 2 IPv6"
pub const MOST_ORIGIN_HOST: u64 = 0b10;
// "each host (0 to 2 as above, 3 none)"
pub const MOST_ALTERNATIVE_HOST: u64 = 0x03;
