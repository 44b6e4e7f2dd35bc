//! The seals that source document 002 prints.

use crate::seal::MARKER;
use crate::tlv::tlv;

/// Section 8: header and message zone of an emergency document, without a signature. Version octet 03 stands over the
/// header that table 1 gives version octet 02.
pub const EMERGENCY: &str = "dc03d9c5d9ad224c5a8c7b52607b79675e03\
    02308a1bd2b3c549cd1da93c5bd458135c6f57fc133c133c133c6b38208a4d0d4a32b0c11ae62684203532d251bc133c1343";

/// Section 7: a visa, with its signature. As for the version octet, so here.
pub const VISA: &str = "dc03d9c56d15224c5a8c319f2731c6375d01\
    022cdd52134a74da1347c6fed95cb89f9fce133c133c133c133c203833734aaf47f0c32f1a1e20eb2625393afe31\
    03010204035a0000050659e932f926c7ff40\
    56bcbfedfd2dc884247426a240a7068d32b37c6ce370aeeab62b548b5fcc16fa\
    6a098ca74cb22559435fd4dbde709b45f6fc4c850da421a6e75cd05a88707cbb";

/// Section 8's with version octet 02 and a signature of 64 octets behind, and so a sound seal: 134 octets, the text's
/// feature at 18 and FF at 68.
pub fn signed() -> Vec<u8> {
    [octets(EMERGENCY, 0x02), tlv(&[MARKER], &[7; 64])].concat()
}

/// The octets of one of them, with the version octet that is wanted.
pub fn octets(hex: &str, version: u8) -> Vec<u8> {
    let pairs = (0..hex.len()).step_by(2);
    let mut octets: Vec<u8> = pairs.map(|at| u8::from_str_radix(&hex[at..at + 2], 16).expect("hex")).collect();
    octets[1] = version;
    octets
}
