//! The fifteen marks as pairs of bytes read as one number, high byte first.

pub const CN: u16 = u16::from_be_bytes(*b"CN");
pub const FN: u16 = u16::from_be_bytes(*b"FN");
pub const BD: u16 = u16::from_be_bytes(*b"BD");
pub const ND: u16 = u16::from_be_bytes(*b"ND");
pub const GV: u16 = u16::from_be_bytes(*b"GV");
pub const AT: u16 = u16::from_be_bytes(*b"AT");
pub const MK: u16 = u16::from_be_bytes(*b"MK");
pub const CL: u16 = u16::from_be_bytes(*b"CL");
pub const TL: u16 = u16::from_be_bytes(*b"TL");
pub const OP: u16 = u16::from_be_bytes(*b"OP");
pub const LK: u16 = u16::from_be_bytes(*b"LK");
pub const BR: u16 = u16::from_be_bytes(*b"BR");
pub const NU: u16 = u16::from_be_bytes(*b"NU");
pub const AR: u16 = u16::from_be_bytes(*b"AR");
pub const IF: u16 = u16::from_be_bytes(*b"IF");
