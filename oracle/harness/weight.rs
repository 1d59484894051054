// One weight from one draw, by the rule of oracle/README.md: for the harness and for oracle/doors.
const FRACTION: u64 = (1 << 52) - 1;
const SIGN: u64 = 1 << 63;

/// How a kind of weights draws: the lowest exponent field, how many follow from it, one special in so many (0: none).
pub struct Kind {
    lowest: u64,
    exponents: u64,
    special_in: u64,
}

pub const KINDS: [Kind; 6] = [
    Kind { lowest: 0, exponents: 1, special_in: 0 }, // kind 0, the shipped weights, draws nothing
    Kind { lowest: 1019, exponents: 16, special_in: 0 },
    Kind { lowest: 0, exponents: 2047, special_in: 64 },
    Kind { lowest: 0, exponents: 1, special_in: 0 },
    Kind { lowest: 2034, exponents: 4, special_in: 0 },
    Kind { lowest: 1019, exponents: 16, special_in: 256 },
];

/// The special weights as bit patterns; place 0 is the NaN.
const SPECIALS: [u64; 16] = [
    0x7FF8_0000_0000_0000,
    0x7FF0_0000_0000_0000,
    0xFFF0_0000_0000_0000,
    0x0000_0000_0000_0000,
    0x8000_0000_0000_0000,
    0x0000_0000_0000_0001,
    0x8000_0000_0000_0001,
    0x000F_FFFF_FFFF_FFFF,
    0x800F_FFFF_FFFF_FFFF,
    0x0010_0000_0000_0000,
    0x8010_0000_0000_0000,
    0x7FEF_FFFF_FFFF_FFFF,
    0xFFEF_FFFF_FFFF_FFFF,
    0x3FF0_0000_0000_0000,
    0x3FF0_0000_0000_0001,
    0xBFEF_FFFF_FFFF_FFFF,
];

pub fn weight(kind: &Kind, draw: u64) -> f64 {
    if kind.special_in > 0 && draw % kind.special_in == 0 {
        return f64::from_bits(SPECIALS[(draw >> 16) as usize % 16]);
    }
    let exponent = kind.lowest + ((draw >> 52) & 2047) % kind.exponents;
    f64::from_bits(draw & SIGN | exponent << 52 | draw & FRACTION)
}
