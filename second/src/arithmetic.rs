//! The value rules of arithmetic and of the flags, apart from the instructions that use them
//! (document 01, "What a step does").

/// SR bits: "Z 0, C 1, V 2, P 3, S 4, H 5".
pub const Z: u16 = 1;
pub const C: u16 = 1 << 1;
pub const V: u16 = 1 << 2;
pub const P: u16 = 1 << 3;
pub const S: u16 = 1 << 4;
pub const H: u16 = 1 << 5;

/// The bits a program may set: 0..4.
pub const WRITABLE: u16 = Z | C | V | P | S;

/// A 16-bit result with the two flags that it alone does not determine.
#[derive(Clone, Copy, Debug, PartialEq, Eq)]
pub struct Outcome {
    pub value: u16,
    pub carry: bool,
    pub overflow: bool,
}

impl Outcome {
    /// The five flags: "Z, S, P (odd ones) from the 16-bit result".
    pub fn flags(&self) -> u16 {
        let bit = |condition: bool, flag: u16| if condition { flag } else { 0 };
        bit(self.value == 0, Z)
            | bit(self.carry, C)
            | bit(self.overflow, V)
            | bit(self.value.count_ones() % 2 == 1, P)
            | bit(self.value & 0x8000 != 0, S)
    }
}

fn signed(cell: u16) -> i32 {
    i32::from(cell as i16)
}

fn leaves_16_bits(exact: i32) -> bool {
    !(-32_768..=32_767).contains(&exact)
}

/// "ADD: C if the unsigned result passes 65535, V if the signed one leaves 16 bits."
pub fn add(a: u16, b: u16) -> Outcome {
    let (value, carry) = a.overflowing_add(b);
    Outcome { value, carry, overflow: leaves_16_bits(signed(a) + signed(b)) }
}

/// "SUB, CMP: C if unsigned op1 < op2, V if the signed difference leaves 16 bits."
pub fn sub(a: u16, b: u16) -> Outcome {
    let (value, carry) = a.overflowing_sub(b);
    Outcome { value, carry, overflow: leaves_16_bits(signed(a) - signed(b)) }
}

/// MUL takes C from the unsigned and V from the signed product.
pub fn mul(a: u16, b: u16) -> Outcome {
    let unsigned = u32::from(a) * u32::from(b);
    Outcome {
        value: unsigned as u16,
        carry: unsigned > 65_535,
        overflow: leaves_16_bits(signed(a) * signed(b)),
    }
}

/// "The quotient is signed and cut toward zero; C is 0; V is 1 only at -32768/-1."
/// Nothing for a zero divisor.
pub fn div(a: u16, b: u16) -> Option<Outcome> {
    let quotient = signed(a).checked_div(signed(b))?;
    Some(Outcome { value: quotient as u16, carry: false, overflow: leaves_16_bits(quotient) })
}

/// "MOD takes the dividend's sign; C is 0 for both."
pub fn modulo(a: u16, b: u16) -> Option<Outcome> {
    let remainder = signed(a).checked_rem(signed(b))?;
    Some(Outcome { value: remainder as u16, carry: false, overflow: false })
}
