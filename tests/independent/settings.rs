//! Settings and control words. Document 01, "Settings and control word".

/// "A word W is Fin/Fout times 2^32, from 1 to 2^34."
pub const LARGEST_WORD: u64 = 1 << 34;

/// "A setting arrives as a word, as a measured ratio in a 64-bit float, or as two rates in whole
/// hertz." A ratio is carried as the bits of the float, so that every NaN stays what it is.
#[derive(Clone, Copy, Debug)]
pub enum Setting {
    Word(u64),
    Ratio(u64),
    Rates(u32, u32),
}

/// The word of a setting, or the refusal: 2, 3 or 4.
pub fn word(setting: Setting) -> Result<u64, u32> {
    let word = match setting {
        Setting::Word(word) => word as u128,
        Setting::Ratio(bits) => ratio_word(bits)?,
        Setting::Rates(fin, fout) => rates_word(fin, fout)?,
    };
    // "4: word 0 or above 2^34, after rounding"
    if word == 0 || word > LARGEST_WORD as u128 {
        return Err(4);
    }
    Ok(word as u64)
}

/// "A ratio is multiplied by 2^32 exactly, then rounded to the nearest whole number, halves
/// upward." The float is mantissa times 2^power, whole numbers both.
fn ratio_word(bits: u64) -> Result<u128, u32> {
    let negative = bits >> 63 == 1;
    let exponent = (bits >> 52 & 0x7ff) as i32;
    let digits = (bits & ((1 << 52) - 1)) as u128;
    // "2: ratio not finite, or below zero (minus zero is zero)"
    if exponent == 0x7ff || negative && (exponent, digits) != (0, 0) {
        return Err(2);
    }
    let (mantissa, power) = match exponent {
        0 => (digits, -1074),
        _ => (digits + (1 << 52), exponent - 1075),
    };
    let power = power + 32;
    if power >= 64 {
        // A mantissa with such an exponent has its top digit: the product is 2^116 or more.
        return Ok(u128::MAX);
    }
    if power >= 0 {
        return Ok(mantissa << power);
    }
    if power < -64 {
        // The product is below 2^53 / 2^65, less than a half.
        return Ok(0);
    }
    Ok((mantissa + (1 << (-power - 1))) >> -power)
}

/// "Rates give Fin times 2^32 / Fout, rounded the same way." The nearest whole number of a
/// quotient a/c, halves upward, is floor((2a + c)/2c).
fn rates_word(fin: u32, fout: u32) -> Result<u128, u32> {
    // "3: output rate 0"
    if fout == 0 {
        return Err(3);
    }
    let product = (fin as u128) << 32;
    let divisor = fout as u128;
    Ok((2 * product + divisor) / (2 * divisor))
}
