//! X25519 (RFC 7748) with five limbs of 51 bits. Licence: public domain (CC0).
#![no_std]
use blade_labels::secret_memory;
use routines as _;

secret_memory!();

type Field = [u64; 5];
const MASK: u64 = (1 << 51) - 1;

fn add(a: &Field, b: &Field) -> Field {
    [a[0] + b[0], a[1] + b[1], a[2] + b[2], a[3] + b[3], a[4] + b[4]]
}

/// Two times the prime is added, so that no limb gets negative.
fn sub(a: &Field, b: &Field) -> Field {
    const TWICE: Field = [0xfffffffffffda, 0xffffffffffffe, 0xffffffffffffe, 0xffffffffffffe, 0xffffffffffffe];
    carried([
        u128::from(a[0] + TWICE[0] - b[0]),
        u128::from(a[1] + TWICE[1] - b[1]),
        u128::from(a[2] + TWICE[2] - b[2]),
        u128::from(a[3] + TWICE[3] - b[3]),
        u128::from(a[4] + TWICE[4] - b[4]),
    ])
}

fn carried(wide: [u128; 5]) -> Field {
    let mut made = [0; 5];
    let mut carry = 0;
    for at in 0..5 {
        let sum = wide[at] + carry;
        made[at] = sum as u64 & MASK;
        carry = sum >> 51;
    }
    made[0] += carry as u64 * 19;
    made[1] += made[0] >> 51;
    made[0] &= MASK;
    made
}

fn mul(a: &Field, b: &Field) -> Field {
    let times = |x: u64, y: u64| u128::from(x) * u128::from(y);
    let c = [b[0], b[1] * 19, b[2] * 19, b[3] * 19, b[4] * 19];
    carried([
        times(a[0], b[0]) + times(a[1], c[4]) + times(a[2], c[3]) + times(a[3], c[2]) + times(a[4], c[1]),
        times(a[0], b[1]) + times(a[1], b[0]) + times(a[2], c[4]) + times(a[3], c[3]) + times(a[4], c[2]),
        times(a[0], b[2]) + times(a[1], b[1]) + times(a[2], b[0]) + times(a[3], c[4]) + times(a[4], c[3]),
        times(a[0], b[3]) + times(a[1], b[2]) + times(a[2], b[1]) + times(a[3], b[0]) + times(a[4], c[4]),
        times(a[0], b[4]) + times(a[1], b[3]) + times(a[2], b[2]) + times(a[3], b[1]) + times(a[4], b[0]),
    ])
}

fn swap(a: &mut Field, b: &mut Field, bit: u64) {
    let mask = bit.wrapping_neg();
    for at in 0..5 {
        let both = (a[at] ^ b[at]) & mask;
        a[at] ^= both;
        b[at] ^= both;
    }
}

/// The power p - 2: all bits of the exponent are set but those of numbers 2 and 4.
fn inverse(a: &Field) -> Field {
    let mut made = *a;
    for bit in (0..254).rev() {
        made = mul(&made, &made);
        if bit != 2 && bit != 4 {
            made = mul(&made, a);
        }
    }
    made
}

fn read(bytes: &[u8; 32]) -> Field {
    let word = |at: usize| {
        let b = &bytes[at..at + 8];
        u64::from_le_bytes([b[0], b[1], b[2], b[3], b[4], b[5], b[6], b[7]])
    };
    [word(0) & MASK, word(6) >> 3 & MASK, word(12) >> 6 & MASK, word(19) >> 1 & MASK, word(24) >> 12 & MASK]
}

fn write(out: &mut [u8; 32], value: &Field) {
    let mut a = carried([value[0].into(), value[1].into(), value[2].into(), value[3].into(), value[4].into()]);
    // 1 where the number isn't below the prime.
    let mut over = (a[0] + 19) >> 51;
    for limb in &a[1..] {
        over = (limb + over) >> 51;
    }
    a[0] += 19 * over;
    for at in 0..4 {
        a[at + 1] += a[at] >> 51;
        a[at] &= MASK;
    }
    a[4] &= MASK;
    let words = [a[0] | a[1] << 51, a[1] >> 13 | a[2] << 38, a[2] >> 26 | a[3] << 25, a[3] >> 39 | a[4] << 12];
    for (at, word) in words.iter().enumerate() {
        out[8 * at..8 * at + 8].copy_from_slice(&word.to_le_bytes());
    }
}

#[no_mangle]
pub extern "C" fn x25519(out: &mut [u8; 32], scalar: &[u8; 32], point: &[u8; 32]) {
    let mut key = *scalar;
    key[0] &= 248;
    key[31] = key[31] & 127 | 64;
    let x = read(point);
    let (mut x2, mut z2, mut x3, mut z3) = ([1, 0, 0, 0, 0], [0; 5], x, [1, 0, 0, 0, 0]);
    let mut before = 0;
    for at in (0..255).rev() {
        let bit = u64::from(key[at / 8] >> (at % 8) & 1);
        swap(&mut x2, &mut x3, bit ^ before);
        swap(&mut z2, &mut z3, bit ^ before);
        before = bit;
        let (a, b) = (add(&x2, &z2), sub(&x2, &z2));
        let (aa, bb) = (mul(&a, &a), mul(&b, &b));
        let e = sub(&aa, &bb);
        let (da, cb) = (mul(&sub(&x3, &z3), &a), mul(&add(&x3, &z3), &b));
        let (sum, difference) = (add(&da, &cb), sub(&da, &cb));
        x3 = mul(&sum, &sum);
        z3 = mul(&x, &mul(&difference, &difference));
        x2 = mul(&aa, &bb);
        z2 = mul(&e, &add(&aa, &mul(&[121665, 0, 0, 0, 0], &e)));
    }
    swap(&mut x2, &mut x3, before);
    swap(&mut z2, &mut z3, before);
    write(out, &mul(&x2, &inverse(&z2)));
}
