// The scalars that the programs of this folder take: a fixed sequence, so that a run can be repeated.
#![allow(dead_code)]

pub type Bytes = [u8; 32];

// splitmix64
pub struct Random(pub u64);

impl Random {
    pub fn word(&mut self) -> u64 {
        self.0 = self.0.wrapping_add(0x9e37_79b9_7f4a_7c15);
        let mut z = self.0;
        z = (z ^ (z >> 30)).wrapping_mul(0xbf58_476d_1ce4_e5b9);
        z = (z ^ (z >> 27)).wrapping_mul(0x94d0_49bb_1331_11eb);
        z ^ (z >> 31)
    }

    pub fn bytes(&mut self) -> Bytes {
        let mut b = [0; 32];
        for k in 0..4 {
            b[8 * k..8 * k + 8].copy_from_slice(&self.word().to_le_bytes());
        }
        b
    }

    // One to four bits set.
    pub fn few_ones(&mut self) -> Bytes {
        let mut b = [0; 32];
        for _ in 0..1 + self.word() % 4 {
            let i = self.word() as usize % 256;
            b[i / 8] |= 1 << (i % 8);
        }
        b
    }

    // One to four bits clear.
    pub fn few_zeros(&mut self) -> Bytes {
        self.few_ones().map(|b| !b)
    }

    // An Ed25519 secret: bits 0 to 2 and 255 clear, bit 254 set.
    pub fn clamped(&mut self) -> Bytes {
        let mut b = self.bytes();
        b[0] &= 248;
        b[31] = b[31] & 127 | 64;
        b
    }
}

// The integer below 2^255 that the lower 255 bits make.
pub fn below_2_255(mut b: Bytes) -> Bytes {
    b[31] &= 127;
    b
}

fn from_hex(big_endian: &str) -> Bytes {
    let mut b = [0; 32];
    for k in 0..32 {
        b[31 - k] = u8::from_str_radix(&big_endian[2 * k..2 * k + 2], 16).unwrap();
    }
    b
}

fn plus(mut b: Bytes, add: bool) -> Bytes {
    for byte in b.iter_mut() {
        let (next, over) = if add { byte.overflowing_add(1) } else { byte.overflowing_sub(1) };
        *byte = next;
        if !over {
            break;
        }
    }
    b
}

// At widths 2 to 8, the smallest integer whose carry the original's non_adjacent_form loses (tools/check-findings finds them).
pub const SMALLEST_LOST: [&str; 7] = [
    "aaaaaaaaaaaaaaaaaaaaaaaaaaaaaaaaaaaaaaaaaaaaaaaaaaaaaaaaaaaaaaab",
    "924924924924924924924924924924924924924924924924924924924924924a",
    "8888888888888888888888888888888888888888888888888888888888888889",
    "8421084210842108421084210842108421084210842108421084210842108422",
    "8208208208208208208208208208208208208208208208208208208208208210",
    "8102040810204081020408102040810204081020408102040810204081020410",
    "8080808080808080808080808080808080808080808080808080808080808081",
];

// The smallest integer whose last digit the original's as_radix_16 makes 9: 8 and 63 digits of 7, and 1 more.
pub const SMALLEST_LAST_9: &str = "8777777777777777777777777777777777777777777777777777777777777778";

// The integers 0 to 4095; 2^k and both its neighbours; one byte 32 times; the group order, the field's prime and the integers above,
// with both neighbours of each.
pub fn edges() -> Vec<Bytes> {
    let mut all = Vec::new();
    for x in 0..4096u32 {
        let mut b = [0; 32];
        b[..4].copy_from_slice(&x.to_le_bytes());
        all.push(b);
    }
    let mut centres: Vec<Bytes> = (0..256).map(|k| std::array::from_fn(|i| if i == k / 8 { 1 << (k % 8) } else { 0 })).collect();
    centres.push([0; 32]);
    centres.push(from_hex("1000000000000000000000000000000014def9dea2f79cd65812631a5cf5d3ed"));
    centres.push(from_hex("7fffffffffffffffffffffffffffffffffffffffffffffffffffffffffffffed"));
    centres.push(from_hex(SMALLEST_LAST_9));
    centres.extend(SMALLEST_LOST.iter().map(|h| from_hex(h)));
    for c in centres {
        all.extend([plus(c, false), c, plus(c, true)]);
    }
    all.extend((0..=255).map(|b| [b; 32]));
    all
}
