//! The checks of a frame by tables: TF018 eight bytes a step, TF006 a byte a step. The register of
//! TF018 lies at the top of 32 bits whatever its width, so that one loop serves all four types.

const POLYNOMIALS: [u32; 4] = [0x07 << 24, 0x1021 << 16, 0x864CFB << 8, 0x04C11DB7];

/// Table k of a type: a byte with k zero bytes behind it.
const fn tables(polynomial: u32) -> [[u32; 256]; 8] {
    let mut tables = [[0; 256]; 8];
    let mut byte = 0;
    while byte < 256 {
        let mut register = (byte as u32) << 24;
        let mut bit = 0;
        while bit < 8 {
            let out = register >> 31 == 1;
            register = if out { register << 1 ^ polynomial } else { register << 1 };
            bit += 1;
        }
        tables[0][byte] = register;
        byte += 1;
    }
    let mut k = 1;
    while k < 8 {
        let mut byte = 0;
        while byte < 256 {
            let before = tables[k - 1][byte];
            tables[k][byte] = before << 8 ^ tables[0][(before >> 24) as usize];
            byte += 1;
        }
        k += 1;
    }
    tables
}

static TABLES: [[[u32; 256]; 8]; 4] = [
    tables(POLYNOMIALS[0]),
    tables(POLYNOMIALS[1]),
    tables(POLYNOMIALS[2]),
    tables(POLYNOMIALS[3]),
];

/// TF018 of a type over the bytes.
pub fn message(kind: usize, data: &[u8]) -> u32 {
    let kind = kind & 3;
    let t = &TABLES[kind];
    let ones = if kind == 3 { !0 } else { 0 };
    let mut register: u32 = ones;
    let (steps, rest) = data.as_chunks::<8>();
    for s in steps {
        let x = register ^ u32::from_be_bytes([s[0], s[1], s[2], s[3]]);
        register = t[7][(x >> 24) as usize]
            ^ t[6][(x >> 16 & 255) as usize]
            ^ t[5][(x >> 8 & 255) as usize]
            ^ t[4][(x & 255) as usize]
            ^ t[3][s[4] as usize]
            ^ t[2][s[5] as usize]
            ^ t[1][s[6] as usize]
            ^ t[0][s[7] as usize];
    }
    for &byte in rest {
        register = register << 8 ^ t[0][((register >> 24) as u8 ^ byte) as usize];
    }
    (register ^ ones) >> (24 - 8 * kind)
}

/// The register of TF006 after a byte, its bits in the order in which they are sent.
const fn header_table() -> [u8; 256] {
    let mut table = [0; 256];
    let mut byte = 0;
    while byte < 256 {
        let mut register = byte as u8;
        let mut bit = 0;
        while bit < 8 {
            register = if register & 1 == 1 { register >> 1 ^ 0x9 } else { register >> 1 };
            bit += 1;
        }
        table[byte] = register;
        byte += 1;
    }
    table
}

static HEADER: [u8; 256] = header_table();

/// TF006 of the bytes 1 to 3 of a frame, the last one without its own four bits.
pub fn header(a: u8, b: u8, c: u8) -> u8 {
    let two = HEADER[(HEADER[a as usize] ^ b) as usize];
    HEADER[(two ^ c) as usize]
}
