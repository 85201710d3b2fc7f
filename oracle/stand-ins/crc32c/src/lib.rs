//! Stands for the crate `crc32c`, to which crc32c.rs hands every CRC. It does touch answers, so it is the
//! published algorithm bit by bit (RFC 3720: polynomial 0x1EDC6F41, reflected, start and end inverted), and the
//! RFC's vectors are tested below and by `oracle/selfcheck`.

/// The polynomial, reflected.
const POLYNOMIAL: u32 = 0x82F6_3B78;

/// What eight bits of a register's low byte do to it.
const TABLE: [u32; 256] = table();

const fn table() -> [u32; 256] {
    let mut table = [0; 256];
    let mut byte = 0;
    while byte < 256 {
        let mut register = byte as u32;
        let mut bit = 0;
        while bit < 8 {
            let out = register & 1;
            register >>= 1;
            if out == 1 {
                register ^= POLYNOMIAL;
            }
            bit += 1;
        }
        table[byte] = register;
        byte += 1;
    }
    table
}

/// The CRC of some bytes.
#[must_use]
pub fn crc32c(data: &[u8]) -> u32 {
    crc32c_append(0, data)
}

/// The CRC of the bytes whose CRC is `crc` and of `data` behind them.
#[must_use]
pub fn crc32c_append(crc: u32, data: &[u8]) -> u32 {
    let step = |register: u32, &byte: &u8| TABLE[usize::from(register as u8 ^ byte)] ^ (register >> 8);
    !data.iter().fold(!crc, step)
}

#[cfg(test)]
mod tests {
    use super::{crc32c, crc32c_append};

    /// RFC 3720, B.4, 'An iSCSI - SCSI Read (10) Command PDU'.
    const READ_COMMAND: [u8; 48] = [
        0x01, 0xc0, 0x00, 0x00, 0x00, 0x00, 0x00, 0x00, 0x00, 0x00, 0x00, 0x00, 0x00, 0x00, 0x00, 0x00, 0x14, 0x00,
        0x00, 0x00, 0x00, 0x00, 0x04, 0x00, 0x00, 0x00, 0x00, 0x14, 0x00, 0x00, 0x00, 0x18, 0x28, 0x00, 0x00, 0x00,
        0x00, 0x00, 0x00, 0x00, 0x02, 0x00, 0x00, 0x00, 0x00, 0x00, 0x00, 0x00,
    ];

    #[test]
    fn vectors_of_rfc_3720() {
        let rising: Vec<u8> = (0..32).collect();
        let falling: Vec<u8> = (0..32).rev().collect();
        assert_eq!(crc32c(&[0; 32]), 0x8A91_36AA);
        assert_eq!(crc32c(&[0xFF; 32]), 0x62A8_AB43);
        assert_eq!(crc32c(&rising), 0x46DD_794E);
        assert_eq!(crc32c(&falling), 0x113F_DB5C);
        assert_eq!(crc32c(&READ_COMMAND), 0xD996_3A56);
        assert_eq!(crc32c(b"123456789"), 0xE306_9283);
        assert_eq!(crc32c(b""), 0);
    }

    #[test]
    fn parts_give_the_whole() {
        for cut in 0..READ_COMMAND.len() {
            let (first, rest) = READ_COMMAND.split_at(cut);
            assert_eq!(crc32c_append(crc32c(first), rest), 0xD996_3A56);
        }
    }
}
