//! What happened to a refused bank, from its bytes.
use crate::{crc, header};
use lifted::cache::{
    BANK_SIZE,
    door::{self, SECTOR, get},
};

const MAGIC: &[u8] = b"TTFC";
const DATA_CRC: std::ops::Range<usize> = 16..20;
const SEAL: std::ops::Range<usize> = 40..48;
const RECORDS: usize = 48;
const SOURCES: usize = 3;
const NO_WORD: u32 = u32::MAX;
const ERASED: u8 = 255;

fn is_erased(bytes: &[u8]) -> bool {
    bytes.iter().all(|b| *b == ERASED)
}

fn sectors(bank: &[u8]) -> std::slice::Chunks<'_, u8> {
    bank.chunks(SECTOR as usize)
}

/// The CRC of a header with another CRC of the data in it.
pub fn header_crc_with(bank: &[u8], data: u32) -> u32 {
    let mut bytes = bank[..SECTOR as usize].to_vec();
    bytes[DATA_CRC].copy_from_slice(&data.to_le_bytes());
    header_crc(&bytes)
}

fn header_crc(bank: &[u8]) -> u32 {
    // A version that isn't known has the records of the nearest one.
    let size = door::source_size(get(bank, 4).clamp(1, 3));
    let mut bytes = bank[..RECORDS + SOURCES * size].to_vec();
    bytes[SEAL].fill(0);
    crc(&bytes)
}

/// What is said beside a refusal.
pub fn words(bank: &[u8], refusal: u32) -> String {
    let (magic, version, word) = (bank.starts_with(MAGIC), get(bank, 4), get(bank, 44));
    let (stored, computed) = (get(bank, 40), header_crc(bank));
    let sealed = stored == computed;
    let last = sectors(bank).rposition(|s| !is_erased(s));
    let (state, whole) = match refusal {
        4 => ("committed, header damaged", false),
        5 => ("sealed, a number of the header out of its range", false),
        6 => ("sealed, a source's record out of its range", false),
        7 => ("sealed, data damaged", true),
        _ if last.is_none() => return "erased".into(),
        _ if is_erased(&bank[..SECTOR as usize]) => {
            return format!(
                "header erased, bytes written up to sector {} of {}",
                last.unwrap_or(0),
                BANK_SIZE / SECTOR - 1
            );
        }
        _ if word == door::COMMIT && !magic => ("committed, magic damaged", false),
        _ if word == door::COMMIT => ("committed, version not known", false),
        _ if !magic || !(1..=3).contains(&version) || !sealed => {
            ("header not whole, commit word missing", false)
        }
        _ if word == NO_WORD => ("header written, commit word missing", true),
        _ => ("header written, commit word not whole", true),
    };
    let data = &bank[SECTOR as usize..];
    let length = data.len().min(get(bank, 12) as usize);
    let data_crc =
        if whole { format!(", computed data crc {:08x}", crc(&data[..length])) } else { "".into() };
    format!(
        "{state}; not trusted: {}{data_crc}, header crc {stored:08x}, computed header crc {computed:08x}",
        header(bank)
    )
}
