//! Makes a transport stream for the benchmark: sections of 4,096 bytes on one PID among stuffing packets.
//! usage: make_stream FILE MEGABYTES
use std::fs::File;
use std::io::{BufWriter, Write};

fn crc_table() -> [u32; 256] {
    let mut table = [0u32; 256];
    for (n, entry) in table.iter_mut().enumerate() {
        let mut r = (n as u32) << 24;
        for _ in 0..8 {
            r = if r & 0x8000_0000 != 0 { r << 1 ^ 0x04C1_1DB7 } else { r << 1 };
        }
        *entry = r;
    }
    table
}

fn main() {
    let mut args = std::env::args().skip(1);
    let path = args.next().expect("usage: make_stream FILE MEGABYTES");
    let megabytes: usize = args.next().expect("usage: make_stream FILE MEGABYTES").parse().unwrap();
    let table = crc_table();
    let mut out = BufWriter::with_capacity(1 << 20, File::create(path).unwrap());
    let packets = megabytes * 1_000_000 / 188;
    let (mut written, mut counter, mut seed, mut number) = (0, 0u8, 1u32, 0u16);
    let mut stuffing = [0xFFu8; 188];
    stuffing[..4].copy_from_slice(&[0x47, 0x1F, 0xFF, 0x10]);
    while written < packets {
        // a section of 4,096 bytes in the long form, table_id 0x80
        let mut section = vec![0x80, 0xBF, 0xFD, (number >> 8) as u8, number as u8, 0xC1, 0, 0];
        number = number.wrapping_add(1);
        while section.len() < 4092 {
            seed = seed.wrapping_mul(1_664_525).wrapping_add(1_013_904_223);
            section.push((seed >> 24) as u8);
        }
        let crc = section.iter().fold(0xFFFF_FFFFu32, |r, b| r << 8 ^ table[(r >> 24) as usize ^ *b as usize]);
        section.extend_from_slice(&crc.to_be_bytes());
        let mut at = 0;
        let mut first = true;
        while at < section.len() && written < packets {
            let mut packet = [0xFFu8; 188];
            packet[..4].copy_from_slice(&[0x47, if first { 0x41 } else { 0x01 }, 0x00, 0x10 | counter]);
            counter = (counter + 1) % 16;
            let from = if first { packet[4] = 0; 5 } else { 4 };
            let len = (188 - from).min(section.len() - at);
            packet[from..from + len].copy_from_slice(&section[at..at + len]);
            at += len;
            first = false;
            out.write_all(&packet).unwrap();
            written += 1;
            // one stuffing packet after every third packet of the section
            if written % 4 == 3 && written < packets {
                out.write_all(&stuffing).unwrap();
                written += 1;
            }
        }
    }
    out.flush().unwrap();
}
