//! The job of `ssu FOLDER hear PID` in plain Rust: reads of 1 MiB, eight CRC tables, no crates.
//! With the word 16 it has sixteen tables, and takes in the bytes first that do not wait for the register.
//! usage: plain_hear FILE PID [16] > SECTIONS
use std::convert::TryInto;
use std::fs::File;
use std::io::{Read, Write};

fn tables() -> Vec<[u32; 256]> {
    let mut tables = vec![[0u32; 256]; 16];
    for n in 0..256 {
        let mut r = (n as u32) << 24;
        for _ in 0..8 {
            r = if r & 0x8000_0000 != 0 { r << 1 ^ 0x04C1_1DB7 } else { r << 1 };
        }
        tables[0][n] = r;
    }
    for k in 1..16 {
        for n in 0..256 {
            let r = tables[k - 1][n];
            tables[k][n] = r << 8 ^ tables[0][(r >> 24) as usize];
        }
    }
    tables
}

fn crc(t: &[[u32; 256]], bytes: &[u8]) -> u32 {
    let mut r = 0xFFFF_FFFFu32;
    let mut chunks = bytes.chunks_exact(8);
    for c in &mut chunks {
        let a = r ^ u32::from_be_bytes([c[0], c[1], c[2], c[3]]);
        r = t[7][(a >> 24) as usize] ^ t[6][(a >> 16 & 255) as usize] ^ t[5][(a >> 8 & 255) as usize]
            ^ t[4][(a & 255) as usize] ^ t[3][c[4] as usize] ^ t[2][c[5] as usize] ^ t[1][c[6] as usize]
            ^ t[0][c[7] as usize];
    }
    for b in chunks.remainder() {
        r = r << 8 ^ t[0][(r >> 24) as usize ^ *b as usize];
    }
    r
}

fn crc_by_sixteen(t: &[[u32; 256]; 16], bytes: &[u8]) -> u32 {
    let mut r = 0xFFFF_FFFFu32;
    let mut chunks = bytes.chunks_exact(16);
    for c in &mut chunks {
        let mut ready = 0;
        for k in 4..16 {
            ready ^= t[15 - k][c[k] as usize];
        }
        let a = r ^ u32::from_be_bytes([c[0], c[1], c[2], c[3]]);
        r = ready ^ t[15][(a >> 24) as usize] ^ t[14][(a >> 16 & 255) as usize] ^ t[13][(a >> 8 & 255) as usize]
            ^ t[12][(a & 255) as usize];
    }
    for b in chunks.remainder() {
        r = r << 8 ^ t[0][(r >> 24) as usize ^ *b as usize];
    }
    r
}

struct Hearer {
    tables: Vec<[u32; 256]>,
    by_sixteen: bool,
    last: Option<(u8, bool, Vec<u8>)>,
    text: Vec<u8>,
    open: bool,
    out: Vec<u8>,
}

impl Hearer {
    fn right(&self, s: &[u8]) -> bool {
        let length = s.len() - 3;
        if s[0] == 0x70 {
            return s[1] & 0x80 == 0 && length == 5;
        }
        let fits = if s[1] & 0x80 != 0 { (9..=4093).contains(&length) && s[5] & 1 == 1 } else { (4..=4093).contains(&length) };
        fits && 0 == if self.by_sixteen { crc_by_sixteen(self.tables[..].try_into().unwrap(), s) } else { crc(&self.tables, s) }
    }

    /// Puts the section out if the open text is whole; true if it was.
    fn whole(&mut self) -> Option<usize> {
        if self.text.len() < 3 {
            return None;
        }
        let end = 3 + ((self.text[1] as usize & 15) << 8 | self.text[2] as usize);
        if self.text.len() < end {
            return None;
        }
        if self.right(&self.text[..end]) {
            self.out.extend_from_slice(&self.text[..end]);
        }
        Some(end)
    }

    fn feed(&mut self, p: &[u8], pid: u16) {
        if p[0] != 0x47 || (p[1] as u16 & 31) << 8 | p[2] as u16 != pid || p[1] & 0x80 != 0 || p[3] & 0xC0 != 0 {
            return;
        }
        let at = match p[3] >> 4 & 3 {
            1 => 4,
            3 if p[4] <= 182 => 5 + p[4] as usize,
            _ => return,
        };
        let (payload, start, counter) = (&p[at..], p[1] & 0x40 != 0, p[3] & 15);
        let pointed = if start { 1 + payload[0] as usize } else { 0 };
        if start && pointed >= payload.len() {
            return;
        }
        let mut next = false;
        if let Some((c, s, last)) = &mut self.last {
            if *c == counter && *s == start && last.as_slice() == payload {
                return;
            }
            next = counter == (*c + 1) % 16;
            *c = counter;
            *s = start;
            last.clear();
            last.extend_from_slice(payload);
        } else {
            self.last = Some((counter, start, payload.to_vec()));
        }
        if !next {
            self.open = false;
        }
        if self.open {
            self.text.extend_from_slice(if start { &payload[1..pointed] } else { payload });
            if self.whole().is_some() {
                self.open = false;
            }
        }
        if start {
            let mut rest = &payload[pointed..];
            self.open = false;
            while !rest.is_empty() && rest[0] != 0xFF {
                self.text.clear();
                self.text.extend_from_slice(rest);
                match self.whole() {
                    Some(end) => rest = &rest[end..],
                    None => {
                        self.open = true;
                        break;
                    }
                }
            }
        }
    }
}

fn main() {
    let mut args = std::env::args().skip(1);
    let mut file = File::open(args.next().expect("usage: plain_hear FILE PID")).unwrap();
    let pid: u16 = args.next().expect("usage: plain_hear FILE PID").parse().unwrap();
    let by_sixteen = args.next().is_some();
    let mut hearer = Hearer { tables: tables(), by_sixteen, last: None, text: Vec::new(), open: false, out: Vec::new() };
    let mut stdout = std::io::stdout().lock();
    let mut buffer = vec![0u8; 1 << 20];
    let mut held = 0;
    loop {
        let n = file.read(&mut buffer[held..]).unwrap();
        if n == 0 {
            break;
        }
        held += n;
        let whole = held / 188 * 188;
        for packet in buffer[..whole].chunks_exact(188) {
            hearer.feed(packet, pid);
        }
        buffer.copy_within(whole..held, 0);
        held -= whole;
        stdout.write_all(&hearer.out).unwrap();
        hearer.out.clear();
    }
}
