// Sections cut into packets and written, turn by turn: the sections in their order, or by a look at all due numbers in each turn.
// usage: plain_mux write|scan SECTIONS LENGTH TURNS FILE
use std::fs::File;
use std::io::{BufWriter, Write};

fn put(section: &[u8], counter: &mut u8, out: &mut BufWriter<File>) {
    let mut rest = section;
    let mut start = true;
    while start || !rest.is_empty() {
        let mut packet = [0xFFu8; 188];
        packet[0] = 0x47;
        packet[1] = if start { 0x41 } else { 0x01 };
        packet[2] = 0x02;
        packet[3] = 0x10 | *counter;
        let from = if start { packet[4] = 0; 5 } else { 4 };
        let count = rest.len().min(188 - from);
        packet[from..from + count].copy_from_slice(&rest[..count]);
        out.write_all(&packet).unwrap();
        rest = &rest[count..];
        *counter = (*counter + 1) % 16;
        start = false;
    }
}

fn least(dues: &[u64]) -> usize {
    let mut best = 0;
    for (index, due) in dues.iter().enumerate() {
        if *due < dues[best] {
            best = index;
        }
    }
    best
}

fn main() {
    let words: Vec<String> = std::env::args().collect();
    let number = |k: usize| words[k].parse::<usize>().unwrap();
    let (count, length, turns) = (number(2), number(3), number(4));
    let sections: Vec<Vec<u8>> = (0..count).map(|k| vec![(k % 200) as u8; length]).collect();
    let mut dues: Vec<u64> = (0..count as u64).collect();
    let mut out = BufWriter::with_capacity(1 << 16, File::create(&words[5]).unwrap());
    let mut counter = 0;
    for turn in 0..turns {
        let index = if words[1] == "scan" { least(&dues) } else { turn % count };
        put(&sections[index], &mut counter, &mut out);
        dues[index] = (turn + count) as u64;
    }
    out.flush().unwrap();
}
