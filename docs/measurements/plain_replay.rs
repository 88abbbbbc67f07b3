// A plain Rust program of the same kind as `xcpd replay`, to compare its speed and memory with: it reads blocks, answers the
// lines of the scripts that replay.sh makes for one segment of 16 bytes with two pages, stores each exchange in one growing
// buffer, and writes the answers of a block at once. Built by replay.sh with `rustc -O`.
use std::io::{self, Read, Write};

const DIGITS: &[u8; 16] = b"0123456789ABCDEF";

struct Slave {
    pages: [[u8; 16]; 2],
    ecu: u8,
    xcp: u8,
    signals: [u8; 8],
    connected: bool,
    mta: Option<u32>,
}

const DENIED: [u8; 2] = [0xFE, 0x24];

impl Slave {
    fn place(&self, address: u32, n: usize) -> Option<usize> {
        let place = address.checked_sub(0x1000)? as usize;
        if place + n <= 16 { Some(place) } else { None }
    }

    fn read(&mut self, address: u32, n: usize, answer: &mut Vec<u8>) {
        let Some(place) = self.place(address, n) else {
            return answer.extend_from_slice(&DENIED);
        };
        answer.push(0xFF);
        answer.extend_from_slice(&self.pages[self.xcp as usize][place..place + n]);
        self.mta = Some(address + n as u32);
    }

    // Whether an answer is sent; it is put into `answer`.
    fn answer(&mut self, packet: &[u8], answer: &mut Vec<u8>) -> bool {
        match packet {
            [0xFF, _, ..] => {
                self.connected = true;
                self.mta = None;
                answer.extend_from_slice(&[0xFF, 5, 0xC0, 32, 64, 0, 1, 1]);
            }
            _ if !self.connected => return false,
            [0xFD, ..] => answer.extend_from_slice(&[0xFF, 0, 0, 0, 0, 0]),
            [0xF6, _, _, 0, a, b, c, d, ..] => {
                self.mta = Some(u32::from_le_bytes([*a, *b, *c, *d]));
                answer.push(0xFF);
            }
            [0xF5, n, ..] if (1..=31).contains(n) => match self.mta {
                Some(mta) => self.read(mta, *n as usize, answer),
                None => answer.extend_from_slice(&DENIED),
            },
            [0xF4, n, _, 0, a, b, c, d, ..] if (1..=31).contains(n) => {
                self.read(u32::from_le_bytes([*a, *b, *c, *d]), *n as usize, answer)
            }
            [0xF0, n, bytes @ ..] if (1..=30).contains(n) && bytes.len() >= *n as usize => {
                let n = *n as usize;
                let Some((mta, place)) = self.mta.and_then(|m| Some((m, self.place(m, n)?))) else {
                    answer.extend_from_slice(&DENIED);
                    return true;
                };
                if self.xcp == 0 {
                    answer.extend_from_slice(&[0xFE, 0x23]);
                    return true;
                }
                self.pages[self.xcp as usize][place..place + n].copy_from_slice(&bytes[..n]);
                self.mta = Some(mta + n as u32);
                answer.push(0xFF);
            }
            [0xEB, mode @ 1..=3, 0, page @ 0..=1, ..] => {
                if mode & 1 != 0 {
                    self.ecu = *page;
                }
                if mode & 2 != 0 {
                    self.xcp = *page;
                }
                answer.push(0xFF);
            }
            [0xEA, mode @ 1..=2, 0, ..] => {
                answer.extend_from_slice(&[0xFF, 0, 0, if *mode == 1 { self.ecu } else { self.xcp }])
            }
            _ => answer.extend_from_slice(&[0xFE, 0x20]),
        }
        true
    }
}

fn values() -> [u8; 256] {
    let mut values = [0xFF; 256];
    for (value, digit) in DIGITS.iter().enumerate() {
        values[*digit as usize] = value as u8;
        values[digit.to_ascii_lowercase() as usize] = value as u8;
    }
    values
}

fn read_hex(values: &[u8; 256], digits: &[u8], bytes: &mut Vec<u8>) -> bool {
    if digits.is_empty() || digits.len() % 2 != 0 {
        return false;
    }
    for pair in digits.chunks_exact(2) {
        let (high, low) = (values[pair[0] as usize], values[pair[1] as usize]);
        if high > 15 || low > 15 {
            return false;
        }
        bytes.push(high << 4 | low);
    }
    true
}

struct Program {
    slave: Slave,
    values: [u8; 256],
    packet: Vec<u8>,
    answer: Vec<u8>,
    exchanges: Vec<u8>,
    text: Vec<u8>,
}

impl Program {
    // A tag, the length and the bytes of each side of an exchange.
    fn store(&mut self, kind: u8, told: u8) {
        self.exchanges.extend_from_slice(&[kind, self.packet.len() as u8, told, self.answer.len() as u8]);
        self.exchanges.extend_from_slice(&self.packet);
        self.exchanges.extend_from_slice(&self.answer);
    }

    fn line(&mut self, line: &[u8]) -> bool {
        self.packet.clear();
        self.answer.clear();
        if line == b"drain" {
            self.store(1, 0);
            self.text.extend_from_slice(b"nothing\n");
            return true;
        }
        if let Some(rest) = line.strip_prefix(b"event 0 ") {
            if !read_hex(&self.values, rest, &mut self.packet) || self.packet.len() != 8 {
                return false;
            }
            self.slave.signals.copy_from_slice(&self.packet);
            self.store(2, 0);
            self.text.extend_from_slice(b"sampled 0\n");
            return true;
        }
        if !read_hex(&self.values, line, &mut self.packet) {
            return false;
        }
        if self.slave.answer(&self.packet, &mut self.answer) {
            for byte in &self.answer {
                self.text.extend_from_slice(&[DIGITS[(byte >> 4) as usize], DIGITS[(byte & 15) as usize]]);
            }
        } else {
            self.text.push(b'-');
        }
        self.text.push(b'\n');
        self.store(0, 1);
        true
    }
}

fn main() -> io::Result<()> {
    let pages = [[0, 1, 2, 3, 4, 5, 6, 7, 8, 9, 10, 11, 12, 13, 14, 15]; 2];
    let slave = Slave { pages, ecu: 0, xcp: 0, signals: [0; 8], connected: false, mta: None };
    let (packet, answer, exchanges, text) = (Vec::new(), Vec::new(), Vec::new(), Vec::new());
    let mut program = Program { slave, values: values(), packet, answer, exchanges, text };
    let (mut input, mut output) = (io::stdin().lock(), io::stdout().lock());
    let mut block = vec![0; 65_536];
    let mut held = 0;
    loop {
        let count = input.read(&mut block[held..])?;
        let end = held + count;
        let mut from = 0;
        while let Some(n) = block[from..end].iter().position(|b| *b == b'\n') {
            if !program.line(&block[from..from + n]) {
                eprintln!("a faulty line");
                std::process::exit(2);
            }
            from += n + 1;
        }
        block.copy_within(from..end, 0);
        held = end - from;
        output.write_all(&program.text)?;
        program.text.clear();
        if count == 0 {
            break;
        }
    }
    output.flush()?;
    // (so that the exchanges are there to the end)
    if program.exchanges.len() == 1 {
        eprintln!("no exchange");
    }
    Ok(())
}
