// A calibration tool that asks as fast as it can, and, with other words, a plain slave of one thread.
//
// plain_tool slave PORT          accepts one tool, and answers it, with one buffer of 512 bytes for what it reads
// plain_tool trips PORT N        N times: sends one GET_STATUS, waits for its answer; prints the microseconds of all
// plain_tool pipe PORT N         sends N of them behind one another, reads all answers meanwhile; prints the same
// plain_tool data PORT N         starts a list of two bytes at 0x8000 on event channel 0, and reads N frames of data; prints the same
use std::io::{Read, Write};
use std::net::{TcpListener, TcpStream};
use std::sync::Mutex;
use std::time::Instant;

const CONNECT: [u8; 6] = [2, 0, 0, 0, 0xff, 0];
const STATUS: [u8; 5] = [1, 0, 0, 0, 0xfd];

// FREE_DAQ, ALLOC_DAQ, ALLOC_ODT, ALLOC_ODT_ENTRY, SET_DAQ_PTR, WRITE_DAQ, SET_DAQ_LIST_MODE, START_STOP_DAQ_LIST.
const LIST: [&[u8]; 8] = [
    &[1, 0, 0, 0, 0xd6],
    &[4, 0, 0, 0, 0xd5, 0, 1, 0],
    &[5, 0, 0, 0, 0xd4, 0, 0, 0, 1],
    &[6, 0, 0, 0, 0xd3, 0, 0, 0, 0, 1],
    &[6, 0, 0, 0, 0xe2, 0, 0, 0, 0, 0],
    &[8, 0, 0, 0, 0xe1, 0xff, 2, 0, 0, 0x80, 0, 0],
    &[8, 0, 0, 0, 0xe0, 0, 0, 0, 0, 0, 1, 0],
    &[4, 0, 0, 0, 0xde, 1, 0, 0],
];

// Answers CONNECT and GET_STATUS, and any other command as unknown; stores each exchange in one growing buffer behind a lock; and
// writes the answers of one read together.
fn answer(mut stream: TcpStream) -> std::io::Result<()> {
    stream.set_nodelay(true)?;
    let journal: Mutex<Vec<u8>> = Mutex::new(Vec::new());
    let mut held = Vec::with_capacity(1024);
    let mut frames: Vec<u8> = Vec::with_capacity(4096);
    let mut piece = [0; 512];
    let mut counter = 0u16;
    loop {
        let count = stream.read(&mut piece)?;
        if count == 0 {
            return Ok(());
        }
        held.extend_from_slice(&piece[..count]);
        let mut from = 0;
        while held.len() - from >= 4 {
            let length = 4 + usize::from(u16::from_le_bytes([held[from], held[from + 1]]));
            if held.len() - from < length {
                break;
            }
            let packet = &held[from + 4..from + length];
            let told: &[u8] = match packet {
                [0xff, _, ..] => &[0xff, 5, 0xc0, 32, 64, 0, 1, 1],
                [0xfd, ..] => &[0xff, 0, 0, 0, 0, 0],
                _ => &[0xfe, 0x20],
            };
            let mut stored = journal.lock().unwrap();
            stored.extend_from_slice(&[packet.len() as u8, told.len() as u8]);
            stored.extend_from_slice(packet);
            stored.extend_from_slice(told);
            drop(stored);
            frames.extend_from_slice(&(told.len() as u16).to_le_bytes());
            frames.extend_from_slice(&counter.to_le_bytes());
            frames.extend_from_slice(told);
            counter = counter.wrapping_add(1);
            from += length;
        }
        stream.write_all(&frames)?;
        frames.clear();
        held.drain(..from);
    }
}

fn connect(port: u16) -> TcpStream {
    for _ in 0..500 {
        if let Ok(stream) = TcpStream::connect(("127.0.0.1", port)) {
            stream.set_nodelay(true).unwrap();
            return stream;
        }
        std::thread::sleep(std::time::Duration::from_millis(10));
    }
    panic!("nobody listens");
}

// Reads so many frames.
fn take(stream: &mut TcpStream, frames: usize) {
    let mut held = Vec::with_capacity(1 << 17);
    let mut piece = [0; 65536];
    let mut seen = 0;
    let mut from = 0;
    while seen < frames {
        let count = stream.read(&mut piece).unwrap();
        assert!(count > 0, "the slave is gone");
        held.drain(..from);
        from = 0;
        held.extend_from_slice(&piece[..count]);
        while held.len() - from >= 4 {
            let length = 4 + usize::from(u16::from_le_bytes([held[from], held[from + 1]]));
            if held.len() - from < length {
                break;
            }
            from += length;
            seen += 1;
        }
    }
}

fn main() {
    let words: Vec<String> = std::env::args().collect();
    let port: u16 = words[2].parse().unwrap();
    if words[1] == "slave" {
        let listener = TcpListener::bind(("127.0.0.1", port)).unwrap();
        let (stream, _) = listener.accept().unwrap();
        let _ = answer(stream);
        return;
    }
    let times: usize = words[3].parse().unwrap();
    let mut stream = connect(port);
    stream.write_all(&CONNECT).unwrap();
    take(&mut stream, 1);
    let begun;
    if words[1] == "trips" {
        begun = Instant::now();
        for _ in 0..times {
            stream.write_all(&STATUS).unwrap();
            take(&mut stream, 1);
        }
    } else if words[1] == "data" {
        begun = Instant::now();
        for frame in LIST {
            stream.write_all(frame).unwrap();
        }
        take(&mut stream, LIST.len() + times);
    } else {
        let all = STATUS.repeat(times);
        let mut writer = stream.try_clone().unwrap();
        begun = Instant::now();
        let sends = std::thread::spawn(move || writer.write_all(&all).unwrap());
        take(&mut stream, times);
        sends.join().unwrap();
    }
    println!("{}", begun.elapsed().as_micros());
}
