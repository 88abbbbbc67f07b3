// A tool over UDP or TCP that measures a slave, and, with other words, a plain slave over UDP of two threads. For udp.sh.
//
// plain_datagrams slave PORT PERIOD      serves one tool, until it sends DISCONNECT. Once a list runs, a thread raises an event every PERIOD
//                                        microseconds, or with 0 without a pause, and sends its data packets
// plain_datagrams KIND trips PORT PID N  KIND is udp or tcp. N times: sends one GET_STATUS, waits for its answer. Prints how many nanoseconds
//                                        each took, and how many of processor time it took the process PID
// plain_datagrams KIND data PORT PID MS ODTS BYTES
//                                        starts a list of so many ODTs of so many bytes at 0x1000, on event channel 0, and reads for MS
//                                        milliseconds. Prints how many data packets came in a second, how many of a thousand didn't come, by the
//                                        slave's CTR, and how many nanoseconds of processor time each took the process PID
use std::io::{ErrorKind, Read, Write};
use std::net::{SocketAddr, TcpStream, UdpSocket};
use std::sync::{Arc, Mutex};
use std::time::{Duration, Instant};
use std::{fs, thread};

const LONGEST: usize = 1472;
const KEPT: usize = 1 << 20;

// The slave

// What both threads have: whose the slave is, the list's ODTs and their bytes, the CTR, and a buffer in which each exchange and each data packet
// is stored. It begins anew where it is full.
struct Shared {
    tool: Option<SocketAddr>,
    runs: bool,
    odts: u8,
    bytes: usize,
    ctr: u16,
    stored: Vec<u8>,
    row: Vec<u8>,
}

impl Shared {
    fn store(&mut self, bytes: &[u8]) {
        if self.stored.len() + bytes.len() > KEPT {
            self.stored.clear();
        }
        self.stored.extend_from_slice(bytes);
    }

    // Puts a frame into the datagram that is sent next, and sends what is there where it has no room.
    fn put(&mut self, socket: &UdpSocket, packet: &[u8]) {
        if self.row.len() + 4 + packet.len() > LONGEST {
            self.flush(socket);
        }
        self.row.extend_from_slice(&(packet.len() as u16).to_le_bytes());
        self.row.extend_from_slice(&self.ctr.to_le_bytes());
        self.row.extend_from_slice(packet);
        self.ctr = self.ctr.wrapping_add(1);
        self.store(packet);
    }

    fn flush(&mut self, socket: &UdpSocket) {
        if let (Some(tool), false) = (self.tool, self.row.is_empty()) {
            let _ = socket.send_to(&self.row, tool);
        }
        self.row.clear();
    }

    // Answers a packet, as a slave that knows no more than what is asked here.
    fn execute(&mut self, socket: &UdpSocket, packet: &[u8]) {
        self.store(packet);
        let told: &[u8] = match packet {
            [0xff, _, ..] => &[0xff, 5, 0xc0, 32, 255, 0, 1, 1],
            [0xfd, ..] => &[0xff, 0, 0, 0, 0, 0],
            [0xd4, _, _, _, odts, ..] => {
                self.odts = *odts;
                &[0xff]
            }
            [0xe1, _, bytes, ..] => {
                self.bytes = usize::from(*bytes);
                &[0xff]
            }
            [0xde, mode, ..] => {
                self.runs = *mode == 1;
                &[0xff, 0]
            }
            [0xd6 | 0xd5 | 0xd3 | 0xe2 | 0xe0 | 0xfe, ..] => &[0xff],
            _ => &[0xfe, 0x20],
        };
        self.put(socket, told);
    }

    fn raise(&mut self, socket: &UdpSocket, memory: &[u8]) {
        let mut packet = [0; 256];
        for pid in 0..self.odts {
            packet[0] = pid;
            packet[1..=self.bytes].copy_from_slice(&memory[..self.bytes]);
            self.put(socket, &packet[..=self.bytes]);
        }
        self.flush(socket);
    }
}

fn raise_events(shared: &Mutex<Shared>, socket: &UdpSocket, period: Duration) {
    let mut memory = [0u8; 256];
    let mut next = Instant::now();
    loop {
        if !period.is_zero() {
            next += period;
            thread::sleep(next.saturating_duration_since(Instant::now()));
        }
        memory[0] = memory[0].wrapping_add(1);
        let mut it = shared.lock().unwrap();
        if it.runs {
            it.raise(socket, &memory);
        } else if period.is_zero() {
            drop(it);
            thread::sleep(Duration::from_millis(1));
        }
    }
}

fn serve(port: u16, period: Duration) {
    let socket = Arc::new(UdpSocket::bind(("127.0.0.1", port)).unwrap());
    println!("listening {port} udp");
    let (stored, row) = (Vec::with_capacity(KEPT), Vec::with_capacity(LONGEST));
    let shared = Arc::new(Mutex::new(Shared { tool: None, runs: false, odts: 0, bytes: 0, ctr: 0, stored, row }));
    let (theirs, other) = (Arc::clone(&shared), Arc::clone(&socket));
    thread::spawn(move || raise_events(&theirs, &other, period));
    let mut datagram = [0; LONGEST + 1];
    loop {
        let (count, from) = socket.recv_from(&mut datagram).unwrap();
        let mut it = shared.lock().unwrap();
        if *it.tool.get_or_insert(from) != from {
            continue;
        }
        let mut rest = &datagram[..count];
        while rest.len() >= 4 {
            let length = 4 + usize::from(u16::from_le_bytes([rest[0], rest[1]]));
            if length > rest.len() {
                break;
            }
            it.execute(&socket, &rest[4..length]);
            if rest[4] == 0xfe {
                it.flush(&socket);
                return;
            }
            rest = &rest[length..];
        }
        it.flush(&socket);
    }
}

// The tool

enum Wire {
    Stream(TcpStream),
    Datagrams(UdpSocket),
}

struct Tool {
    wire: Wire,
    held: Vec<u8>,
    from: usize,
    ctr: u16,
    data: u64,
    lost: u64,
}

impl Tool {
    fn new(kind: &str, port: u16) -> Tool {
        let wire = if kind == "udp" {
            let socket = UdpSocket::bind("127.0.0.1:0").unwrap();
            socket.connect(("127.0.0.1", port)).unwrap();
            socket.set_read_timeout(Some(Duration::from_secs(5))).unwrap();
            Wire::Datagrams(socket)
        } else {
            let stream = TcpStream::connect(("127.0.0.1", port)).unwrap();
            stream.set_nodelay(true).unwrap();
            stream.set_read_timeout(Some(Duration::from_secs(5))).unwrap();
            Wire::Stream(stream)
        };
        Tool { wire, held: Vec::with_capacity(1 << 17), from: 0, ctr: 0, data: 0, lost: 0 }
    }

    // Reads what has come: of a stream a piece, of datagrams one.
    fn read(&mut self) {
        self.held.drain(..self.from);
        self.from = 0;
        let at = self.held.len();
        self.held.resize(at + 65_536, 0);
        let found = match &mut self.wire {
            Wire::Stream(stream) => stream.read(&mut self.held[at..]),
            Wire::Datagrams(socket) => socket.recv(&mut self.held[at..]),
        };
        let count = match found {
            Err(fault) if fault.kind() == ErrorKind::WouldBlock => panic!("no answer comes: it is lost, or nobody gives one"),
            other => other.unwrap(),
        };
        assert!(count > 0, "the slave is gone");
        self.held.truncate(at + count);
    }

    // The place of the next packet that came, if it is there already.
    fn packet(&mut self) -> Option<(usize, usize)> {
        let rest = &self.held[self.from..];
        if rest.len() < 4 {
            return None;
        }
        let length = 4 + usize::from(u16::from_le_bytes([rest[0], rest[1]]));
        if rest.len() < length {
            return None;
        }
        let ctr = u16::from_le_bytes([rest[2], rest[3]]);
        self.lost += u64::from(ctr.wrapping_sub(self.ctr));
        self.ctr = ctr.wrapping_add(1);
        let place = (self.from + 4, self.from + length);
        self.from += length;
        self.data += u64::from(self.held[place.0] < 0x40);
        Some(place)
    }

    // Sends a command, and reads up to its answer.
    fn ask(&mut self, packet: &[u8]) -> u8 {
        let mut frame = vec![packet.len() as u8, 0, 0, 0];
        frame.extend_from_slice(packet);
        match &mut self.wire {
            Wire::Stream(stream) => stream.write_all(&frame).unwrap(),
            Wire::Datagrams(socket) => drop(socket.send(&frame).unwrap()),
        }
        loop {
            match self.packet() {
                Some((at, _)) if self.held[at] >= 0xfe => return self.held[at],
                Some(_) => {}
                None => self.read(),
            }
        }
    }

    fn start_list(&mut self, odts: u8, bytes: u8) {
        let mut all = vec![vec![0xd6], vec![0xd5, 0, 1, 0], vec![0xd4, 0, 0, 0, odts]];
        all.extend((0..odts).map(|odt| vec![0xd3, 0, 0, 0, odt, 1]));
        for odt in 0..odts {
            all.push(vec![0xe2, 0, 0, 0, odt, 0]);
            all.push(vec![0xe1, 0xff, bytes, 0, 0, 0x10, 0, 0]);
        }
        all.push(vec![0xe0, 0, 0, 0, 0, 0, 1, 0]);
        all.push(vec![0xde, 1, 0, 0]);
        for packet in all {
            assert_eq!(self.ask(&packet), 0xff, "{packet:x?} is refused");
        }
    }
}

// How many nanoseconds of processor time the threads of a process have taken.
fn processor(pid: &str) -> u64 {
    let threads = fs::read_dir(format!("/proc/{pid}/task")).unwrap();
    let of = |it: fs::DirEntry| fs::read_to_string(it.path().join("schedstat")).ok()?.split(' ').next()?.parse::<u64>().ok();
    threads.filter_map(|it| of(it.ok()?)).sum()
}

fn main() {
    let words: Vec<String> = std::env::args().collect();
    let number = |at: usize| words[at].parse::<u64>().unwrap();
    if words[1] == "slave" {
        return serve(number(2) as u16, Duration::from_micros(number(3)));
    }
    let (port, pid) = (number(3) as u16, &words[4]);
    let mut tool = Tool::new(&words[1], port);
    tool.ask(&[0xff, 0]);
    if words[2] == "trips" {
        let (begun, before) = (Instant::now(), processor(pid));
        for _ in 0..number(5) {
            tool.ask(&[0xfd]);
        }
        println!("{} {}", begun.elapsed().as_nanos() as u64 / number(5), (processor(pid) - before) / number(5));
    } else {
        tool.start_list(number(6) as u8, number(7) as u8);
        let (begun, before, data, lost) = (Instant::now(), processor(pid), tool.data, tool.lost);
        while begun.elapsed() < Duration::from_millis(number(5)) {
            tool.read();
            while tool.packet().is_some() {}
        }
        let (came, missing, took) = (tool.data - data, tool.lost - lost, processor(pid) - before);
        let each = came as f64 / begun.elapsed().as_secs_f64();
        println!("{each:.0} {} {}", 1000 * missing / (came + missing), took / (came + missing));
    }
    tool.ask(&[0xfe]);
}
