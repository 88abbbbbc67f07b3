// What a data packet waits for where a thread is woken for it that does next to nothing: for delay.sh, beside the program. A task wakes
// every 5 milliseconds and puts a packet behind a lock; a pump, which waits for that, writes it to a socket. A thread reads the other end.
//
// plain_wakes N   N packets
use std::io::{Read, Write};
use std::net::{TcpListener, TcpStream};
use std::sync::{Arc, Condvar, Mutex};
use std::thread;
use std::time::Duration;

fn main() -> std::io::Result<()> {
    let count: usize = std::env::args().nth(1).and_then(|it| it.parse().ok()).unwrap_or(490);
    let listener = TcpListener::bind("127.0.0.1:0")?;
    let mut tool = TcpStream::connect(listener.local_addr()?)?;
    let (mut stream, _) = listener.accept()?;
    stream.set_nodelay(true)?;
    let reader = thread::spawn(move || {
        let mut frame = [0; 7];
        while tool.read_exact(&mut frame).is_ok() {}
    });
    let outbox = Arc::new((Mutex::new(Vec::new()), Condvar::new()));
    let shared = Arc::clone(&outbox);
    let pump = thread::spawn(move || {
        for _packet in 0..count {
            let mut packets = shared.0.lock().unwrap();
            while packets.is_empty() {
                packets = shared.1.wait(packets).unwrap();
            }
            let frame: [u8; 7] = packets.remove(0);
            drop(packets);
            if stream.write_all(&frame).is_err() {
                return;
            }
        }
    });
    for _cycle in 0..count {
        thread::sleep(Duration::from_millis(5));
        outbox.0.lock().unwrap().push([3, 0, 0, 0, 0, 7, 9]);
        outbox.1.notify_one();
    }
    pump.join().unwrap();
    reader.join().unwrap();
    Ok(())
}
