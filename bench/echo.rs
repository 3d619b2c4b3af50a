//! The limit of question and answer over TCP on one machine: no protocol, no memory to share.
//!
//! `echo PORT SIZE` serves each connection in a thread of its own. Each packet that comes, whatever it asks, is
//! answered by a packet of SIZE octets. The answers to what one receive brought go out in one send. The program runs
//! until it is ended.

use std::io::{Read, Write};
use std::net::{TcpListener, TcpStream};
use std::process::exit;
use std::sync::Arc;
use std::thread;

/// The most octets that a receive takes.
const ROOM: usize = 16_384;

/// The shortest packet: four octets of its header and three of the data TPDU's.
const LEAST: usize = 7;

/// The longest packet.
const MOST: usize = 8_199;

fn main() {
    let words: Vec<String> = std::env::args().skip(1).collect();
    let (Some(port), Some(size)) = (number(&words, 0), number(&words, 1)) else {
        eprintln!("usage: echo PORT SIZE");
        exit(2);
    };
    let answer = Arc::new(answer_of(size));
    let door = TcpListener::bind(("127.0.0.1", port)).unwrap_or_else(|fault| {
        eprintln!("echo: {fault}");
        exit(4)
    });
    for stream in door.incoming().flatten() {
        let answer = Arc::clone(&answer);
        thread::spawn(move || serve(stream, &answer));
    }
}

/// The number that the word with this index spells.
fn number(words: &[String], index: usize) -> Option<u16> {
    words.get(index)?.parse().ok()
}

/// A packet of `size` octets, or of the fewest that a packet can have.
fn answer_of(size: u16) -> Vec<u8> {
    let size = size.max(LEAST as u16);
    let mut answer = vec![0; usize::from(size)];
    answer[0] = 3;
    answer[2..4].copy_from_slice(&size.to_be_bytes());
    answer[4..7].copy_from_slice(&[2, 0xF0, 0x80]);
    answer
}

/// Answers the packets of a connection until it ends.
fn serve(mut stream: TcpStream, answer: &[u8]) -> std::io::Result<()> {
    stream.set_nodelay(true)?;
    let mut octets = vec![0; ROOM];
    let mut held = 0;
    loop {
        let count = stream.read(&mut octets[held..])?;
        if count == 0 {
            return Ok(());
        }
        held += count;
        let Some((packets, used)) = count_packets(&octets[..held]) else {
            return Ok(());
        };
        octets.copy_within(used..held, 0);
        held -= used;
        stream.write_all(&answer.repeat(packets))?;
    }
}

/// How many whole packets these octets begin with, and how many octets they have. `None` if no packet begins there.
fn count_packets(octets: &[u8]) -> Option<(usize, usize)> {
    let (mut packets, mut at) = (0, 0);
    while octets.len() - at >= 4 {
        let len = usize::from(u16::from_be_bytes([octets[at + 2], octets[at + 3]]));
        if octets[at] != 3 || !(LEAST..=MOST).contains(&len) {
            return None;
        }
        if octets.len() - at < len {
            break;
        }
        at += len;
        packets += 1;
    }
    Some((packets, at))
}
