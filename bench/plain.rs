//! A plain S7 server, as one would write it without proofs, to compare `s7server` with.
//!
//! `plain serve PORT LENGTH [--journal]` serves each connection in a thread of its own, until it is ended.
//! `plain pipe LENGTH [--journal]` serves standard input and output. Both have the data block DB1 with LENGTH octets
//! 00. They take connects, negotiations, and reads and writes of up to 20 items of octets. All data blocks stand
//! behind one lock, which is taken once for a telegram. With `--journal` each read and write is copied before the lock
//! is taken, and the copy is appended to a list under it. The answers to what one receive brought go out in one send.

use std::collections::HashMap;
use std::fs::File;
use std::io::{self, Read, Write};
use std::net::{TcpListener, TcpStream};
use std::ops::Range;
use std::os::fd::AsFd;
use std::process::exit;
use std::sync::{Arc, Mutex, PoisonError};
use std::thread;

const MOST_ITEMS: usize = 20;
const MOST_MESSAGE: usize = 8_192;
const MOST_PDU: u16 = 960;
const MOST_JOBS: u16 = 8;
const ROOM: usize = 16_384;

/// Error words.
const UNKNOWN_FUNCTION: u16 = 0x8104;
const NOT_NEGOTIATED: u16 = 0x8403;
const UNREADABLE: u16 = 0x8404;
const OVER_PDU: u16 = 0x8500;

/// Codes of items.
const GOOD: u8 = 0xFF;
const OUT_OF_RANGE: u8 = 0x05;
const WRONG_WORD: u8 = 0x06;
const WRONG_SIZE: u8 = 0x07;
const NO_AREA: u8 = 0x0A;

type Blocks = HashMap<u16, Vec<u8>>;

/// A request that was carried out. Nothing reads it.
#[allow(dead_code)]
struct Entry {
    link: u32,
    message: Box<[u8]>,
}

struct Plant {
    blocks: Blocks,
    journal: Vec<Entry>,
}

struct Shared {
    plant: Mutex<Plant>,
    keeps: bool,
}

#[derive(Clone, Copy, Default)]
struct Item {
    word: u8,
    count: u16,
    block: u16,
    area: u8,
    address: u32,
}

/// A link, with what came of its next message so far.
struct Link {
    number: u32,
    is_connected: bool,
    pdu: Option<u16>,
    message: Vec<u8>,
}

fn two(octets: &[u8], at: usize) -> u16 {
    u16::from_be_bytes([octets[at], octets[at + 1]])
}

impl Item {
    /// The item that twelve octets spell.
    fn read(octets: &[u8]) -> Option<Item> {
        if octets[..3] != [0x12, 0x0A, 0x10] {
            return None;
        }
        Some(Item {
            word: octets[3],
            count: two(octets, 4),
            block: two(octets, 6),
            area: octets[8],
            address: u32::from_be_bytes([0, octets[9], octets[10], octets[11]]),
        })
    }

    /// The range of the item in its block, or the code that refuses it.
    fn range(&self, blocks: &Blocks) -> Result<Range<usize>, u8> {
        if self.word != 2 {
            return Err(WRONG_WORD);
        }
        if self.area != 0x84 {
            return Err(NO_AREA);
        }
        let block = blocks.get(&self.block).ok_or(NO_AREA)?;
        let from = (self.address / 8) as usize;
        let end = from + usize::from(self.count);
        if self.count == 0 || end > block.len() {
            return Err(OUT_OF_RANGE);
        }
        Ok(from..end)
    }
}

/// Reads the items of parameters, and returns their number.
fn read_items(params: &[u8], items: &mut [Item; MOST_ITEMS]) -> Option<usize> {
    let count = usize::from(*params.get(1)?);
    if count == 0 || count > MOST_ITEMS || params.len() != 2 + 12 * count {
        return None;
    }
    for (item, octets) in items.iter_mut().zip(params[2..].chunks_exact(12)) {
        *item = Item::read(octets)?;
    }
    Some(count)
}

/// Finds the octets of each written item.
fn read_ranges(data: &[u8], ranges: &mut [Range<usize>]) -> Option<()> {
    let last = ranges.len() - 1;
    let mut at = 0;
    for (k, range) in ranges.iter_mut().enumerate() {
        let head = data.get(at..at + 4)?;
        let stated = usize::from(two(head, 2));
        let len = match head[1] {
            3..=5 => stated.div_ceil(8),
            7 | 9 => stated,
            _ => return None,
        };
        *range = at + 4..at + 4 + len;
        at = range.end + if k < last { len % 2 } else { 0 };
        data.get(..at)?;
    }
    (at == data.len()).then_some(())
}

/// Begins an answer: the packet, the data TPDU and the header of an acknowledgement. Its lengths follow later.
fn begin(sequence: u16, out: &mut Vec<u8>) -> usize {
    let start = out.len();
    out.extend_from_slice(&[3, 0, 0, 0, 2, 0xF0, 0x80, 0x32, 3, 0, 0]);
    out.extend_from_slice(&sequence.to_be_bytes());
    out.extend_from_slice(&[0; 6]);
    start
}

/// Writes the lengths of an answer with so many octets of parameters.
fn finish(start: usize, params: u16, out: &mut [u8]) {
    let len = (out.len() - start) as u16;
    out[start + 2..start + 4].copy_from_slice(&len.to_be_bytes());
    out[start + 13..start + 15].copy_from_slice(&params.to_be_bytes());
    out[start + 15..start + 17].copy_from_slice(&(len - 19 - params).to_be_bytes());
}

fn refuse(sequence: u16, error: u16, out: &mut Vec<u8>) {
    let start = begin(sequence, out);
    out[start + 8] = 2;
    out[start + 17..start + 19].copy_from_slice(&error.to_be_bytes());
    finish(start, 0, out);
}

/// The copy for the journal, made before the lock is taken.
fn entry_of(link: &Link, shared: &Shared, message: &[u8]) -> Option<Entry> {
    shared.keeps.then(|| Entry {
        link: link.number,
        message: message.into(),
    })
}

fn negotiate(link: &mut Link, params: &[u8], sequence: u16, out: &mut Vec<u8>) -> Result<(), u16> {
    if params.len() != 8 {
        return Err(UNREADABLE);
    }
    let pdu = two(params, 6).min(MOST_PDU);
    if pdu < 64 {
        return Err(OVER_PDU);
    }
    link.pdu = Some(pdu);
    let start = begin(sequence, out);
    out.extend_from_slice(&[0xF0, 0]);
    out.extend_from_slice(&two(params, 2).clamp(1, MOST_JOBS).to_be_bytes());
    out.extend_from_slice(&two(params, 4).clamp(1, MOST_JOBS).to_be_bytes());
    out.extend_from_slice(&pdu.to_be_bytes());
    finish(start, 8, out);
    Ok(())
}

/// The size of the answer to a read of these items.
fn size_of_answer(items: &[Item]) -> usize {
    let size = |item: &Item| if item.word == 2 { usize::from(item.count) } else { 0 };
    let padded: usize = items.iter().map(|item| 4 + size(item) + size(item) % 2).sum();
    14 + padded - items.last().map_or(0, |item| size(item) % 2)
}

/// Appends the octets of an item that is read, or its code.
fn put_item(blocks: &Blocks, item: &Item, is_last: bool, out: &mut Vec<u8>) {
    match item.range(blocks) {
        Ok(range) => {
            out.extend_from_slice(&[GOOD, 4]);
            out.extend_from_slice(&(item.count * 8).to_be_bytes());
            out.extend_from_slice(&blocks[&item.block][range]);
            if !is_last && item.count % 2 == 1 {
                out.push(0);
            }
        }
        Err(code) => out.extend_from_slice(&[code, 0, 0, 0]),
    }
}

fn read(items: &[Item], entry: Option<Entry>, shared: &Shared, sequence: u16, out: &mut Vec<u8>) {
    let start = begin(sequence, out);
    out.extend_from_slice(&[4, items.len() as u8]);
    let mut plant = shared.plant.lock().unwrap_or_else(PoisonError::into_inner);
    for (k, item) in items.iter().enumerate() {
        put_item(&plant.blocks, item, k + 1 == items.len(), out);
    }
    plant.journal.extend(entry);
    drop(plant);
    finish(start, 2, out);
}

/// Writes an item, and returns its code.
fn write_item(blocks: &mut Blocks, item: &Item, octets: &[u8]) -> u8 {
    match item.range(blocks) {
        Ok(range) if range.len() == octets.len() => match blocks.get_mut(&item.block) {
            Some(block) => {
                block[range].copy_from_slice(octets);
                GOOD
            }
            None => NO_AREA,
        },
        Ok(_) => WRONG_SIZE,
        Err(code) => code,
    }
}

/// The items of a write, and the octets of each.
struct Written<'a> {
    items: &'a [Item],
    ranges: &'a [Range<usize>],
    data: &'a [u8],
}

fn write(written: &Written, entry: Option<Entry>, shared: &Shared, sequence: u16, out: &mut Vec<u8>) {
    let start = begin(sequence, out);
    out.extend_from_slice(&[5, written.items.len() as u8]);
    let mut plant = shared.plant.lock().unwrap_or_else(PoisonError::into_inner);
    for (item, range) in written.items.iter().zip(written.ranges) {
        out.push(write_item(&mut plant.blocks, item, &written.data[range.clone()]));
    }
    plant.journal.extend(entry);
    drop(plant);
    finish(start, 2, out);
}

/// Answers a message, or returns the error word of its refusal.
fn answer(link: &mut Link, shared: &Shared, message: &[u8], out: &mut Vec<u8>) -> Result<(), u16> {
    let sequence = two(message, 4);
    if message[1] != 1 {
        return Err(UNKNOWN_FUNCTION);
    }
    let (params_len, data_len) = (usize::from(two(message, 6)), usize::from(two(message, 8)));
    let most = usize::from(link.pdu.unwrap_or(MOST_PDU));
    if message.len() != 10 + params_len + data_len || message.len() > most {
        return Err(OVER_PDU);
    }
    let (params, data) = message[10..].split_at(params_len);
    let function = params.first().copied().ok_or(UNREADABLE)?;
    if function == 0xF0 {
        return negotiate(link, params, sequence, out);
    }
    link.pdu.ok_or(NOT_NEGOTIATED)?;
    if function != 4 && function != 5 {
        return Err(UNKNOWN_FUNCTION);
    }
    let mut items = [Item::default(); MOST_ITEMS];
    let count = read_items(params, &mut items).ok_or(UNREADABLE)?;
    let items = &items[..count];
    if function == 4 {
        if size_of_answer(items) > most {
            return Err(OVER_PDU);
        }
        read(items, entry_of(link, shared, message), shared, sequence, out);
    } else {
        let mut ranges: [Range<usize>; MOST_ITEMS] = Default::default();
        let ranges = &mut ranges[..count];
        read_ranges(data, ranges).ok_or(UNREADABLE)?;
        let written = Written { items, ranges, data };
        write(&written, entry_of(link, shared, message), shared, sequence, out);
    }
    Ok(())
}

/// Answers a connect request, with its own parameters. `None` if it can't be read.
fn confirm(tpdu: &[u8], out: &mut Vec<u8>) -> Option<()> {
    let head = usize::from(tpdu[0]) + 1;
    if head < 7 {
        return None;
    }
    let params = tpdu.get(7..head)?;
    out.extend_from_slice(&[3, 0]);
    out.extend_from_slice(&((11 + params.len()) as u16).to_be_bytes());
    out.extend_from_slice(&[tpdu[0], 0xD0, tpdu[4], tpdu[5], 0, 1, 0]);
    out.extend_from_slice(params);
    Some(())
}

/// Answers a whole message. `None` if it is none of S7.
fn answer_message(link: &mut Link, shared: &Shared, out: &mut Vec<u8>) -> Option<()> {
    let mut message = std::mem::take(&mut link.message);
    if message.len() < 10 || message[0] != 0x32 {
        return None;
    }
    if let Err(error) = answer(link, shared, &message, out) {
        refuse(two(&message, 4), error, out);
    }
    message.clear();
    link.message = message;
    Some(())
}

/// Takes a TPDU. `None` ends the link.
fn take(link: &mut Link, shared: &Shared, tpdu: &[u8], out: &mut Vec<u8>) -> Option<()> {
    match (link.is_connected, tpdu[1] & 0xF0) {
        (false, 0xE0) => {
            confirm(tpdu, out)?;
            link.is_connected = true;
            Some(())
        }
        (true, 0xF0) if tpdu[0] == 2 => {
            link.message.extend_from_slice(&tpdu[3..]);
            if link.message.len() > MOST_MESSAGE {
                return None;
            }
            if tpdu[2] & 0x80 == 0 {
                return Some(());
            }
            answer_message(link, shared, out)
        }
        _ => None,
    }
}

/// Takes the whole packets that these octets begin with, and returns how many octets they have. `None` ends the link.
fn take_packets(link: &mut Link, shared: &Shared, octets: &[u8], out: &mut Vec<u8>) -> Option<usize> {
    let mut at = 0;
    while octets.len() - at >= 4 {
        let len = usize::from(two(octets, at + 2));
        if octets[at..at + 2] != [3, 0] || !(7..=8_199).contains(&len) {
            return None;
        }
        if octets.len() - at < len {
            break;
        }
        take(link, shared, &octets[at + 4..at + len], out)?;
        at += len;
    }
    Some(at)
}

/// Serves a link until it ends.
fn serve(mut input: impl Read, mut output: impl Write, shared: &Shared, number: u32) -> io::Result<()> {
    let mut link = Link {
        number,
        is_connected: false,
        pdu: None,
        message: Vec::new(),
    };
    let mut octets = vec![0; ROOM];
    let mut held = 0;
    let mut out = Vec::new();
    loop {
        let count = input.read(&mut octets[held..])?;
        if count == 0 {
            return Ok(());
        }
        held += count;
        out.clear();
        let used = take_packets(&mut link, shared, &octets[..held], &mut out);
        output.write_all(&out)?;
        let Some(used) = used else {
            return Ok(());
        };
        octets.copy_within(used..held, 0);
        held -= used;
    }
}

fn serve_stream(stream: TcpStream, shared: &Shared, number: u32) -> io::Result<()> {
    stream.set_nodelay(true)?;
    serve(&stream, &stream, shared, number)
}

fn serve_port(port: u16, shared: Shared) -> io::Result<()> {
    let shared = Arc::new(shared);
    let door = TcpListener::bind(("127.0.0.1", port))?;
    for (number, stream) in (1..).zip(door.incoming().flatten()) {
        let shared = Arc::clone(&shared);
        thread::spawn(move || serve_stream(stream, &shared, number));
    }
    Ok(())
}

/// Serves standard input and output, without the buffers that the library puts around them.
fn serve_pipe(shared: &Shared) -> io::Result<()> {
    let input = File::from(io::stdin().as_fd().try_clone_to_owned()?);
    let output = File::from(io::stdout().as_fd().try_clone_to_owned()?);
    serve(input, output, shared, 1)
}

fn usage() -> ! {
    eprintln!("usage: plain serve PORT LENGTH [--journal] | plain pipe LENGTH [--journal]");
    exit(2)
}

/// Runs the command that the words name. `None` if they name none.
fn run(words: &[&str], keeps: bool) -> Option<io::Result<()>> {
    let shared = |length: &str| {
        let blocks = Blocks::from([(1, vec![0; length.parse().ok()?])]);
        let plant = Mutex::new(Plant {
            blocks,
            journal: Vec::new(),
        });
        Some(Shared { plant, keeps })
    };
    match *words {
        ["serve", port, length] => Some(serve_port(port.parse().ok()?, shared(length)?)),
        ["pipe", length] => Some(serve_pipe(&shared(length)?)),
        _ => None,
    }
}

fn main() {
    let words: Vec<String> = std::env::args().skip(1).collect();
    let keeps = words.iter().any(|word| word == "--journal");
    let others: Vec<&str> = words
        .iter()
        .map(String::as_str)
        .filter(|word| *word != "--journal")
        .collect();
    match run(&others, keeps) {
        Some(Ok(())) => {}
        Some(Err(fault)) => {
            eprintln!("plain: {fault}");
            exit(4);
        }
        None => usage(),
    }
}
