//! Loads an S7 server on this machine, and says what it took.
//!
//! `load links NAME=VALUE ..` opens links, sends telegrams over each, and checks of each answer its sequence, its
//! lengths and its codes. It prints one line of names and values. The status is 0 if all answers were as they should
//! be, 1 if some weren't, and 3 if the time was over. Its values:
//!
//! - `port`, the server's; `pid`, its process, which is looked at before and after the measured telegrams
//! - `links` (1), `telegrams` of each link that are measured (1,000), and `warm`, how many go before them (8)
//! - `mode`, `read` or `write`, and `octets`, how many each telegram reads or writes (4)
//! - `ahead`, how many telegrams a link has under way (1, at most 8)
//! - `length`, the octets of the server's DB1 (4,096), and `seconds`, the most that it may take (60)
//! - `raw`, 1 if the server answers each packet without connect and negotiation, and the answers aren't checked
//!
//! `load octets NAME=VALUE ..` prints what one link sends: connect request, negotiation and `telegrams` telegrams.

use std::collections::{HashMap, VecDeque};
use std::fs::{read_dir, read_to_string};
use std::io::{self, ErrorKind, Read, Write};
use std::net::{SocketAddr, TcpStream};
use std::ops::Range;
use std::process::exit;
use std::sync::{Arc, Barrier};
use std::thread::{self, JoinHandle};
use std::time::{Duration, Instant};

/// The PDU that is asked for.
const PDU: u16 = 480;

/// The most octets that one answer or one write of this PDU has.
const MOST_OCTETS: usize = 452;

const CONNECT: [u8; 22] = [
    3, 0, 0, 0x16, 0x11, 0xE0, 0, 0, 0, 1, 0, 0xC0, 1, 0x0A, 0xC1, 2, 1, 0, 0xC2, 2, 1, 2,
];

/// What is measured.
#[derive(Clone)]
struct Plan {
    port: u16,
    process: u32,
    links: usize,
    telegrams: usize,
    warm: usize,
    writes: bool,
    octets: usize,
    ahead: usize,
    length: usize,
    raw: bool,
    deadline: Instant,
}

/// Why a link ended before its telegrams were answered.
enum Stop {
    Time,
    Fault(String),
}

type Ended = Result<(), Stop>;

fn fault<T>(text: String) -> Result<T, Stop> {
    Err(Stop::Fault(text))
}

fn two(octets: &[u8], at: usize) -> u16 {
    u16::from_be_bytes([octets[at], octets[at + 1]])
}

// ---- telegrams

/// A packet with a job of these parameters and data. Its sequence is 0.
fn job(params: &[u8], data: &[u8]) -> Vec<u8> {
    let len = (17 + params.len() + data.len()) as u16;
    let mut packet = vec![3, 0];
    packet.extend_from_slice(&len.to_be_bytes());
    packet.extend_from_slice(&[2, 0xF0, 0x80, 0x32, 1, 0, 0, 0, 0]);
    packet.extend_from_slice(&(params.len() as u16).to_be_bytes());
    packet.extend_from_slice(&(data.len() as u16).to_be_bytes());
    packet.extend_from_slice(params);
    packet.extend_from_slice(data);
    packet
}

/// Gives a packet its sequence.
fn number(packet: &mut [u8], sequence: u16) {
    packet[11..13].copy_from_slice(&sequence.to_be_bytes());
}

/// The negotiation of the PDU and of so many parallel jobs.
fn negotiation(jobs: usize) -> Vec<u8> {
    let jobs = jobs as u8;
    let [high, low] = PDU.to_be_bytes();
    let mut packet = job(&[0xF0, 0, 0, jobs, 0, jobs, high, low], &[]);
    number(&mut packet, 1);
    packet
}

/// The telegram of a link: a read or a write of a place of its own in DB1.
fn telegram(plan: &Plan, link: usize) -> Vec<u8> {
    let start = link * plan.octets % (plan.length - plan.octets + 1);
    let [count_high, count_low] = (plan.octets as u16).to_be_bytes();
    let [_, high, middle, low] = (8 * start as u32).to_be_bytes();
    let function = if plan.writes { 5 } else { 4 };
    let params = [
        function, 1, 0x12, 0x0A, 0x10, 2, count_high, count_low, 0, 1, 0x84, high, middle, low,
    ];
    if !plan.writes {
        return job(&params, &[]);
    }
    let [bits_high, bits_low] = (8 * plan.octets as u16).to_be_bytes();
    let mut data = vec![0, 4, bits_high, bits_low];
    data.resize(4 + plan.octets, link as u8);
    job(&params, &data)
}

/// What an answer to such a telegram has after its sequence.
fn answer(plan: &Plan) -> Vec<u8> {
    let data = if plan.writes { 1 } else { 4 + plan.octets };
    let [data_high, data_low] = (data as u16).to_be_bytes();
    let [bits_high, bits_low] = (8 * plan.octets as u16).to_be_bytes();
    let function = if plan.writes { 5 } else { 4 };
    let mut expected = vec![0, 2, data_high, data_low, 0, 0, function, 1, 0xFF];
    if !plan.writes {
        expected.extend_from_slice(&[4, bits_high, bits_low]);
    }
    expected
}

/// Checks the packet that answers the telegram with this sequence.
fn check(packet: &[u8], plan: &Plan, expected: &[u8], sequence: u16) -> Ended {
    let len = if plan.writes { 22 } else { 25 + plan.octets };
    let is_right = packet.len() == len
        && packet[4..11] == [2, 0xF0, 0x80, 0x32, 3, 0, 0]
        && two(packet, 11) == sequence
        && packet[13..].starts_with(expected);
    if is_right {
        Ok(())
    } else {
        fault(format!(
            "answer {sequence:04X} is {:02x?}",
            &packet[..packet.len().min(40)]
        ))
    }
}

// ---- a link

/// A connection, with what came on it.
struct Line {
    stream: TcpStream,
    octets: Vec<u8>,
    from: usize,
    end: usize,
    deadline: Instant,
}

impl Line {
    fn dial(plan: &Plan) -> io::Result<Line> {
        let address = SocketAddr::from(([127, 0, 0, 1], plan.port));
        let stream = TcpStream::connect_timeout(&address, Duration::from_secs(5))?;
        stream.set_nodelay(true)?;
        stream.set_read_timeout(Some(Duration::from_millis(500)))?;
        Ok(Line {
            stream,
            octets: vec![0; 32_768],
            from: 0,
            end: 0,
            deadline: plan.deadline,
        })
    }

    fn send(&mut self, octets: &[u8]) -> Ended {
        self.stream
            .write_all(octets)
            .map_err(|found| Stop::Fault(format!("send: {found}")))
    }

    /// Receives once, at least one octet.
    fn receive(&mut self) -> Ended {
        self.octets.copy_within(self.from..self.end, 0);
        self.end -= self.from;
        self.from = 0;
        loop {
            match self.stream.read(&mut self.octets[self.end..]) {
                Ok(0) => return fault("the server closed the link".to_string()),
                Ok(count) => {
                    self.end += count;
                    return Ok(());
                }
                Err(found) if matches!(found.kind(), ErrorKind::WouldBlock | ErrorKind::Interrupted) => {
                    if Instant::now() >= self.deadline {
                        return Err(Stop::Time);
                    }
                }
                Err(found) => return fault(format!("receive: {found}")),
            }
        }
    }

    /// The place of the next whole packet among the octets that came.
    fn packet(&mut self) -> Result<Option<Range<usize>>, Stop> {
        let rest = &self.octets[self.from..self.end];
        if rest.len() < 4 {
            return Ok(None);
        }
        let len = usize::from(two(rest, 2));
        if rest[0] != 3 || !(7..=8_199).contains(&len) {
            return fault(format!("no packet: {:02x?}", &rest[..4]));
        }
        if rest.len() < len {
            return Ok(None);
        }
        let from = self.from;
        self.from += len;
        Ok(Some(from..from + len))
    }

    /// Sends this, and receives one packet.
    fn ask(&mut self, octets: &[u8]) -> Result<Vec<u8>, Stop> {
        self.send(octets)?;
        loop {
            if let Some(range) = self.packet()? {
                return Ok(self.octets[range].to_vec());
            }
            self.receive()?;
        }
    }
}

/// A client with its link.
struct Client {
    line: Line,
    telegram: Vec<u8>,
    expected: Vec<u8>,
    sequence: u16,
    ahead: usize,
    nanoseconds: Vec<u64>,
}

impl Client {
    /// Dials, connects and negotiates.
    fn open(plan: &Plan, link: usize) -> Result<Client, Stop> {
        let line = Line::dial(plan).map_err(|found| Stop::Fault(format!("dial: {found}")))?;
        let mut client = Client {
            line,
            telegram: telegram(plan, link),
            expected: answer(plan),
            sequence: 1,
            ahead: plan.ahead,
            nanoseconds: Vec::with_capacity(plan.telegrams),
        };
        if !plan.raw {
            client.negotiate()?;
        }
        Ok(client)
    }

    fn negotiate(&mut self) -> Ended {
        let confirm = self.line.ask(&CONNECT)?;
        if confirm[5] != 0xD0 {
            return fault(format!("no confirm: {confirm:02x?}"));
        }
        let granted = self.line.ask(&negotiation(self.ahead))?;
        if granted.len() != 27 || two(&granted, 17) != 0 || two(&granted, 25) != PDU {
            return fault(format!("no grant: {granted:02x?}"));
        }
        if usize::from(two(&granted, 21)) < self.ahead {
            return fault(format!("only {} parallel jobs are granted", two(&granted, 21)));
        }
        Ok(())
    }

    /// Appends as many telegrams as may go out now.
    fn put(&mut self, left: &mut usize, waiting: &mut VecDeque<(Instant, u16)>, out: &mut Vec<u8>) {
        let now = Instant::now();
        while *left > 0 && waiting.len() < self.ahead {
            self.sequence = self.sequence.wrapping_add(1).max(1);
            number(&mut self.telegram, self.sequence);
            out.extend_from_slice(&self.telegram);
            waiting.push_back((now, self.sequence));
            *left -= 1;
        }
    }

    /// Takes the answers that came.
    fn take(&mut self, plan: &Plan, waiting: &mut VecDeque<(Instant, u16)>) -> Ended {
        let now = Instant::now();
        while let Some(range) = self.line.packet()? {
            let Some((then, sequence)) = waiting.pop_front() else {
                return fault("an answer to nothing".to_string());
            };
            if !plan.raw {
                check(&self.line.octets[range], plan, &self.expected, sequence)?;
            }
            self.nanoseconds.push((now - then).as_nanos() as u64);
        }
        Ok(())
    }

    /// Sends so many telegrams, and takes their answers.
    fn run(&mut self, plan: &Plan, count: usize) -> Ended {
        let mut waiting = VecDeque::with_capacity(self.ahead);
        let mut out = Vec::with_capacity(8 * 512);
        let mut left = count;
        self.nanoseconds.clear();
        while self.nanoseconds.len() < count {
            if Instant::now() >= self.line.deadline {
                return Err(Stop::Time);
            }
            out.clear();
            self.put(&mut left, &mut waiting, &mut out);
            self.line.send(&out)?;
            self.line.receive()?;
            self.take(plan, &mut waiting)?;
        }
        Ok(())
    }
}

// ---- a process

/// What a process has used so far.
#[derive(Clone, Copy, Default)]
struct Used {
    nanoseconds: u64,
    faults: u64,
    switches: u64,
    resident: u64,
}

/// The first number of the line that begins with `name`.
fn value_of(text: &str, name: &str) -> u64 {
    let line = text.lines().find_map(|line| line.strip_prefix(name));
    line.and_then(|rest| rest.split_whitespace().next()?.parse().ok())
        .unwrap_or(0)
}

/// What the process of this number has used, its threads that run still included.
fn used(process: u32) -> Used {
    let folder = format!("/proc/{process}");
    let text = |name: String| read_to_string(name).unwrap_or_default();
    let status = text(format!("{folder}/status"));
    let fields = text(format!("{folder}/stat"));
    let after_name = fields.rsplit(')').next().unwrap_or_default();
    let mut sum = Used {
        faults: after_name
            .split_whitespace()
            .nth(7)
            .and_then(|word| word.parse().ok())
            .unwrap_or(0),
        resident: value_of(&status, "VmRSS:"),
        ..Used::default()
    };
    for task in read_dir(format!("{folder}/task")).into_iter().flatten().flatten() {
        let folder = task.path().display().to_string();
        let status = text(format!("{folder}/status"));
        sum.nanoseconds += value_of(&text(format!("{folder}/schedstat")), "");
        sum.switches += value_of(&status, "voluntary_ctxt_switches:");
        sum.switches += value_of(&status, "nonvoluntary_ctxt_switches:");
    }
    sum
}

// ---- the measurement

/// The moments at which all links wait for one another: when all are warm, when the measured telegrams may go, when
/// all are answered, and when the links may end.
type Moments = Arc<[Barrier; 4]>;

/// What became of a link.
struct Outcome {
    end: Instant,
    nanoseconds: Vec<u64>,
    stop: Option<Stop>,
}

/// A link from its beginning to its end. It meets every moment, whatever becomes of it.
fn run_link(plan: &Plan, link: usize, moments: &[Barrier; 4]) -> Outcome {
    let mut client = Client::open(plan, link);
    let warm = client.as_mut().map_or(Ok(()), |client| client.run(plan, plan.warm));
    moments[0].wait();
    moments[1].wait();
    let mut nanoseconds = Vec::new();
    let mut ended = warm;
    if let (Ok(client), Ok(())) = (&mut client, &ended) {
        ended = client.run(plan, plan.telegrams);
        nanoseconds = std::mem::take(&mut client.nanoseconds);
    }
    let end = Instant::now();
    moments[2].wait();
    moments[3].wait();
    Outcome {
        end,
        nanoseconds,
        stop: client.err().or(ended.err()),
    }
}

fn start_link(plan: &Plan, link: usize, moments: &Moments) -> JoinHandle<Outcome> {
    let (plan, moments) = (plan.clone(), Arc::clone(moments));
    let thread = thread::Builder::new().stack_size(256 * 1024);
    thread
        .spawn(move || run_link(&plan, link, &moments))
        .unwrap_or_else(|found| {
            eprintln!("load: {found}");
            exit(4)
        })
}

/// What the server and this program had used at the measured telegrams' begin and end.
struct Found {
    first: Used,
    begin: [Used; 2],
    end: [Used; 2],
    seconds: f64,
    outcomes: Vec<Outcome>,
}

fn measure(plan: &Plan) -> Found {
    let both = || [used(plan.process), used(std::process::id())];
    let first = used(plan.process);
    let moments: Moments = Arc::new(std::array::from_fn(|_| Barrier::new(plan.links + 1)));
    let links: Vec<_> = (0..plan.links).map(|link| start_link(plan, link, &moments)).collect();
    moments[0].wait();
    let begin = both();
    let start = Instant::now();
    moments[1].wait();
    moments[2].wait();
    let end = both();
    moments[3].wait();
    let outcomes: Vec<Outcome> = links.into_iter().filter_map(|link| link.join().ok()).collect();
    let last = outcomes.iter().map(|outcome| outcome.end).max().unwrap_or(start);
    Found {
        first,
        begin,
        end,
        seconds: (last - start).as_secs_f64(),
        outcomes,
    }
}

/// The element below which this part of a sorted list lies, in microseconds.
fn quantile(sorted: &[u64], part: f64) -> f64 {
    let last = sorted.len().saturating_sub(1);
    sorted
        .get((last as f64 * part).round() as usize)
        .map_or(0.0, |nanoseconds| *nanoseconds as f64 / 1000.0)
}

/// Prints the line of a measurement. The counts are those of one telegram.
fn print(found: &Found) {
    let mut all: Vec<u64> = found
        .outcomes
        .iter()
        .flat_map(|outcome| outcome.nanoseconds.iter().copied())
        .collect();
    all.sort_unstable();
    let count = all.len().max(1) as f64;
    let ([begin, own_begin], [end, own_end]) = (found.begin, found.end);
    let each = |from: u64, to: u64| to.saturating_sub(from) as f64 / count;
    println!(
        "answers={} rate={:.0} p50={:.1} p99={:.1} cpu={:.3} own_cpu={:.3} faults={:.4} switches={:.3} \
         listening={} resident={}",
        all.len(),
        all.len() as f64 / found.seconds.max(1e-9),
        quantile(&all, 0.5),
        quantile(&all, 0.99),
        each(begin.nanoseconds, end.nanoseconds) / 1000.0,
        each(own_begin.nanoseconds, own_end.nanoseconds) / 1000.0,
        each(begin.faults, end.faults),
        each(begin.switches, end.switches),
        found.first.resident,
        end.resident,
    );
}

/// Runs the links, and returns the status.
fn run_links(plan: &Plan) -> i32 {
    let found = measure(plan);
    print(&found);
    let mut status = 0;
    for stop in found.outcomes.iter().filter_map(|outcome| outcome.stop.as_ref()) {
        match stop {
            Stop::Time => status = 3,
            Stop::Fault(text) => {
                eprintln!("load: {text}");
                status = status.max(1);
            }
        }
    }
    status
}

/// Prints what one link sends, and returns the status.
fn print_octets(plan: &Plan) -> i32 {
    let mut out = [&CONNECT[..], &negotiation(plan.ahead)].concat();
    let mut next = telegram(plan, 0);
    let mut sequence = 1u16;
    for _ in 0..plan.telegrams {
        sequence = sequence.wrapping_add(1).max(1);
        number(&mut next, sequence);
        out.extend_from_slice(&next);
    }
    match io::stdout().write_all(&out) {
        Ok(()) => 0,
        Err(_) => 4,
    }
}

// ---- words

/// The plan that the words state. `None` if they state none.
fn plan_of(words: &[String]) -> Option<Plan> {
    let pairs = words.iter().map(|word| word.split_once('='));
    let values: HashMap<&str, &str> = pairs.collect::<Option<_>>()?;
    let number = |name: &str, other: usize| values.get(name).map_or(Some(other), |word| word.parse().ok());
    let plan = Plan {
        port: number("port", 0)?.try_into().ok()?,
        process: number("pid", 0)?.try_into().ok()?,
        links: number("links", 1)?,
        telegrams: number("telegrams", 1_000)?,
        warm: number("warm", 8)?,
        writes: values.get("mode") == Some(&"write"),
        octets: number("octets", 4)?,
        ahead: number("ahead", 1)?,
        length: number("length", 4_096)?,
        raw: number("raw", 0)? == 1,
        deadline: Instant::now() + Duration::from_secs(number("seconds", 60)? as u64),
    };
    let is_possible = (1..=1_024).contains(&plan.links)
        && (1..=MOST_OCTETS).contains(&plan.octets)
        && (1..=8).contains(&plan.ahead)
        && (plan.octets..=65_535).contains(&plan.length);
    is_possible.then_some(plan)
}

fn main() {
    let words: Vec<String> = std::env::args().skip(1).collect();
    let command = words.first().map(String::as_str);
    let status = match (command, words.get(1..).and_then(plan_of)) {
        (Some("links"), Some(plan)) => run_links(&plan),
        (Some("octets"), Some(plan)) => print_octets(&plan),
        _ => {
            eprintln!("usage: load links|octets NAME=VALUE ..");
            2
        }
    };
    exit(status);
}
