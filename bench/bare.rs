//! What the program's transport is compared with; no part of the product, and nothing of it is proved.
//!
//! `bare send FOLDER HOST` reads the lines of the files of a folder, one file after the other by their names, and sends
//! the program's payloads but for the moment, in windows of at most 2,048 lines of one file, each acknowledged in full
//! before the next. `bare windows PORT DEPTH EVENTS BYTES` sends so many events of so many bytes to that port of
//! 127.0.0.1, in windows of which so many may wait for their acknowledgement. `bare receive TIMES LATE` prints the port at
//! which it listens, takes so many connections one after another, acknowledges each window LATE milliseconds after it is
//! there, and prints for each connection how many events it had. `bare lines PORT FILE` takes one connection at that port
//! and writes each event to the file as a line, a window before its acknowledgement.
//!
//! `bare records AREA ROWS TURNS` writes and syncs the record of an area as often as is said, as commits of so many rows
//! do. `bare put LINES BYTES` writes and syncs so many records of a spool, each with a payload of so many bytes. `bare spans
//! STRIDE SPANS` keeps settled spans in a map of intervals. `bare grown FILES SCANS` and `bare gone FILES TURNS` keep known
//! files in two maps, one by their keys and one by their slots. `bare texts FORMAT` reads a container log
//! from standard input and writes the container's own lines, as far as the log of the bench needs it.

use std::collections::{BTreeMap, VecDeque};
use std::env;
use std::error::Error;
use std::fs::{self, File};
use std::io::{self, BufRead, BufReader, BufWriter, Read, Write};
use std::net::{TcpListener, TcpStream};
use std::os::unix::fs::FileExt;
use std::sync::mpsc::{self, Sender};
use std::thread;
use std::time::{Duration, Instant};

const EVENTS: u32 = 2_048;

/// The length of an area without a record, with its last gate.
const EMPTY_BYTES: usize = 30;

const SPAN_BYTES: u64 = 10;

/// So many spans are permuted among each other.
const BLOCK: u64 = 100_000;

fn main() -> Result<(), Box<dyn Error>> {
    let words: Vec<String> = env::args().skip(1).collect();
    match words.iter().map(String::as_str).collect::<Vec<_>>()[..] {
        ["send", folder, host] => send(folder, host),
        ["windows", port, depth, events, size] => send_windows(port.parse()?, depth.parse()?, events.parse()?, size.parse()?),
        ["receive", times, late] => receive(times.parse()?, Duration::from_millis(late.parse()?)),
        ["lines", port, file] => write_lines(port.parse()?, file),
        ["records", area, rows, turns] => write_records(area, rows.parse()?, turns.parse()?),
        ["put", lines, size] => put_records(lines.parse()?, size.parse()?),
        ["spans", stride, spans] => settle(stride.parse()?, spans.parse()?),
        ["grown", files, scans] => grow(files.parse()?, scans.parse()?),
        ["gone", files, turns] => come_and_go(files.parse()?, turns.parse()?),
        ["texts", format] => write_texts(format),
        _ => Err("usage: bare send FOLDER HOST | windows PORT DEPTH EVENTS BYTES | receive TIMES LATE | lines PORT FILE \
            | records AREA ROWS TURNS | put LINES BYTES | spans STRIDE SPANS | grown FILES SCANS | gone FILES TURNS \
            | texts FORMAT".into()),
    }
}

fn send(folder: &str, host: &str) -> Result<(), Box<dyn Error>> {
    let mut names = Vec::new();
    for entry in fs::read_dir(folder)? {
        names.push(entry?.file_name().into_string().map_err(|name| format!("{name:?} is no text"))?);
    }
    names.sort();
    let mut peer = TcpStream::connect(host)?;
    peer.set_nodelay(true)?;
    let mut frames = Vec::new();
    for name in names {
        send_file(&mut peer, &mut frames, &format!("{folder}/{name}"))?;
    }
    Ok(())
}

fn send_file(peer: &mut TcpStream, frames: &mut Vec<u8>, path: &str) -> Result<(), Box<dyn Error>> {
    let mut file = BufReader::with_capacity(16_384, File::open(path)?);
    let (mut line, mut count, mut offset) = (Vec::new(), 0, 0);
    loop {
        line.clear();
        let size = file.read_until(b'\n', &mut line)?;
        if line.pop_if(|last| *last == b'\n').is_some() {
            count += 1;
            put_frame(frames, count, path, offset, &line);
            offset += size;
        }
        if count == EVENTS || (size == 0 && count > 0) {
            send_window(peer, frames, count)?;
            frames.clear();
            count = 0;
        }
        if size == 0 {
            return Ok(());
        }
    }
}

fn put_frame(frames: &mut Vec<u8>, sequence: u32, path: &str, offset: usize, message: &[u8]) {
    frames.extend_from_slice(b"2J");
    frames.extend_from_slice(&sequence.to_be_bytes());
    let at = frames.len();
    frames.extend_from_slice(&[0; 4]);
    frames.extend_from_slice(br#"{"@timestamp":"2026-11-27T00:00:00.000Z","input":{"type":"filestream"},"log":{"file":{"path":""#);
    put_escaped(frames, path.as_bytes());
    frames.extend_from_slice(br#""},"offset":"#);
    frames.extend_from_slice(offset.to_string().as_bytes());
    frames.extend_from_slice(br#"},"message":""#);
    put_escaped(frames, message);
    frames.extend_from_slice(br#""}"#);
    let size = (frames.len() - at - 4) as u32;
    frames[at..at + 4].copy_from_slice(&size.to_be_bytes());
}

/// The escapes that the file of the bench may need; no line of it has another.
fn put_escaped(frames: &mut Vec<u8>, text: &[u8]) {
    for &byte in text {
        if matches!(byte, b'"' | b'\\') {
            frames.push(b'\\');
        }
        frames.push(byte);
    }
}

fn send_windows(port: u16, depth: usize, events: u32, size: u32) -> Result<(), Box<dyn Error>> {
    let mut peer = TcpStream::connect(("127.0.0.1", port))?;
    peer.set_nodelay(true)?;
    let (mut frames, mut in_flight) = (Vec::new(), VecDeque::new());
    let payload = vec![b'x'; size as usize];
    let mut left = events;
    while left > 0 {
        let count = left.min(EVENTS);
        put_window(&mut frames, count, &payload);
        if in_flight.len() == depth {
            hear(&mut peer, in_flight.pop_front())?;
        }
        peer.write_all(&frames)?;
        in_flight.push_back(count);
        left -= count;
    }
    while !in_flight.is_empty() {
        hear(&mut peer, in_flight.pop_front())?;
    }
    println!("{events}");
    Ok(())
}

fn put_window(frames: &mut Vec<u8>, count: u32, payload: &[u8]) {
    frames.clear();
    frames.extend_from_slice(b"2W");
    frames.extend_from_slice(&count.to_be_bytes());
    for sequence in 1..=count {
        frames.extend_from_slice(b"2J");
        frames.extend_from_slice(&sequence.to_be_bytes());
        frames.extend_from_slice(&(payload.len() as u32).to_be_bytes());
        frames.extend_from_slice(payload);
    }
}

fn send_window(peer: &mut TcpStream, frames: &[u8], count: u32) -> Result<(), Box<dyn Error>> {
    let mut head = *b"2W\0\0\0\0";
    head[2..].copy_from_slice(&count.to_be_bytes());
    peer.write_all(&head)?;
    peer.write_all(frames)?;
    hear(peer, Some(count))
}

/// Waits for the acknowledgement of a window of so many events, past those of a part of it.
fn hear(peer: &mut TcpStream, count: Option<u32>) -> Result<(), Box<dyn Error>> {
    let count = count.ok_or("no window is in flight")?;
    loop {
        match take::<6>(peer)? {
            [b'2', b'A', a, b, c, d] if u32::from_be_bytes([a, b, c, d]) == count => return Ok(()),
            [b'2', b'A', a, b, c, d] if u32::from_be_bytes([a, b, c, d]) < count => {}
            other => return Err(format!("a window of {count} events was answered by {other:?}").into()),
        }
    }
}

fn acknowledgement(count: u32) -> [u8; 6] {
    let mut answer = *b"2A\0\0\0\0";
    answer[2..].copy_from_slice(&count.to_be_bytes());
    answer
}

/// So many connections, several at once where they come so; a line tells how many events each had.
fn receive(times: usize, late: Duration) -> Result<(), Box<dyn Error>> {
    let listener = TcpListener::bind("127.0.0.1:0")?;
    println!("{}", listener.local_addr()?.port());
    let mut receiving = Vec::new();
    for _ in 0..times {
        let peer = listener.accept()?.0;
        receiving.push(thread::spawn(move || match receive_events(peer, late) {
            Ok(events) => println!("{events}"),
            Err(fault) => println!("0 events: {fault}"),
        }));
    }
    for one in receiving {
        one.join().map_err(|_| "a connection was not received")?;
    }
    Ok(())
}

/// What sends the acknowledgements, each at its moment, while further windows come.
fn answering(mut to: TcpStream) -> Sender<(Instant, u32)> {
    let (due, dues) = mpsc::channel::<(Instant, u32)>();
    thread::spawn(move || {
        for (at, count) in dues {
            thread::sleep(at.saturating_duration_since(Instant::now()));
            if to.write_all(&acknowledgement(count)).is_err() {
                return;
            }
        }
    });
    due
}

/// How many events came until the peer closed.
fn receive_events(peer: TcpStream, late: Duration) -> Result<u64, Box<dyn Error>> {
    peer.set_nodelay(true)?;
    let mut from = BufReader::with_capacity(65_536, peer.try_clone()?);
    let later = if late.is_zero() { None } else { Some(answering(peer.try_clone()?)) };
    let (mut to, mut events, mut window) = (peer, 0, 0);
    while !from.fill_buf()?.is_empty() {
        match take(&mut from)? {
            [b'2', b'W'] => window = u32::from_be_bytes(take(&mut from)?),
            [b'2', b'J'] => {
                let sequence = u32::from_be_bytes(take(&mut from)?);
                let size = u32::from_be_bytes(take(&mut from)?);
                io::copy(&mut from.by_ref().take(size.into()), &mut io::sink())?;
                events += 1;
                match &later {
                    _ if sequence != window => {}
                    Some(due) => due.send((Instant::now() + late, window))?,
                    None => to.write_all(&acknowledgement(window))?,
                }
            }
            other => return Err(format!("no frame begins with {other:?}").into()),
        }
    }
    Ok(events)
}

fn write_lines(port: u16, file: &str) -> Result<(), Box<dyn Error>> {
    let listener = TcpListener::bind(("127.0.0.1", port))?;
    let mut lines = BufWriter::with_capacity(65_536, File::create(file)?);
    let mut peer = listener.accept()?.0;
    peer.set_nodelay(true)?;
    let mut from = BufReader::with_capacity(65_536, peer.try_clone()?);
    let (mut payload, mut window) = (Vec::new(), 0);
    while !from.fill_buf()?.is_empty() {
        match take(&mut from)? {
            [b'2', b'W'] => window = u32::from_be_bytes(take(&mut from)?),
            [b'2', b'J'] => {
                let sequence = u32::from_be_bytes(take(&mut from)?);
                let size = u32::from_be_bytes(take(&mut from)?);
                payload.resize(size as usize, 0);
                from.read_exact(&mut payload)?;
                for byte in payload.iter_mut().filter(|byte| **byte == b'\n') {
                    *byte = b' ';
                }
                payload.push(b'\n');
                lines.write_all(&payload)?;
                if sequence == window {
                    lines.flush()?;
                    peer.write_all(&acknowledgement(window))?;
                }
            }
            other => return Err(format!("no frame begins with {other:?}").into()),
        }
    }
    Ok(())
}

fn take<const SIZE: usize>(from: &mut impl Read) -> Result<[u8; SIZE], Box<dyn Error>> {
    let mut bytes = [0; SIZE];
    from.read_exact(&mut bytes)?;
    Ok(bytes)
}

/// Writes what follows the front of an area without a record, and opens its gate, each time after the last.
fn write_records(area: &str, rows: u64, turns: u64) -> Result<(), Box<dyn Error>> {
    let bytes = fs::read(area)?;
    let (empty, record) = bytes.split_at(EMPTY_BYTES.min(bytes.len()));
    let file = File::create("bare.area")?;
    file.write_all_at(empty, 0)?;
    file.sync_all()?;
    let mut end = empty.len() as u64;
    for _ in 0..turns {
        file.write_all_at(record, end)?;
        file.sync_all()?;
        file.write_all_at(b"{", end - 1)?;
        file.sync_all()?;
        end += record.len() as u64;
    }
    println!("{}", rows * turns);
    Ok(())
}

/// Writes each record behind a gate, and opens the gate.
fn put_records(lines: u64, size: usize) -> Result<(), Box<dyn Error>> {
    let record = format!("{size:010} e{}\n.", "x".repeat(size));
    let file = File::create("bare.spool")?;
    file.write_all_at(b".", 0)?;
    file.sync_all()?;
    let mut gate = 0;
    for _ in 0..lines {
        file.write_all_at(record.as_bytes(), gate + 1)?;
        file.sync_all()?;
        file.write_all_at(b"{", gate)?;
        file.sync_all()?;
        gate += record.len() as u64;
    }
    println!("{lines}");
    Ok(())
}

/// Prints up to where all is settled.
fn settle(stride: u64, spans: u64) -> Result<(), Box<dyn Error>> {
    let (mut until, mut ahead) = (0, BTreeMap::new());
    for place in 0..spans {
        let start = (place / BLOCK * BLOCK + place % BLOCK * stride % BLOCK) * SPAN_BYTES;
        let last = ahead.remove(&(start + SPAN_BYTES)).unwrap_or(start + SPAN_BYTES);
        if start == until {
            until = last;
            continue;
        }
        let first = match ahead.range(..=start).next_back() {
            Some((&first, &end)) if end == start => first,
            _ => start,
        };
        ahead.insert(first, last);
    }
    println!("{until}");
    Ok(())
}

/// One file as a scan shows it.
struct Seen {
    key: String,
    path: String,
    size: u64,
}

struct Known {
    key: String,
    path: String,
    size: u64,
    shown: u64,
    is_open: bool,
    is_stirred: bool,
}

enum Change {
    Created(u32),
    Written(u32),
    Removed(u32),
}

#[derive(Default)]
struct Files {
    by_key: BTreeMap<String, u32>,
    by_slot: BTreeMap<u32, Known>,
    next: u32,
    scan: u64,
}

impl Files {
    /// What a scan says of the files.
    fn compare(&mut self, seen: &[Seen]) -> Vec<Change> {
        let mut changes = Vec::new();
        self.scan += 1;
        for member in seen {
            let Some(slot) = self.by_key.get(&member.key) else {
                changes.push(Change::Created(self.create(member)));
                continue;
            };
            let Some(file) = self.by_slot.get_mut(slot) else { continue };
            if file.size != member.size {
                changes.push(Change::Written(*slot));
            }
            if file.path != member.path {
                file.path.clone_from(&member.path);
            }
            (file.size, file.shown) = (member.size, self.scan);
        }
        let hidden = self.by_slot.iter().filter(|(_, file)| file.shown != self.scan);
        changes.extend(hidden.map(|(slot, _)| Change::Removed(*slot)));
        changes
    }

    fn create(&mut self, member: &Seen) -> u32 {
        let slot = self.next;
        self.next += 1;
        self.by_key.insert(member.key.clone(), slot);
        let (key, path) = (member.key.clone(), member.path.clone());
        let file = Known { key, path, size: member.size, shown: self.scan, is_open: false, is_stirred: false };
        self.by_slot.insert(slot, file);
        slot
    }

    /// Does what a change asks for. Whether a file went.
    fn take(&mut self, change: &Change) -> bool {
        match change {
            Change::Created(slot) | Change::Written(slot) => {
                if let Some(file) = self.by_slot.get_mut(slot) {
                    file.is_stirred = file.is_open;
                    file.is_open = true;
                }
                false
            }
            Change::Removed(slot) => {
                let Some(file) = self.by_slot.remove(slot) else { return false };
                self.by_key.remove(&file.key).is_some()
            }
        }
    }
}

fn shown(count: u64) -> Vec<Seen> {
    let member = |number| Seen {
        key: format!("filestream::nginx::native::{number:08}-64513"),
        path: format!("/var/log/app-{number:08}.log"),
        size: 1,
    };
    (0..count).map(member).collect()
}

fn grow(count: u64, scans: u64) -> Result<(), Box<dyn Error>> {
    let (mut files, mut seen, mut told) = (Files::default(), shown(count), 0);
    for change in files.compare(&seen) {
        files.take(&change);
    }
    for _ in 0..scans {
        for member in &mut seen {
            member.size += 1;
        }
        let changes = files.compare(&seen);
        for change in &changes {
            files.take(change);
        }
        told += changes.len();
    }
    println!("{told}");
    Ok(())
}

fn come_and_go(count: u64, turns: u64) -> Result<(), Box<dyn Error>> {
    let (mut files, seen, mut went) = (Files::default(), shown(count), 0);
    for _ in 0..turns {
        for change in files.compare(&seen) {
            files.take(&change);
        }
        for change in files.compare(&[]) {
            went += u64::from(files.take(&change));
        }
    }
    println!("{went}");
    Ok(())
}

fn write_texts(format: &str) -> Result<(), Box<dyn Error>> {
    let mut from = BufReader::with_capacity(65_536, io::stdin().lock());
    let mut to = BufWriter::with_capacity(65_536, io::stdout().lock());
    let mut line = Vec::new();
    while from.read_until(b'\n', &mut line)? > 0 {
        let (text, is_whole) = match format {
            "cri" => cri_text(&line),
            _ => docker_text(&line),
        }
        .ok_or("a line is of no format")?;
        to.write_all(text)?;
        if is_whole {
            to.write_all(b"\n")?;
        }
        line.clear();
    }
    Ok(to.flush()?)
}

/// The text of a line, and whether it ends the container's own line.
fn cri_text(line: &[u8]) -> Option<(&[u8], bool)> {
    let mut words = line.strip_suffix(b"\n")?.splitn(4, |byte| *byte == b' ');
    let (_moment, _stream, tag) = (words.next()?, words.next()?, words.next()?);
    Some((words.next()?, tag == b"F"))
}

/// The same of a line of Docker's whose text has no escape but its line feed.
fn docker_text(line: &[u8]) -> Option<(&[u8], bool)> {
    let text = line.strip_prefix(br#"{"log":""#)?;
    let text = &text[..text.iter().position(|byte| *byte == b'"')?];
    Some(match text.strip_suffix(br"\n") {
        Some(whole) => (whole, true),
        None => (text, false),
    })
}
