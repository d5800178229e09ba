//! The job of `lert run` over a plain hash map: it writes the journals that the program writes, with the
//! same data syncs, counts the keys of each packet behind them, and reports each key at the event that
//! makes it reach the threshold. It prints the same lines.
//!
//! Words: VERSION THRESHOLD ROOM BASE CONE_BITS WORKERS DIR TRACE.. The journals have this version, 1 without weights
//! or 2 with them, and the traces any, but none with weights where the journals have none. The other settings are the
//! program's defaults; the room and the base are written into the journals and bound nothing here, and a cone takes as
//! many keys as there are.
//! DIR is made, and has no journal yet. Trace t is read by the thread t mod WORKERS, which brings a cone's keys to it
//! as the program's workers do: a whole packet, or two or three, where the cone isn't held, and four whatever
//! it waits. It keeps no log and no frames. It is the yardstick of `bench/run`, and ends at the first fault.

mod counted_keys;
mod item;
mod mixer;

use counted_keys::{Counted, print};
use item::{Item, KEY_LEN, WEIGHED_LEN, magic, version_of};
use mixer::mix;
use std::env;
use std::fs::{self, File};
use std::io::{self, BufReader, BufWriter, ErrorKind, Read};
use std::os::unix::fs::FileExt;
use std::path::Path;
use std::sync::Mutex;
use std::thread;

const TRACE_NAME: &[u8] = b"LERT";
const JOURNAL_NAME: &[u8] = b"LERTJ";
const BUFFER_LEN: usize = 1 << 16;
const MOST_CONE_BITS: u32 = 8;
const BINS: u8 = 4;
const RATIO: u8 = 4;
const LEVELS: u8 = 5;
const PACKET: usize = 1024;
/// A ring holds four packets at most.
const RING: usize = 4 * PACKET;
const CLOSED: u8 = 0;
const OPEN: u8 = 1;

struct Settings {
    version: u8,
    threshold: u32,
    room: u32,
    base: u32,
    cone_bits: u32,
}

impl Settings {
    /// The header of a cone's journal.
    fn header(&self, cone: u32) -> Vec<u8> {
        let mut header = magic(JOURNAL_NAME, self.version).to_vec();
        for number in [self.threshold, self.room, self.base, PACKET as u32] {
            header.extend_from_slice(&number.to_le_bytes());
        }
        header.extend_from_slice(&[BINS, RATIO, LEVELS, self.cone_bits as u8]);
        header.extend_from_slice(&cone.to_le_bytes());
        header
    }

    /// The highest bits of the mixed value of a key.
    fn cone_of(&self, key: u64) -> usize {
        mix(key).checked_shr(64 - self.cone_bits).unwrap_or(0) as usize
    }
}

/// Packets on disk, as gated records. The present gate is closed, and stands behind the last packet.
struct Journal {
    file: File,
    version: u8,
    gate: u64,
    text: Vec<u8>,
}

impl Journal {
    fn create(path: &Path, settings: &Settings, cone: u32) -> io::Result<Journal> {
        let file = File::options().write(true).create_new(true).open(path)?;
        let mut header = settings.header(cone);
        let journal = Journal { file, version: settings.version, gate: header.len() as u64, text: Vec::new() };
        header.push(CLOSED);
        journal.write_durably(0, &header)?;
        Ok(journal)
    }

    /// Four calls, two of them data syncs: the packet is on disk before the gate before it opens.
    fn append(&mut self, by: u32, trace: u32, items: &[Item]) -> io::Result<()> {
        self.text.clear();
        let size = if self.version == 1 { KEY_LEN } else { WEIGHED_LEN };
        let len = (8 + size * items.len()) as u32;
        for number in [len, by, trace] {
            self.text.extend_from_slice(&number.to_le_bytes());
        }
        for item in items {
            self.text.extend_from_slice(&item.key.to_le_bytes());
            if self.version > 1 {
                self.text.push(item.weight);
            }
        }
        self.text.push(CLOSED);
        self.write_durably(self.gate + 1, &self.text)?;
        self.write_durably(self.gate, &[OPEN])?;
        self.gate += self.text.len() as u64;
        Ok(())
    }

    fn write_durably(&self, at: u64, bytes: &[u8]) -> io::Result<()> {
        self.file.write_all_at(bytes, at)?;
        self.file.sync_data()
    }
}

struct Cone {
    journal: Journal,
    counted: Counted,
}

impl Cone {
    fn create(dir: &Path, settings: &Settings, number: u32) -> io::Result<Cone> {
        let path = dir.join(format!("cone-{number:03}.journal"));
        Ok(Cone { journal: Journal::create(&path, settings, number)?, counted: Counted::default() })
    }

    /// Writes items as a packet, and then counts them.
    fn admit(&mut self, threshold: u64, by: u32, trace: u32, items: &[Item]) -> io::Result<()> {
        self.journal.append(by, trace, items)?;
        for &item in items {
            self.counted.take(threshold, item);
        }
        Ok(())
    }
}

fn bad(text: &str) -> io::Error {
    io::Error::new(ErrorKind::InvalidData, text)
}

/// The next item, of so many bytes, or `None` at the end of the trace.
fn next_item<const LEN: usize>(trace: &mut impl Read) -> io::Result<Option<Item>> {
    let mut bytes = [0; LEN];
    let len = trace.read(&mut bytes)?;
    if len == 0 {
        return Ok(None);
    }
    trace.read_exact(&mut bytes[len..])?;
    let item = Item::of(&bytes);
    if item.weight == 0 {
        return Err(bad("a key has the weight 0"));
    }
    Ok(Some(item))
}

/// One thread, its rings, and the cones that it shares with the others.
struct Worker<'a> {
    by: u32,
    settings: &'a Settings,
    cones: &'a [Mutex<Cone>],
    rings: Vec<Vec<Item>>,
}

impl Worker<'_> {
    /// Brings the keys of a trace to their cones, and at its end what the rings hold.
    fn route<const LEN: usize>(&mut self, number: u32, trace: &mut impl Read) -> io::Result<()> {
        while let Some(item) = next_item::<LEN>(trace)? {
            let cone = self.settings.cone_of(item.key);
            self.rings[cone].push(item);
            let len = self.rings[cone].len();
            if len % PACKET == 0 {
                self.bring(number, cone, len == RING)?;
            }
        }
        for cone in 0..self.cones.len() {
            if !self.rings[cone].is_empty() {
                self.bring(number, cone, true)?;
            }
        }
        Ok(())
    }

    /// Brings what a ring holds to its cone. Where another thread holds that, it waits if it has to, and else
    /// the keys stay.
    fn bring(&mut self, trace: u32, cone: usize, waits: bool) -> io::Result<()> {
        let held = if waits { self.cones[cone].lock().ok() } else { self.cones[cone].try_lock().ok() };
        let Some(mut held) = held else { return Ok(()) };
        let threshold = u64::from(self.settings.threshold);
        held.admit(threshold, self.by, trace, &self.rings[cone])?;
        self.rings[cone].clear();
        Ok(())
    }
}

/// The version of a trace, and its items behind the header.
fn open(trace: &str) -> io::Result<(u8, BufReader<File>)> {
    let mut trace = BufReader::with_capacity(BUFFER_LEN, File::open(trace)?);
    let mut header = [0; 8];
    trace.read_exact(&mut header)?;
    let version = version_of(TRACE_NAME, &header).ok_or_else(|| bad("the trace has another header"))?;
    Ok((version, trace))
}

/// Reads the traces of one thread, each to its end.
fn work(by: u32, workers: u32, settings: &Settings, cones: &[Mutex<Cone>], traces: &[String]) -> io::Result<()> {
    let rings = cones.iter().map(|_| Vec::with_capacity(RING)).collect();
    let mut worker = Worker { by, settings, cones, rings };
    for (number, trace) in traces.iter().enumerate().skip(by as usize).step_by(workers as usize) {
        match open(trace)? {
            (1, mut trace) => worker.route::<KEY_LEN>(number as u32, &mut trace)?,
            (_, mut trace) if settings.version > 1 => worker.route::<WEIGHED_LEN>(number as u32, &mut trace)?,
            _ => return Err(bad("the trace has weights, and the journals have none")),
        }
    }
    Ok(())
}

/// Has all threads read their traces.
fn route(workers: u32, settings: &Settings, cones: &[Mutex<Cone>], traces: &[String]) -> io::Result<()> {
    thread::scope(|scope| {
        let work = |by| move || work(by, workers, settings, cones, traces);
        let threads: Vec<_> = (0..workers).map(|by| scope.spawn(work(by))).collect();
        threads.into_iter().try_for_each(|thread| {
            thread.join().unwrap_or_else(|_| Err(io::Error::other("a thread panicked")))
        })
    })
}

fn main() -> io::Result<()> {
    let wrong = || {
        let words = "the words are VERSION THRESHOLD ROOM BASE CONE_BITS WORKERS DIR TRACE..";
        io::Error::new(ErrorKind::InvalidInput, words)
    };
    let words: Vec<String> = env::args().skip(1).collect();
    let [version, threshold, room, base, cone_bits, workers, dir, traces @ ..] = words.as_slice() else {
        return Err(wrong());
    };
    let number = |word: &String| word.parse::<u32>().map_err(|_| wrong());
    let settings = Settings {
        version: [1, 2].into_iter().find(|each| each.to_string() == *version).ok_or_else(wrong)?,
        threshold: number(threshold)?,
        room: number(room)?,
        base: number(base)?,
        cone_bits: number(cone_bits)?,
    };
    let workers = number(workers)?;
    if settings.cone_bits > MOST_CONE_BITS || workers == 0 || traces.is_empty() {
        return Err(wrong());
    }
    fs::create_dir_all(dir)?;
    let cones: Vec<Mutex<Cone>> = (0..1 << settings.cone_bits)
        .map(|cone| Cone::create(Path::new(dir), &settings, cone).map(Mutex::new))
        .collect::<io::Result<_>>()?;
    route(workers, &settings, &cones, traces)?;
    let cones: Vec<Counted> = cones.into_iter().filter_map(|cone| Some(cone.into_inner().ok()?.counted)).collect();
    let mut out = BufWriter::with_capacity(BUFFER_LEN, io::stdout().lock());
    print(&mut out, &cones, "closed")
}
