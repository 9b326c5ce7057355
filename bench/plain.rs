//! The same stores and the same responder in plain Rust, without contracts, to measure the proved ones against.
//! Built by the scripts of this folder: rustc -O --edition 2021 bench/plain.rs
//! Prints a line for each row of the benchmark: its name, how many operations, how many nanoseconds.
use std::hint::black_box;
use std::time::Instant;

const MAX_FILES: usize = 1024;
const MAX_LENGTH: usize = 32_768;
const MAX_CAPACITY: usize = 33_554_432;
const LAST_NUMBER: u32 = 0x7fff_fffe;
const FIRST_STORAGE: u32 = 0x0001_0001;
const SECOND_STORAGE: u32 = 0x0002_0001;
const SECOND_BASE: u32 = 0x8000_0000;
const ROOT: u32 = 0xffff_ffff;
const OK: u16 = 0x2001;

#[derive(Clone, Copy, PartialEq)]
enum Format {
    Undefined,
    Association,
    Text,
}

impl Format {
    fn number(self) -> u16 {
        match self {
            Format::Undefined => 0x3000,
            Format::Association => 0x3001,
            Format::Text => 0x3004,
        }
    }

    fn from_number(number: u16) -> Option<Format> {
        match number {
            0x3000 => Some(Format::Undefined),
            0x3001 => Some(Format::Association),
            0x3004 => Some(Format::Text),
            _ => None,
        }
    }
}

#[derive(Clone, Copy)]
struct Name {
    units: [u16; 63],
    len: u8,
}

impl Name {
    fn from_units(units: &[u16]) -> Option<Name> {
        if units.is_empty() || units.len() > 63 {
            return None;
        }
        if units.iter().any(|&u| u < 0x20 || u == 0x2f || u == 0x3a || u == 0x5c) {
            return None;
        }
        let mut cells = [0; 63];
        cells[..units.len()].copy_from_slice(units);
        Some(Name { units: cells, len: units.len() as u8 })
    }
}

#[derive(Clone, Copy)]
struct FileInfo {
    format: Format,
    read_only: bool,
    parent: u32,
    name: Name,
    length: u32,
}

#[derive(Clone, Copy)]
struct Place {
    number: u32,
    file: FileInfo,
    start: u32,
}

impl Place {
    fn unused() -> Place {
        let name = Name::from_units(&[0x2d]).unwrap();
        let file = FileInfo { format: Format::Undefined, read_only: false, parent: 0, name, length: 0 };
        Place { number: 0, file, start: 0 }
    }
}

trait Store {
    fn capacity(&self) -> u32;
    fn limit(&self) -> u32;
    fn total(&self) -> u32;
    fn count(&self) -> u32;
    fn next_above(&self, number: u32) -> Option<u32>;
    fn describe(&self, number: u32) -> Option<FileInfo>;
    fn copy(&self, number: u32, offset: u32, into: &mut [u8]) -> usize;
    fn add(&mut self, number: u32, file: &FileInfo, bytes: &[u8]) -> Result<(), u16>;
    fn remove(&mut self, number: u32) -> Result<(), u16>;
}

struct Memory<'a> {
    places: &'a mut [Place],
    bytes: &'a mut [u8],
    count: usize,
    total: u32,
}

impl Memory<'_> {
    fn used(&self) -> &[Place] {
        &self.places[..self.count]
    }

    fn find(&self, number: u32) -> Result<usize, usize> {
        self.used().binary_search_by_key(&number, |p| p.number)
    }

    fn next_above(&self, number: u32) -> Option<u32> {
        let i = self.used().partition_point(|p| p.number <= number);
        self.used().get(i).map(|p| p.number)
    }

    fn describe(&self, number: u32) -> Option<FileInfo> {
        self.find(number).ok().map(|i| self.places[i].file)
    }

    fn copy(&self, number: u32, offset: u32, into: &mut [u8]) -> usize {
        let Ok(i) = self.find(number) else { return 0 };
        let place = &self.places[i];
        if offset > place.file.length {
            return 0;
        }
        let start = (place.start + offset) as usize;
        let count = into.len().min((place.file.length - offset) as usize);
        into[..count].copy_from_slice(&self.bytes[start..start + count]);
        count
    }

    /// The rank of the new row, or the refusal.
    fn admit(&self, number: u32, file: &FileInfo, len: usize) -> Result<usize, u16> {
        if number < 1 || number > LAST_NUMBER || len > MAX_LENGTH || (file.format == Format::Association && len > 0) {
            return Err(0xa806);
        }
        let rank = match self.find(number) {
            Ok(_) => return Err(0x201d),
            Err(rank) => rank,
        };
        let is_folder = |n| matches!(self.find(n), Ok(i) if self.places[i].file.format == Format::Association);
        if !(file.parent == 0 || is_folder(file.parent)) || file.parent >= number {
            return Err(0x201a);
        }
        if self.count >= self.places.len() || len > self.bytes.len() - self.total as usize {
            return Err(0x200c);
        }
        Ok(rank)
    }

    fn removable(&self, number: u32) -> Result<usize, u16> {
        let i = self.find(number).map_err(|_| 0x2009u16)?;
        if self.used().iter().any(|p| p.file.parent == number) {
            return Err(0x200f);
        }
        Ok(i)
    }

    fn insert(&mut self, i: usize, place: Place) {
        self.places.copy_within(i..self.count, i + 1);
        self.places[i] = place;
        self.count += 1;
        self.total += place.file.length;
    }
}

macro_rules! questions {
    () => {
        fn capacity(&self) -> u32 {
            self.0.bytes.len() as u32
        }
        fn limit(&self) -> u32 {
            self.0.places.len() as u32
        }
        fn total(&self) -> u32 {
            self.0.total
        }
        fn count(&self) -> u32 {
            self.0.count as u32
        }
        fn next_above(&self, number: u32) -> Option<u32> {
            self.0.next_above(number)
        }
        fn describe(&self, number: u32) -> Option<FileInfo> {
            self.0.describe(number)
        }
        fn copy(&self, number: u32, offset: u32, into: &mut [u8]) -> usize {
            self.0.copy(number, offset, into)
        }
    };
}

struct Packed<'a>(Memory<'a>);

impl Store for Packed<'_> {
    questions!();

    fn add(&mut self, number: u32, file: &FileInfo, bytes: &[u8]) -> Result<(), u16> {
        let rank = self.0.admit(number, file, bytes.len())?;
        let start = self.0.total;
        let file = FileInfo { length: bytes.len() as u32, ..*file };
        self.0.bytes[start as usize..][..bytes.len()].copy_from_slice(bytes);
        self.0.insert(rank, Place { number, file, start });
        Ok(())
    }

    fn remove(&mut self, number: u32) -> Result<(), u16> {
        let i = self.0.removable(number)?;
        let m = &mut self.0;
        let (start, length) = (m.places[i].start, m.places[i].file.length);
        m.places.copy_within(i + 1..m.count, i);
        m.count -= 1;
        for place in &mut m.places[..m.count] {
            if place.start >= start + length {
                place.start -= length;
            }
        }
        m.bytes.copy_within((start + length) as usize..m.total as usize, start as usize);
        m.total -= length;
        Ok(())
    }
}

struct Slotted<'a>(Memory<'a>);

impl Store for Slotted<'_> {
    questions!();

    fn add(&mut self, number: u32, file: &FileInfo, bytes: &[u8]) -> Result<(), u16> {
        let rank = self.0.admit(number, file, bytes.len())?;
        let start = self.0.places[self.0.count].start;
        let file = FileInfo { length: bytes.len() as u32, ..*file };
        self.0.bytes[start as usize..][..bytes.len()].copy_from_slice(bytes);
        self.0.insert(rank, Place { number, file, start });
        Ok(())
    }

    fn remove(&mut self, number: u32) -> Result<(), u16> {
        let i = self.0.removable(number)?;
        let m = &mut self.0;
        let row = m.places[i];
        m.places.copy_within(i + 1..m.count, i);
        m.count -= 1;
        m.places[m.count] = row;
        m.total -= row.file.length;
        Ok(())
    }
}

/// The second storage of the benchmark holds nothing.
struct Empty;

impl Store for Empty {
    fn capacity(&self) -> u32 {
        0
    }
    fn limit(&self) -> u32 {
        0
    }
    fn total(&self) -> u32 {
        0
    }
    fn count(&self) -> u32 {
        0
    }
    fn next_above(&self, _: u32) -> Option<u32> {
        None
    }
    fn describe(&self, _: u32) -> Option<FileInfo> {
        None
    }
    fn copy(&self, _: u32, _: u32, _: &mut [u8]) -> usize {
        0
    }
    fn add(&mut self, _: u32, _: &FileInfo, _: &[u8]) -> Result<(), u16> {
        Err(0x200e)
    }
    fn remove(&mut self, _: u32) -> Result<(), u16> {
        Err(0x200e)
    }
}

#[derive(Clone, Copy)]
struct Command {
    code: u16,
    transaction: u32,
    parameters: [u32; 5],
}

fn u16_at(bytes: &[u8], at: usize) -> u16 {
    u16::from_le_bytes([bytes[at], bytes[at + 1]])
}

fn u32_at(bytes: &[u8], at: usize) -> u32 {
    u32::from_le_bytes([bytes[at], bytes[at + 1], bytes[at + 2], bytes[at + 3]])
}

fn take(bytes: &[u8]) -> Option<Command> {
    let len = bytes.len();
    if !(12..=32).contains(&len) || len % 4 != 0 || u32_at(bytes, 0) as usize != len || u16_at(bytes, 4) != 1 {
        return None;
    }
    let mut parameters = [0; 5];
    for (i, p) in parameters.iter_mut().enumerate().take((len - 12) / 4) {
        *p = u32_at(bytes, 12 + 4 * i);
    }
    Some(Command { code: u16_at(bytes, 6), transaction: u32_at(bytes, 8), parameters })
}

const OPERATIONS: [(u16, usize); 12] = [
    (0x1001, 0),
    (0x1002, 1),
    (0x1003, 0),
    (0x1004, 0),
    (0x1005, 1),
    (0x1007, 3),
    (0x1008, 1),
    (0x1009, 1),
    (0x100b, 2),
    (0x100c, 2),
    (0x100d, 0),
    (0x101b, 3),
];

#[derive(Clone, Copy)]
struct Announcement {
    number: u32,
    file: FileInfo,
}

#[derive(Clone, Copy)]
struct Session {
    id: u32,
    expected: u32,
    next: u32,
    announced: Option<Announcement>,
}

/// Writes into a data container behind its head.
struct Writer<'a> {
    out: &'a mut [u8],
    at: usize,
}

impl Writer<'_> {
    fn put(&mut self, bytes: &[u8]) {
        self.out[self.at..self.at + bytes.len()].copy_from_slice(bytes);
        self.at += bytes.len();
    }
    fn u8(&mut self, n: u8) {
        self.put(&[n]);
    }
    fn u16(&mut self, n: u16) {
        self.put(&n.to_le_bytes());
    }
    fn u32(&mut self, n: u32) {
        self.put(&n.to_le_bytes());
    }
    fn string(&mut self, units: &[u16]) {
        self.u8(units.len() as u8 + 1);
        for &u in units {
            self.u16(u);
        }
        self.u16(0);
    }
}

fn head<'a>(buffer: &'a mut [u8], command: &Command, payload: usize) -> Result<Writer<'a>, u16> {
    if buffer.len() < 12 + payload {
        return Err(0x2002);
    }
    let mut w = Writer { out: buffer, at: 0 };
    w.u32(12 + payload as u32);
    w.u16(2);
    w.u16(command.code);
    w.u32(command.transaction);
    Ok(w)
}

fn payload<'a>(host: &'a [u8], command: &Command) -> Result<&'a [u8], u16> {
    if host.len() < 12
        || u32_at(host, 0) as usize != host.len()
        || u16_at(host, 4) != 2
        || u16_at(host, 6) != command.code
        || u32_at(host, 8) != command.transaction
    {
        return Err(0x2007);
    }
    Ok(&host[12..])
}

/// The units of a string at the front, and what lies behind it.
fn string_in(bytes: &[u8]) -> Option<([u16; 255], usize, &[u8])> {
    let (&count, rest) = bytes.split_first()?;
    let mut units = [0; 255];
    if count == 0 {
        return Some((units, 0, rest));
    }
    let count = count as usize;
    if count == 1 || rest.len() < 2 * count {
        return None;
    }
    for i in 0..count {
        units[i] = u16_at(rest, 2 * i);
    }
    if units[count - 1] != 0 || units[..count - 1].contains(&0) {
        return None;
    }
    Some((units, count - 1, &rest[2 * count..]))
}

struct Info {
    format: u16,
    read_only: bool,
    size: u32,
    name: Name,
}

fn info_in(bytes: &[u8]) -> Option<Info> {
    if bytes.len() < 52 || u16_at(bytes, 6) > 1 {
        return None;
    }
    let (units, count, mut rest) = string_in(&bytes[52..])?;
    let name = Name::from_units(&units[..count])?;
    for _ in 0..3 {
        rest = string_in(rest)?.2;
    }
    if !rest.is_empty() {
        return None;
    }
    Some(Info { format: u16_at(bytes, 4), read_only: u16_at(bytes, 6) == 1, size: u32_at(bytes, 8), name })
}

#[derive(Clone, Copy)]
struct Done {
    parameters: [u32; 3],
    count: usize,
    data_length: usize,
}

fn done(data_length: usize) -> Result<Done, u16> {
    Ok(Done { parameters: [0; 3], count: 0, data_length })
}

struct Responder<'s, W, R> {
    first: &'s mut W,
    second: &'s R,
    session: Option<Session>,
}

impl<W: Store, R: Store> Responder<'_, W, R> {
    fn answer(&mut self, command: Command, host: &[u8], buffer: &mut [u8], response: &mut [u8; 32]) -> usize {
        let (code, parameters, data_length) = match self.perform(&command, host, buffer) {
            Ok(d) => (OK, (d.parameters, d.count), d.data_length),
            Err(code) => (code, ([self.session.map_or(0, |s| s.id), 0, 0], usize::from(code == 0x201e)), 0),
        };
        let mut w = Writer { out: response, at: 0 };
        w.u32(12 + 4 * parameters.1 as u32);
        w.u16(3);
        w.u16(code);
        w.u32(command.transaction);
        for &p in &parameters.0[..parameters.1] {
            w.u32(p);
        }
        data_length
    }

    fn perform(&mut self, command: &Command, host: &[u8], buffer: &mut [u8]) -> Result<Done, u16> {
        let operation = OPERATIONS.iter().find(|o| o.0 == command.code);
        if let Some(session) = &mut self.session {
            if command.code == 0x1002 {
                return Err(0x201e);
            }
            if command.transaction != session.expected {
                return Err(0x2004);
            }
            session.expected = if session.expected == 0xffff_fffe { 1 } else { session.expected + 1 };
        }
        let operation = operation.ok_or(0x2005u16)?;
        if self.session.is_none() {
            if command.code != 0x1001 && command.code != 0x1002 {
                return Err(0x2003);
            }
            if command.transaction != 0 {
                return Err(0x2004);
            }
        }
        if command.parameters[operation.1..].iter().any(|&p| p != 0) {
            return Err(0x2006);
        }
        match command.code {
            0x1002 => self.open(command.parameters[0]),
            0x1003 => {
                self.session = None;
                done(0)
            }
            0x1007 => self.handles(command, buffer),
            0x1008 => self.info(command, buffer),
            0x1009 => {
                let file = self.object(command.parameters[0])?;
                self.send(command, command.parameters[0], 0, file.length, buffer)
            }
            0x100b => self.delete(command.parameters[0], command.parameters[1]),
            0x100c => self.announce(command, host),
            0x100d => self.store(command, host),
            0x101b => self.part(command, buffer),
            _ => Err(0x2005),
        }
    }

    fn open(&mut self, id: u32) -> Result<Done, u16> {
        if id == 0 {
            return Err(0x201d);
        }
        let mut last = 0;
        while let Some(n) = self.first.next_above(last) {
            last = n;
        }
        self.session = Some(Session { id, expected: 1, next: last + 1, announced: None });
        done(0)
    }

    fn file(&self, handle: u32) -> Result<FileInfo, u16> {
        let file = if handle < SECOND_BASE {
            self.first.describe(handle)
        } else {
            self.second.describe(handle - SECOND_BASE)
        };
        file.ok_or(0x2009)
    }

    fn object(&self, handle: u32) -> Result<FileInfo, u16> {
        let file = self.file(handle)?;
        if file.format == Format::Association { Err(0x2009) } else { Ok(file) }
    }

    fn gather<S: Store>(store: &S, base: u32, wanted: Option<u32>, handles: &mut [u32; 2048], mut count: usize) -> usize {
        let mut last = 0;
        while let Some(n) = store.next_above(last) {
            let listed = match (wanted, store.describe(n)) {
                (None, _) => true,
                (Some(folder), Some(file)) => file.parent == folder,
                (Some(_), None) => false,
            };
            if listed {
                handles[count] = base + n;
                count += 1;
            }
            last = n;
        }
        count
    }

    fn handles(&self, command: &Command, buffer: &mut [u8]) -> Result<Done, u16> {
        let [mut storage, format, folder, ..] = command.parameters;
        if ![ROOT, FIRST_STORAGE, SECOND_STORAGE].contains(&storage) {
            return Err(0x2008);
        }
        if format != 0 {
            return Err(0x2014);
        }
        let wanted = match folder {
            0 => None,
            ROOT => Some(0),
            _ => {
                let file = self.file(folder)?;
                let on = if folder < SECOND_BASE { FIRST_STORAGE } else { SECOND_STORAGE };
                if file.format != Format::Association || (storage != ROOT && storage != on) {
                    return Err(0x201a);
                }
                storage = on;
                Some(folder & 0x7fff_ffff)
            }
        };
        let mut handles = [0; 2048];
        let mut count = 0;
        if storage != SECOND_STORAGE {
            count = Self::gather(self.first, 0, wanted, &mut handles, count);
        }
        if storage != FIRST_STORAGE {
            count = Self::gather(self.second, SECOND_BASE, wanted, &mut handles, count);
        }
        let mut w = head(buffer, command, 4 + 4 * count)?;
        w.u32(count as u32);
        for &h in &handles[..count] {
            w.u32(h);
        }
        let at = w.at;
        done(at)
    }

    fn info(&self, command: &Command, buffer: &mut [u8]) -> Result<Done, u16> {
        let handle = command.parameters[0];
        let file = self.file(handle)?;
        let units = &file.name.units[..file.name.len as usize];
        let on_first = handle < SECOND_BASE;
        let mut w = head(buffer, command, 52 + 1 + 2 * (units.len() + 1) + 3)?;
        w.u32(if on_first { FIRST_STORAGE } else { SECOND_STORAGE });
        w.u16(file.format.number());
        w.u16(u16::from(file.read_only));
        w.u32(file.length);
        w.put(&[0; 26]);
        w.u32(if on_first || file.parent == 0 { file.parent } else { SECOND_BASE + file.parent });
        w.u16(u16::from(file.format == Format::Association));
        w.put(&[0; 8]);
        w.string(units);
        w.put(&[0; 3]);
        let at = w.at;
        done(at)
    }

    fn send(&self, command: &Command, handle: u32, offset: u32, len: u32, buffer: &mut [u8]) -> Result<Done, u16> {
        let end = 12 + len as usize;
        head(buffer, command, len as usize)?;
        let into = &mut buffer[12..end];
        if handle < SECOND_BASE {
            self.first.copy(handle, offset, into);
        } else {
            self.second.copy(handle - SECOND_BASE, offset, into);
        }
        done(end)
    }

    fn part(&self, command: &Command, buffer: &mut [u8]) -> Result<Done, u16> {
        let [handle, offset, maximum, ..] = command.parameters;
        let file = self.object(handle)?;
        if offset > file.length {
            return Err(0x201d);
        }
        let count = maximum.min(file.length - offset);
        let sent = self.send(command, handle, offset, count, buffer)?;
        Ok(Done { parameters: [count, 0, 0], count: 1, ..sent })
    }

    fn delete(&mut self, handle: u32, format: u32) -> Result<Done, u16> {
        if format != 0 {
            return Err(0x2014);
        }
        let file = self.file(handle)?;
        if handle >= SECOND_BASE {
            return Err(0x200e);
        }
        if file.read_only {
            return Err(0x200d);
        }
        self.first.remove(handle)?;
        done(0)
    }

    fn announce(&mut self, command: &Command, host: &[u8]) -> Result<Done, u16> {
        let [storage, parent, ..] = command.parameters;
        if ![0, FIRST_STORAGE, SECOND_STORAGE].contains(&storage) {
            return Err(0x2008);
        }
        if storage == SECOND_STORAGE {
            return Err(0x200e);
        }
        let info = info_in(payload(host, command)?).ok_or(0xa806u16)?;
        let format = Format::from_number(info.format).ok_or(0x200bu16)?;
        if format == Format::Association && info.size > 0 {
            return Err(0xa806);
        }
        let folder = if parent == ROOT { 0 } else { parent };
        if folder != 0 && !matches!(self.first.describe(folder), Some(f) if f.format == Format::Association) {
            return Err(0x201a);
        }
        if info.size > 32_768 {
            return Err(0xa809);
        }
        let session = self.session.as_mut().ok_or(0x2003u16)?;
        let free = self.first.capacity() - self.first.total();
        if self.first.count() >= self.first.limit() || info.size > free || session.next > LAST_NUMBER {
            return Err(0x200c);
        }
        let file = FileInfo { format, read_only: info.read_only, parent: folder, name: info.name, length: info.size };
        let number = session.next;
        session.announced = None;
        if format == Format::Association {
            self.first.add(number, &file, &[])?;
        } else {
            session.announced = Some(Announcement { number, file });
        }
        session.next += 1;
        let told = if folder == 0 { ROOT } else { folder };
        Ok(Done { parameters: [FIRST_STORAGE, told, number], count: 3, data_length: 0 })
    }

    fn store(&mut self, command: &Command, host: &[u8]) -> Result<Done, u16> {
        let session = self.session.as_mut().ok_or(0x2003u16)?;
        let announced = session.announced.take().ok_or(0x2015u16)?;
        let bytes = payload(host, command)?;
        if bytes.len() != announced.file.length as usize {
            return Err(0x2007);
        }
        self.first.add(announced.number, &announced.file, bytes)?;
        done(0)
    }
}

// ---- the rows of the benchmark

/// Numbers that look random, the same in both programs.
struct Numbers(u32);

impl Numbers {
    fn below(&mut self, n: u32) -> u32 {
        self.0 = self.0.wrapping_mul(1_664_525).wrapping_add(1_013_904_223);
        (self.0 >> 8) % n
    }
}

fn report(name: &str, count: u64, start: Instant) {
    println!("{name}\t{count}\t{}", start.elapsed().as_nanos());
}

fn text_file() -> FileInfo {
    let name = Name::from_units(&[0x70, 0x2e, 0x74, 0x78, 0x74]).unwrap();
    FileInfo { format: Format::Text, read_only: false, parent: 0, name, length: 0 }
}

fn fill<S: Store>(store: &mut S, count: u32, bytes: &[u8]) {
    let file = text_file();
    for number in 1..=count {
        let _ = black_box(store.add(number, &file, bytes));
    }
}

fn empty<S: Store>(store: &mut S, count: u32, from_the_end: bool) {
    for i in 1..=count {
        let number = if from_the_end { count + 1 - i } else { i };
        let _ = black_box(store.remove(number));
    }
}

fn look_up<S: Store>(store: &S, files: u32, count: u32) -> u64 {
    let mut numbers = Numbers(1);
    let mut sum = 0u64;
    for _ in 0..count {
        if let Some(file) = store.describe(1 + numbers.below(files)) {
            sum = sum.wrapping_add(u64::from(file.length));
        }
    }
    sum
}

/// Removes every file whose number is no multiple of 3, so that the numbers that are left have gaps.
fn thin_out<S: Store>(store: &mut S, count: u32) {
    for number in 1..=count {
        if number % 3 != 0 {
            let _ = black_box(store.remove(number));
        }
    }
}

fn next<S: Store>(store: &S, files: u32, count: u32) -> u64 {
    let mut numbers = Numbers(1);
    let mut sum = 0u64;
    for _ in 0..count {
        if let Some(number) = store.next_above(numbers.below(files)) {
            sum = sum.wrapping_add(u64::from(number));
        }
    }
    sum
}

fn copies<S: Store>(store: &S, files: u32, count: u32, into: &mut [u8]) -> u64 {
    let mut numbers = Numbers(1);
    let mut sum = 0u64;
    for _ in 0..count {
        sum = sum.wrapping_add(store.copy(1 + numbers.below(files), 0, into) as u64);
    }
    sum
}

fn rows_of_store<S: Store>(make: &str, store: &mut S) {
    let bytes = [7u8; 500];
    let mut into = [0u8; 500];
    let start = Instant::now();
    fill(store, 1024, &bytes);
    report(&format!("{make} add"), 1024, start);
    let start = Instant::now();
    black_box(look_up(store, 1024, 200_000));
    report(&format!("{make} look up"), 200_000, start);
    let start = Instant::now();
    black_box(next(store, 1024, 200_000));
    report(&format!("{make} next"), 200_000, start);
    let start = Instant::now();
    black_box(copies(store, 1024, 200_000, &mut into));
    report(&format!("{make} copy 500"), 200_000, start);
    let start = Instant::now();
    empty(store, 1024, false);
    report(&format!("{make} remove the first"), 1024, start);
    fill(store, 1024, &bytes);
    let start = Instant::now();
    empty(store, 1024, true);
    report(&format!("{make} remove the last"), 1024, start);
    for files in [16, 64, 256, 1024] {
        fill(store, files, &bytes);
        let start = Instant::now();
        black_box(look_up(store, files, 200_000));
        report(&format!("{make} look up of {files}"), 200_000, start);
        empty(store, files, true);
    }
    fill(store, 1024, &bytes);
    thin_out(store, 1024);
    let start = Instant::now();
    black_box(look_up(store, 1024, 200_000));
    report(&format!("{make} look up with gaps"), 200_000, start);
    empty(store, 1024, true);
}

/// The host's end: it counts transactions and makes containers.
struct Host {
    transaction: u32,
    command: [u8; 32],
    data: Vec<u8>,
    buffer: Vec<u8>,
    response: [u8; 32],
}

impl Host {
    fn new() -> Host {
        Host { transaction: 0, command: [0; 32], data: vec![7; 12 + 32_768], buffer: vec![0; 12 + 32_768], response: [0; 32] }
    }

    fn ask<W: Store, R: Store>(&mut self, board: &mut Responder<W, R>, code: u16, parameters: [u32; 3], data: usize) -> u64 {
        let mut w = Writer { out: &mut self.command, at: 0 };
        w.u32(24);
        w.u16(1);
        w.u16(code);
        w.u32(self.transaction);
        for p in parameters {
            w.u32(p);
        }
        let mut w = Writer { out: &mut self.data, at: 0 };
        w.u32(data as u32);
        w.u16(2);
        w.u16(code);
        w.u32(self.transaction);
        self.transaction += 1;
        match take(&self.command[..24]) {
            Some(command) => board.answer(command, &self.data[..data], &mut self.buffer, &mut self.response) as u64,
            None => 0,
        }
    }

    /// The dataset of a text file of this size, behind the head of the data container; how long the container is.
    fn dataset(&mut self, size: u32) -> usize {
        let mut w = Writer { out: &mut self.data, at: 12 };
        w.u32(FIRST_STORAGE);
        w.u16(0x3004);
        w.u16(0);
        w.u32(size);
        w.put(&[0; 40]);
        w.string(&[0x70, 0x2e, 0x74, 0x78, 0x74]);
        w.put(&[0; 3]);
        w.at
    }

    fn repeat<W: Store, R: Store>(&mut self, board: &mut Responder<W, R>, code: u16, parameters: [u32; 3], count: u32) -> u64 {
        let mut sum = 0u64;
        for _ in 0..count {
            sum = sum.wrapping_add(self.ask(board, code, parameters, 0));
        }
        sum
    }

    /// Announces and sends so many files; the first one gets the number `first`.
    fn send<W: Store, R: Store>(&mut self, board: &mut Responder<W, R>, size: u32, count: u32) {
        for _ in 0..count {
            let len = self.dataset(size);
            black_box(self.ask(board, 0x100c, [0, 0, 0], len));
            black_box(self.ask(board, 0x100d, [0, 0, 0], 12 + size as usize));
        }
    }

    fn delete<W: Store, R: Store>(&mut self, board: &mut Responder<W, R>, first: u32, count: u32) {
        for i in 0..count {
            black_box(self.ask(board, 0x100b, [first + i, 0, 0], 0));
        }
    }
}

fn rows_of_size<W: Store, R: Store>(host: &mut Host, board: &mut Responder<W, R>, size: u32, first: u32) {
    let start = Instant::now();
    host.send(board, size, 500);
    report(&format!("SendObjectInfo and SendObject {size}"), 500, start);
    let start = Instant::now();
    black_box(host.repeat(board, 0x1009, [first, 0, 0], 10_000));
    report(&format!("GetObject {size}"), 10_000, start);
    if size == 32_768 {
        let start = Instant::now();
        black_box(host.repeat(board, 0x101b, [first, 1_000, 500], 50_000));
        report("GetPartialObject 500", 50_000, start);
    }
    let start = Instant::now();
    host.delete(board, first, 500);
    report(&format!("DeleteObject {size}"), 500, start);
}

fn rows_of_exchanges<W: Store, R: Store>(first: &mut W, second: &R) {
    let mut board = Responder { first, second, session: None };
    let mut host = Host::new();
    host.ask(&mut board, 0x1002, [1, 0, 0], 0);
    let mut number = 1;
    for size in [0, 500, 4_096, 32_768] {
        rows_of_size(&mut host, &mut board, size, number);
        number += 500;
    }
    host.send(&mut board, 500, 10);
    let start = Instant::now();
    black_box(host.repeat(&mut board, 0x1008, [number, 0, 0], 50_000));
    report("GetObjectInfo", 50_000, start);
    let start = Instant::now();
    black_box(host.repeat(&mut board, 0x1007, [FIRST_STORAGE, 0, 0], 20_000));
    report("GetObjectHandles 10", 20_000, start);
    host.send(&mut board, 500, 1014);
    let start = Instant::now();
    black_box(host.repeat(&mut board, 0x1007, [FIRST_STORAGE, 0, 0], 200));
    report("GetObjectHandles 1024", 200, start);
}

/// What no copy can beat: so many bytes copied once.
fn row_of_memcpy() {
    let from = vec![7u8; 32_768];
    let mut into = vec![0u8; 32_768];
    let start = Instant::now();
    for _ in 0..10_000 {
        black_box(&mut into).copy_from_slice(black_box(&from));
    }
    report("memcpy 32768", 10_000, start);
}

fn main() {
    let mut places = vec![Place::unused(); MAX_FILES];
    // Written once, so that no row pays for pages that the system has yet to provide.
    let mut bytes = vec![1u8; MAX_CAPACITY];
    rows_of_store("packed", &mut Packed(Memory { places: &mut places, bytes: &mut bytes, count: 0, total: 0 }));
    for (i, place) in places.iter_mut().enumerate() {
        place.start = (i * MAX_LENGTH) as u32;
    }
    rows_of_store("slotted", &mut Slotted(Memory { places: &mut places, bytes: &mut bytes, count: 0, total: 0 }));
    rows_of_exchanges(&mut Packed(Memory { places: &mut places, bytes: &mut bytes, count: 0, total: 0 }), &Empty);
    row_of_memcpy();
}
