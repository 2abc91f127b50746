//! The same program in plain Rust, without proofs: it takes the same scripts and prints the same report. bench/first-path
//! times it beside sunvm.
use std::io::{self, Read, Write};
use std::process::ExitCode;

const PAGE: usize = 4096;
const PAGES: usize = 0x80000;
const MOST_BYTES: usize = 1_048_576;
const READ: u8 = 1;
const WRITE: u8 = 2;

#[derive(Clone, Copy)]
enum Call {
    Load { addr: u32, size: u32 },
    Store { addr: u32, size: u32, value: u32 },
    Map { addr: u32, length: u32, prot: u8, offset: u32 },
    Exit,
}

#[derive(Clone, Copy)]
enum Reply {
    Done,
    Word(u32),
    Mapped(u32),
    Signal(&'static str),
    Refused(u32, &'static str),
}

#[derive(Clone, Copy)]
struct Entry {
    call: Call,
    reply: Reply,
}

#[derive(Clone, Copy)]
struct Mapping {
    prot: u8,
    index: u32,
}

struct Plan {
    blocks: u32,
    name: Vec<u8>,
    pages: u32,
    bytes: Vec<u8>,
    calls: Vec<Call>,
}

fn number(field: &[u8]) -> Option<u32> {
    let (digits, base, most) = match field {
        [b'0', b'x', rest @ ..] => (rest, 16, 8),
        _ => (field, 10, 10),
    };
    if digits.is_empty() || digits.len() > most {
        return None;
    }
    let mut value = 0u64;
    for &byte in digits {
        value = value * base as u64 + (byte as char).to_digit(base)? as u64;
    }
    u32::try_from(value).ok()
}

fn is_name(field: &[u8]) -> bool {
    let is_right = |b: &u8| b.is_ascii_lowercase() || b.is_ascii_digit() || b"_.-".contains(b);
    (1..=16).contains(&field.len()) && field != b"zero" && field.iter().all(is_right)
}

fn bytes(field: &[u8]) -> Option<Vec<u8>> {
    if field == b"-" {
        return Some(Vec::new());
    }
    if field.len() % 2 != 0 || !(2..=131_072).contains(&field.len()) {
        return None;
    }
    let digit = |b: u8| (b as char).to_digit(16).map(|d| d as u8);
    field.chunks(2).map(|pair| Some(16 * digit(pair[0])? + digit(pair[1])?)).collect()
}

fn fields(line: &[u8]) -> Vec<&[u8]> {
    line.split(|&b| b == b' ').collect()
}

fn call(name: &[u8], line: &[u8]) -> Option<Call> {
    match fields(line).as_slice() {
        [b"load", addr, size] => {
            let (addr, size) = (number(addr)?, number(size)?);
            [1, 2, 4].contains(&size).then_some(Call::Load { addr, size })
        }
        [b"store", addr, size, value] => {
            let (addr, size, value) = (number(addr)?, number(size)?, number(value)?);
            let fits = [1, 2, 4].contains(&size) && u64::from(value) < 1 << (8 * size);
            fits.then_some(Call::Store { addr, size, value })
        }
        [b"map", addr, length, prot, b"shared", object, offset] if *object == name => {
            let prot = match *prot {
                b"none" => 0,
                b"r" => READ,
                b"w" => WRITE,
                b"rw" => READ | WRITE,
                _ => return None,
            };
            Some(Call::Map { addr: number(addr)?, length: number(length)?, prot, offset: number(offset)? })
        }
        _ => None,
    }
}

fn plan(text: &[u8]) -> Option<Plan> {
    if text.len() > MOST_BYTES {
        return None;
    }
    let mut lines = text.split(|&b| b == b'\n');
    let first = fields(lines.next()?);
    let [b"disk", b"0", b"blank", blocks] = first.as_slice() else { return None };
    let blocks = number(blocks).filter(|n| (2..=16_384).contains(n))?;
    let second = fields(lines.next()?);
    let [b"file", name, b"rw", b"0", pages, content] = second.as_slice() else { return None };
    let pages = number(pages).filter(|n| (1..blocks).contains(n))?;
    let content = bytes(content).filter(|b| b.len() <= pages as usize * PAGE && is_name(name))?;
    if lines.next()? != b"process" {
        return None;
    }
    let mut calls = Vec::new();
    loop {
        let line = lines.next()?;
        if line == b"end" {
            calls.push(Call::Exit);
            break;
        }
        calls.push(call(name, line)?);
    }
    if !lines.next()?.is_empty() || lines.next().is_some() {
        return None;
    }
    Some(Plan { blocks, name: name.to_vec(), pages, bytes: content, calls })
}

struct Disk {
    blocks: Vec<[u8; PAGE]>,
}

struct State {
    length: usize,
    limit: u32,
    pages: Vec<u8>,
    modified: Vec<bool>,
    table: Vec<Option<Mapping>>,
    mapped: usize,
    history: Vec<Entry>,
}

impl State {
    fn met(&self, right: u8, addr: u32, size: u32) -> Result<usize, &'static str> {
        if addr % size != 0 {
            return Err("BUS align");
        }
        let Some(mapping) = self.table.get(addr as usize / PAGE).copied().flatten() else {
            return Err("SEGV nomap");
        };
        if mapping.prot & right == 0 {
            return Err("SEGV prot");
        }
        if mapping.index as usize >= self.modified.len() {
            return Err("BUS past");
        }
        Ok(mapping.index as usize * PAGE + addr as usize % PAGE)
    }

    fn load(&self, addr: u32, size: u32) -> Reply {
        match self.met(READ, addr, size) {
            Ok(at) => {
                let word = &self.pages[at..at + size as usize];
                Reply::Word(word.iter().fold(0, |value, &byte| value << 8 | u32::from(byte)))
            }
            Err(signal) => Reply::Signal(signal),
        }
    }

    fn store(&mut self, addr: u32, size: u32, value: u32) -> Reply {
        match self.met(WRITE, addr, size) {
            Ok(at) => {
                let bytes = value.to_be_bytes();
                self.pages[at..at + size as usize].copy_from_slice(&bytes[4 - size as usize..]);
                self.modified[at / PAGE] = true;
                Reply::Done
            }
            Err(signal) => Reply::Signal(signal),
        }
    }

    fn map(&mut self, addr: u32, length: u32, prot: u8, offset: u32) -> Reply {
        let (first, count) = (addr as usize / PAGE, (length as usize).div_ceil(PAGE));
        let aligned = addr as usize % PAGE == 0 && offset as usize % PAGE == 0;
        if !aligned || length == 0 || first == 0 || first + count > PAGES {
            return Reply::Refused(1, "Invalid");
        }
        let range = first..first + count;
        let over = self.table[range.clone()].iter().flatten().count();
        if self.mapped - over + count > 0x10000 {
            return Reply::Refused(5, "TooLarge");
        }
        for (i, page) in self.table[range].iter_mut().enumerate() {
            *page = Some(Mapping { prot, index: offset / PAGE as u32 + i as u32 });
        }
        self.mapped = self.mapped - over + count;
        Reply::Mapped(addr)
    }

    fn act(&mut self, call: Call) {
        let reply = match call {
            Call::Load { addr, size } => self.load(addr, size),
            Call::Store { addr, size, value } => self.store(addr, size, value),
            Call::Map { addr, length, prot, offset } => self.map(addr, length, prot, offset),
            Call::Exit => Reply::Done,
        };
        self.history.push(Entry { call, reply });
    }
}

fn open(plan: &Plan, disk: &mut Disk) -> State {
    let count = plan.bytes.len().div_ceil(PAGE);
    for (i, piece) in plan.bytes.chunks(PAGE).enumerate() {
        disk.blocks[1 + i] = [0; PAGE];
        disk.blocks[1 + i][..piece.len()].copy_from_slice(piece);
    }
    let mut pages = Vec::with_capacity(count * PAGE);
    for block in &disk.blocks[1..1 + count] {
        pages.extend_from_slice(block);
    }
    State {
        length: plan.bytes.len(),
        limit: plan.pages,
        pages,
        modified: vec![false; count],
        table: vec![None; PAGES],
        mapped: 0,
        history: Vec::with_capacity(plan.calls.len()),
    }
}

fn close(plan: &Plan, state: &State, disk: &mut Disk) {
    for (i, _) in state.modified.iter().enumerate().filter(|(_, &m)| m) {
        let valid = (state.length - i * PAGE).min(PAGE);
        disk.blocks[1 + i] = [0; PAGE];
        disk.blocks[1 + i][..valid].copy_from_slice(&state.pages[i * PAGE..i * PAGE + valid]);
    }
    let numbers = [1, plan.blocks, 1];
    let mut table = b"SUNVMVOL".to_vec();
    table.extend(numbers.iter().flat_map(|n: &u32| n.to_be_bytes()));
    table.resize(32, 0);
    table.extend(&plan.name);
    table.resize(48, 0);
    let entry = [state.length as u32, 1, state.limit, 1];
    table.extend(entry.iter().flat_map(|n| n.to_be_bytes()));
    table.resize(PAGE, 0);
    disk.blocks[0].copy_from_slice(&table);
}

fn hex(out: &mut Vec<u8>, bytes: &[u8]) {
    for byte in bytes {
        out.push(b"0123456789abcdef"[usize::from(byte >> 4)]);
        out.push(b"0123456789abcdef"[usize::from(byte & 15)]);
    }
}

fn line(out: &mut Vec<u8>, number: usize, entry: &Entry) -> io::Result<()> {
    let (word, size) = match entry.call {
        Call::Load { size, .. } => ("load", size as usize),
        Call::Store { .. } => ("store", 4),
        Call::Map { .. } => ("map", 4),
        Call::Exit => ("exit", 4),
    };
    write!(out, "{number} {word} ")?;
    match entry.reply {
        Reply::Done => out.extend(b"ok"),
        Reply::Signal(text) => out.extend(text.as_bytes()),
        Reply::Refused(number, name) => write!(out, "error {number} {name}")?,
        Reply::Word(value) => {
            out.extend(b"0x");
            hex(out, &value.to_be_bytes()[4 - size..]);
        }
        Reply::Mapped(value) => {
            out.extend(b"0x");
            hex(out, &value.to_be_bytes());
        }
    }
    out.push(b'\n');
    Ok(())
}

fn report(plan: &Plan, state: &State, disk: &Disk) -> io::Result<Vec<u8>> {
    let mut out = Vec::with_capacity(24 * state.history.len());
    out.extend(b"process 1\n");
    for (i, entry) in state.history.iter().enumerate() {
        line(&mut out, 4 + i, entry)?;
    }
    out.extend(b"file ");
    out.extend(&plan.name);
    writeln!(out, " {}", state.length)?;
    for page in 0..state.length.div_ceil(PAGE) {
        let valid = (state.length - page * PAGE).min(PAGE);
        for (i, piece) in disk.blocks[1 + page][..valid].chunks(32).enumerate() {
            if piece.iter().any(|&b| b != 0) {
                hex(&mut out, &((page * PAGE + i * 32) as u32).to_be_bytes());
                out.push(b' ');
                hex(&mut out, piece);
                out.push(b'\n');
            }
        }
    }
    Ok(out)
}

fn main() -> ExitCode {
    let mut text = Vec::new();
    if io::stdin().take(MOST_BYTES as u64 + 1).read_to_end(&mut text).is_err() {
        return ExitCode::from(5);
    }
    let Some(plan) = plan(&text) else {
        println!("script: line");
        return ExitCode::from(3);
    };
    let mut disk = Disk { blocks: vec![[0; PAGE]; plan.blocks as usize] };
    let mut state = open(&plan, &mut disk);
    for &call in &plan.calls {
        state.act(call);
    }
    close(&plan, &state, &mut disk);
    match report(&plan, &state, &disk).and_then(|out| io::stdout().write_all(&out)) {
        Ok(()) => ExitCode::SUCCESS,
        Err(_) => ExitCode::from(6),
    }
}
