// A plain program that knows dumps of memory and their listings, and proves nothing: the yardstick of `xpsim decode`, for
// its answers and for its speed. It was written from docs/PROTOCOL.md and docs/SCENARIOS.md.
//
//     dumps make LAYOUT COUNT        writes a dump in layout 1 or 2 of COUNT partitions, with as many words set as may be
//     dumps decode                   lists the dump on standard input, or tells its first fault as xpsim does
//     dumps compare PROGRAM COUNT    changes dumps at random, COUNT of them, and compares PROGRAM's answers with its own
use std::env;
use std::fmt::Write as _;
use std::io::{self, Read, Write};
use std::process::{Command, ExitCode, Stdio};
use std::thread;

const OLDER: &[u8; 8] = b"XPDUMP01";
const NEWER: &[u8; 8] = b"XPDUMP02";
const LIMIT: usize = 33_554_432;

const CHANNELS: usize = 4;
const LINES: usize = 8;
const LINE_WORDS: usize = 16;
const QUEUE_WORDS: usize = LINES * LINE_WORDS;
const POOL_WORDS: usize = 8 * 192;

/// Where the words of a partition stand that has room for so many partners.
#[derive(Clone, Copy)]
struct Layout {
    room: usize,
}

impl Layout {
    const OLDER: Layout = Layout { room: 8 };
    const NEWER: Layout = Layout { room: 64 };

    fn flags(self) -> usize {
        16 + 8 * self.room
    }
    fn args(self) -> usize {
        self.flags() + self.room
    }
    fn counters(self) -> usize {
        self.args() + 4 * CHANNELS * self.room
    }
    fn entries(self) -> usize {
        self.counters() + 2 * CHANNELS * self.room
    }
    fn pool(self) -> usize {
        self.entries() + QUEUE_WORDS * CHANNELS * self.room
    }
    fn words(self) -> usize {
        self.pool() + POOL_WORDS
    }
    fn is_older(self) -> bool {
        self.room == Layout::OLDER.room
    }
}

/// What a word of a partition belongs to: the partner, the channel where it has one, and which of its words it is.
#[derive(Clone, Copy)]
enum Field {
    Open(usize),
    Record(usize, usize),
    Flag(usize),
    Args(usize, usize, usize),
    Counter(usize, usize, usize),
    Entry(usize, usize, usize),
    Pool(usize),
}

fn field(layout: Layout, index: usize) -> Field {
    if index < 16 {
        Field::Open(index)
    } else if index < layout.flags() {
        let k = index - 16;
        Field::Record(k / 8, k % 8)
    } else if index < layout.args() {
        Field::Flag(index - layout.flags())
    } else if index < layout.counters() {
        let k = index - layout.args();
        Field::Args(k / 16, k / 4 % 4, k % 4)
    } else if index < layout.entries() {
        let k = index - layout.counters();
        Field::Counter(k / 8, k / 2 % 4, k % 2)
    } else if index < layout.pool() {
        let k = index - layout.entries();
        Field::Entry(k / 512, k / 128 % 4, k % 128)
    } else {
        Field::Pool(index - layout.pool())
    }
}

fn place(layout: Layout, field: Field) -> usize {
    match field {
        Field::Open(k) => k,
        Field::Record(q, k) => 16 + 8 * q + k,
        Field::Flag(q) => layout.flags() + q,
        Field::Args(q, c, k) => layout.args() + 16 * q + 4 * c + k,
        Field::Counter(q, c, k) => layout.counters() + 8 * q + 2 * c + k,
        Field::Entry(q, c, k) => layout.entries() + 512 * q + 128 * c + k,
        Field::Pool(k) => layout.pool() + k,
    }
}

/// The partition that a word is of.
struct Part {
    layout: Layout,
    owner: usize,
    count: usize,
    version: u64,
}

impl Part {
    fn all(&self) -> u64 {
        if self.count == 64 { u64::MAX } else { (1 << self.count) - 1 }
    }

    /// The cause why a word may not stand at a field, where it may not.
    fn refused(&self, field: Field, word: u64) -> Option<&'static str> {
        let zero_or = |other: Field| word == 0 || word == place(self.layout, other) as u64;
        let (allowed, cause) = match field {
            Field::Open(0) => (word == u64::from_le_bytes(*b"XPCPAGE1"), "signature"),
            Field::Open(1) => ((48..=63).contains(&word), "version"),
            Field::Open(2) => (word == self.owner as u64, "value"),
            Field::Open(3) => (word == 8, "address"),
            Field::Open(4) => (word < 1 << 32, "value"),
            Field::Open(5) => (word == self.all(), "mask"),
            Field::Open(6 | 7 | 15) => (word == 0, "value"),
            Field::Open(9 | 11 | 12 | 13) => {
                (word & !self.all() == 0 && word >> self.owner & 1 == 0, "mask")
            }
            Field::Open(14) => (word == 16, "address"),
            Field::Open(_) => (true, ""),
            Field::Record(_, 0) => (
                word == 0
                    || word == u64::from_le_bytes(*b"XPCFIRST")
                    || word == u64::from_le_bytes(*b"XPCSECND"),
                "magic",
            ),
            Field::Record(q, 3) => (zero_or(Field::Args(q, 0, 0)), "address"),
            Field::Record(q, 4) => (zero_or(Field::Counter(q, 0, 0)), "address"),
            Field::Record(q, 5) => (zero_or(Field::Flag(q)), "address"),
            Field::Record(_, 6) => (word == 0 || word == 4, "value"),
            Field::Record(_, 7) => (word == 0, "value"),
            Field::Record(..) => (true, ""),
            Field::Flag(_) => (word & !0x3f3f_3f3f == 0, "flag-bits"),
            Field::Args(_, _, 0) => (is_request(word, self.layout.is_older()), "length"),
            Field::Args(q, c, 1) => (zero_or(Field::Entry(q, c, 0)), "address"),
            Field::Args(_, _, 2) => (word <= 15, "reason"),
            Field::Args(..) => (word == 0, "value"),
            Field::Entry(_, _, k)
                if k % LINE_WORDS == 0 && (self.layout.is_older() || self.version < 50) =>
            {
                (word == 0 || (65_536..=65_648).contains(&word), "length")
            }
            Field::Counter(..) | Field::Entry(..) | Field::Pool(_) => (true, ""),
        };
        if allowed { None } else { Some(cause) }
    }
}

/// A request: 0, or a limit and 1 to 8 entries whose lines fit the queue; in the older layout an entry has one line.
fn is_request(word: u64, one_line: bool) -> bool {
    let (entries, limit) = (word >> 16, word & 0xffff);
    if word == 0 {
        return true;
    }
    if !(1..=8).contains(&entries) || limit > if one_line { 112 } else { 1008 } {
        return false;
    }
    let lines = (1..=8).find(|lines| limit <= 128 * lines - 16);
    lines.is_some_and(|lines| entries * lines <= 8)
}

/// The word that stands in memory for one of a dump in the older layout.
fn moved(field: Field, word: u64) -> u64 {
    let named = match field {
        Field::Record(q, 3) => Field::Args(q, 0, 0),
        Field::Record(q, 4) => Field::Counter(q, 0, 0),
        Field::Record(q, 5) => Field::Flag(q),
        Field::Args(q, c, 1) => Field::Entry(q, c, 0),
        _ => return word,
    };
    if word == 0 { 0 } else { place(Layout::NEWER, named) as u64 }
}

/// All partitions' words, or the line of the first fault.
fn read(bytes: &[u8]) -> Result<Vec<Vec<u64>>, String> {
    let mut words = bytes.chunks_exact(8).map(|word| u64::from_le_bytes(word.try_into().unwrap()));
    let at = |number: usize, cause: &str| format!("xpsim: offset {}: {cause}", 8 * number);
    let cut = || format!("xpsim: offset {}: truncated", bytes.len());
    let header = words.next().ok_or_else(cut)?.to_le_bytes();
    let layout = match &header {
        OLDER => Layout::OLDER,
        NEWER => Layout::NEWER,
        _ => return Err(at(0, "signature")),
    };
    let count = words.next().ok_or_else(cut)?;
    if count < 2 || count > layout.room as u64 {
        return Err(at(1, "value"));
    }
    let count = count as usize;
    let mut memory = vec![vec![0u64; Layout::NEWER.words()]; count];
    for (owner, own) in memory.iter_mut().enumerate() {
        let mut part = Part { layout, owner, count, version: 0 };
        for index in 0..layout.words() {
            let word = words.next().ok_or_else(cut)?;
            let field = field(layout, index);
            if let Some(cause) = part.refused(field, word) {
                return Err(at(2 + layout.words() * owner + index, cause));
            }
            if index == 1 {
                part.version = word;
            }
            if layout.is_older() {
                own[place(Layout::NEWER, field)] = moved(field, word);
            } else {
                own[index] = word;
            }
        }
    }
    let whole = 16 + 8 * layout.words() * count;
    if bytes.len() > whole {
        return Err(format!("xpsim: offset {whole}: trailing"));
    }
    Ok(memory)
}

fn payload(bytes: &[u8], out: &mut String) {
    let hex = |part: &[u8], out: &mut String| {
        for byte in part {
            out.push(char::from_digit((byte >> 4) as u32, 16).unwrap());
            out.push(char::from_digit((byte & 15) as u32, 16).unwrap());
        }
    };
    write!(out, "{}:", bytes.len()).unwrap();
    if bytes.len() > 32 {
        hex(&bytes[..8], out);
        out.push_str("..");
        hex(&bytes[bytes.len() - 8..], out);
    } else {
        hex(bytes, out);
    }
}

fn list(memory: &[Vec<u64>]) -> String {
    let mut out = String::from("listing 1\n");
    for (owner, words) in memory.iter().enumerate() {
        list_part(owner, words, &mut out);
    }
    out
}

fn list_part(owner: usize, words: &[u64], out: &mut String) {
    let at = |field: Field| words[place(Layout::NEWER, field)];
    let (version, stamp) = (words[1], words[4]);
    writeln!(
        out,
        "partition {owner} version {}.{} stamp {stamp} partitions {:x}",
        version >> 4,
        version & 15,
        words[5]
    )
    .unwrap();
    writeln!(
        out,
        "  vars beat {} mask {:x} offline {} activation {:x} engaged {:x} deactivate {:x}",
        words[8], words[9], words[10], words[11], words[12], words[13]
    )
    .unwrap();
    for q in 0..64 {
        let magic = at(Field::Record(q, 0));
        if magic != 0 {
            let name = if magic == u64::from_le_bytes(*b"XPCFIRST") { "first" } else { "second" };
            let (own, echo) = (at(Field::Record(q, 1)), at(Field::Record(q, 2)));
            let low = u64::from(u32::MAX);
            writeln!(
                out,
                "  record {q} {name} session {}.{} echo {}.{}",
                own >> 32,
                own & low,
                echo >> 32,
                echo & low
            )
            .unwrap();
        }
    }
    let ends = || (0..64).flat_map(|q| (0..CHANNELS).map(move |c| (q, c)));
    for (q, c) in ends() {
        let flags = at(Field::Flag(q)) >> (8 * c) & 0xff;
        if flags != 0 {
            write!(out, "  flags {q} {c}").unwrap();
            let kinds =
                ["closerequest", "closereply", "openrequest", "openreply", "opencomplete", "msgrequest"];
            for (bit, kind) in kinds.iter().enumerate() {
                if flags >> bit & 1 == 1 {
                    write!(out, " {kind}").unwrap();
                }
            }
            out.push('\n');
        }
    }
    for (q, c) in ends() {
        let args = [0, 1, 2].map(|k| at(Field::Args(q, c, k)));
        if args != [0, 0, 0] {
            let (entries, limit) = (args[0] >> 16, args[0] & 0xffff);
            writeln!(
                out,
                "  args {q} {c} entries {entries} limit {limit} queue {} reason {}",
                args[1], args[2]
            )
            .unwrap();
        }
    }
    for (q, c) in ends() {
        let (get, put) = (at(Field::Counter(q, c, 0)), at(Field::Counter(q, c, 1)));
        if get != 0 || put != 0 {
            writeln!(out, "  counters {q} {c} get {get} put {put}").unwrap();
        }
    }
    if version < 50 {
        for (q, c) in ends() {
            for k in 0..LINES {
                list_entry(q, c, k, &words[place(Layout::NEWER, Field::Entry(q, c, LINE_WORDS * k))..], out);
            }
        }
    }
}

fn list_entry(q: usize, c: usize, k: usize, words: &[u64], out: &mut String) {
    if words[0] == 0 {
        return;
    }
    let mut bytes = [0u8; 8 * (LINE_WORDS - 2)];
    for (to, word) in bytes.chunks_exact_mut(8).zip(&words[2..LINE_WORDS]) {
        to.copy_from_slice(&word.to_le_bytes());
    }
    write!(out, "  entry {q} {c} {k} number {} ", words[1]).unwrap();
    payload(&bytes[..(words[0] - 65_536) as usize], out);
    out.push('\n');
}

/// What `xpsim decode` answers: the status, what it writes, and its line on standard error.
fn decode(bytes: &[u8]) -> (u8, String, String) {
    if bytes.len() > LIMIT {
        return (6, String::new(), format!("xpsim: input longer than {LIMIT} bytes"));
    }
    match read(bytes) {
        Ok(memory) => (0, list(&memory), String::new()),
        Err(line) => (5, String::new(), line),
    }
}

/// The greatest word, or nearly so, that may stand at a field.
fn greatest(part: &Part, field: Field) -> u64 {
    let at = |field: Field| place(part.layout, field) as u64;
    match field {
        Field::Open(0) => u64::from_le_bytes(*b"XPCPAGE1"),
        Field::Open(1) => 49,
        Field::Open(2) => part.owner as u64,
        Field::Open(3) => 8,
        Field::Open(4) => u64::from(u32::MAX),
        Field::Open(5) => part.all(),
        Field::Open(9 | 11 | 12 | 13) => part.all() & !(1 << part.owner),
        Field::Open(14) => 16,
        Field::Open(6 | 7 | 15) | Field::Record(_, 7) | Field::Args(_, _, 3) => 0,
        Field::Record(_, 0) => u64::from_le_bytes(*b"XPCSECND"),
        Field::Record(q, 3) => at(Field::Args(q, 0, 0)),
        Field::Record(q, 4) => at(Field::Counter(q, 0, 0)),
        Field::Record(q, 5) => at(Field::Flag(q)),
        Field::Record(_, 6) => 4,
        Field::Flag(_) => 0x3f3f_3f3f,
        Field::Args(_, _, 0) => 8 * 65_536 + 112,
        Field::Args(q, c, 1) => at(Field::Entry(q, c, 0)),
        Field::Args(_, _, 2) => 15,
        Field::Entry(_, _, k) if k % LINE_WORDS == 0 => 65_648,
        _ => u64::MAX,
    }
}

fn make(layout: Layout, count: usize) -> Vec<u8> {
    let mut bytes = if layout.is_older() { OLDER.to_vec() } else { NEWER.to_vec() };
    bytes.extend((count as u64).to_le_bytes());
    for owner in 0..count {
        let part = Part { layout, owner, count, version: 49 };
        for index in 0..layout.words() {
            bytes.extend(greatest(&part, field(layout, index)).to_le_bytes());
        }
    }
    bytes
}

/// Numbers that look random: the linear congruential generator of Knuth's MMIX.
struct Numbers(u64);

impl Numbers {
    fn below(&mut self, end: usize) -> usize {
        self.0 = self.0.wrapping_mul(6_364_136_223_846_793_005).wrapping_add(1_442_695_040_888_963_407);
        ((self.0 >> 32) % end as u64) as usize
    }
}

/// Changes some words, or cuts the dump, or makes it longer.
fn change(bytes: &mut Vec<u8>, numbers: &mut Numbers) {
    for _ in 0..1 + numbers.below(3) {
        let number = match numbers.below(3) {
            0 => numbers.below(40),
            _ => numbers.below(bytes.len() / 8),
        };
        let place = 8 * number..8 * number + 8;
        let old = u64::from_le_bytes(bytes[place.clone()].try_into().unwrap());
        let new = match numbers.below(6) {
            0 => 0,
            1 => old.wrapping_add(1),
            2 => old.wrapping_sub(1),
            3 => old ^ 1 << numbers.below(64),
            4 => numbers.below(70_000) as u64,
            _ => 65_536 * numbers.below(10) as u64 + numbers.below(1100) as u64,
        };
        bytes[place].copy_from_slice(&new.to_le_bytes());
    }
    match numbers.below(20) {
        0 => bytes.truncate(numbers.below(bytes.len())),
        1 => bytes.push(numbers.below(256) as u8),
        _ => {}
    }
}

/// What a program answers to these bytes, as `decode` does.
fn ask(program: &str, bytes: &[u8]) -> io::Result<(u8, String, String)> {
    let mut child = Command::new(program)
        .arg("decode")
        .stdin(Stdio::piped())
        .stdout(Stdio::piped())
        .stderr(Stdio::piped())
        .spawn()?;
    let mut input = child.stdin.take().unwrap();
    let output = thread::scope(|scope| {
        // A program may end before it has read all.
        scope.spawn(move || drop(input.write_all(bytes)));
        child.wait_with_output()
    })?;
    let text = |bytes: Vec<u8>| String::from_utf8_lossy(&bytes).into_owned();
    let status = output.status.code().map_or(255, |code| code as u8);
    Ok((status, text(output.stdout), text(output.stderr).trim_end().to_string()))
}

/// Half of the dumps are full ones of two partitions in the older layout, the others have few words.
fn compare(program: &str, count: usize) -> io::Result<bool> {
    let full = make(Layout::OLDER, 2);
    let mut bare = full.clone();
    for (k, word) in bare.chunks_exact_mut(8).enumerate().skip(2) {
        let index = (k - 2) % Layout::OLDER.words();
        if index >= 16 || matches!(index, 4 | 8..=13) {
            word.fill(0);
        }
    }
    let mut numbers = Numbers(17);
    let (mut listed, mut same) = (0, true);
    for k in 0..count {
        let mut bytes = if k % 2 == 0 { full.clone() } else { bare.clone() };
        if k % 5 == 0 {
            bytes = make(Layout::NEWER, 2);
        }
        change(&mut bytes, &mut numbers);
        let wanted = decode(&bytes);
        let found = ask(program, &bytes)?;
        listed += usize::from(wanted.0 == 0);
        if found != wanted {
            println!("dump {k}: status {} {:?}, wanted {} {:?}", found.0, found.2, wanted.0, wanted.2);
            same = false;
        }
    }
    println!("{count} dumps compared, {listed} of them listed");
    Ok(same)
}

fn main() -> io::Result<ExitCode> {
    let words: Vec<String> = env::args().skip(1).collect();
    let words: Vec<&str> = words.iter().map(String::as_str).collect();
    match words[..] {
        ["make", layout, count] => {
            let layout = if layout == "1" { Layout::OLDER } else { Layout::NEWER };
            let count = count.parse().expect("a number of partitions");
            io::stdout().write_all(&make(layout, count))?;
            Ok(ExitCode::SUCCESS)
        }
        ["decode"] => {
            let mut bytes = Vec::new();
            io::stdin().take(LIMIT as u64 + 1).read_to_end(&mut bytes)?;
            let (status, text, line) = decode(&bytes);
            io::stdout().write_all(text.as_bytes())?;
            if !line.is_empty() {
                eprintln!("{line}");
            }
            Ok(ExitCode::from(status))
        }
        ["compare", program, count] => {
            let same = compare(program, count.parse().expect("a number of dumps"))?;
            Ok(if same { ExitCode::SUCCESS } else { ExitCode::FAILURE })
        }
        _ => {
            eprintln!("dumps: make LAYOUT COUNT, decode, or compare PROGRAM COUNT");
            Ok(ExitCode::from(2))
        }
    }
}
