//! A plain reader of scenario texts, to compare the proved one with. It reads the same language, written down a second time
//! by hand, and shares no code with the crates. bench/grammar.sh builds and runs it.
//!
//!     grammar mutate COUNT SEED <texts            writes mutated texts, with a byte 1 between them
//!     grammar verdicts <texts                     reads such texts, and writes one line for each
//!     grammar compare PROGRAM COUNT SEED <texts   gives mutated texts to the program, and compares what it says
use std::collections::HashSet;
use std::io::{Read, Write};
use std::process::{exit, Command, Stdio};

#[derive(Clone, Copy, PartialEq, Eq, PartialOrd, Ord, Debug)]
enum Cause {
    Header,
    Word,
    Missing,
    Extra,
    Number,
    Payload,
    Partition,
    Channel,
    Twice,
    Order,
}

impl Cause {
    fn text(self) -> &'static str {
        [
            "header",
            "word",
            "missing",
            "extra",
            "number",
            "payload",
            "partition",
            "channel",
            "twice",
            "order",
        ][self as usize]
    }
}

#[derive(PartialEq, Clone, Copy)]
enum Section {
    Opening,
    Counting,
    Settings,
    Scripts,
    Schedule,
}

struct Words<'a> {
    words: Vec<(u64, &'a [u8])>,
    at: usize,
    end: u64,
}

type R<T> = Result<T, (u64, Cause)>;

impl<'a> Words<'a> {
    fn new(line: &'a [u8]) -> Self {
        let mut words = Vec::new();
        let mut i = 0;
        while i < line.len() {
            if matches!(line[i], b' ' | b'\t' | b'\r') {
                i += 1;
                continue;
            }
            if line[i] == b'#' {
                break;
            }
            let from = i;
            while i < line.len() && !matches!(line[i], b' ' | b'\t' | b'\r') {
                i += 1;
            }
            words.push((from as u64 + 1, &line[from..i]));
        }
        Words {
            words,
            at: 0,
            end: line.len() as u64 + 1,
        }
    }
    fn next(&mut self) -> R<(u64, &'a [u8])> {
        let Some(&(column, word)) = self.words.get(self.at) else {
            return Err((self.end, Cause::Missing));
        };
        self.at += 1;
        if word.iter().any(|b| *b > 127) {
            return Err((column, Cause::Word));
        }
        Ok((column, word))
    }
    fn end(&mut self, cause: Cause) -> R<()> {
        if self.at == self.words.len() {
            return Ok(());
        }
        let (column, _) = self.next()?;
        Err((column, cause))
    }
    fn accept(&mut self, word: &str) -> bool {
        if self.words.get(self.at).is_some_and(|w| w.1 == word.as_bytes()) {
            self.at += 1;
            true
        } else {
            false
        }
    }
    fn expect(&mut self, word: &str) -> R<()> {
        let (column, w) = self.next()?;
        if w == word.as_bytes() {
            Ok(())
        } else {
            Err((column, Cause::Word))
        }
    }
    fn digits(&mut self) -> R<(u64, u128)> {
        let (column, w) = self.next()?;
        if !w.iter().all(|b| b.is_ascii_digit()) {
            return Err((column, Cause::Number));
        }
        let mut n: u128 = 0;
        for b in w {
            n = (n * 10 + (b - b'0') as u128).min(1 << 100);
        }
        Ok((column, n))
    }
    fn number(&mut self, low: u64, high: u64) -> R<u64> {
        let (column, n) = self.digits()?;
        if n < low as u128 || n > high as u128 {
            return Err((column, Cause::Number));
        }
        Ok(n as u64)
    }
    fn part(&mut self, count: u64) -> R<(u64, u64)> {
        let (column, n) = self.digits()?;
        if n >= count as u128 {
            return Err((column, Cause::Partition));
        }
        Ok((column, n as u64))
    }
    fn other(&mut self, count: u64, own: u64) -> R<u64> {
        let (column, n) = self.part(count)?;
        if n == own {
            return Err((column, Cause::Partition));
        }
        Ok(n)
    }
    fn channel(&mut self, messages: bool) -> R<(u64, u64)> {
        let (column, n) = self.digits()?;
        if n > 3 || (messages && n == 1) {
            return Err((column, Cause::Channel));
        }
        Ok((column, n as u64))
    }
    fn size(&mut self, longest: u64) -> R<(u64, u64)> {
        self.expect("entries")?;
        let entries = self.number(1, 8)?;
        self.expect("limit")?;
        let (column, limit) = self.digits()?;
        if limit > longest as u128 {
            return Err((column, Cause::Number));
        }
        let limit = limit as u64;
        let lines = (1..=8).find(|l| limit <= 128 * l - 16).unwrap();
        if entries * lines > 8 {
            return Err((column, Cause::Number));
        }
        Ok((entries, limit))
    }
    fn payload(&mut self, least: usize, most: usize) -> R<usize> {
        let (column, w) = self.next()?;
        match payload(w) {
            Some(n) if n >= least && n <= most => Ok(n),
            _ => Err((column, Cause::Payload)),
        }
    }
    fn moment(&mut self) -> R<()> {
        if self.accept("put") {
            self.number(1, u64::MAX)?;
        } else {
            self.expect("turn")?;
            self.number(0, u64::MAX)?;
        }
        self.end(Cause::Extra)
    }
}

fn hex(w: &[u8]) -> Option<usize> {
    if !w.is_empty() && w.len() % 2 == 0 && w.iter().all(|b| b.is_ascii_hexdigit()) {
        Some(w.len() / 2)
    } else {
        None
    }
}

fn payload(w: &[u8]) -> Option<usize> {
    if w == b"-" {
        return Some(0);
    }
    let mut sum = 0usize;
    for piece in w.split(|b| *b == b'+') {
        let parts: Vec<&[u8]> = piece.split(|b| *b == b'*').collect();
        sum += match parts.as_slice() {
            [digits] => hex(digits)?,
            [number, byte] => {
                if !number.iter().all(|b| b.is_ascii_digit()) || byte.len() != 2 {
                    return None;
                }
                hex(byte)?;
                let mut n: u64 = 0;
                for b in *number {
                    n = (n * 10 + (b - b'0') as u64).min(1 << 40);
                }
                if n < 1 || n > 4096 {
                    return None;
                }
                n as usize
            }
            _ => return None,
        };
    }
    Some(sum)
}

const SETTINGS: [&str; 8] = ["budget", "check", "minor", "warm", "fault", "stop", "restart", "poke"];
const KINDS: [&str; 8] = ["page", "beat", "record", "args", "counters", "get", "entries", "buffer"];
const VERBS: [&str; 16] = [
    "register",
    "unregister",
    "connected",
    "closed",
    "send",
    "take",
    "release",
    "drain",
    "net",
    "frames",
    "deactivate",
    "activate",
    "leave",
    "idle",
    "offline",
    "online",
];

struct State {
    section: Section,
    count: u64,
    own: u64,
    budget: Option<u64>,
    check: Option<u64>,
    minors: Vec<(u64, u64)>,
    warms: Vec<(u64, u64, u64)>,
    stops: HashSet<u64>,
    restarts: Vec<u64>,
    settings: u64,
    commands: u64,
    bytes: u64,
    turns: u128,
    scripts: Vec<u64>,
}

impl State {
    fn minor(&self, p: u64) -> u64 {
        self.minors.iter().find(|m| m.0 == p).map_or(1, |m| m.1)
    }
    fn longest(minor: u64) -> u64 {
        if minor > 1 {
            1008
        } else {
            112
        }
    }
    fn line(&mut self, line: &[u8]) -> R<()> {
        let mut w = Words::new(line);
        if w.words.is_empty() {
            return Ok(());
        }
        let (column, head) = w.next()?;
        let head = std::str::from_utf8(head).unwrap();
        if self.section == Section::Opening {
            if head != "xpsim" {
                return Err((column, Cause::Header));
            }
            let (column, one) = w.next()?;
            if one != b"1" {
                return Err((column, Cause::Header));
            }
            w.end(Cause::Extra)?;
            self.section = Section::Counting;
            return Ok(());
        }
        let setting = SETTINGS.contains(&head);
        let verb = VERBS.contains(&head);
        let known = setting || verb || ["xpsim", "partitions", "script", "schedule", "turns", "rounds"].contains(&head);
        if !known {
            return Err((column, Cause::Word));
        }
        let order = Err((column, Cause::Order));
        match self.section {
            Section::Counting => {
                if head != "partitions" {
                    return order;
                }
                let n = w.number(2, 64)?;
                w.end(Cause::Extra)?;
                self.count = n;
                self.scripts = vec![0; n as usize];
                self.section = Section::Settings;
                return Ok(());
            }
            Section::Settings if setting => return self.setting(column, head, w),
            _ if head == "budget" && self.budget.is_some() => return Err((column, Cause::Twice)),
            _ if head == "check" && self.check.is_some() => return Err((column, Cause::Twice)),
            Section::Scripts if verb => return self.command(head, w),
            Section::Settings | Section::Scripts if head == "script" => {
                let (_, p) = w.part(self.count)?;
                w.end(Cause::Extra)?;
                self.own = p;
                self.scripts[p as usize] += 1;
                self.section = Section::Scripts;
            }
            Section::Settings | Section::Scripts if head == "schedule" => {
                w.end(Cause::Extra)?;
                self.section = Section::Schedule;
            }
            Section::Schedule if head == "turns" => {
                w.part(self.count)?;
                let n = w.number(0, u64::MAX)?;
                w.end(Cause::Extra)?;
                self.turns += n as u128;
            }
            Section::Schedule if head == "rounds" => {
                let n = w.number(0, u64::MAX)?;
                w.end(Cause::Extra)?;
                self.turns += n as u128 * self.count as u128;
            }
            _ => return order,
        }
        Ok(())
    }
    fn setting(&mut self, column: u64, head: &str, mut w: Words) -> R<()> {
        match head {
            "budget" => {
                if self.budget.is_some() {
                    return Err((column, Cause::Twice));
                }
                let n = w.number(1, 4_000_000)?;
                w.end(Cause::Extra)?;
                self.budget = Some(n);
                return Ok(());
            }
            "check" => {
                if self.check.is_some() {
                    return Err((column, Cause::Twice));
                }
                let (at, n) = w.digits()?;
                let window = if self.count > 8 { 128 * self.count } else { 1024 };
                if n != 0 && (n < 4 * window as u128 || n > 1_000_000_000) {
                    return Err((at, Cause::Number));
                }
                w.end(Cause::Extra)?;
                self.check = Some(n as u64);
                return Ok(());
            }
            "minor" => {
                if let Some((_, word)) = w.words.get(1) {
                    if word.iter().all(|b| b.is_ascii_digit()) {
                        if let Ok(n) = std::str::from_utf8(word).unwrap().parse::<u64>() {
                            if self.warms.iter().any(|x| x.0 == n || x.1 == n) {
                                return Err((column, Cause::Order));
                            }
                        }
                    }
                }
                let (at, p) = w.part(self.count)?;
                if self.minors.iter().any(|m| m.0 == p) {
                    return Err((at, Cause::Twice));
                }
                let m = w.number(1, 2)?;
                w.end(Cause::Extra)?;
                self.minors.push((p, m));
            }
            "warm" => {
                let (_, p) = w.part(self.count)?;
                let q = w.other(self.count, p)?;
                let (at, c) = w.channel(false)?;
                if self
                    .warms
                    .iter()
                    .any(|x| x.2 == c && ((x.0 == p && x.1 == q) || (x.0 == q && x.1 == p)))
                {
                    return Err((at, Cause::Twice));
                }
                w.size(Self::longest(self.minor(p).min(self.minor(q))))?;
                w.end(Cause::Extra)?;
                self.warms.push((p, q, c));
            }
            "fault" => {
                w.part(self.count)?;
                let (at, kind) = w.next()?;
                if !KINDS.iter().any(|k| k.as_bytes() == kind) {
                    return Err((at, Cause::Word));
                }
                w.number(1, u64::MAX)?;
                if w.accept("at") {
                    w.number(0, u64::MAX)?;
                    w.end(Cause::Extra)?;
                } else {
                    w.end(Cause::Word)?;
                }
            }
            "stop" => {
                let (at, p) = w.part(self.count)?;
                if self.stops.contains(&p) {
                    return Err((at, Cause::Twice));
                }
                w.moment()?;
                self.stops.insert(p);
            }
            "restart" => {
                let (at, p) = w.part(self.count)?;
                if self.restarts.iter().filter(|x| **x == p).count() >= 63 {
                    return Err((at, Cause::Twice));
                }
                w.moment()?;
                self.restarts.push(p);
            }
            _ => {
                w.number(0, u64::MAX)?;
                w.part(self.count)?;
                w.number(0, 36_431)?;
                w.number(0, u64::MAX)?;
                w.end(Cause::Extra)?;
            }
        }
        self.settings += 1;
        Ok(())
    }
    fn command(&mut self, head: &str, mut w: Words) -> R<()> {
        let mut bytes = 0;
        match head {
            "register" => {
                w.other(self.count, self.own)?;
                w.channel(false)?;
                w.size(Self::longest(self.minor(self.own)))?;
            }
            "unregister" | "connected" | "closed" | "drain" => {
                w.other(self.count, self.own)?;
                w.channel(false)?;
            }
            "send" => {
                w.other(self.count, self.own)?;
                w.channel(true)?;
                bytes = w.payload(0, 4096)?;
                let _ = w.accept("nowait");
                let last = w.accept("notify");
                if !last {
                    w.end(Cause::Word)?;
                }
            }
            "take" => {
                w.other(self.count, self.own)?;
                w.channel(true)?;
                if !w.accept("nowait") {
                    w.end(Cause::Word)?;
                }
            }
            "release" => {
                w.other(self.count, self.own)?;
                w.channel(true)?;
                w.number(0, u64::MAX)?;
            }
            "net" => bytes = w.payload(14, 1514)?,
            "frames" => {
                w.number(0, u64::MAX)?;
            }
            "deactivate" | "activate" => {
                w.other(self.count, self.own)?;
            }
            "idle" => {
                w.number(1, 1_000_000)?;
            }
            _ => {}
        }
        w.end(Cause::Extra)?;
        self.commands += 1;
        self.bytes += bytes as u64;
        Ok(())
    }
}

fn verdict(text: &[u8]) -> String {
    let mut state = State {
        section: Section::Opening,
        count: 0,
        own: 0,
        budget: None,
        check: None,
        minors: vec![],
        warms: vec![],
        stops: HashSet::new(),
        restarts: vec![],
        settings: 0,
        commands: 0,
        bytes: 0,
        turns: 0,
        scripts: vec![],
    };
    let mut last = (0, 0);
    for (i, line) in text.split(|b| *b == b'\n').enumerate() {
        last = (i as u64 + 1, line.len() as u64 + 1);
        if let Err((column, cause)) = state.line(line) {
            return format!("line {} column {column}: {}", i + 1, cause.text());
        }
    }
    let missing = match state.section {
        Section::Opening => "header",
        Section::Counting => "order",
        _ => "",
    };
    if !missing.is_empty() {
        return format!("line {} column {}: {missing}", last.0, last.1);
    }
    let budget = state.budget.unwrap_or(if state.count > 16 {
        16_000_000 / state.count
    } else {
        1_000_000
    });
    if state.commands > 100_000 {
        return "too many commands, limit 100000".into();
    }
    if state.bytes > 16_777_216 {
        return "too many payload-bytes, limit 16777216".into();
    }
    if state.turns > 16_000_000 || state.count * budget > 16_000_000 {
        return "too many turns, limit 16000000".into();
    }
    if state.settings > 1024 {
        return "too many settings, limit 1024".into();
    }
    if state.scripts.iter().any(|n| *n > 64) {
        return "too many scripts, limit 64".into();
    }
    format!(
        "ok {} {} {} {} {} {}",
        state.count, budget, state.settings, state.commands, state.bytes, state.turns
    )
}

struct Random(u64);
impl Random {
    fn next(&mut self) -> u64 {
        self.0 ^= self.0 << 13;
        self.0 ^= self.0 >> 7;
        self.0 ^= self.0 << 17;
        self.0
    }
    fn below(&mut self, n: usize) -> usize {
        (self.next() % n.max(1) as u64) as usize
    }
}

const PIECES: [&str; 84] = [
    " ",
    "\n",
    "\t",
    "\r",
    "#",
    "-",
    "+",
    "*",
    "0",
    "1",
    "2",
    "3",
    "4",
    "7",
    "8",
    "9",
    "63",
    "64",
    "65",
    "112",
    "113",
    "1008",
    "1009",
    "4095",
    "4096",
    "4097",
    "8192",
    "36431",
    "36432",
    "18446744073709551615",
    "18446744073709551616",
    "1000000",
    "1000001",
    "4000000",
    "4000001",
    "16000000",
    "8000001",
    "1000000000",
    "1000000001",
    "xpsim",
    "xpsim 1",
    "partitions",
    "partitions 3",
    "partitions 64",
    "budget",
    "budget 5",
    "check",
    "check 4096",
    "minor",
    "minor 0 2",
    "warm",
    "warm 0 1 0 entries 4 limit 112",
    "fault",
    "fault 0 get 1 at 2",
    "stop",
    "stop 0 put 1",
    "restart",
    "restart 0 turn 4",
    "poke",
    "poke 0 0 225 99",
    "script",
    "script 0",
    "script 1",
    "schedule",
    "turns",
    "rounds 3",
    "send 1 0 6869",
    "send",
    "take",
    "nowait",
    "notify",
    "release",
    "register 1 0 entries 2 limit 200",
    "at",
    "put",
    "turn",
    "net 14*00",
    "net",
    "4096*61",
    "4097*61",
    "1*6",
    "6f+2*aB",
    "\u{e9}",
    "entries",
];

fn mutated(texts: &[Vec<u8>], random: &mut Random) -> Vec<u8> {
    let mut text = texts[random.below(texts.len())].clone();
    for _ in 0..random.below(4) {
        let at = random.below(text.len() + 1);
        match random.below(7) {
            0 => {
                if at < text.len() {
                    text.remove(at);
                }
            }
            1 => text.insert(at, ((random.next() & 255) as u8).max(2)),
            2 => {
                let piece = PIECES[random.below(PIECES.len())];
                text.splice(at..at, piece.bytes());
            }
            3 => {
                let piece = PIECES[random.below(PIECES.len())];
                text.splice(at..at, format!(" {piece} ").bytes());
            }
            4 => {
                let piece = PIECES[random.below(PIECES.len())];
                text.splice(at..at, format!("\n{piece}\n").bytes());
            }
            5 => {
                // a word becomes another
                let from = text[..at].iter().rposition(|b| b" \n".contains(b)).map_or(0, |i| i + 1);
                let to = text[at..]
                    .iter()
                    .position(|b| b" \n".contains(b))
                    .map_or(text.len(), |i| at + i);
                let piece = PIECES[random.below(PIECES.len())];
                text.splice(from..to, piece.bytes());
            }
            _ => {
                // a line is moved or doubled
                let mut lines: Vec<Vec<u8>> = text.split(|b| *b == b'\n').map(|l| l.to_vec()).collect();
                let from = random.below(lines.len());
                let line = if random.below(2) == 0 {
                    lines.remove(from)
                } else {
                    lines[from].clone()
                };
                let to = random.below(lines.len() + 1);
                lines.insert(to, line);
                text = lines.join(&b'\n');
            }
        }
    }
    text
}

fn framed(input: &[u8]) -> Vec<Vec<u8>> {
    input.split(|b| *b == 1).map(|text| text.to_vec()).collect()
}

/// What the program says of a text: its status, and what it wrote on standard output and on standard error.
fn told(program: &str, text: &[u8]) -> (Option<i32>, Vec<u8>, String) {
    let mut child = Command::new(program)
        .arg("replay")
        .stdin(Stdio::piped())
        .stdout(Stdio::piped())
        .stderr(Stdio::piped())
        .spawn()
        .unwrap();
    child.stdin.take().unwrap().write_all(text).unwrap();
    let output = child.wait_with_output().unwrap();
    (
        output.status.code(),
        output.stdout,
        String::from_utf8_lossy(&output.stderr).into_owned(),
    )
}

/// Whether the program says of a text what the verdict says. What spells a scenario is replayed, or not built.
fn agrees(program: &str, text: &[u8], verdict: &str) -> bool {
    let (status, report, line) = told(program, text);
    match status {
        Some(0) => verdict.starts_with("ok ") && report.starts_with(b"report 1\n") && line.is_empty(),
        Some(5) if line == "xpsim: not built\n" => verdict.starts_with("ok ") && report.is_empty(),
        Some(5) => line == format!("xpsim: {verdict}\n") && report.is_empty(),
        _ => false,
    }
}

/// Gives mutated texts to the program. Each on which it differs is written, and their number is told.
fn compare(texts: &[Vec<u8>], program: &str, count: u64, seed: u64) -> u64 {
    let mut random = Random(seed * 2 + 1);
    let mut differ = 0;
    for _ in 0..count {
        let text = mutated(texts, &mut random);
        let verdict = verdict(&text);
        if !agrees(program, &text, &verdict) {
            differ += 1;
            println!("the plain reader says {verdict} of\n{}", String::from_utf8_lossy(&text));
        }
    }
    println!("{count} texts, {differ} on which the two differ");
    differ
}

fn main() {
    let args: Vec<String> = std::env::args().collect();
    let mut input = Vec::new();
    std::io::stdin().read_to_end(&mut input).unwrap();
    let texts = framed(&input);
    let out = std::io::stdout();
    let mut out = std::io::BufWriter::new(out.lock());
    if args[1] == "mutate" {
        let mut random = Random(args[3].parse::<u64>().unwrap() * 2 + 1);
        for i in 0..args[2].parse::<u64>().unwrap() {
            let text = mutated(&texts, &mut random);
            if i > 0 {
                out.write_all(&[1]).unwrap();
            }
            out.write_all(&text).unwrap();
        }
    } else if args[1] == "compare" {
        exit((compare(&texts, &args[2], args[3].parse().unwrap(), args[4].parse().unwrap()) > 0) as i32);
    } else {
        for text in texts {
            writeln!(out, "{}", verdict(&text)).unwrap();
        }
    }
}
