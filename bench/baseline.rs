//! The yardstick of bench/replay.sh: a plain program that replays the same scenarios, by steps for messages alone and a
//! plan of its own, and writes the same report. Its two partitions are connected from the start and never look at each
//! other. It proves nothing, keeps no history of its steps, and trusts its input to be in the language.
use std::fmt::Write as _;
use std::io::{Read, Write as _, stdin, stdout};

const PART_WORDS: usize = 5912;

/// The words of two partitions, each with one partner and one channel.
struct Memory {
    words: Vec<u64>,
}

impl Memory {
    fn load(&self, owner: usize, index: usize) -> u64 {
        self.words[owner * PART_WORDS + index]
    }

    fn store(&mut self, owner: usize, index: usize, word: u64) {
        self.words[owner * PART_WORDS + index] = word;
    }

    fn take(&mut self, owner: usize, index: usize) -> u64 {
        std::mem::take(&mut self.words[owner * PART_WORDS + index])
    }

    fn set_bits(&mut self, owner: usize, index: usize, word: u64) {
        self.words[owner * PART_WORDS + index] |= word;
    }
}

/// The message request of channel 0 in a flag word.
const MESSAGE: u64 = 32;

/// The place of the flag word of partner `q`.
fn flag_word(q: usize) -> usize {
    80 + q
}

/// The place of a counter for partner `q`: 0 is get, 1 is put.
fn counter(q: usize, field: usize) -> usize {
    216 + 8 * q + field
}

fn entry_word(q: usize, number: usize, field: usize) -> usize {
    280 + 512 * q + 16 * number + field
}

enum Command {
    Send(Vec<u8>),
    Take,
    Release(u64),
}

enum Answer {
    Sent(u64),
    TooBig(usize),
    Taken(u64, Vec<u8>),
    Released(u64),
}

/// One partition: its script, what it knows of its channel, and the answers of its commands.
#[derive(Default)]
struct Partition {
    own: usize,
    partner: usize,
    entries: u64,
    limit: usize,
    script: Vec<Command>,
    turns: u64,
    begun: usize,
    doing: bool,
    decided: Option<Answer>,
    put: u64,
    known_get: u64,
    loaded: bool,
    stored_words: usize,
    message: [u64; 16],
    pulled_put: u64,
    pulled: u64,
    taken: u64,
    counters_get: Option<u64>,
    owes_copy: bool,
    owes_message: bool,
    copied: [u64; 16],
    copied_words: usize,
    cached: Option<Vec<u8>>,
    front: u64,
    acked: u64,
    answers: Vec<Answer>,
}

/// The words of the entry that carries a payload.
fn entry_of(number: u64, payload: &[u8]) -> [u64; 16] {
    let mut words = [0; 16];
    words[0] = 65_536 + payload.len() as u64;
    words[1] = number;
    for (place, byte) in payload.iter().enumerate() {
        words[2 + place / 8] |= u64::from(*byte) << (8 * (place % 8));
    }
    words
}

fn payload_of(words: &[u64; 16]) -> Vec<u8> {
    let length = (words[0] - 65_536) as usize;
    (0..length)
        .map(|place| (words[2 + place / 8] >> (8 * (place % 8))) as u8)
        .collect()
}

impl Partition {
    fn is_done(&self) -> bool {
        self.begun == self.script.len() && !self.doing && self.acked == self.front && !self.owes_message
    }

    /// One turn: a command is begun where none is in progress, a step is made, and an answer that is due is given.
    fn turn(&mut self, memory: &mut Memory) {
        if !self.doing && self.begun < self.script.len() {
            self.begin();
        }
        let served = self.turns % 2 == 0 && self.serve(memory);
        if !served && self.doing && self.decided.is_none() {
            self.step(memory);
        }
        self.turns += 1;
        if !self.doing {
            return;
        }
        if let Some(answer) = self.decided.take() {
            self.answers.push(answer);
            self.doing = false;
        } else if let Some(payload) = self.cached.take() {
            self.answers.push(Answer::Taken(self.taken, payload));
            self.taken += 1;
            self.doing = false;
        }
    }

    /// A turn between those of the script: the flags are taken, a message request that is owed is made, and twice a
    /// counter is loaded, where a copy of them goes on or is owed. Whether anything was.
    fn serve(&mut self, memory: &mut Memory) -> bool {
        let place = self.turns % 8 / 2;
        if place == 0 {
            self.owes_copy |= memory.take(self.own, flag_word(self.partner)) & MESSAGE != 0;
        } else if place == 1 && self.owes_message {
            memory.set_bits(self.partner, flag_word(self.own), MESSAGE);
            self.owes_message = false;
        } else if place >= 2 && (self.owes_copy || self.counters_get.is_some()) {
            self.copy_counters(memory);
        } else {
            return false;
        }
        true
    }

    fn begin(&mut self) {
        match &self.script[self.begun] {
            Command::Send(payload) if payload.len() > self.limit => {
                self.decided = Some(Answer::TooBig(payload.len()));
            }
            Command::Send(payload) => self.message = entry_of(self.put, payload),
            Command::Take => {}
            Command::Release(number) => {
                assert!(*number == self.front && *number < self.taken);
                self.front += 1;
            }
        }
        self.begun += 1;
        self.doing = true;
    }

    fn step(&mut self, memory: &mut Memory) {
        match self.script[self.begun - 1] {
            Command::Send(_) => self.send(memory),
            Command::Take => self.pull(memory),
            Command::Release(_) => {
                memory.store(self.own, counter(self.partner, 0), self.front);
                self.acked = self.front;
                self.owes_message = true;
                self.decided = Some(Answer::Released(self.front));
            }
        }
    }

    fn hear_get(&mut self, get: u64) {
        assert!(self.known_get <= get && get <= self.put);
        self.known_get = get;
        self.loaded = true;
    }

    fn send(&mut self, memory: &mut Memory) {
        if !self.loaded || self.put - self.known_get >= self.entries {
            self.hear_get(memory.load(self.partner, counter(self.own, 0)));
        } else if self.stored_words < 16 {
            let number = (self.put % self.entries) as usize;
            let index = entry_word(self.partner, number, self.stored_words);
            memory.store(self.own, index, self.message[self.stored_words]);
            self.stored_words += 1;
        } else {
            memory.store(self.own, counter(self.partner, 1), self.put + 1);
            self.decided = Some(Answer::Sent(self.put));
            self.put += 1;
            self.owes_message = true;
            self.stored_words = 0;
        }
    }

    /// Loads get, and the next time put.
    fn copy_counters(&mut self, memory: &Memory) {
        if self.counters_get.take().is_some() {
            let put = memory.load(self.partner, counter(self.own, 1));
            assert!(self.pulled_put <= put && put <= self.front + self.entries);
            self.pulled_put = put;
        } else {
            let get = memory.load(self.partner, counter(self.own, 0));
            self.hear_get(get);
            self.owes_copy = false;
            self.counters_get = Some(get);
        }
    }

    fn pull(&mut self, memory: &Memory) {
        if self.pulled >= self.pulled_put {
            self.copy_counters(memory);
            return;
        }
        let number = (self.pulled % self.entries) as usize;
        let index = entry_word(self.own, number, self.copied_words);
        self.copied[self.copied_words] = memory.load(self.partner, index);
        self.copied_words += 1;
        if self.copied_words == 16 {
            assert!(self.copied[1] == self.pulled);
            self.cached = Some(payload_of(&self.copied));
            self.copied_words = 0;
            self.pulled += 1;
        }
    }

    fn report(&self, out: &mut String) -> std::fmt::Result {
        let state = if self.is_done() { "done" } else { "running" };
        writeln!(out, "partition {} {state} boots 1", self.own)?;
        for (place, command) in self.script[..self.begun].iter().enumerate() {
            let verb = match command {
                Command::Send(_) => "send",
                Command::Take => "take",
                Command::Release(_) => "release",
            };
            write!(out, "  1 {} {verb} ", place + 1)?;
            match self.answers.get(place) {
                None => writeln!(out, "unanswered")?,
                Some(Answer::Sent(number)) => writeln!(out, "ok {number}")?,
                Some(Answer::TooBig(length)) => writeln!(out, "too-big {length} {}", self.limit)?,
                Some(Answer::Taken(number, payload)) => writeln!(out, "ok {number} {}", shown(payload))?,
                Some(Answer::Released(front)) => writeln!(out, "ok {front}")?,
            }
        }
        let (partner, put, taken, acked) = (self.partner, self.put, self.taken, self.acked);
        writeln!(
            out,
            "  link {partner} 0 epoch 0 own 1.1 partner 1.1 accepted {put} taken {taken} acked {acked} delivered 0 ended 0"
        )
    }
}

fn digits(bytes: &[u8]) -> String {
    bytes.iter().map(|byte| format!("{byte:02x}")).collect()
}

fn shown(payload: &[u8]) -> String {
    let length = payload.len();
    if length > 32 {
        format!("{length}:{}..{}", digits(&payload[..8]), digits(&payload[length - 8..]))
    } else {
        format!("{length}:{}", digits(payload))
    }
}

fn bytes_of(word: &str) -> Vec<u8> {
    let digits = if word == "-" { "" } else { word };
    (0..digits.len() / 2)
        .map(|place| u8::from_str_radix(&digits[2 * place..2 * place + 2], 16).expect("two digits"))
        .collect()
}

fn main() {
    let mut text = String::new();
    stdin().read_to_string(&mut text).expect("a scenario");
    let mut partitions = [Partition::default(), Partition::default()];
    let mut script = 0;
    let mut rounds = 0;
    for line in text.lines() {
        let words: Vec<&str> = line.split(' ').collect();
        let number = |place: usize| words[place].parse::<u64>().expect("a number");
        match words[0] {
            "warm" => {
                for (own, partition) in partitions.iter_mut().enumerate() {
                    partition.own = own;
                    partition.partner = 1 - own;
                    partition.entries = number(5);
                    partition.limit = number(7) as usize;
                }
            }
            "script" => script = number(1) as usize,
            "send" => partitions[script].script.push(Command::Send(bytes_of(words[3]))),
            "take" => partitions[script].script.push(Command::Take),
            "release" => partitions[script].script.push(Command::Release(number(3))),
            "rounds" => rounds += number(1),
            _ => {}
        }
    }
    let mut memory = Memory { words: vec![0; 2 * PART_WORDS] };
    for _ in 0..rounds {
        for partition in &mut partitions {
            if !partition.is_done() {
                partition.turn(&mut memory);
            }
        }
    }
    let mut out = String::from("report 1\n");
    for partition in &partitions {
        partition.report(&mut out).expect("a report");
    }
    stdout().write_all(out.as_bytes()).expect("standard output");
}
