// A plain program that makes scenarios of eight partitions, and checks from a report what every
// history promises. It proves nothing, and was written from docs/SCENARIOS.md.
//
//     soak make NUMBER             writes the scenario of a number
//     soak run PROGRAM COUNT       replays the scenarios 0 to COUNT - 1 by PROGRAM, checks their
//                                  reports, and writes sums
use std::collections::{BTreeMap, BTreeSet};
use std::env;
use std::fmt::Write as _;
use std::io::Write;
use std::process::{Command, ExitCode, Stdio};

const PARTITIONS: u64 = 8;
const CHANNELS: [u64; 3] = [0, 2, 3];
const ROUNDS: u64 = 24_000;
const KINDS: [&str; 7] = [
    "page", "beat", "record", "args", "counters", "get", "entries",
];

/// Numbers that follow from a seed.
struct Numbers(u64);

impl Numbers {
    fn next(&mut self) -> u64 {
        self.0 = self.0.wrapping_add(0x9e37_79b9_7f4a_7c15);
        let mut mixed = self.0;
        mixed = (mixed ^ (mixed >> 30)).wrapping_mul(0xbf58_476d_1ce4_e5b9);
        mixed = (mixed ^ (mixed >> 27)).wrapping_mul(0x94d0_49bb_1331_11eb);
        mixed ^ (mixed >> 31)
    }

    fn below(&mut self, end: u64) -> u64 {
        self.next() % end
    }

    fn comes(&mut self, percent: u64) -> bool {
        self.below(100) < percent
    }
}

/// What a command asks for, as far as a report is checked for it.
#[derive(Clone)]
enum Asked {
    Send {
        end: End,
        payload: String,
        notify: bool,
    },
    Take {
        end: End,
    },
    Release {
        end: End,
        number: u64,
    },
    Other,
}

/// An end of a channel: the partner and the channel.
type End = (u64, u64);

struct Scenario {
    text: String,
    /// By partition and boot, what its commands ask for.
    scripts: Vec<Vec<Vec<Asked>>>,
}

/// Both neighbours in a ring, each with the channel that the two use.
fn ends_of(part: u64) -> [End; 2] {
    let before = (part + PARTITIONS - 1) % PARTITIONS;
    let after = (part + 1) % PARTITIONS;
    [
        (before, CHANNELS[(before % 3) as usize]),
        (after, CHANNELS[(part % 3) as usize]),
    ]
}

fn settings(numbers: &mut Numbers, text: &mut String) -> Vec<u64> {
    let mut boots = vec![1u64; PARTITIONS as usize];
    if numbers.comes(75) {
        let _ = writeln!(text, "check {}", 4_096 + numbers.below(3_000));
    }
    for part in 0..PARTITIONS {
        if numbers.comes(20) {
            let (partner, channel) = ends_of(part)[1];
            let entries = 1 + numbers.below(4);
            let _ = writeln!(
                text,
                "warm {part} {partner} {channel} entries {entries} limit 32"
            );
        }
        if numbers.comes(50) {
            let kind = KINDS[numbers.below(KINDS.len() as u64) as usize];
            let (copy, load) = (1 + numbers.below(6), numbers.below(4));
            let _ = writeln!(text, "fault {part} {kind} {copy} at {load}");
        }
        if numbers.comes(12) {
            let _ = writeln!(text, "stop {part} turn {}", numbers.below(ROUNDS));
        }
        while numbers.comes(25) {
            if numbers.comes(50) {
                let _ = writeln!(text, "restart {part} turn {}", numbers.below(ROUNDS));
            } else {
                let _ = writeln!(text, "restart {part} put {}", 1 + numbers.below(12));
            }
            boots[part as usize] += 1;
        }
    }
    boots
}

/// A payload of 1 to 32 bytes that no other send has.
fn payload(numbers: &mut Numbers, count: &mut u64) -> String {
    *count += 1;
    let mut bytes = format!("{:06x}", *count);
    for _ in 0..numbers.below(30) {
        let _ = write!(bytes, "{:02x}", numbers.below(256));
    }
    bytes
}

fn command(
    numbers: &mut Numbers,
    ends: [End; 2],
    count: &mut u64,
    text: &mut String,
) -> Vec<Asked> {
    let end = ends[numbers.below(2) as usize];
    let (partner, channel) = end;
    match numbers.below(100) {
        0..=39 => {
            let payload = payload(numbers, count);
            let nowait = if numbers.comes(60) { " nowait" } else { "" };
            let notify = numbers.comes(50);
            let asks = if notify { " notify" } else { "" };
            let _ = writeln!(text, "send {partner} {channel} {payload}{nowait}{asks}");
            vec![Asked::Send {
                end,
                payload,
                notify,
            }]
        }
        40..=69 => {
            let nowait = if numbers.comes(70) { " nowait" } else { "" };
            let _ = writeln!(text, "take {partner} {channel}{nowait}");
            vec![Asked::Take { end }]
        }
        70..=89 => {
            let number = numbers.below(6);
            let _ = writeln!(text, "release {partner} {channel} {number}");
            vec![Asked::Release { end, number }]
        }
        90..=93 => {
            let _ = writeln!(text, "idle {}", 1 + numbers.below(1_500));
            vec![Asked::Other]
        }
        94..=96 => {
            let entries = 1 + numbers.below(4);
            let _ = writeln!(text, "unregister {partner} {channel}\nidle 1500");
            let _ = writeln!(
                text,
                "register {partner} {channel} entries {entries} limit 32\nidle 1500"
            );
            vec![Asked::Other; 4]
        }
        97 => {
            let _ = writeln!(text, "drain {partner} {channel}");
            vec![Asked::Other]
        }
        98 => {
            let _ = writeln!(text, "offline\nidle {}\nonline", 1 + numbers.below(6_000));
            vec![Asked::Other; 3]
        }
        _ => {
            let _ = writeln!(
                text,
                "deactivate {partner}\nidle 1000\nactivate {partner}\nidle 3000"
            );
            vec![Asked::Other; 4]
        }
    }
}

fn script(numbers: &mut Numbers, part: u64, count: &mut u64, text: &mut String) -> Vec<Asked> {
    let ends = ends_of(part);
    let _ = writeln!(text, "script {part}");
    let mut asked = Vec::new();
    for (partner, channel) in ends {
        let entries = 1 + numbers.below(4);
        let limit = if numbers.comes(3) { 31 } else { 32 };
        let _ = writeln!(
            text,
            "register {partner} {channel} entries {entries} limit {limit}"
        );
        asked.push(Asked::Other);
    }
    let _ = writeln!(text, "idle {}", 2_000 + numbers.below(2_000));
    asked.push(Asked::Other);
    for _ in 0..10 + numbers.below(40) {
        asked.extend(command(numbers, ends, count, text));
    }
    asked
}

fn scenario(number: u64) -> Scenario {
    let mut numbers = Numbers(number.wrapping_mul(0x2545_f491_4f6c_dd1d));
    let mut text = format!("xpsim 1\npartitions {PARTITIONS}\n");
    let boots = settings(&mut numbers, &mut text);
    let mut count = 0;
    let mut scripts = Vec::new();
    for part in 0..PARTITIONS {
        let mut own = Vec::new();
        for _ in 0..boots[part as usize] {
            own.push(script(&mut numbers, part, &mut count, &mut text));
        }
        scripts.push(own);
    }
    let _ = writeln!(text, "schedule\nrounds {ROUNDS}");
    Scenario { text, scripts }
}

/// A connection as an end names it: own session, the partner's, and the epoch. Those of one end
/// rise in their order.
type Name = ((u64, u64), (u64, u64), u64);

/// What a report says of a connection.
#[derive(Clone, Copy, Default)]
struct Link {
    accepted: u64,
    taken: u64,
    acked: u64,
    delivered: u64,
    ended: u64,
    is_over: bool,
}

/// What a report says of a partition.
#[derive(Default)]
struct Part {
    boots: u64,
    answers: BTreeMap<(u64, u64), String>,
    links: BTreeMap<End, BTreeMap<Name, Link>>,
    overs: BTreeSet<(End, Name)>,
}

fn number_of(word: Option<&&str>) -> Result<u64, String> {
    word.and_then(|word| word.parse().ok())
        .ok_or_else(|| "no number".to_string())
}

fn session_of(word: Option<&&str>) -> Result<(u64, u64), String> {
    let word = word.ok_or("no session")?;
    let (stamp, count) = word.split_once('.').ok_or("no session")?;
    Ok((
        stamp.parse().map_err(|_| "no stamp")?,
        count.parse().map_err(|_| "no count")?,
    ))
}

/// The end and the connection that a line names: `link Q C epoch E own S.T partner S.T`.
fn named(words: &[&str]) -> Result<(End, Name), String> {
    let end = (number_of(words.get(1))?, number_of(words.get(2))?);
    let own = session_of(words.get(6))?;
    let theirs = session_of(words.get(8))?;
    Ok((end, (own, theirs, number_of(words.get(4))?)))
}

fn read_line(parts: &mut Vec<Part>, line: &str) -> Result<(), String> {
    let words: Vec<&str> = line.split_whitespace().collect();
    if words.first() == Some(&"partition") {
        let boots = number_of(words.last())?;
        parts.push(Part {
            boots,
            ..Part::default()
        });
        return Ok(());
    }
    let part = parts.last_mut().ok_or("no partition")?;
    match words.first() {
        Some(&"link") => {
            let (end, name) = named(&words)?;
            let link = Link {
                accepted: number_of(words.get(10))?,
                taken: number_of(words.get(12))?,
                acked: number_of(words.get(14))?,
                delivered: number_of(words.get(16))?,
                ended: number_of(words.get(18))?,
                is_over: false,
            };
            if part
                .links
                .entry(end)
                .or_default()
                .insert(name, link)
                .is_some()
            {
                return Err("a name stands twice".to_string());
            }
        }
        Some(&"over") => {
            part.overs.insert(named(&words)?);
        }
        _ => {
            let place = (number_of(words.first())?, number_of(words.get(1))?);
            part.answers.insert(place, words[2..].join(" "));
        }
    }
    Ok(())
}

fn read(report: &str) -> Result<Vec<Part>, String> {
    let mut parts = Vec::new();
    for line in report.lines().skip(1) {
        read_line(&mut parts, line).map_err(|why| format!("{why}: {line}"))?;
    }
    if parts.len() != PARTITIONS as usize {
        return Err("not all partitions".to_string());
    }
    for part in &mut parts {
        for (end, name) in &part.overs {
            if let Some(link) = part
                .links
                .get_mut(end)
                .and_then(|links| links.get_mut(name))
            {
                link.is_over = true;
            }
        }
    }
    Ok(parts)
}

/// A message that was accepted: its place among those of its end, its number, whether a notice was
/// asked for.
#[derive(Clone, Copy)]
struct Accepted {
    place: u64,
    number: u64,
    notify: bool,
}

/// All accepted messages of one partition at each end, and each of them by its payload.
#[derive(Default)]
struct Sends {
    ends: BTreeMap<End, Vec<Accepted>>,
    payloads: BTreeMap<String, (End, Accepted)>,
}

fn sends_of(part: &Part, scripts: &[Vec<Asked>]) -> Result<Sends, String> {
    let mut sends = Sends::default();
    for ((boot, number), answer) in &part.answers {
        let asked = &scripts[*boot as usize - 1][*number as usize - 1];
        let Asked::Send {
            end,
            payload,
            notify,
        } = asked
        else {
            continue;
        };
        let Some(told) = answer.strip_prefix("send ok ") else {
            continue;
        };
        let number: u64 = told.parse().map_err(|_| "no number of a send")?;
        let list = sends.ends.entry(*end).or_default();
        let one = Accepted {
            place: list.len() as u64,
            number,
            notify: *notify,
        };
        if number != 0 && list.last().is_none_or(|last| last.number + 1 != number) {
            return Err(format!("send {number} of {end:?} doesn't follow"));
        }
        list.push(one);
        sends.payloads.insert(payload.clone(), (*end, one));
    }
    Ok(sends)
}

/// The messages of an end by their connections, which begin with number 0.
fn runs(list: &[Accepted]) -> Vec<&[Accepted]> {
    list.chunk_by(|_, later| later.number != 0).collect()
}

/// Each connection has as many accepted messages as its sends were told, and no more notices than
/// were asked for; all of them where it is over.
fn check_sends(part: &Part, sends: &Sends) -> Result<(), String> {
    let none = Vec::new();
    for (end, links) in &part.links {
        let list = sends.ends.get(end).unwrap_or(&none);
        let mut told = runs(list).into_iter();
        for (name, link) in links.iter().filter(|(_, link)| link.accepted > 0) {
            let run = told.next().unwrap_or(&[]);
            let asked = run.iter().filter(|one| one.notify).count() as u64;
            let given = link.delivered + link.ended;
            if run.len() as u64 != link.accepted || given > asked || link.is_over && given != asked
            {
                return Err(format!("sends of {end:?} {name:?}"));
            }
        }
        if told.next().is_some() {
            return Err(format!("sends of {end:?} in no connection"));
        }
    }
    Ok(())
}

/// What an end has taken and released of the connection that is on.
#[derive(Default)]
struct Taking {
    taken: u64,
    released: BTreeSet<u64>,
    last: Option<u64>,
}

/// A message that is taken was accepted under this number at the partner, right behind the one that
/// was taken before it in its connection.
fn check_take(
    taking: &mut Taking,
    own: u64,
    end: End,
    told: &str,
    theirs: &Sends,
) -> Result<(), String> {
    let (number, text) = told.split_once(' ').ok_or("no payload")?;
    let number: u64 = number.parse().map_err(|_| "no number of a take")?;
    let (_, bytes) = text.split_once(':').ok_or("no bytes")?;
    let (to, one) = theirs
        .payloads
        .get(&plain_bytes(bytes))
        .ok_or("taken and not accepted")?;
    if number == 0 {
        *taking = Taking::default();
    }
    let follows = taking.last.is_none_or(|last| last + 1 == one.place);
    if *to != (own, end.1) || one.number != number || number != taking.taken || !follows {
        return Err("taken out of order".to_string());
    }
    taking.taken += 1;
    taking.last = Some(one.place);
    Ok(())
}

/// The digits of a payload as a report writes it: a run as N*hh, pieces joined by a plus.
fn plain_bytes(text: &str) -> String {
    let mut bytes = String::new();
    for piece in text.split('+') {
        match piece.split_once('*') {
            Some((times, byte)) => bytes.push_str(&byte.repeat(times.parse().unwrap_or(0))),
            None => bytes.push_str(piece),
        }
    }
    bytes
}

/// A release was of a held message, and tells the front: all below it are released, and it isn't.
fn check_release(taking: &mut Taking, number: u64, told: &str) -> Result<(), String> {
    let front: u64 = told.parse().map_err(|_| "no front")?;
    if number >= taking.taken || !taking.released.insert(number) {
        return Err("released and not held".to_string());
    }
    let all = (0..).find(|number| !taking.released.contains(number));
    if all != Some(front) {
        return Err(format!("front {front}"));
    }
    Ok(())
}

fn check_takes(
    own: u64,
    part: &Part,
    scripts: &[Vec<Asked>],
    sends: &[Sends],
) -> Result<(), String> {
    let mut on: BTreeMap<(u64, End), Taking> = BTreeMap::new();
    for ((boot, number), answer) in &part.answers {
        let place = format!("{boot} {number} {answer}");
        match &scripts[*boot as usize - 1][*number as usize - 1] {
            Asked::Take { end } => {
                if let Some(told) = answer.strip_prefix("take ok ") {
                    let taking = on.entry((*boot, *end)).or_default();
                    check_take(taking, own, *end, told, &sends[end.0 as usize])
                        .map_err(|why| format!("{why}: {place}"))?;
                }
            }
            Asked::Release { end, number } => {
                if let Some(told) = answer.strip_prefix("release ok ") {
                    let taking = on.entry((*boot, *end)).or_default();
                    check_release(taking, *number, told)
                        .map_err(|why| format!("{why}: {place}"))?;
                }
            }
            _ => {}
        }
    }
    Ok(())
}

/// Both ends of a connection: what is taken was accepted, what is acknowledged was taken, and what
/// is told as delivered was acknowledged.
fn check_links(own: u64, parts: &[Part]) -> Result<(), String> {
    for (end, links) in &parts[own as usize].links {
        let others = parts[end.0 as usize].links.get(&(own, end.1));
        for ((mine, theirs, epoch), link) in links {
            let other = others.and_then(|others| others.get(&(*theirs, *mine, *epoch)));
            let other = other.copied().unwrap_or_default();
            if link.taken > other.accepted
                || link.acked > link.taken
                || link.delivered > other.acked
            {
                return Err(format!("connection of {own} with {end:?}, epoch {epoch}"));
            }
        }
    }
    Ok(())
}

/// Sums over all scenarios.
#[derive(Default)]
struct Sums {
    boots: u64,
    connections: u64,
    overs: u64,
    accepted: u64,
    taken: u64,
    acked: u64,
    delivered: u64,
    ended: u64,
    unanswered: u64,
    missed: u64,
}

impl Sums {
    fn add(&mut self, parts: &[Part]) {
        for part in parts {
            self.boots += part.boots;
            self.overs += part.overs.len() as u64;
            self.unanswered += part
                .answers
                .values()
                .filter(|told| told.ends_with("unanswered"))
                .count() as u64;
            self.missed += part
                .answers
                .values()
                .filter(|told| told.contains("no-heartbeat"))
                .count() as u64;
            for link in part.links.values().flat_map(|links| links.values()) {
                self.connections += 1;
                self.accepted += link.accepted;
                self.taken += link.taken;
                self.acked += link.acked;
                self.delivered += link.delivered;
                self.ended += link.ended;
            }
        }
    }
}

fn check(scenario: &Scenario, report: &str, sums: &mut Sums) -> Result<(), String> {
    if report.contains("bad-") || report.contains("halted") {
        return Err("a word was refused".to_string());
    }
    let parts = read(report)?;
    let mut sends = Vec::new();
    for (part, scripts) in parts.iter().zip(&scenario.scripts) {
        sends.push(sends_of(part, scripts)?);
    }
    for (own, part) in parts.iter().enumerate() {
        check_sends(part, &sends[own])?;
        check_takes(own as u64, part, &scenario.scripts[own], &sends)?;
        check_links(own as u64, &parts)?;
    }
    sums.add(&parts);
    Ok(())
}

fn replay(program: &str, text: &str) -> Result<String, String> {
    let mut child = Command::new(program)
        .arg("replay")
        .stdin(Stdio::piped())
        .stdout(Stdio::piped())
        .stderr(Stdio::piped())
        .spawn()
        .map_err(|why| why.to_string())?;
    let mut given = child.stdin.take().ok_or("no input")?;
    given
        .write_all(text.as_bytes())
        .map_err(|why| why.to_string())?;
    drop(given);
    let done = child.wait_with_output().map_err(|why| why.to_string())?;
    if !done.status.success() {
        return Err(format!(
            "{}: {}",
            done.status,
            String::from_utf8_lossy(&done.stderr)
        ));
    }
    String::from_utf8(done.stdout).map_err(|why| why.to_string())
}

fn run(program: &str, count: u64) -> bool {
    let mut sums = Sums::default();
    let mut failed = 0;
    for number in 0..count {
        let scenario = scenario(number);
        let done =
            replay(program, &scenario.text).and_then(|report| check(&scenario, &report, &mut sums));
        if let Err(why) = done {
            println!("scenario {number}: {why}");
            failed += 1;
        }
    }
    println!("{count} scenarios of {PARTITIONS} partitions, {failed} failed");
    println!("  turns scheduled  {}", count * ROUNDS * PARTITIONS);
    println!(
        "  boots {}, connections {}, over {}",
        sums.boots, sums.connections, sums.overs
    );
    println!(
        "  messages accepted {}, taken {}, acknowledged {}",
        sums.accepted, sums.taken, sums.acked
    );
    println!(
        "  notices of delivery {}, of an end {}",
        sums.delivered, sums.ended
    );
    println!(
        "  commands unanswered {}, answered no-heartbeat {}",
        sums.unanswered, sums.missed
    );
    failed == 0
}

fn main() -> ExitCode {
    let words: Vec<String> = env::args().skip(1).collect();
    let words: Vec<&str> = words.iter().map(String::as_str).collect();
    let is_done = match words[..] {
        ["make", number] => {
            print!("{}", scenario(number.parse().unwrap_or(0)).text);
            true
        }
        ["run", program, count] => run(program, count.parse().unwrap_or(0)),
        _ => {
            eprintln!("usage: soak make NUMBER, soak run PROGRAM COUNT");
            false
        }
    };
    if is_done {
        ExitCode::SUCCESS
    } else {
        ExitCode::FAILURE
    }
}
