//! What `inspect` must print, written from docs/FORMATS.md alone and sharing nothing with the crates.
//!
//! `inspect-reference < FILE` prints the listing or the refusal of one flight file.
//! `inspect-reference make DIR COUNT` fills DIR with numbered flight files, good and damaged, and with
//! what must be printed of each.

use std::fmt::Write as _;
use std::io::{Read, Write};

#[derive(Clone, Copy)]
enum Record {
    Row(u16, u16, u16),
    Request(u32, u16, u16),
    Stop(u32),
}

fn number(bytes: &[u8]) -> u32 {
    bytes.iter().rev().fold(0, |n, b| n * 256 + u32::from(*b))
}

/// The listing, or the number and place of the first refusal.
fn listing(file: &[u8]) -> Result<String, (u8, usize)> {
    if file.len() > 65_536 {
        return Err((12, 0));
    }
    let mut out = String::new();
    let (mut place, mut rows, mut requests, mut last, mut stopped) = (0, 0, 0, 0, false);
    while place < file.len() {
        let refuse = |n: u8| Err((n, place));
        let body_length = match file[place] {
            b'R' => 6,
            b'Q' => 8,
            b'S' => 4,
            _ => return refuse(14),
        };
        let Some(body) = file.get(place + 1..place + 1 + body_length) else {
            return refuse(13);
        };
        match file[place] {
            b'R' => {
                let [c, d, t] = [0, 2, 4].map(|i| number(&body[i..i + 2]));
                if stopped || requests > 0 {
                    return refuse(15);
                }
                if rows == 16 {
                    return refuse(2);
                }
                if !(1 <= c && c <= d && d <= t && t <= 60_000) {
                    return refuse(1);
                }
                rows += 1;
                writeln!(out, "row,{c},{d},{t}").unwrap();
            }
            b'Q' => {
                let (arrival, id, ticks) = (number(&body[..4]), number(&body[4..6]), number(&body[6..]));
                if stopped || (requests > 0 && arrival < last) {
                    return refuse(15);
                }
                if ticks == 0 || ticks > 60_000 {
                    return refuse(10);
                }
                requests += 1;
                last = arrival;
                writeln!(out, "request,{arrival},{id},{ticks}").unwrap();
            }
            _ => {
                let ticks = number(body);
                if stopped {
                    return refuse(15);
                }
                if ticks == 0 || ticks > 2_000_000_000 {
                    return refuse(8);
                }
                stopped = true;
                writeln!(out, "stop,{ticks}").unwrap();
            }
        }
        place += 1 + body_length;
    }
    if !stopped {
        return Err((16, file.len()));
    }
    writeln!(out, "read,{},{rows},{requests},same", file.len()).unwrap();
    Ok(out)
}

fn printed(file: &[u8]) -> String {
    listing(file).unwrap_or_else(|(number, place)| format!("refused,{number},{place}\n"))
}

/// A small generator of numbers that look random and are the same in every run.
struct Random(u64);

impl Random {
    fn below(&mut self, n: u64) -> u64 {
        self.0 ^= self.0 << 13;
        self.0 ^= self.0 >> 7;
        self.0 ^= self.0 << 17;
        self.0 % n
    }

    /// One of the edges, or any number up to the last of them.
    fn edge(&mut self, edges: &[u32]) -> u32 {
        match self.below(3) {
            0 => self.below(u64::from(edges[edges.len() - 1]) + 1) as u32,
            _ => edges[self.below(edges.len() as u64) as usize],
        }
    }
}

fn encode(record: Record, out: &mut Vec<u8>) {
    match record {
        Record::Row(c, d, t) => {
            out.push(b'R');
            [c, d, t].iter().for_each(|n| out.extend(n.to_le_bytes()));
        }
        Record::Request(arrival, id, ticks) => {
            out.push(b'Q');
            out.extend(arrival.to_le_bytes());
            out.extend(id.to_le_bytes());
            out.extend(ticks.to_le_bytes());
        }
        Record::Stop(ticks) => {
            out.push(b'S');
            out.extend(ticks.to_le_bytes());
        }
    }
}

fn good_file(random: &mut Random) -> Vec<u8> {
    let mut out = Vec::new();
    for _ in 0..random.below(18) {
        let t = random.edge(&[1, 2, 255, 256, 60_000]).max(1);
        let d = 1 + random.below(u64::from(t)) as u32;
        let c = 1 + random.below(u64::from(d)) as u32;
        encode(Record::Row(c as u16, d as u16, t as u16), &mut out);
    }
    let mut arrival = 0u32;
    for _ in 0..random.below(12) {
        arrival = arrival.saturating_add(random.edge(&[0, 1, 256, 70_000, 2_000_000_000]));
        let ticks = random.edge(&[1, 256, 60_000]).max(1);
        encode(Record::Request(arrival, random.below(65_536) as u16, ticks as u16), &mut out);
    }
    encode(Record::Stop(random.edge(&[1, 256, 65_536, 2_000_000_000]).max(1)), &mut out);
    out
}

/// A good file, as it is or with one thing or two done to it.
fn some_file(random: &mut Random) -> Vec<u8> {
    let mut file = good_file(random);
    for _ in 0..random.below(3) {
        let at = random.below(file.len() as u64 + 1) as usize;
        match random.below(6) {
            0 => file.truncate(at),
            1 if at < file.len() => file[at] = random.below(256) as u8,
            2 if at < file.len() => file[at] = [0, 1, b'Q', b'R', b'S', 255][random.below(6) as usize],
            3 => file.insert(at, random.below(256) as u8),
            4 => {
                let more = good_file(random);
                file.extend(more);
            }
            _ => {
                let mut record = Vec::new();
                let any = random.edge(&[0, 1, 60_000, 60_001, 65_535]) as u16;
                match random.below(3) {
                    0 => encode(Record::Row(any, 3, random.edge(&[0, 3, 60_001]) as u16), &mut record),
                    1 => encode(Record::Request(random.edge(&[0, 1_000]), 7, any), &mut record),
                    _ => encode(Record::Stop(random.edge(&[0, 2_000_000_001, u32::MAX])), &mut record),
                }
                let at = at.min(file.len());
                file.splice(at..at, record);
            }
        }
        if file.is_empty() {
            break;
        }
    }
    file
}

fn main() -> std::io::Result<()> {
    let args: Vec<String> = std::env::args().skip(1).collect();
    if let [make, dir, count] = args.as_slice() {
        assert_eq!(make, "make");
        let mut random = Random(0x9e37_79b9_7f4a_7c15);
        for i in 0..count.parse::<usize>().expect("a count") {
            let file = some_file(&mut random);
            std::fs::write(format!("{dir}/{i}.flight"), &file)?;
            std::fs::write(format!("{dir}/{i}.listing"), printed(&file))?;
        }
        return Ok(());
    }
    let mut file = Vec::new();
    std::io::stdin().read_to_end(&mut file)?;
    std::io::stdout().write_all(printed(&file).as_bytes())
}
