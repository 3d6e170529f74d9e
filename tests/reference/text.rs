// Cases and answers as lines of text, in the form of tests/vectors: bytes in hexadecimal, `-` for none.
use crate::rules::{check, list_bytes, plan, planned, read_job, read_text, why, write_text};
use crate::rules::{Event, Reason, Refusal, Run, PLAN_NAMES};

pub fn hex(bytes: &[u8]) -> String {
    if bytes.is_empty() {
        return "-".to_string();
    }
    bytes.iter().map(|byte| format!("{byte:02x}")).collect()
}

fn bytes(hex: &str) -> Vec<u8> {
    if hex == "-" {
        return vec![];
    }
    (0..hex.len()).step_by(2).map(|i| u8::from_str_radix(&hex[i..i + 2], 16).expect("two hexadecimal digits")).collect()
}

fn joined<T: ToString>(numbers: &[T]) -> String {
    if numbers.is_empty() {
        return "-".to_string();
    }
    numbers.iter().map(|number| number.to_string()).collect::<Vec<_>>().join(",")
}

fn refused(refusal: Refusal, rest: &str) -> String {
    format!("{} {} 0 0 0 0 {rest}", refusal.number, refusal.detail)
}

fn counts(run: &Run) -> String {
    format!("0 0 {} {} {} {}", run.elapsed, run.waits, run.loads, run.longest())
}

pub fn plan_case(job: &[u8], plan: u32, rounds: u32, room: usize) -> String {
    format!("plan {} {plan} {rounds} {room}", hex(job))
}

pub fn check_case(job: &[u8], list: &[u8], rounds: u32, ticks: usize, slots: usize) -> String {
    format!("check {} {} {rounds} {ticks} {slots}", hex(job), hex(list))
}

pub fn why_case(job: &[u8], list: &[u8], draw: u32, rounds: u32) -> String {
    format!("why {} {} {draw} {rounds}", hex(job), hex(list))
}

pub fn write_case(list: &[u8], room: usize) -> String {
    format!("text-write {} {room}", hex(list))
}

pub fn read_case(text: &[u8], room: usize) -> String {
    format!("text-read {} {room}", hex(text))
}

/// The two events of a reason, or the words for none; then the waits in three parts. Of a refusal there are no events.
fn told(result: Result<Reason, Refusal>) -> String {
    let event = |event: Option<usize>, none: &str| event.map_or(none.to_string(), |event| event.to_string());
    match result {
        Ok(r) => format!("0 0 {} {} {} {} {}", event(r.brought, "start"), event(r.taken, "none"), r.own, r.another, r.nothing),
        Err(refusal) => format!("{} {} - - 0 0 0", refusal.number, refusal.detail),
    }
}

fn written(result: Result<Vec<u8>, Refusal>) -> String {
    match result {
        Ok(bytes) => format!("0 0 {}", hex(&bytes)),
        Err(refusal) => format!("{} {} -", refusal.number, refusal.detail),
    }
}

/// The answer to one case: the whole line of a vector, `CASE => ANSWER`.
pub fn answered(line: &str) -> String {
    let case = line.split(" => ").next().unwrap().trim();
    let words: Vec<&str> = case.split(' ').collect();
    let size = |i: usize| words[i].parse::<usize>().expect("a size of lent room");
    let number = |i: usize| words[i].parse::<u32>().expect("a number of 32 bits");
    let answer = match words[0] {
        "plan" => match plan(&bytes(words[1]), number(2), number(3), size(4)) {
            Ok(run) => format!("{} {}", counts(&run), hex(&list_bytes(&run.events))),
            Err(refusal) => refused(refusal, "-"),
        },
        "check" => match check(&bytes(words[1]), &bytes(words[2]), number(3), size(4), size(5)) {
            Ok(run) => format!("{} {} {}", counts(&run), joined(&run.draw_ticks), joined(&run.draw_slots)),
            Err(refusal) => refused(refusal, "- -"),
        },
        "why" => told(why(&bytes(words[1]), &bytes(words[2]), number(3), number(4))),
        "summary" => summary(&bytes(words[1])),
        "text-write" => written(write_text(&bytes(words[1]), size(2))),
        "text-read" => written(read_text(&bytes(words[1]), size(2))),
        word => panic!("a case begins with plan, check, why, summary, text-write or text-read, not with {word}"),
    };
    format!("{case} => {answer}")
}

/// The lines of the summary program, joined by `|`. It reads at most 8,331 bytes and judges a longer input by those.
fn summary(input: &[u8]) -> String {
    match read_job(&input[..input.len().min(8_331)]) {
        Err(refusal) => format!("refused {} {}", refusal.number, refusal.detail),
        Ok(job) => {
            let line = |plan: usize| {
                let run = planned(&job, plan as u32);
                format!("{} {} {} {}", PLAN_NAMES[plan], run.elapsed, run.waits, run.loads)
            };
            (0..4).map(line).collect::<Vec<_>>().join("|")
        }
    }
}

/// A case in words, for a person who looks at one that failed.
pub fn in_words(line: &str) -> String {
    let words: Vec<&str> = line.split(" => ").next().unwrap().trim().split(' ').collect();
    match words[0] {
        "text-write" => format!("text-write into {} bytes\n  list {}", words[2], events_in_words(&bytes(words[1]))),
        "text-read" => format!("text-read into {} bytes\n{}", words[2], lines_in_words(&bytes(words[1]))),
        _ => run_in_words(&words),
    }
}

fn run_in_words(words: &[&str]) -> String {
    let job = match read_job(&bytes(words[1])) {
        Ok(job) => format!("k {} F {} starts {:?} draws {:?}", job.starts.len(), job.load_time, job.starts, job.draws),
        Err(refusal) => format!("a job refused with {}", refusal.number),
    };
    let asked = match words[0] {
        "plan" => format!(" {}, rounds {}, room {}", words[2], words[3], words[4]),
        "check" => format!(", rounds {}, room for {} ticks and {} slots", words[3], words[4], words[5]),
        "why" => format!(" of draw {}, rounds {}", words[3], words[4]),
        _ => String::new(),
    };
    let list = match words[0] {
        "check" | "why" => format!("\n  list {}", events_in_words(&bytes(words[2]))),
        _ => String::new(),
    };
    format!("{}{asked}\n  {job}{list}", words[0])
}

fn events_in_words(list: &[u8]) -> String {
    let number = |part: &[u8]| part.iter().fold(0u64, |sum, byte| sum * 256 + *byte as u64);
    let event = |part: &[u8]| Event { tick: number(&part[0..4]), slot: part[4] as usize, symbol: number(&part[5..7]) as u16 };
    let body = list.get(7..).unwrap_or(&[]);
    let events: Vec<String> = body.chunks_exact(7).map(event).map(|e| format!("{}/{}/{}", e.tick, e.slot, e.symbol)).collect();
    format!("{} bytes, as tick/slot/symbol: {}", list.len(), events.join(", "))
}

/// The lines of a text with their numbers, so that a blank or a byte that cannot be seen is seen.
fn lines_in_words(text: &[u8]) -> String {
    let lines = text.split_inclusive(|&byte| byte == b'\n').enumerate();
    let line = |(i, line): (usize, &[u8])| format!("  line {i}: \"{}\"", line.escape_ascii());
    format!("  {} bytes\n{}", text.len(), lines.map(line).collect::<Vec<_>>().join("\n"))
}
