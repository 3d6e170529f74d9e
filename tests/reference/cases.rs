// Random cases from a seed: jobs and lists, whole and damaged in every field, from empty to the limits; rounds, from none
// to far too many; lists that a plan made, lists of a player who loads strange symbols into strange slots, and both with
// events changed, for the rounds that are asked or for others. Where it is asked why a draw waited, most lists are ones that are
// accepted, and most draws are ones that waited.
use crate::dice::Dice;
use crate::rules::{follow, job_bytes, judge_ticks, list_bytes, planned, unrolled};
use crate::rules::{Display, Event, Job, Run, FREE, LAST_TICK, MOST_DRAWS};
use crate::text::{check_case, plan_case, why_case};

pub fn a_case(dice: &mut Dice) -> String {
    if dice.one_in(3) { a_plan(dice) } else { a_check(dice) }
}

// ---- jobs

fn a_job(dice: &mut Dice) -> Job {
    let (k, f, n) = match dice.between(0, 799) {
        0..=2 => (dice.of(&[1, 2, 63, 64]), dice.of(&[1, 2, 999, 1000]), dice.of(&[0, 1, 4095, 4096])),
        3..=4 => (dice.between(1, 64), dice.between(1, 20), dice.between(1000, 4096)),
        5..=60 => (up_to(dice, 64), up_to(dice, 1000), dice.between(0, 120)),
        61..=300 => (dice.between(1, 16), dice.between(1, 40), dice.between(0, 60)),
        _ => (dice.between(1, 4), dice.between(1, 6), dice.between(0, 12)),
    };
    let alphabet = an_alphabet(dice, k);
    Job { starts: starts(dice, k, &alphabet), load_time: f, draws: draws(dice, n, &alphabet) }
}

/// A number from 1 to a limit; the limit itself often.
fn up_to(dice: &mut Dice, limit: u64) -> u64 {
    if dice.one_in(5) { limit } else { dice.between(1, limit) }
}

/// The symbols that a job speaks of: somewhat fewer or somewhat more than it has slots.
fn an_alphabet(dice: &mut Dice, k: u64) -> Vec<u16> {
    let high = if dice.one_in(4) { k * 3 + 2 } else { k + 4 };
    let size = dice.between(1, high);
    let first = dice.of(&[0, 1, 250, 40_000, 65_535 - size]);
    (first..first + size).map(|symbol| symbol as u16).collect()
}

fn starts(dice: &mut Dice, k: u64, alphabet: &[u16]) -> Vec<u16> {
    let free_in = dice.of(&[1, 2, 4, 1000]);
    let mut starts: Vec<u16> = vec![];
    for slot in 0..k {
        let symbol = if dice.one_in(10) { (10_000 + slot) as u16 } else { dice.of(alphabet) };
        starts.push(if dice.one_in(free_in) || starts.contains(&symbol) { FREE } else { symbol });
    }
    starts
}

fn draws(dice: &mut Dice, n: u64, alphabet: &[u16]) -> Vec<u16> {
    let habit = dice.between(0, 3);
    let mut draws: Vec<u16> = vec![];
    for place in 0..n as usize {
        let symbol = match habit {
            0 => alphabet[place % alphabet.len()],
            1 if place > 0 && !dice.one_in(3) => draws[place - 1 - dice.place(place.min(4))],
            _ => dice.of(alphabet),
        };
        draws.push(symbol);
    }
    draws
}

// ---- rounds

/// How often a sheet of n draws is drawn: mostly once to four times, and a long one mostly once.
fn some_rounds(dice: &mut Dice, n: usize) -> u32 {
    let few = dice.of(&[1, 1, 2, 3, 4]);
    match dice.between(0, 199) {
        0..=4 => 0,
        5..=11 => about_the_most(dice, n),
        12..=19 => dice.between(5, 40) as u32,
        20..=33 => too_many(dice, n),
        _ if few as usize * n > MOST_DRAWS && !dice.one_in(4) => 1,
        _ => few,
    }
}

/// As often as n draws can be drawn, or one round fewer or more.
fn about_the_most(dice: &mut Dice, n: usize) -> u32 {
    let most = (MOST_DRAWS / n.max(1)) as u32;
    dice.of(&[most - 1, most, most, most + 1])
}

/// Far too many rounds, unless there is nothing to draw. Often their draws are few again when counted at 16 or 32 bits.
fn too_many(dice: &mut Dice, n: usize) -> u32 {
    let n = n.max(1) as u64;
    let passed = (1 << dice.of(&[16, 32])) / n + dice.between(1, 1 + MOST_DRAWS as u64 / n);
    let rounds = dice.of(&[u32::MAX as u64, 1 << 31, 1 << 16, 4_097, passed, passed, passed]);
    rounds.min(u32::MAX as u64) as u32
}

/// The number of draws that room is lent for: those of all rounds, or now and then of one. More than a call takes is one too many.
fn draws_lent_for(dice: &mut Dice, n: usize, rounds: u32) -> usize {
    let all = (n as u64 * rounds as u64).min(MOST_DRAWS as u64 + 1);
    if dice.one_in(16) { n } else { all as usize }
}

// ---- lists

/// Any list that means something for the job: a plan's, one that comes later, a wanderer's, or none.
fn a_list(dice: &mut Dice, job: &Job) -> Vec<Event> {
    match dice.between(0, 9) {
        0..=2 => planned(job, dice.between(0, 3) as u32).events,
        3..=4 => delayed(dice, job),
        5..=7 => wandered(dice, job),
        8 => scattered(dice, job),
        _ => vec![],
    }
}

/// A plan's list, each load some ticks later than it could be.
fn delayed(dice: &mut Dice, job: &Job) -> Vec<Event> {
    let mut events = planned(job, dice.of(&[1, 2, 3])).events;
    let mut late = 0;
    let most = dice.between(0, 2 * job.load_time.min(20));
    for event in &mut events {
        late += dice.between(0, most);
        event.tick += late;
    }
    events
}

/// The list of a player who loads what is wanted, what is not and what nobody draws, into any slot, and sometimes idles.
fn wandered(dice: &mut Dice, job: &Job) -> Vec<Event> {
    let mut display = Display::new(job);
    let mut events = vec![];
    let (rash, idle) = (dice.between(1, 8), dice.of(&[2, 5, 50]));
    let most_ticks = 50 + 3 * job.draws.len() as u64 * (1 + job.load_time);
    while !display.done() && display.tick < most_ticks && events.len() < 4_100 {
        display.land();
        let wanted = job.draws[display.next];
        let missing = display.slot_of(wanted).is_none();
        let symbol = if missing && !dice.one_in(rash + 2) { wanted } else { stranger(dice, job) };
        let event = Event { tick: display.tick, slot: dice.place(job.starts.len()), symbol };
        let wish = if missing { !dice.one_in(idle) } else { dice.one_in(2 + rash) };
        if wish && display.begin(event, 0).is_ok() {
            events.push(event);
        }
        display.draw_or_wait();
    }
    events
}

/// A symbol of the job, or one that it never speaks of.
fn stranger(dice: &mut Dice, job: &Job) -> u16 {
    if job.draws.is_empty() || dice.one_in(4) {
        return dice.of(&[0, 7, 300, 65_534]);
    }
    job.draws[dice.place(job.draws.len())]
}

/// Events at rising ticks with no sense in them.
fn scattered(dice: &mut Dice, job: &Job) -> Vec<Event> {
    let mut tick = dice.between(0, 2);
    let mut events = vec![];
    for _ in 0..dice.between(0, 6) {
        events.push(Event { tick, slot: dice.place(job.starts.len() + 1), symbol: stranger(dice, job) });
        tick += dice.between(1, job.load_time + 1);
    }
    events
}

/// One change of a list's events.
fn change(dice: &mut Dice, job: &Job, events: &mut Vec<Event>) {
    if events.is_empty() || dice.one_in(5) {
        return append(dice, job, events);
    }
    let i = dice.place(events.len());
    match dice.between(0, 9) {
        0 => drop(events.remove(i)),
        1 => events[i].tick += dice.between(0, 2),
        2 => events[i].tick = events[i].tick.saturating_sub(1),
        3 => events[i].slot = dice.of(&[0, 1, job.starts.len() - 1, job.starts.len(), job.starts.len() + 1, 64, 255]),
        4 => events[i].symbol = dice.of(&[FREE, 65_534, 0, job.starts[0], job.starts[job.starts.len() - 1]]),
        5 => events[i].symbol = stranger(dice, job),
        6 => events.insert(i, Event { symbol: stranger(dice, job), ..events[i] }),
        7 => events.swap(i, 0),
        8 => events[i].tick = far_tick(dice),
        _ => later_from(dice, job, &mut events[i..]),
    }
}

/// A tick about the limit. The limit itself is rare: a list that keeps it is eight million ticks long.
pub fn far_tick(dice: &mut Dice) -> u64 {
    if dice.one_in(60) {
        return LAST_TICK - dice.between(0, 1);
    }
    dice.of(&[LAST_TICK + 1, LAST_TICK + 2, u32::MAX as u64, 1 << 24, 1 << 31])
}

fn later_from(dice: &mut Dice, job: &Job, events: &mut [Event]) {
    let late = dice.between(1, job.load_time + 1);
    events.iter_mut().for_each(|event| event.tick += late);
}

/// Whether a list can be followed, and without millions of ticks.
fn is_soon(events: &[Event]) -> bool {
    judge_ticks(events).is_ok() && events.iter().all(|event| event.tick < 100_000)
}

/// One more event about the end: still within the run, in its last tick, or after it.
fn append(dice: &mut Dice, job: &Job, events: &mut Vec<Event>) {
    let elapsed = if is_soon(events) { follow(job, events).map_or(0, |run| run.elapsed) } else { 0 };
    let after = events.last().map_or(0, |event| event.tick + dice.of(&[1, job.load_time]));
    let tick = dice.of(&[elapsed.saturating_sub(1), elapsed, elapsed + 1, after, after]);
    let any = stranger(dice, job);
    let symbol = dice.of(&[any, 65_533, 65_534]);
    events.push(Event { tick, slot: dice.place(job.starts.len()), symbol });
}

// ---- damage

/// One change of a job that its bytes can carry: a limit passed, a symbol in two slots, the free mark drawn.
fn spoil(dice: &mut Dice, job: &mut Job) {
    let (k, n) = (job.starts.len(), job.draws.len());
    match dice.between(0, 7) {
        0 => job.starts.clear(),
        1 => job.starts.resize(65, FREE),
        2 => job.load_time = dice.of(&[0, 1_001, 65_535]),
        3 => job.draws.resize(4_097, 3),
        4 if n > 0 => job.draws[dice.place(n)] = FREE,
        _ if k > 1 => {
            let from = dice.place(k);
            job.starts[dice.place(k)] = job.starts[from];
        }
        _ => job.load_time = 0,
    }
}

/// One change of the bytes of a job or a list, whose head is `head` bytes long. Half the time the length is made to
/// fit again, so that what is behind it is judged.
pub fn damage(dice: &mut Dice, head: usize, bytes: &mut Vec<u8>) {
    let i = dice.place(bytes.len());
    match dice.between(0, 8) {
        0 => bytes.clear(),
        1 => bytes.truncate(i),
        2 => bytes.truncate(dice.between(0, head as u64) as usize),
        3 => drop(bytes.pop()),
        4 => bytes.resize(bytes.len() + dice.between(1, 9) as usize, 0),
        5 if !bytes.is_empty() => bytes[i.min(head - 1)] ^= 1 << dice.between(0, 7),
        6 if !bytes.is_empty() => bytes[dice.place(head.min(i + 1))] = dice.of(&[0, 1, 2, 16, 65, 255]),
        7 if bytes.len() > 4 => bytes[4] = dice.of(&[0, 2, 255]),
        _ if bytes.len() > 9 => bytes[dice.between(5, 9) as usize] ^= 1 << dice.between(0, 7),
        _ => bytes.push(1),
    }
    if bytes.len() >= 4 && dice.one_in(2) {
        let after = (bytes.len() - 4) as u32;
        bytes[..4].copy_from_slice(&after.to_be_bytes());
    }
}

fn bytes_of_job(dice: &mut Dice, job: &Job, damaged_in: u64) -> Vec<u8> {
    let mut job = job.clone();
    let spoilt = dice.one_in(damaged_in);
    if spoilt {
        spoil(dice, &mut job);
    }
    let mut bytes = job_bytes(&job);
    if dice.one_in(if spoilt { 6 } else { damaged_in }) {
        damage(dice, 10, &mut bytes);
    }
    bytes
}

/// Lent room about the size that is needed.
pub fn room(dice: &mut Dice, needed: usize) -> usize {
    match dice.between(0, 29) {
        0 => needed.saturating_sub(1),
        1 => dice.place(needed + 1),
        2 => 0,
        3..=6 => needed + dice.between(1, 40) as usize,
        _ => needed,
    }
}

// ---- cases

fn a_plan(dice: &mut Dice) -> String {
    let sheet = a_job(dice);
    let rounds = some_rounds(dice, sheet.draws.len());
    let bytes = bytes_of_job(dice, &sheet, 9);
    let plan = if dice.one_in(16) { dice.of(&[4, 5, 255, 256, 65_536, u32::MAX]) } else { dice.between(0, 3) as u32 };
    let draws = draws_lent_for(dice, sheet.draws.len(), rounds);
    plan_case(&bytes, plan, rounds, room(dice, 7 + 7 * draws))
}

fn a_check(dice: &mut Dice) -> String {
    let sheet = a_job(dice);
    let rounds = some_rounds(dice, sheet.draws.len());
    let list = bytes_of_list(dice, &sheet, rounds);
    let bytes = bytes_of_job(dice, &sheet, 16);
    let draws = draws_lent_for(dice, sheet.draws.len(), rounds);
    let (ticks, slots) = (room(dice, draws), room(dice, draws));
    let both = if dice.one_in(2) { draws } else { slots };
    check_case(&bytes, &list, rounds, ticks, both)
}

/// A list for these rounds of a sheet, or for more or fewer; where there are no such rounds, for one.
fn bytes_of_list(dice: &mut Dice, sheet: &Job, rounds: u32) -> Vec<u8> {
    let others = [1, rounds.saturating_sub(1), rounds.saturating_add(1)];
    let made_for = if dice.one_in(6) { dice.of(&others) } else { rounds };
    let job = unrolled(sheet, made_for).unwrap_or_else(|_| sheet.clone());
    let mut events = a_list(dice, &job);
    if dice.one_in(2) {
        for _ in 0..dice.between(1, 3) {
            change(dice, &job, &mut events);
        }
    }
    let mut list = if dice.one_in(300) { many_events(dice) } else { list_bytes(&events) };
    if dice.one_in(9) {
        damage(dice, 7, &mut list);
    }
    list
}

pub fn a_why(dice: &mut Dice) -> String {
    let sheet = a_job(dice);
    let rounds = some_rounds(dice, sheet.draws.len());
    let wild = dice.one_in(4);
    let kept = if wild { None } else { unrolled(&sheet, rounds).ok().and_then(|job| kept_list(dice, &job)) };
    let (list, run) = match kept {
        Some((events, run)) => (list_bytes(&events), Some(run)),
        None => (bytes_of_list(dice, &sheet, rounds), None),
    };
    let bytes = bytes_of_job(dice, &sheet, 24);
    why_case(&bytes, &list, a_draw(dice, sheet.draws.len(), rounds, run), rounds)
}

/// A list that the display keeps to, with its run: a plan's or a player's, and changes of it as long as it is still kept to.
fn kept_list(dice: &mut Dice, job: &Job) -> Option<(Vec<Event>, Run)> {
    let mut events = match dice.between(0, 7) {
        0 => planned(job, dice.between(0, 3) as u32).events,
        1 => delayed(dice, job),
        2..=4 => wandered(dice, job),
        _ => shuffled(dice, job),
    };
    let mut run = follow(job, &events).ok()?;
    for _ in 0..dice.between(0, 3) {
        let mut changed = events.clone();
        change(dice, job, &mut changed);
        if let Some(Ok(other)) = is_soon(&changed).then(|| follow(job, &changed)) {
            (events, run) = (changed, other);
        }
    }
    Some((events, run))
}

/// The list of a player who takes out what is drawn next or soon, idles, and loads another symbol before the one that is wanted.
/// So a symbol goes and comes back many times, and a draw waits for all three causes.
fn shuffled(dice: &mut Dice, job: &Job) -> Vec<Event> {
    let mut display = Display::new(job);
    let mut events = vec![];
    let (idle, detour, theft) = (dice.of(&[2, 3, 9]), dice.of(&[2, 3, 9]), dice.of(&[2, 4, 12]));
    while !display.done() && events.len() < 4_000 {
        display.land();
        let wanted = job.draws[display.next];
        let home = display.slot_of(wanted);
        let soon = job.draws[display.next + dice.place((job.draws.len() - display.next).min(4))];
        let slot = if dice.one_in(2) { display.slot_of(soon) } else { home }.unwrap_or_else(|| dice.place(job.starts.len()));
        let symbol = if home.is_some() || dice.one_in(detour) { stranger(dice, job) } else { wanted };
        let wish = if home.is_some() { dice.one_in(theft) } else { !dice.one_in(idle) };
        let event = Event { tick: display.tick, slot, symbol };
        if wish && display.begin(event, 0).is_ok() {
            events.push(event);
        }
        display.draw_or_wait();
    }
    events
}

/// The draw that is asked about: of a run mostly one that waited, any other draw there is, or one at the end or far over it. One
/// that would be a draw again when counted at 16 bits is among them. Where the list may be refused, a draw over the end is not
/// rare, since that is refused later.
fn a_draw(dice: &mut Dice, n: usize, rounds: u32, run: Option<Run>) -> u32 {
    let all = (n as u64 * rounds as u64).min(MOST_DRAWS as u64 + 1);
    let any = dice.place(all as usize) as u64;
    let ticks = run.map_or(vec![], |run| run.draw_ticks);
    let waited = |draw: &usize| ticks[*draw] > if *draw == 0 { 0 } else { ticks[draw - 1] + 1 };
    let waiting: Vec<usize> = (0..ticks.len()).filter(waited).collect();
    let draw = match dice.between(0, if ticks.is_empty() { 3 } else { 19 }) {
        0 => dice.of(&[all, all, all + 1, n as u64, MOST_DRAWS as u64, any + 65_536, 1 << 31, u32::MAX as u64]),
        1 => all.saturating_sub(1),
        2..=13 if !waiting.is_empty() => dice.of(&waiting) as u64,
        _ => any,
    };
    draw as u32
}

/// A list about the limit of 4,096 events.
fn many_events(dice: &mut Dice) -> Vec<u8> {
    let count = dice.of(&[4_095, 4_096, 4_097]);
    let events: Vec<Event> = (0..count).map(|tick| Event { tick, slot: 0, symbol: (tick % 2) as u16 }).collect();
    list_bytes(&events)
}
