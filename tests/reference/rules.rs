// The rules as plainly as they can be said in Rust: simple and slow, one tick at a time, every search a
// scan from the front. Nothing here was taken from the library; it is what the library is compared with.
use std::ops::Range;

pub const FREE: u16 = 65535;
const MOST_SLOTS: usize = 64;
const MOST_LOAD_TIME: usize = 1_000;
pub const MOST_DRAWS: usize = 4_096;
const MOST_EVENTS: usize = 4_096;
pub const LAST_TICK: u64 = 8_388_607;

/// A refusal: its number, and the event or draw that it names.
#[derive(Clone, Copy, Debug, PartialEq)]
pub struct Refusal {
    pub number: u32,
    pub detail: usize,
}

fn refuse<T>(number: u32, detail: usize) -> Result<T, Refusal> {
    Err(Refusal { number, detail })
}

#[derive(Clone, Debug, PartialEq)]
pub struct Job {
    pub starts: Vec<u16>,
    pub load_time: u64,
    pub draws: Vec<u16>,
}

#[derive(Clone, Copy, Debug, PartialEq)]
pub struct Event {
    pub tick: u64,
    pub slot: usize,
    pub symbol: u16,
}

/// What an accepted call answers.
#[derive(Clone, Debug, PartialEq)]
pub struct Run {
    pub elapsed: u64,
    pub waits: u64,
    pub loads: u64,
    pub events: Vec<Event>,
    pub draw_ticks: Vec<u64>,
    pub draw_slots: Vec<usize>,
}

impl Run {
    /// The longest single wait: the greatest gap between a draw tick and the tick after the draw before it, or tick 0.
    pub fn longest(&self) -> u64 {
        let mut longest = 0;
        let mut from = 0;
        for &tick in &self.draw_ticks {
            longest = longest.max(tick - from);
            from = tick + 1;
        }
        longest
    }
}

fn number(bytes: &[u8]) -> usize {
    bytes.iter().fold(0, |sum, byte| sum * 256 + *byte as usize)
}

fn symbols(bytes: &[u8]) -> Vec<u16> {
    bytes.chunks(2).map(|pair| number(pair) as u16).collect()
}

// ---- the job and the list, byte for byte

/// Refusals 1 to 5, rising.
pub fn read_job(bytes: &[u8]) -> Result<Job, Refusal> {
    if bytes.len() < 10 || number(&bytes[0..4]) != bytes.len() - 4 {
        return refuse(1, 0);
    }
    if bytes[4] != 1 {
        return refuse(2, 0);
    }
    let (k, f, n) = (bytes[5] as usize, number(&bytes[6..8]), number(&bytes[8..10]));
    if !(1..=MOST_SLOTS).contains(&k) || !(1..=MOST_LOAD_TIME).contains(&f) || n > MOST_DRAWS {
        return refuse(3, 0);
    }
    if number(&bytes[0..4]) != 6 + 2 * k + 2 * n {
        return refuse(4, 0);
    }
    let starts = symbols(&bytes[10..10 + 2 * k]);
    let draws = symbols(&bytes[10 + 2 * k..]);
    let twice = |i: usize| starts[i] != FREE && starts[..i].contains(&starts[i]);
    if (0..k).any(twice) || draws.contains(&FREE) {
        return refuse(5, 0);
    }
    Ok(Job { starts, load_time: f as u64, draws })
}

/// The job of this many rounds: its draws written out, round after round. Refusal 17, with a product that has room at 64 bits.
pub fn unrolled(job: &Job, rounds: u32) -> Result<Job, Refusal> {
    let draws = rounds as u64 * job.draws.len() as u64;
    if rounds == 0 || draws > MOST_DRAWS as u64 {
        return refuse(17, 0);
    }
    Ok(Job { draws: job.draws.repeat(rounds as usize), ..job.clone() })
}

/// Refusal 8: what is wrong with a list as a whole. Its ticks are judged later, after the lent room.
fn read_list(bytes: &[u8]) -> Result<Vec<Event>, Refusal> {
    if bytes.len() < 7 || number(&bytes[0..4]) != bytes.len() - 4 || bytes[4] != 1 {
        return refuse(8, 0);
    }
    let m = number(&bytes[5..7]);
    if m > MOST_EVENTS || number(&bytes[0..4]) != 3 + 7 * m {
        return refuse(8, 0);
    }
    let event = |part: &[u8]| Event {
        tick: number(&part[0..4]) as u64,
        slot: part[4] as usize,
        symbol: number(&part[5..7]) as u16,
    };
    Ok(bytes[7..].chunks(7).map(event).collect())
}

/// Refusal 9, over the whole list.
pub fn judge_ticks(events: &[Event]) -> Result<(), Refusal> {
    for (i, event) in events.iter().enumerate() {
        if event.tick > LAST_TICK || (i > 0 && event.tick <= events[i - 1].tick) {
            return refuse(9, i);
        }
    }
    Ok(())
}

pub fn job_bytes(job: &Job) -> Vec<u8> {
    let (k, n) = (job.starts.len(), job.draws.len());
    let mut bytes = ((6 + 2 * k + 2 * n) as u32).to_be_bytes().to_vec();
    bytes.extend([1, k as u8]);
    bytes.extend((job.load_time as u16).to_be_bytes());
    bytes.extend((n as u16).to_be_bytes());
    for symbol in job.starts.iter().chain(&job.draws) {
        bytes.extend(symbol.to_be_bytes());
    }
    bytes
}

pub fn list_bytes(events: &[Event]) -> Vec<u8> {
    let mut bytes = ((3 + 7 * events.len()) as u32).to_be_bytes().to_vec();
    bytes.push(1);
    bytes.extend((events.len() as u16).to_be_bytes());
    for event in events {
        bytes.extend((event.tick as u32).to_be_bytes());
        bytes.push(event.slot as u8);
        bytes.extend(event.symbol.to_be_bytes());
    }
    bytes
}

// ---- one tick of the display

pub struct Display<'a> {
    pub job: &'a Job,
    pub tick: u64,
    pub next: usize,
    pub held: Vec<Option<u16>>,
    pub under_way: Option<Event>,
    run: Run,
}

impl<'a> Display<'a> {
    pub fn new(job: &'a Job) -> Display<'a> {
        let held = job.starts.iter().map(|&s| if s == FREE { None } else { Some(s) }).collect();
        let run = Run { elapsed: 0, waits: 0, loads: 0, events: vec![], draw_ticks: vec![], draw_slots: vec![] };
        Display { job, tick: 0, next: 0, held, under_way: None, run }
    }

    pub fn done(&self) -> bool {
        self.next == self.job.draws.len()
    }

    pub fn slot_of(&self, symbol: u16) -> Option<usize> {
        self.held.iter().position(|&held| held == Some(symbol))
    }

    /// Step 1: a load begun F ticks ago puts its symbol into its slot.
    pub fn land(&mut self) {
        if let Some(load) = self.under_way {
            if load.tick + self.job.load_time == self.tick {
                self.held[load.slot] = Some(load.symbol);
                self.under_way = None;
            }
        }
    }

    /// Step 2: a load begins, and what its slot held is gone at once. Refusals 10, 11 and 12 of event number `detail`.
    pub fn begin(&mut self, event: Event, detail: usize) -> Result<(), Refusal> {
        if self.under_way.is_some() {
            return refuse(10, detail);
        }
        if event.slot >= self.held.len() {
            return refuse(11, detail);
        }
        if event.symbol == FREE || self.slot_of(event.symbol).is_some() {
            return refuse(12, detail);
        }
        self.held[event.slot] = None;
        self.under_way = Some(event);
        self.run.loads += 1;
        self.run.events.push(event);
        Ok(())
    }

    /// Step 3: a draw, or a wait. Answers whether it was a draw. The tick is over.
    pub fn draw_or_wait(&mut self) -> bool {
        let slot = self.slot_of(self.job.draws[self.next]);
        match slot {
            Some(slot) => {
                self.run.draw_ticks.push(self.tick);
                self.run.draw_slots.push(slot);
                self.next += 1;
            }
            None => self.run.waits += 1,
        }
        self.tick += 1;
        self.run.elapsed += 1;
        slot.is_some()
    }

    pub fn finish(self) -> Run {
        self.run
    }

    /// The next draw of a symbol: its first place at or after the next draw number. None: never drawn again.
    fn next_draw(&self, symbol: u16) -> Option<usize> {
        (self.next..self.job.draws.len()).find(|&place| self.job.draws[place] == symbol)
    }

    fn free_slot(&self) -> Option<usize> {
        self.held.iter().position(|held| held.is_none())
    }

    /// A free slot, else the furthest; the lowest slot where several are never drawn again.
    fn free_or_furthest(&self) -> usize {
        self.free_slot().unwrap_or_else(|| {
            let distance = |slot: usize| self.next_draw(self.held[slot].unwrap()).unwrap_or(usize::MAX);
            let greatest = (0..self.held.len()).map(distance).max().unwrap();
            (0..self.held.len()).find(|&slot| distance(slot) == greatest).unwrap()
        })
    }

    /// A free slot, else the one whose symbol was drawn longest ago; not yet drawn is older than all.
    fn free_or_oldest(&self) -> usize {
        self.free_slot().unwrap_or_else(|| self.oldest_of((0..self.held.len()).collect()))
    }

    /// Of these slots the one whose symbol's last draw so far is earliest; not yet drawn is before all, and of several such the lowest.
    fn oldest_of(&self, slots: Vec<usize>) -> usize {
        let drawn = |slot: usize| self.job.draws[..self.next].iter().rposition(|&s| Some(s) == self.held[slot]);
        let oldest = slots.iter().map(|&slot| drawn(slot)).min().unwrap();
        slots.into_iter().find(|&slot| drawn(slot) == oldest).unwrap()
    }

    /// For opt, request Four: a free slot; else of the symbols never drawn again the one that came free first; else the furthest.
    fn free_or_came_free_first(&self) -> usize {
        let done: Vec<usize> = (0..self.held.len()).filter(|&slot| self.held[slot].is_some_and(|s| self.next_draw(s).is_none())).collect();
        if self.free_slot().is_some() || done.is_empty() { self.free_or_furthest() } else { self.oldest_of(done) }
    }

    fn load(&self, slot: usize, symbol: u16) -> Event {
        Event { tick: self.tick, slot, symbol }
    }
}

// ---- a check

pub fn check(job: &[u8], list: &[u8], rounds: u32, tick_places: usize, slot_places: usize) -> Result<Run, Refusal> {
    let job = unrolled(&read_job(job)?, rounds)?;
    let events = read_list(list)?;
    if tick_places < job.draws.len() || slot_places < job.draws.len() {
        return refuse(7, 0);
    }
    judge_ticks(&events)?;
    follow(&job, &events)
}

/// The display under a list whose ticks rise: refusals 10 to 14 as time meets them.
pub fn follow(job: &Job, events: &[Event]) -> Result<Run, Refusal> {
    let mut display = Display::new(job);
    let mut begun = 0;
    while !display.done() {
        display.land();
        if begun < events.len() && events[begun].tick == display.tick {
            display.begin(events[begun], begun)?;
            begun += 1;
        }
        let drawn = display.draw_or_wait();
        if !drawn && display.under_way.is_none() && begun == events.len() {
            return refuse(13, display.next);
        }
    }
    if begun < events.len() {
        return refuse(14, begun);
    }
    Ok(display.finish())
}

// ---- why a draw waited

/// What is told of one draw. An event is its number in the list.
#[derive(Clone, Debug, PartialEq)]
pub struct Reason {
    pub brought: Option<usize>,
    pub taken: Option<usize>,
    pub own: u64,
    pub another: u64,
    pub nothing: u64,
}

/// All refusals of a check with room enough for any, so that 7 is not among them; then 18.
pub fn why(job: &[u8], list: &[u8], draw: u32, rounds: u32) -> Result<Reason, Refusal> {
    let run = check(job, list, rounds, MOST_DRAWS, MOST_DRAWS)?;
    let job = unrolled(&read_job(job)?, rounds)?;
    if draw as usize >= job.draws.len() {
        return refuse(18, 0);
    }
    Ok(reason(&job, &run, draw as usize))
}

/// Told from the list and the draw ticks of an accepted run, looking back from the draw's tick; nothing is stepped again.
fn reason(job: &Job, run: &Run, draw: usize) -> Reason {
    let (symbol, tick) = (job.draws[draw], run.draw_ticks[draw]);
    let first = if draw == 0 { 0 } else { run.draw_ticks[draw - 1] + 1 };
    let ended = |event: &Event| event.tick + job.load_time <= tick;
    let takes = |i: usize| run.events[i].tick <= tick && went_out(job, &run.events, i) == Some(symbol);
    let shared = |event: &Event| shared_ticks(first..tick, event.tick..event.tick + job.load_time);
    let own: u64 = run.events.iter().filter(|event| event.symbol == symbol).map(shared).sum();
    let another: u64 = run.events.iter().filter(|event| event.symbol != symbol).map(shared).sum();
    Reason {
        brought: run.events.iter().rposition(|event| event.symbol == symbol && ended(event)),
        taken: (0..run.events.len()).rev().find(|&i| takes(i)),
        own,
        another,
        nothing: tick - first - own - another,
    }
}

/// What an event took out of its slot: what the event before it in that slot brought, which has ended since only one load is
/// under way at a time; else what was there at the start, if anything.
fn went_out(job: &Job, events: &[Event], i: usize) -> Option<u16> {
    let slot = events[i].slot;
    let before = events[..i].iter().rfind(|event| event.slot == slot).map(|event| event.symbol);
    before.or(Some(job.starts[slot]).filter(|&symbol| symbol != FREE))
}

/// How many ticks two stretches of time share; neither has its end.
fn shared_ticks(one: Range<u64>, other: Range<u64>) -> u64 {
    one.end.min(other.end).saturating_sub(one.start.max(other.start))
}

// ---- the four plans

pub const PLAN_NAMES: [&str; 4] = ["aggressive", "conservative", "opt", "lru"];

pub fn plan(job: &[u8], plan: u32, rounds: u32, room: usize) -> Result<Run, Refusal> {
    let job = unrolled(&read_job(job)?, rounds)?;
    if plan > 3 {
        return refuse(6, 0);
    }
    if room < 7 + 7 * job.draws.len() {
        return refuse(7, 0);
    }
    let run = planned(&job, plan);
    if run.elapsed > LAST_TICK {
        return refuse(15, 0);
    }
    Ok(run)
}

pub fn planned(job: &Job, plan: u32) -> Run {
    match plan {
        0 => ruled(job, aggressive),
        1 => conservative(job),
        2 => ruled(job, opt),
        _ => ruled(job, lru),
    }
}

/// The display under a rule, which is asked in each tick in which no load is under way.
fn ruled(job: &Job, mut rule: impl FnMut(&Display) -> Option<Event>) -> Run {
    let mut display = Display::new(job);
    while !display.done() {
        display.land();
        if display.under_way.is_none() {
            if let Some(event) = rule(&display) {
                display.begin(event, 0).expect("a plan begins no load that the display refuses");
            }
        }
        display.draw_or_wait();
    }
    display.finish()
}

fn aggressive(display: &Display) -> Option<Event> {
    let draws = &display.job.draws;
    let miss = (display.next..draws.len()).find(|&place| display.slot_of(draws[place]).is_none())?;
    let slot = display.free_or_furthest();
    let wanted_before = display.held[slot].and_then(|symbol| display.next_draw(symbol)).is_some_and(|place| place < miss);
    if wanted_before { None } else { Some(display.load(slot, draws[miss])) }
}

fn opt(display: &Display) -> Option<Event> {
    let symbol = display.job.draws[display.next];
    match display.slot_of(symbol) {
        Some(_) => None,
        None => Some(display.load(display.free_or_came_free_first(), symbol)),
    }
}

fn lru(display: &Display) -> Option<Event> {
    let symbol = display.job.draws[display.next];
    match display.slot_of(symbol) {
        Some(_) => None,
        None => Some(display.load(display.free_or_oldest(), symbol)),
    }
}

/// The loads and slots of opt in the same order, each as early as the symbol going out allows.
fn conservative(job: &Job) -> Run {
    let mut order = vec![];
    ruled(job, |display| {
        let event = opt(display)?;
        order.push((display.next, event));
        Some(event)
    });
    let mut begun = 0;
    ruled(job, |display| {
        let &(miss, event) = order.get(begun)?;
        let going_out = display.held[event.slot];
        if going_out.is_some_and(|symbol| display.job.draws[display.next..miss].contains(&symbol)) {
            return None;
        }
        begun += 1;
        Some(display.load(event.slot, event.symbol))
    })
}

// ---- a list as text, one event a line

/// The writer: refusals 8, 9, 7.
pub fn write_text(list: &[u8], room: usize) -> Result<Vec<u8>, Refusal> {
    let events = read_list(list)?;
    judge_ticks(&events)?;
    let text = text_of(&events);
    if room < text.len() { refuse(7, 0) } else { Ok(text) }
}

/// The reader: refusals 16 over the whole text, 9, 7.
pub fn read_text(text: &[u8], room: usize) -> Result<Vec<u8>, Refusal> {
    let events = read_lines(text)?;
    judge_ticks(&events)?;
    let list = list_bytes(&events);
    if room < list.len() { refuse(7, 0) } else { Ok(list) }
}

pub fn text_of(events: &[Event]) -> Vec<u8> {
    let line = |event: &Event| format!("{} {} {}\n", event.tick, event.slot, event.symbol);
    events.iter().map(line).collect::<String>().into_bytes()
}

/// Refusal 16, of the first bad line. After the last line feed nothing is left, else that is a line without its end.
fn read_lines(text: &[u8]) -> Result<Vec<Event>, Refusal> {
    let mut lines: Vec<&[u8]> = text.split(|&byte| byte == b'\n').collect();
    let rest = lines.pop().expect("what is after the last line feed");
    let mut events = vec![];
    for (i, line) in lines.iter().enumerate() {
        match read_line(line) {
            Some(event) if i < MOST_EVENTS => events.push(event),
            _ => return refuse(16, i),
        }
    }
    if rest.is_empty() { Ok(events) } else { refuse(16, lines.len()) }
}

/// A line without its line feed.
fn read_line(line: &[u8]) -> Option<Event> {
    let words: Vec<&[u8]> = line.split(|&byte| byte == b' ').collect();
    let [tick, slot, symbol] = words[..] else { return None };
    let (tick, slot, symbol) = (decimal(tick)?, decimal(slot)?, decimal(symbol)?);
    if slot > 255 || symbol > 65535 {
        return None;
    }
    Some(Event { tick, slot: slot as usize, symbol: symbol as u16 })
}

/// A number of any length; one that is too great for 64 bits is the greatest of them, which no limit allows.
fn decimal(word: &[u8]) -> Option<u64> {
    let digits = !word.is_empty() && word.iter().all(|byte| byte.is_ascii_digit());
    if !digits || (word.len() > 1 && word[0] == b'0') {
        return None;
    }
    Some(word.iter().fold(0u64, |sum, byte| sum.saturating_mul(10).saturating_add((byte - b'0') as u64)))
}
