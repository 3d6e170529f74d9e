// Random texts from a seed: lists to be written as text, and texts to be read, from none to more lines than may be. Most
// texts are damaged at a place by chance: in the shape of a line, in a number, or in any byte.
use crate::cases::{damage, far_tick, room};
use crate::dice::Dice;
use crate::rules::{list_bytes, text_of, Event, LAST_TICK};
use crate::text::{read_case, write_case};

/// Two cases of ten are lists, one a text that is whole, and seven are damaged texts.
pub fn a_case(dice: &mut Dice) -> String {
    match dice.between(0, 9) {
        0..=1 => a_write(dice),
        2 => a_whole_read(dice),
        _ => a_damaged_read(dice),
    }
}

fn a_write(dice: &mut Dice) -> String {
    let mut events = events(dice, 300);
    let needed = text_of(&events).len();
    if dice.one_in(3) && !events.is_empty() {
        unruly(dice, &mut events);
    }
    let mut list = list_bytes(&events);
    if dice.one_in(5) {
        damage(dice, 7, &mut list);
    }
    write_case(&list, room(dice, needed))
}

fn a_whole_read(dice: &mut Dice) -> String {
    let events = events(dice, 100);
    read_case(&text_of(&events), room(dice, 7 + 7 * events.len()))
}

fn a_damaged_read(dice: &mut Dice) -> String {
    let events = events(dice, 1_000);
    let mut lines: Vec<Line> = events.iter().map(line_of).collect();
    let mut bytes = 0;
    for _ in 0..dice.of(&[1, 1, 1, 2]) {
        match dice.between(0, 9) {
            0..=4 if !lines.is_empty() => misshape(dice, &mut lines),
            5..=7 if !lines.is_empty() => misnumber(dice, &mut lines),
            _ => bytes += 1,
        }
    }
    let mut text = lines.concat().concat();
    for _ in 0..bytes {
        spoil(dice, &mut text);
    }
    read_case(&text, room(dice, 7 + 7 * events.len()))
}

// ---- events

/// Events at rising ticks; few of them, but one time in `many_in` about the most there may be.
fn events(dice: &mut Dice, many_in: u64) -> Vec<Event> {
    let count = match dice.between(0, 99) {
        _ if dice.one_in(many_in) => dice.of(&[4_095, 4_096, 4_096, 4_097]),
        0..=1 => dice.between(0, 200),
        2..=45 => dice.between(0, 12),
        _ => dice.between(0, 3),
    };
    let gap = if count > 200 { dice.of(&[1, 3, 2_000, 2_000]) } else { dice.of(&[1, 3, 20, 400, 9_000, 30_000]) };
    let mut tick = if dice.one_in(20) { LAST_TICK - (gap * count).min(LAST_TICK) } else { dice.between(0, gap) };
    let mut events = vec![];
    for _ in 0..count {
        events.push(Event { tick, slot: a_number(dice, 255) as usize, symbol: a_number(dice, 65_535) as u16 });
        tick += dice.between(1, gap);
    }
    events
}

/// A number up to a limit: as often of one digit as of two or more, and the limit itself often.
fn a_number(dice: &mut Dice, limit: u64) -> u64 {
    let high = dice.of(&[0, 9, 10, 99, 100, 999, 9_999, limit]);
    if dice.one_in(3) { high.min(limit) } else { dice.between(0, high.min(limit)) }
}

/// A tick that equals the one before, falls below it, or is over the limit.
fn unruly(dice: &mut Dice, events: &mut [Event]) {
    let i = dice.place(events.len());
    let before = if i > 0 { events[i - 1].tick } else { 0 };
    events[i].tick = match dice.between(0, 3) {
        0 => before,
        1 => before.saturating_sub(dice.between(1, 9)),
        2 => dice.of(&[LAST_TICK, LAST_TICK + 1]),
        _ => far_tick(dice),
    };
}

// ---- lines

/// Tick, blank, slot, blank, symbol, line feed.
type Line = [Vec<u8>; 6];
const NUMBERS: [usize; 3] = [0, 2, 4];
const BLANKS: [usize; 2] = [1, 3];
const END: usize = 5;

fn line_of(event: &Event) -> Line {
    let number = |number: u64| number.to_string().into_bytes();
    let (tick, slot, symbol) = (number(event.tick), number(event.slot as u64), number(event.symbol as u64));
    [tick, vec![b' '], slot, vec![b' '], symbol, vec![b'\n']]
}

/// One line that is no longer in the shape.
fn misshape(dice: &mut Dice, lines: &mut [Line]) {
    let line = &mut lines[dice.place(lines.len())];
    let (number, blank) = (dice.of(&NUMBERS), dice.of(&BLANKS));
    let either = dice.one_in(2);
    match dice.between(0, 14) {
        0 => line[blank] = b"  ".to_vec(),
        1 => line[blank].clear(),
        2 => line[blank] = b"\t".to_vec(),
        3 => line[number].insert(0, dice.of(b"+-")),
        4 => line[number].insert(0, b'0'),
        5 => line[END] = if either { b"\r\n".to_vec() } else { b"\r".to_vec() },
        6 => line[number].push(dice.of(b"aelxEO_,.:/")),
        7 => line[if either { 0 } else { END }].insert(0, b'\n'),
        8 => line[END] = if either { b" 7\n".to_vec() } else { b" 7 1 3\n".to_vec() },
        9 => line[number].clear(),
        10 => (line[2], line[blank]) = (vec![], vec![]),
        11 => line[END].clear(),
        12 => line[blank] = dice.of(&[b"\n", b"\0", b",", b"\x0b", b"\xa0"]).to_vec(),
        13 => line[if either { 0 } else { END }].insert(0, b' '),
        _ => line[END] = if either { b" ".to_vec() } else { b"\n\n".to_vec() },
    }
}

/// One number about its limit or far over it, or a tick that does not rise.
fn misnumber(dice: &mut Dice, lines: &mut [Line]) {
    let i = dice.place(lines.len());
    let before = if i > 0 { lines[i - 1][0].clone() } else { b"0".to_vec() };
    match dice.between(0, 7) {
        0..=1 => lines[i][2] = dice.of(&["255", "256", "257", "999", "65535"]).into(),
        2..=3 => lines[i][4] = dice.of(&["65534", "65535", "65536", "65537", "99999", "100000"]).into(),
        4 => lines[i][0] = dice.of(&["8388607", "8388608", "8388609", "9999999", "10000000"]).into(),
        5 => lines[i][0] = before,
        6 => lines[i][0] = if dice.one_in(3) { b"0".to_vec() } else { before[..before.len().max(2) - 1].to_vec() },
        _ => lines[i][dice.of(&[0, 0, 0, 2, 4])] = a_long_number(dice),
    }
}

/// A number of ten digits, of twenty, or seldom of thousands; often one that 32 or 64 bits would take for a small one.
fn a_long_number(dice: &mut Dice) -> Vec<u8> {
    let small = dice.between(0, 70_000) as u128;
    let digits = match dice.between(0, 30) {
        0 => dice.between(1_000, 6_000),
        1..=10 => return ((1u128 << dice.of(&[32, 33, 64, 65])) + small).to_string().into_bytes(),
        11..=20 => 10,
        _ => 20,
    };
    (0..digits).map(|place| b'0' + dice.between((place == 0) as u64, 9) as u8).collect()
}

// ---- bytes

/// One change of any byte: another, one more, one less, or none from there on.
fn spoil(dice: &mut Dice, text: &mut Vec<u8>) {
    let i = dice.place(text.len());
    let byte = dice.of(b"\0\x01\t\n\x0b\r !+-./09:;Aaz\x7f\x80\xb2\xff");
    match dice.between(0, 9) {
        0..=1 if !text.is_empty() => text[i] = byte,
        2..=3 => text.insert(i, byte),
        4 if !text.is_empty() => drop(text.remove(i)),
        5..=6 => text.truncate(i),
        7 => drop(text.pop()),
        8 => text.push(byte),
        _ if dice.one_in(4) => text.clear(),
        _ => text.extend(b"\n"),
    }
}
