//! Command lines and queues of errors: random ones, near misses, and the tests' own reading of a line.
use crate::layout::SETUPS;
use crate::random::Random;
use linked::Errors;

/// What a line says, or does.
#[derive(Clone, Copy, Debug, PartialEq, Eq, PartialOrd, Ord)]
pub enum Says {
    Nothing,
    Save(usize),
    Recall(usize),
    Query,
    Error(u16),
}

/// Each error, and what the query prints for it.
pub const ERRORS: [(u16, &str); 6] = [
    (104, "-104,\"Data type error\"\n"),
    (109, "-109,\"Missing parameter\"\n"),
    (113, "-113,\"Undefined header\"\n"),
    (200, "-200,\"Execution error\"\n"),
    (222, "-222,\"Data out of range\"\n"),
    (350, "-350,\"Queue overflow\"\n"),
];
pub const NO_ERROR: &str = "0,\"No error\"\n";

pub const LONGEST: usize = 80;
pub const WAITING: usize = 10;
pub const QUERIES: [&str; 4] = ["SYST:ERR?", "SYST:ERROR?", "SYSTEM:ERR?", "SYSTEM:ERROR?"];
const HEADERS: [&str; 2] = ["*SAV", "*RCL"];

/// The tests' own reading: the line as text in upper case, without the zeros before its number.
pub fn reading(line: &[u8]) -> Says {
    let text: String = line.iter().map(|&byte| char::from(byte).to_ascii_uppercase()).collect();
    let after = |header: &str| text.strip_prefix(header);
    let (says, rest): (fn(usize) -> Says, &str) = match (after("*SAV"), after("*RCL")) {
        _ if line.is_empty() => return Says::Nothing,
        _ if line.len() > LONGEST => return Says::Error(113),
        _ if QUERIES.contains(&&*text) => return Says::Query,
        (Some(rest), _) => (Says::Save, rest),
        (_, Some(rest)) => (Says::Recall, rest),
        _ => return Says::Error(113),
    };
    match rest.strip_prefix(' ') {
        None if !rest.is_empty() => Says::Error(113),
        None | Some("") => Says::Error(109),
        Some(digits) if !digits.bytes().all(|byte| byte.is_ascii_digit()) => Says::Error(104),
        Some(digits) => match digits.trim_start_matches('0') {
            "" => says(0),
            number if number.len() == 1 => says(number.parse().expect("a digit")),
            _ => Says::Error(222),
        },
    }
}

/// A line that says this, by the way that it is made; of errors those that lines have, which are all but 200 and 350.
pub fn line(random: &mut Random, says: Says) -> Vec<u8> {
    match says {
        Says::Nothing => Vec::new(),
        Says::Save(number) => with_number(random, "*SAV ", number),
        Says::Recall(number) => with_number(random, "*RCL ", number),
        Says::Query => {
            let query = random.pick(&QUERIES);
            in_either_case(random, query)
        }
        Says::Error(104) => no_number(random),
        Says::Error(109) => {
            let (mut line, blank) = (any_header(random), random.below(2));
            line.resize(line.len() + blank, b' ');
            line
        }
        Says::Error(113) => undefined(random),
        Says::Error(222) => {
            let mut line = any_header(random);
            line.push(b' ');
            let zeros = line.len() + random.pick(&[0, 0, 1, 20, 73]);
            line.resize(zeros, b'0');
            line.push(random.from_to(1, 9) as u8 + b'0');
            let length = random.from_to(line.len() + 1, LONGEST.min(line.len() + 25));
            line.extend(digits(random, length - line.len()));
            line
        }
        Says::Error(error) => panic!("no line says {error}"),
    }
}

/// What a random line may say: mostly what can be done.
pub fn says(random: &mut Random) -> Says {
    let number = random.below(SETUPS);
    match random.below(16) {
        0 => Says::Nothing,
        1..=5 => Says::Save(number),
        6..=8 => Says::Recall(number),
        9..=11 => Says::Query,
        _ => Says::Error(random.pick(&[104, 109, 113, 222])),
    }
}

/// Any line: one of these; one with some bytes changed, put in or taken out; bytes that commands are made of; or any bytes, up to 65,535.
pub fn any_line(random: &mut Random) -> Vec<u8> {
    let says = says(random);
    let mut line = line(random, says);
    match random.below(16) {
        0 => {
            let length = random.pick(&[1, 4, 5, 6, 9, 79, 80, 81, 256, 65_535]);
            random.bytes(length)
        }
        1 => (0..random.below(16)).map(|_| random.pick(b"*SAVRCLsavrcl:?SYSTEMsyst 0123456789\r\n\0")).collect(),
        2..=8 => {
            for _ in 0..random.pick(&[1, 1, 2, 3]) {
                change(random, &mut line);
            }
            line
        }
        _ => line,
    }
}

fn change(random: &mut Random, line: &mut Vec<u8>) {
    let place = random.below(line.len() + 1);
    let any = random.next() as u8;
    let byte = random.pick(&[any, b' ', b'0', b'9', b'\r', b'?']);
    match line.get_mut(place) {
        Some(old) if random.once_in(2) => *old = random.pick(&[byte, *old ^ 0x20, *old ^ 0x80, old.wrapping_add(1)]),
        Some(_) if random.once_in(2) => _ = line.remove(place),
        _ => line.insert(place, byte),
    }
}

/// Every line that differs from this one in one byte: changed to each value, put in with each value, or taken out.
pub fn near_misses(line: &[u8]) -> Vec<Vec<u8>> {
    let mut lines = Vec::new();
    for place in 0..=line.len() {
        let (before, after) = line.split_at(place);
        let with = |byte: &[u8], after: &[u8]| [before, byte, after].concat();
        if let [old, rest @ ..] = after {
            lines.extend((0..=255).filter(|byte| byte != old).map(|byte| with(&[byte], rest)));
            lines.push(with(&[], rest));
        }
        lines.extend((0..=255).map(|byte| with(&[byte], after)));
    }
    lines
}

/// A word with each letter in either case.
pub fn in_either_case(random: &mut Random, word: &str) -> Vec<u8> {
    word.bytes().map(|byte| if random.once_in(2) { byte.to_ascii_lowercase() } else { byte }).collect()
}

fn any_header(random: &mut Random) -> Vec<u8> {
    let header = random.pick(&HEADERS);
    in_either_case(random, header)
}

fn digits(random: &mut Random, count: usize) -> Vec<u8> {
    (0..count).map(|_| random.below(10) as u8 + b'0').collect()
}

fn with_number(random: &mut Random, header: &str, number: usize) -> Vec<u8> {
    let mut line = in_either_case(random, header);
    let zeros = random.pick(&[0, 0, 0, 1, 2, 20, 73, 74]);
    line.resize(line.len() + zeros, b'0');
    line.push(number as u8 + b'0');
    line
}

/// A byte among the digits, or alone, is none.
fn no_number(random: &mut Random) -> Vec<u8> {
    let mut line = any_header(random);
    line.push(b' ');
    let count = random.pick(&[0, 0, 1, 2, 10, 74]);
    let place = line.len() + random.below(count + 1);
    line.extend(digits(random, count));
    let any = random.next() as u8;
    let byte = random.pick(&[any, b' ', b'-', b'+', b'.', b'/', b':', b'a', b'\r', b'\n', 0, b'3' | 0x80]);
    line.insert(place, if byte.is_ascii_digit() { b'x' } else { byte });
    line
}

/// Too long, or begun by no header, or going on behind one otherwise than it must.
fn undefined(random: &mut Random) -> Vec<u8> {
    let good = random.pick(&[Says::Save(3), Says::Recall(9), Says::Query, Says::Error(104), Says::Error(109), Says::Error(222)]);
    let mut line = line(random, good);
    match random.below(6) {
        0 => {
            let fill = random.pick(b"0 9?");
            let length = random.pick(&[81, 82, 255, 256 + 6, 65_535]);
            line.resize(length, fill);
        }
        1 => line.insert(0, random.pick(b" :*0\t")),
        2 => line[0] = random.pick(&[b'J', b'j', b'*' | 0x80, b'\n', b'T', b'3', b'S' | 0x80, b's' ^ 0x40]),
        3 => {
            let byte = random.pick(b"E3\t\r@\x00-\xA0:?");
            line = [any_header(random), vec![byte], line].concat();
            line.truncate(random.from_to(5, LONGEST));
        }
        4 => {
            line = random.pick(&["*", "*SA", "*RC", "*IDN?", "*RST", "SYST", "SYST:", "SYSTEM:ERRO?", "SYSTE:ERR?", "SYST:ERR", "?"]).into()
        }
        _ => {
            let query = random.pick(&QUERIES);
            line = in_either_case(random, query);
            line.push(random.pick(b" ?\r\n0\x00"));
        }
    }
    line
}

/// A queue: fit, with any values in the places that are not used; or one that counts as empty.
pub fn errors(random: &mut Random) -> Errors {
    let unused = random.pick(&[0, 0, 113, 999, u16::MAX]);
    let mut errors = Errors { count: random.pick(&[0, 0, 1, 2, 3, 8, 9, 10, 10]), errors: [unused; WAITING] };
    for error in &mut errors.errors[..errors.count] {
        *error = random.pick(&ERRORS).0;
    }
    match random.below(12) {
        0 => errors.count = random.pick(&[11, 12, 256, 256 + 3, 1 << 16, (1 << 32) + 3, 1 << 63, usize::MAX]),
        1 if errors.count > 0 => errors.errors[random.below(errors.count)] = wrong_error(random),
        2 => errors.errors = std::array::from_fn(|_| random.next() as u16),
        _ => (),
    }
    errors
}

/// A number that is none of the six.
fn wrong_error(random: &mut Random) -> u16 {
    let (error, any) = (random.pick(&ERRORS).0, random.next() as u16);
    let wrong = random.pick(&[0, 999, u16::MAX, error + 1, error - 1, error ^ 0x100, error ^ 0x8000, error.wrapping_neg(), any]);
    if is_error(wrong) {
        0
    } else {
        wrong
    }
}

pub fn is_error(number: u16) -> bool {
    ERRORS.iter().any(|&(error, _)| error == number)
}
