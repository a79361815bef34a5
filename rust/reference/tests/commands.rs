//! Request A.3: command lines and the queue of errors. Pools have id 1.

use reference::*;

const NO_TRANSACTION: Transaction = Transaction { id: 0, count: 0, phase: 1 };
const LINES: [(u16, &str); 6] = [
    (104, "-104,\"Data type error\"\n"),
    (109, "-109,\"Missing parameter\"\n"),
    (113, "-113,\"Undefined header\"\n"),
    (200, "-200,\"Execution error\"\n"),
    (222, "-222,\"Data out of range\"\n"),
    (350, "-350,\"Queue overflow\"\n"),
];
const NO_ERROR: &str = "0,\"No error\"\n";

/// A text as a set-up, filled up with blanks.
fn setup(text: &str) -> [u8; 120] {
    let mut bytes = [b' '; 120];
    bytes[..text.len()].copy_from_slice(text.as_bytes());
    bytes
}

/// R 4, C 2, Z 1.
fn fresh() -> Vec<u8> {
    let mut pool = vec![0xEE; 7_168];
    assert_eq!(format(&mut pool, 4, 2, 1, 1), 0);
    pool
}

/// With set-ups 0 to 9, each its number.
fn ten_setups() -> Vec<u8> {
    let (mut pool, mut staging) = (fresh(), [0; 2032]);
    for number in 0..10 {
        let reply = save(&pool, &mut staging, number, &setup(&number.to_string()));
        committed(reply.transaction, &mut pool, &staging);
    }
    pool
}

fn committed(t: Transaction, pool: &mut [u8], staging: &[u8]) {
    let mut reply = commit(t, pool, staging);
    while reply.kind != DONE {
        assert_ne!(reply.kind, REFUSED);
        reply = commit_advance(reply.transaction, pool, staging);
    }
}

fn queue(list: &[u16]) -> Errors {
    let mut errors = Errors { count: list.len(), ..Errors::NONE };
    errors.errors[..list.len()].copy_from_slice(list);
    errors
}

/// What a line was answered, the staging memory, and what it printed of 40 bytes. Fields and memory that it has no use for are as they must be.
fn obey(line: &[u8], setup: &[u8], errors: Errors, pool: &[u8]) -> (Obeyed, [u8; 2032], Vec<u8>) {
    let (mut staging, mut out) = ([0xA7; 2032], [0xEE; 40]);
    let obeyed = command(line, setup, errors, pool, &mut staging, &mut out);
    let Obeyed { kind, value, length, errors, transaction } = obeyed;
    assert!(errors.errors[errors.count..].iter().all(|&unused| unused == 0));
    assert_eq!(kind == SAVING, transaction != NO_TRANSACTION);
    assert!(kind == SAVING || staging == [0xA7; 2032]);
    assert!(kind == RECALLED || value == 0);
    assert_eq!([RECALLED, PRINTED].contains(&kind), length != 0);
    let printed = if kind == PRINTED { length } else { 0 };
    assert!(out[printed..].iter().all(|&byte| byte == 0xEE));
    (obeyed, staging, out[..printed].to_vec())
}

/// What a query prints, and the queue then.
fn asked(errors: Errors) -> (String, Errors) {
    let (obeyed, _, printed) = obey(b"SYST:ERR?", b"", errors, b"");
    assert_eq!(obeyed.kind, PRINTED);
    (String::from_utf8(printed).unwrap(), obeyed.errors)
}

/// The queue after a line that does nothing else, on a pool that is none.
fn entered(line: &[u8], errors: Errors) -> Errors {
    let (obeyed, ..) = obey(line, b"", errors, b"");
    assert_eq!(obeyed.kind, NOTHING);
    obeyed.errors
}

#[derive(Clone, Copy, Debug, PartialEq, Eq)]
enum Reading {
    Nothing,
    Save(usize),
    Recall(usize),
    Query,
    Fault(u16),
}

use Reading::*;

/// By what it does on a pool with ten set-ups, with no error waiting.
fn reading(line: &[u8], pool: &[u8]) -> Reading {
    let (obeyed, staging, printed) = obey(line, &setup("new"), Errors::NONE, pool);
    let number = |is: &dyn Fn(usize) -> bool| (0..10).find(|&number| is(number)).expect("a set-up");
    if obeyed.kind == NOTHING {
        assert!(obeyed.errors.count <= 1);
        return obeyed.errors.errors[..obeyed.errors.count].first().map_or(Nothing, |&error| Fault(error));
    }
    assert_eq!(obeyed.errors, Errors::NONE);
    match obeyed.kind {
        SAVING => Save(number(&|number| {
            let mut same = [0xA7; 2032];
            save(pool, &mut same, number, &setup("new")).transaction == obeyed.transaction && same == staging
        })),
        RECALLED => Recall(number(&|number| {
            let part = recall(pool, number);
            (part.offset, part.length) == (obeyed.value, obeyed.length)
        })),
        _ => {
            assert_eq!(printed, NO_ERROR.as_bytes());
            Query
        }
    }
}

#[test]
fn readings() {
    let pool = ten_setups();
    let [recall_5, long] = [74, 75].map(|zeros| format!("*RCL {}5", "0".repeat(zeros)));
    let cases: [(&[&str], Reading); 15] = [
        (&[""], Nothing),
        (&["*SAV 3", "*sAv 003"], Save(3)),
        (&["*rcl 0"], Recall(0)),
        (&["*RCL 9"], Recall(9)),
        (&[&recall_5], Recall(5)),
        (&[&long], Fault(113)),
        (&["*SAV", "*SAV "], Fault(109)),
        (&["*SAV  3", "*SAV 3 ", "*SAV -1", "*SAV 12a", "*SAV 3\r"], Fault(104)),
        (&["*RCL 10", "*SAV 99999999999999999999"], Fault(222)),
        (&["*SAV3", "*SAVE 3", " *SAV 3", " ", "JSAV 3", "*SAV\t3"], Fault(113)),
        (&["SYSTZERR_", "SYSTE:ERR?", ":SYST:ERR?", "SYST:ERR", "SYST:ERR? "], Fault(113)),
        (&["SYST:ERR?", "system:error?", "SYSTem:ERR?", "SYST:ERROR?"], Query),
        (&["*SAV\r", "\r", "SYST:ERR?\r", "*IDN?\n", "\n", "*", "*SA", "*RC"], Fault(113)),
        (&["*SAV  ", "*RCL +3", "*RCL \n", "*SAV 3\n", "*RCL 99999999999999999999x"], Fault(104)),
        (&["*SAV 259", "*SAV 4294967299", "*RCL 18446744073709551619", "*SAV 340282366920938463463374607431768211459"], Fault(222)),
    ];
    for (lines, wanted) in cases {
        for line in lines {
            assert_eq!(reading(line.as_bytes(), &pool), wanted, "{line:?}");
        }
    }
}

/// Each number by one digit and by 75, in either case of each letter.
#[test]
fn good_lines() {
    let pool = ten_setups();
    for number in 0..10 {
        for cases in 0..8 {
            let in_case = |letters: &str| -> String {
                letters.chars().enumerate().map(|(i, c)| if cases >> i & 1 == 1 { c.to_ascii_lowercase() } else { c }).collect()
            };
            for digits in [format!("{number}"), format!("{number:075}")] {
                assert_eq!(reading(format!("*{} {digits}", in_case("SAV")).as_bytes(), &pool), Save(number));
                assert_eq!(reading(format!("*{} {digits}", in_case("RCL")).as_bytes(), &pool), Recall(number));
            }
        }
    }
    for (system, error) in ["SYST", "SYSTEM"].into_iter().flat_map(|system| ["ERR", "ERROR"].map(|error| (system, error))) {
        assert_eq!(reading(format!("{system}:{error}?").as_bytes(), &pool), Query);
        assert_eq!(reading(format!("{}:{error}?", system.to_lowercase()).as_bytes(), &pool), Query);
        for short in 0..system.len() + error.len() + 1 {
            assert_eq!(reading(&format!("{system}:{error}?").as_bytes()[..short + 1], &pool), Fault(113));
        }
    }
}

/// The text with each byte changed to each value; where, and whether it is the same but for a letter's case.
fn changed(text: &str) -> impl Iterator<Item = (Vec<u8>, usize, bool)> + '_ {
    (0..text.len()).flat_map(|place| (0..=255).map(move |byte| (place, byte))).map(|(place, byte)| {
        let mut line = text.as_bytes().to_vec();
        let is_same = byte == line[place] || line[place].is_ascii_uppercase() && byte == line[place] + 32;
        line[place] = byte;
        (line, place, is_same)
    })
}

#[test]
fn changed_bytes() {
    let pool = ten_setups();
    for (text, says) in [("*SAV 3", Save as fn(usize) -> Reading), ("*RCL 3", Recall)] {
        for (line, place, is_same) in changed(text) {
            let wanted = match line[5] {
                _ if place < 5 && !is_same => Fault(113),
                digit @ b'0'..=b'9' => says(usize::from(digit - b'0')),
                _ => Fault(104),
            };
            assert_eq!(reading(&line, &pool), wanted, "{line:?}");
        }
    }
    for text in ["SYST:ERR?", "SYST:ERROR?", "SYSTEM:ERR?", "SYSTEM:ERROR?"] {
        for (line, _, is_same) in changed(text) {
            assert_eq!(reading(&line, &pool), if is_same { Query } else { Fault(113) }, "{line:?}");
        }
    }
}

/// A line of any byte but those of a command; above 80 bytes any line, and nothing else is done.
#[test]
fn long_lines() {
    let pool = ten_setups();
    for byte in 0..=255 {
        for length in [1, 2, 79, 80, 81, 65_535] {
            assert_eq!(reading(&vec![byte; length], &pool), Fault(113), "{length} bytes {byte}");
        }
    }
    for length in [256 + 6, 256 + 80, 65_536 + 6, 65_536 + 80] {
        let mut line = b"*SAV ".to_vec();
        line.resize(length, b'0');
        assert_eq!(reading(&line, &pool), Fault(113), "{length} bytes");
    }
    for (length, wanted) in [(79, 222), (80, 222), (81, 113), (65_535, 113)] {
        for header in ["*SAV ", "*RCL "] {
            let mut line = header.as_bytes().to_vec();
            line.resize(length, b'9');
            assert_eq!(reading(&line, &pool), Fault(wanted));
            line[length - 1] = b'x';
            assert_eq!(reading(&line, &pool), Fault(if length > 80 { 113 } else { 104 }));
        }
    }
}

#[test]
fn texts() {
    for (error, line) in LINES {
        assert_eq!(asked(queue(&[error])), (line.to_string(), Errors::NONE));
        assert_eq!(asked(queue(&[error, 113, error])), (line.to_string(), queue(&[113, error])));
    }
    assert_eq!(LINES.map(|(_, line)| line.len()).into_iter().max(), Some(25));
    assert_eq!(asked(Errors::NONE), (NO_ERROR.to_string(), Errors::NONE));
}

/// After eleven errors, and after more, of one kind or of another, nine and the overflow are told, the oldest first.
#[test]
fn overflow() {
    let lines: [(&[u8], u16); 5] = [(b"*IDN?", 113), (b"*SAV", 109), (b"*SAV x", 104), (b"*SAV 10", 222), (b"*RCL 0", 200)];
    for (count, (last, _)) in (11..14).flat_map(|count| lines.map(|line| (count, line))) {
        let mut errors = (0..10).fold(Errors::NONE, |errors, _| entered(b"*IDN?", errors));
        assert_eq!(errors, queue(&[113; 10]));
        for _ in 10..count {
            errors = entered(last, errors);
            assert_eq!(errors, queue(&[113, 113, 113, 113, 113, 113, 113, 113, 113, 350]));
        }
        for i in 0..12 {
            let (printed, rest) = asked(errors);
            let wanted = match i {
                0..=8 => "-113,\"Undefined header\"\n",
                9 => "-350,\"Queue overflow\"\n",
                _ => NO_ERROR,
            };
            assert_eq!(printed, wanted);
            errors = rest;
        }
    }
    let errors = lines.into_iter().fold(Errors::NONE, |errors, (line, _)| entered(line, errors));
    assert_eq!(errors, queue(&lines.map(|(_, error)| error)));
    let long = entered(&[b' '; 81], queue(&[200; 10]));
    assert_eq!(long, queue(&[200, 200, 200, 200, 200, 200, 200, 200, 200, 350]));
}

/// With more than ten errors, or one that is not of the six, a queue counts as empty, for every line; unused places are not judged.
#[test]
fn unfit_queues() {
    let eleven = [11, 12, 256 + 3, (1 << 16) + 3, (1 << 32) + 3, 1 << 63, usize::MAX].map(|count| Errors { count, errors: [113; 10] });
    let wrong = [0, 1, 103, 105, 112, 114, 201, 223, 349, 351, 999, 0x171, u16::MAX];
    let with_wrong = wrong.into_iter().flat_map(|error| {
        [1, 2, 10].map(|count| {
            let mut errors = Errors { count, errors: [113; 10] };
            errors.errors[count - 1] = error;
            errors
        })
    });
    for errors in eleven.into_iter().chain(with_wrong) {
        assert_eq!(entered(b"", errors), Errors::NONE);
        assert_eq!(entered(b"*SAV", errors), queue(&[109]));
        assert_eq!(entered(b"*RCL 1", errors), queue(&[200]));
        assert_eq!(asked(errors), (NO_ERROR.to_string(), Errors::NONE));
    }
    for unused in [0, 113, 999, u16::MAX] {
        let mut errors = Errors { count: 3, errors: [unused; 10] };
        errors.errors[..3].copy_from_slice(&[113, 104, 350]);
        assert_eq!(entered(b"", errors), queue(&[113, 104, 350]));
        assert_eq!(entered(b"*SAV", errors), queue(&[113, 104, 350, 109]));
        assert_eq!(asked(errors), (LINES[2].1.to_string(), queue(&[104, 350])));
        assert_eq!(entered(b"", Errors { count: 0, ..errors }), Errors::NONE);
    }
}

/// What lies past the end of `out` is left out; the length is that of the whole line, and the error is taken all the same.
#[test]
fn short_out() {
    for (error, line) in LINES.into_iter().chain([(0, NO_ERROR)]) {
        let errors = if error == 0 { Errors::NONE } else { queue(&[error]) };
        for length in 0..=40 {
            let mut memory = [0xEE; 41];
            let obeyed = command(b"SYST:ERR?", b"", errors, b"", &mut [], &mut memory[..length]);
            assert_eq!((obeyed.kind, obeyed.length, obeyed.errors), (PRINTED, line.len(), Errors::NONE));
            let printed = length.min(line.len());
            assert_eq!(memory[..printed], line.as_bytes()[..printed]);
            assert!(memory[printed..].iter().all(|&byte| byte == 0xEE));
        }
    }
}

/// The bytes beside the line are looked at for a good *SAV alone.
#[test]
fn setups_of_other_lengths() {
    let pool = ten_setups();
    let answer = |line: &[u8], length| {
        let (obeyed, ..) = obey(line, &vec![b'x'; length], queue(&[350]), &pool);
        (obeyed.kind, obeyed.errors)
    };
    for length in [0, 1, 119, 121, 240, 496] {
        assert_eq!(answer(b"*SAV 3", length), (NOTHING, queue(&[350, 200])), "{length}");
        assert_eq!(answer(b"*SAV 10", length), (NOTHING, queue(&[350, 222])));
        assert_eq!(answer(b"*SAV", length), (NOTHING, queue(&[350, 109])));
        assert_eq!(answer(b"*RCL 3", length), (RECALLED, queue(&[350])));
        assert_eq!(answer(b"SYST:ERR?", length), (PRINTED, Errors::NONE));
        assert_eq!(answer(b"", length), (NOTHING, queue(&[350])));
    }
    assert_eq!(answer(b"*SAV 3", 120), (SAVING, queue(&[350])));
}

/// Every refusal of a set-up is -200; the other lines ask nothing of the pool.
#[test]
fn refusing_pools() {
    let whole = ten_setups();
    let with = |change: &dyn Fn(&mut Vec<u8>)| {
        let mut pool = whole.clone();
        change(&mut pool);
        pool
    };
    let zone = 18 * 256;
    let pools = [
        Vec::new(),
        with(&|pool| pool.truncate(511)),
        with(&|pool| pool.push(0)),
        with(&|pool| pool[..512].fill(0)),
        with(&|pool| pool[512] = 1),
        with(&|pool| pool[10 * 256 + 7] = 0x80),
        with(&|pool| pool[zone + 30 * 64] = 9),
        with(&|pool| pool[zone + 20] ^= 1),
    ];
    for pool in &pools {
        for line in ["*SAV 0", "*rcl 0"] {
            let (obeyed, ..) = obey(line.as_bytes(), &setup("new"), queue(&[104]), pool);
            assert_eq!((obeyed.kind, obeyed.errors), (NOTHING, queue(&[104, 200])), "{line}");
        }
        for (line, kind, errors) in
            [("", NOTHING, queue(&[104])), ("*SAV x", NOTHING, queue(&[104, 104])), ("SYST:ERR?", PRINTED, Errors::NONE)]
        {
            let (obeyed, ..) = obey(line.as_bytes(), &setup("new"), queue(&[104]), pool);
            assert_eq!((obeyed.kind, obeyed.errors), (kind, errors), "{line}");
        }
    }
    for length in [0, 10, 2031] {
        let (mut staging, mut out) = (vec![0xA7; length], [0xEE; 40]);
        let obeyed = command(b"*SAV 0", &setup("new"), Errors::NONE, &whole, &mut staging, &mut out);
        assert_eq!((obeyed.kind, obeyed.errors, obeyed.transaction), (NOTHING, queue(&[200]), NO_TRANSACTION));
        assert!(staging.iter().all(|&byte| byte == 0xA7) && out == [0xEE; 40]);
        let obeyed = command(b"*RCL 0", &setup("new"), Errors::NONE, &whole, &mut staging, &mut out);
        assert_eq!((obeyed.kind, obeyed.length), (RECALLED, 120));
    }
    assert_eq!(obey(b"*RCL 1", b"", Errors::NONE, &fresh()).0.errors, queue(&[200]), "nothing was saved");
}

/// Set-up 1 is saved, then saved anew, and the power fails after step 67, when both seals are stored.
#[test]
fn cut() {
    let mut pool = fresh();
    let (obeyed, staging, _) = obey(b"*SAV 1", &setup("1 kHz, 0.5 V"), Errors::NONE, &pool);
    assert_eq!((obeyed.kind, obeyed.transaction), (SAVING, Transaction { id: 1, count: 26, phase: 0 }));
    committed(obeyed.transaction, &mut pool, &staging);
    assert_eq!(obey(b"*SAV 2", &setup("at address 3"), Errors::NONE, &pool).0.kind, SAVING);
    let (obeyed, staging, _) = obey(b"*sav 01", &setup("2 kHz, 1.0 V"), Errors::NONE, &pool);
    let mut t = commit(obeyed.transaction, &pool, &staging).transaction;
    let recalled = |pool: &[u8]| {
        let (obeyed, ..) = obey(b"*RCL 1", b"", Errors::NONE, pool);
        (obeyed.kind == RECALLED).then(|| pool[obeyed.value..][..obeyed.length].to_vec())
    };
    assert_eq!(recalled(&pool), Some(setup("1 kHz, 0.5 V").to_vec()));
    for _ in 0..67 {
        t = commit_step(t, &mut pool, &staging).transaction;
    }
    assert_eq!((pool.len(), check(&pool)), (7_168, 0xCD43_6DA7));
    assert_eq!(recalled(&pool), None);
    let mut reply = recover(&pool);
    while reply.kind != DONE {
        reply = recover_advance(reply.recovery, &mut pool);
    }
    assert_eq!(recalled(&pool), Some(setup("2 kHz, 1.0 V").to_vec()));
}
