//! The library from C: the header, the example programs, a program with two modules, and the boundary as Rust declares it.
use linked::{Counts, Errors, Found, Obeyed, Part, Recovery, RecoveryReply, Repaired, Reply, Transaction};
use std::fmt::Write;
use std::fs;
use std::mem::{offset_of, size_of};
use std::path::{Path, PathBuf};
use std::process::{Command, Stdio};

fn repository() -> PathBuf {
    Path::new(env!("CARGO_MANIFEST_DIR")).join("../..")
}

/// A file for this test's own use.
fn temporary(name: &str) -> PathBuf {
    Path::new(env!("CARGO_TARGET_TMPDIR")).join(name)
}

/// Compiles C99 with every warning an error; `more` follows the usual arguments.
fn compile(more: &[&Path]) {
    let mut command = Command::new("cc");
    command.args(["-std=c99", "-Wall", "-Wextra", "-Werror", "-pedantic", "-I"]).arg(repository().join("include")).args(more);
    let output = command.output().expect("cc runs");
    assert!(output.status.success(), "{command:?}\n{}", String::from_utf8_lossy(&output.stderr));
}

/// Compiles and links a program with the library, runs it, and answers what it prints. It is fed the file that stands beside it, if there is one.
fn run(source: &Path, name: &str) -> String {
    let program = temporary(name);
    compile(&[source, Path::new(linked::ARCHIVE), Path::new("-o"), &program]);
    let input = fs::File::open(source.with_extension("in")).map_or_else(|_| Stdio::null(), Stdio::from);
    let output = Command::new(&program).stdin(input).output().expect("the program runs");
    assert!(output.status.success(), "{name}: {}", output.status);
    String::from_utf8(output.stdout).expect("text")
}

#[test]
fn the_header_stands_alone() {
    let header = repository().join("include/pool.h");
    compile(&[Path::new("-fsyntax-only"), Path::new("-x"), Path::new("c"), &header]);
}

/// Runs this C program of a folder: it prints what stands beside it.
fn prints_what_it_should(folder: &str, name: &str) {
    let source = repository().join(folder).join(name).with_extension("c");
    let printed = run(&source, name);
    assert_eq!(printed, fs::read_to_string(source.with_extension("txt")).expect("what it should print"));
    print!("linked with {}\n{printed}", linked::ARCHIVE);
}

#[test]
fn the_example_prints_what_it_should() {
    prints_what_it_should("examples", "save");
}

#[test]
fn the_example_of_set_ups_prints_what_it_should() {
    prints_what_it_should("examples", "setups");
}

#[test]
fn the_example_of_a_terminal_prints_what_it_should() {
    prints_what_it_should("examples", "terminal");
}

/// Records and replies go through memory: every number of them is as it should be, after every call that takes or makes one.
#[test]
fn records_of_two_modules() {
    prints_what_it_should("rust/compare/tests", "modules");
}

/// A line for the size of a struct, and one for the place of each field, as C prints it and as Rust has it.
macro_rules! layout {
    ($c:ident, $rust:ident, $($field:ident),+) => {
        [
            (format!("sizeof({})", stringify!($c)), size_of::<$rust>()),
            $((format!("offsetof({}, {})", stringify!($c), stringify!($field)), offset_of!($rust, $field))),+
        ]
    };
}

/// The refusals of the papers by their names in the header.
const REFUSALS: [(&str, usize); 23] = [
    ("SHAPE", 1),
    ("LENGTH", 2),
    ("NO_HEADER", 3),
    ("HEADERS_DIFFER", 4),
    ("ADDRESS", 5),
    ("BODY", 6),
    ("RANGE", 7),
    ("LOSS_LIST", 8),
    ("STAGING", 9),
    ("RECORD", 10),
    ("POOL", 11),
    ("SEALED", 21),
    ("NO_LOG", 22),
    ("BROKEN", 23),
    ("NO_OBJECT", 24),
    ("DAMAGED", 25),
    ("NO_ROOM", 26),
    ("TOO_MANY", 27),
    ("TWO_LOST", 28),
    ("PHASE", 29),
    ("NO_SETUP", 31),
    ("SETUP_NUMBER", 32),
    ("SETUP_SIZE", 33),
];

/// The errors of command lines, likewise.
const ERRORS: [(&str, usize); 6] = [
    ("DATA_TYPE", 104),
    ("MISSING_PARAMETER", 109),
    ("UNDEFINED_HEADER", 113),
    ("EXECUTION", 200),
    ("OUT_OF_RANGE", 222),
    ("QUEUE_OVERFLOW", 350),
];

#[test]
fn structs_and_numbers_are_the_same() {
    let mut same: Vec<(String, usize)> = Vec::new();
    same.extend(layout!(pool_transaction, Transaction, id, count, phase));
    same.extend(layout!(pool_reply, Reply, kind, value, transaction));
    same.extend(layout!(pool_recovery, Recovery, id, work, phase));
    same.extend(layout!(pool_recovery_reply, RecoveryReply, kind, value, recovery));
    same.extend(layout!(pool_part, Part, refusal, offset, length));
    same.extend(layout!(pool_found, Found, refusal, found, address));
    same.extend(layout!(pool_counts, Counts, refusal, objects, damaged, broken, columns));
    same.extend(layout!(pool_repaired, Repaired, refusal, altered));
    same.extend(layout!(pool_errors, Errors, count, errors));
    same.push(("sizeof(((pool_errors *)0)->errors)".into(), size_of_val(&Errors::NONE.errors)));
    same.push(("((pool_errors){0, {UINT16_MAX}}).errors[0]".into(), usize::from(u16::MAX)));
    same.extend(layout!(pool_obeyed, Obeyed, kind, value, length, errors, transaction));
    let kinds = ["REFUSED", "ADDRESS", "TAKEN", "STARTED", "STORED", "BARRIER", "DONE"];
    let numbers = [linked::REFUSED, linked::ADDRESS, linked::TAKEN, linked::STARTED, linked::STORED, linked::BARRIER, linked::DONE];
    same.extend(kinds.into_iter().zip(numbers).map(|(kind, number)| (format!("POOL_{kind}"), number)));
    let header = fs::read_to_string(repository().join("include/pool.h")).unwrap();
    assert_eq!(header.matches("\n    POOL_REFUSED_").count(), REFUSALS.len());
    same.extend(REFUSALS.map(|(name, number)| (format!("POOL_REFUSED_{name}"), number)));
    let done = [("NOTHING", linked::NOTHING), ("SAVING", linked::SAVING), ("RECALLED", linked::RECALLED), ("PRINTED", linked::PRINTED)];
    assert_eq!(header.matches("\n    POOL_OBEYED_").count(), done.len());
    same.extend(done.map(|(name, number)| (format!("POOL_OBEYED_{name}"), number)));
    assert_eq!(header.matches("\n    POOL_ERROR_").count(), ERRORS.len());
    same.extend(ERRORS.map(|(name, number)| (format!("POOL_ERROR_{name}"), number)));
    let limits = [("STAGING", 2032), ("BODY", 496), ("ENTRIES", 127), ("SETUPS", 10), ("SETUP_SIZE", 120)];
    let of_lines = [("LINE", 80), ("ERRORS", 10), ("ERROR_LINE", 25), ("INTERFACE_VERSION", 5)];
    same.extend(limits.into_iter().chain(of_lines).map(|(name, number)| (format!("POOL_{name}"), number)));
    same.extend([0, 9].map(|number| (format!("POOL_SETUP_TAG({number})"), 100 + number)));
    same.extend([("2, 2, 1", 6144), ("15, 64, 16", 4_198_912)].map(|(shape, length)| (format!("POOL_SIZE({shape})"), length)));

    let mut program = "#include <stdio.h>\n#include \"pool.h\"\nint main(void)\n{\n".to_string();
    let mut wanted = String::new();
    for (expression, number) in same {
        writeln!(program, "    printf(\"%zu\\n\", (size_t)({expression}));").unwrap();
        writeln!(wanted, "{number}").unwrap();
    }
    program += "    return 0;\n}\n";
    let source = temporary("numbers.c");
    fs::write(&source, program).unwrap();
    assert_eq!(run(&source, "numbers"), wanted);
}

/// The functions as Rust declares them, put into C after the header: the compiler refuses any that differs from the
/// header's.
#[test]
fn functions_are_declared_alike() {
    let header = fs::read_to_string(repository().join("include/pool.h")).unwrap();
    let rust = fs::read_to_string(repository().join("rust/linked/src/boundary.rs")).unwrap();
    let declarations: Vec<String> = rust.split("pub fn ").skip(1).map(c_declaration).collect();
    let declares = |line: &&str| {
        line.starts_with(char::is_alphabetic) && !line.starts_with("typedef") && line.contains(" pool_") && line.contains('(')
    };
    let in_header = header.lines().filter(declares);
    assert_eq!(declarations.len(), in_header.count());
    let source = temporary("declarations.c");
    fs::write(&source, format!("#include \"pool.h\"\n{}\n", declarations.join("\n"))).unwrap();
    compile(&[Path::new("-fsyntax-only"), &source]);
}

/// `name(argument: type, ..) -> type;` in C.
fn c_declaration(rust: &str) -> String {
    let (declaration, _) = rust.split_once(';').expect("a declaration");
    let (name, rest) = declaration.split_once('(').expect("arguments");
    let (arguments, result) = rest.split_once(") -> ").expect("a result");
    let types: Vec<&str> = arguments.split(',').filter_map(|argument| argument.split_once(": ")).map(|(_, t)| c_type(t.trim())).collect();
    format!("{} {name}({});", c_type(result.trim()), types.join(", "))
}

fn c_type(rust: &str) -> &'static str {
    match rust {
        "usize" => "size_t",
        "u64" => "uint64_t",
        "u32" => "uint32_t",
        "*mut u8" => "uint8_t *",
        "*const u8" => "const uint8_t *",
        "*const u16" => "const uint16_t *",
        "Transaction" => "pool_transaction",
        "Reply" => "pool_reply",
        "Recovery" => "pool_recovery",
        "RecoveryReply" => "pool_recovery_reply",
        "Part" => "pool_part",
        "Found" => "pool_found",
        "Counts" => "pool_counts",
        "Repaired" => "pool_repaired",
        "Errors" => "pool_errors",
        "Obeyed" => "pool_obeyed",
        other => panic!("{other} is not a type of the boundary"),
    }
}
