//! The library's compiled code as objdump prints it (AT&T syntax: what is changed stands last), and where each instruction writes.
//!
//! Pointers are followed along every way through a function, in registers and in stack slots, so far as to tell three apart: one to the
//! function's result (in %rdi at its entry), one into its own stack frame, and any other. That the stack frame and the result are what the
//! compiler says is taken for granted. A jump to another function is a call of it. An instruction that is not known here, and a call or jump
//! through a register (but for a table of jumps), end in a panic, so that nothing writes unseen.
use std::collections::{BTreeMap, BTreeSet};
use std::process::Command;

/// The functions of an archive by their names.
pub type Functions = BTreeMap<String, Function>;

#[derive(Debug, Default)]
pub struct Function {
    code: Vec<Instruction>,
    /// Where jumps through a table go, by the table's place in its section.
    targets: BTreeMap<usize, BTreeSet<usize>>,
}

#[derive(Clone, Debug)]
pub struct Instruction {
    at: usize,
    pub name: String,
    pub operands: Vec<String>,
    /// The symbol that a call goes to, or another operand names.
    symbol: Option<String>,
}

/// What a register or a stack slot holds, if it is known to be a pointer.
#[derive(Clone, Copy, Debug, PartialEq, Eq, PartialOrd, Ord)]
pub enum Pointer {
    Result,
    Frame,
    Other,
}

/// What a function does to memory beside its stack frame.
#[derive(Debug, Default)]
pub struct Effects {
    /// Writes through the pointer to the result.
    pub result: Vec<Instruction>,
    /// All other writes.
    pub others: Vec<Instruction>,
    /// The functions called, and what %rdi holds: if the result goes to memory, where it goes.
    pub calls: Vec<(String, Pointer)>,
}

pub fn functions(archive: &str) -> Functions {
    let mut functions = parsed(&objdump(&["-dr", "--no-show-raw-insn", archive]));
    read_tables(archive, &mut functions);
    functions
}

/// Of the text that objdump prints, without tables of jumps.
pub fn parsed(text: &str) -> Functions {
    let mut functions = Functions::new();
    let mut name = "";
    for line in text.lines() {
        if let Some((_, title)) = line.strip_suffix(">:").and_then(|line| line.split_once(" <")) {
            name = title;
            assert!(functions.insert(name.into(), Function::default()).is_none(), "two functions {name}");
        } else if let Some((_, relocation)) = line.split_once(": R_X86_64_") {
            let symbol = relocation.split('\t').nth(1).expect("a symbol").trim_end_matches("-0x4").trim_start_matches(".text.");
            functions.get_mut(name).and_then(|function| function.code.last_mut()).expect("an instruction").symbol = Some(symbol.into());
        } else if let Some((at, code)) = line.split_once(":\t") {
            let at = usize::from_str_radix(at.trim(), 16).expect("an address");
            functions.get_mut(name).expect("a function").code.push(instruction(at, code));
        }
    }
    functions
}

fn objdump(arguments: &[&str]) -> String {
    let output = Command::new("objdump").args(arguments).output().expect("objdump runs");
    assert!(output.status.success(), "objdump: {}", String::from_utf8_lossy(&output.stderr));
    String::from_utf8(output.stdout).expect("text")
}

/// Tables of jumps. Those of function F stand in the section .rodata.F; an entry holds its target's distance from the table's beginning, and
/// its relocation says the target plus the entry's place in the table.
fn read_tables(archive: &str, functions: &mut Functions) {
    let text = objdump(&["-r", archive]);
    let mut name = "";
    for line in text.lines() {
        if let Some(section) = line.strip_prefix("RELOCATION RECORDS FOR [") {
            name = section.trim_end_matches("]:").strip_prefix(".rodata.").unwrap_or("");
        } else if let (Some(function), Some((at, target))) = (functions.get_mut(name), line.split_once(" R_X86_64_PC32 ")) {
            let at = usize::from_str_radix(at, 16).expect("a place");
            let target = target.trim().strip_prefix(&format!(".text.{name}+")).and_then(number).expect("a target in the function");
            let begin = function.code.iter().filter_map(Instruction::table).filter(|&begin| begin <= at).max().expect("a table");
            function.targets.entry(begin).or_default().insert(target as usize - (at - begin));
        }
    }
}

fn instruction(at: usize, code: &str) -> Instruction {
    let code = code.split(" #").next().unwrap().trim();
    let code = if code.ends_with("nopw 0x0(%rax,%rax,1)") { "nop" } else { code }; // with prefixes
    let (name, rest) = code.split_once(' ').unwrap_or((code, ""));
    let (mut operands, mut depth) = (vec![String::new()], 0);
    for c in rest.trim().chars() {
        depth += i32::from(c == '(') - i32::from(c == ')');
        match c {
            ',' if depth == 0 => operands.push(String::new()),
            _ => operands.last_mut().unwrap().push(c),
        }
    }
    operands.retain(|operand| !operand.is_empty());
    let name = if ["callq", "retq", "jmpq", "pushq", "popq"].contains(&name) { name.trim_end_matches('q') } else { name };
    Instruction { at, name: name.into(), operands, symbol: None }
}

const REGISTERS: [&str; 16] = ["ax", "bx", "cx", "dx", "si", "di", "bp", "sp", "8", "9", "10", "11", "12", "13", "14", "15"];
const RAX: usize = 0;
const RDX: usize = 3;
const RDI: usize = 5;
const RSP: usize = 7;
/// Those that a call may change.
const CLOBBERED: [usize; 9] = [RAX, 2, RDX, 4, RDI, 8, 9, 10, 11];
/// Instructions that change %rax and %rdx alone.
const RAX_RDX: [&str; 8] = ["div", "divq", "divl", "idiv", "mul", "mulq", "cqto", "cltq"];

/// The number of a general register, or of the one that it is a part of.
fn register(operand: &str) -> Option<usize> {
    let name = operand.strip_prefix('%')?;
    let old = name.trim_start_matches(['r', 'e']);
    let letter = |i: &usize| REGISTERS[*i].trim_end_matches('x').len() == 1 && name.len() == 2 && name.starts_with(&REGISTERS[*i][..1]);
    let new = name.strip_prefix('r').map(|name| name.trim_end_matches(['d', 'w', 'b']));
    (0..16)
        .find(|&i| if i < 8 { old.trim_end_matches('l') == REGISTERS[i] } else { new == Some(REGISTERS[i]) })
        .or_else(|| (0..4).find(letter).filter(|_| name.ends_with(['l', 'h'])))
}

/// A general register of 64 bits.
fn whole_register(operand: &str) -> Option<usize> {
    let whole = operand.starts_with("%r") && operand.ends_with(|c: char| c.is_ascii_digit() || "xip".contains(c));
    register(operand).filter(|_| whole)
}

fn is_memory(operand: &str) -> bool {
    operand.contains(['(', ':']) || !operand.starts_with(['%', '$'])
}

/// A place `displacement(base, ..)`: the displacement, the base, and whether there is an index.
fn place(operand: &str) -> Option<(i64, usize, bool)> {
    let (displacement, rest) = operand.strip_suffix(')')?.split_once('(')?;
    let mut parts = rest.split(',');
    let base = whole_register(parts.next()?)?;
    Some((if displacement.is_empty() { 0 } else { number(displacement)? }, base, parts.next().is_some()))
}

fn number(text: &str) -> Option<i64> {
    let (sign, text) = text.strip_prefix('-').map_or((1, text), |rest| (-1, rest));
    u64::from_str_radix(text.strip_prefix("0x")?, 16).ok().map(|n| sign * n as i64)
}

/// Instructions that change their last operand alone, and have no form by the operand's size.
const LAST_ONLY: &str =
    "movabs movslq movsbl movsbq movswl movswq movzbl movzbw movzbq movzwl movzwq movd movups movaps movupd movapd movdqu movdqa movhps \
    movlps movhpd movlpd pxor por pand pandn xorps orps andps paddb paddd paddq psubb psubd psubq psadbw psllq psrlq pslldq psrldq pshufd shufps \
    punpcklqdq punpckhqdq unpcklpd unpckhpd pcmpeqb pcmpeqd pmovmskb movmskps bswap tzcnt bsf";

impl Instruction {
    /// The place of the table of jumps that this instruction names, in its section.
    fn table(&self) -> Option<usize> {
        let section = self.symbol.as_deref()?.strip_prefix(".rodata.")?;
        Some(section.split_once('+').and_then(|(_, more)| number(more)).map_or(0, |more| more as usize + 4))
    }

    fn is(&self, names: &[&str]) -> bool {
        names.contains(&self.name.as_str())
    }

    fn is_jump(&self) -> bool {
        self.name.starts_with('j')
    }

    /// After it the next instruction is not carried out.
    fn ends(&self) -> bool {
        self.is(&["jmp", "ret", "ud2"])
    }

    /// A jump to another function, at the end of this one.
    fn leaves(&self) -> bool {
        self.is_jump() && self.symbol.is_some() && !self.last().starts_with('*')
    }

    /// Whether it writes eight bytes of memory at once, if it writes any: from a general register, from half of an SSE register, or a number.
    pub fn writes_a_word(&self) -> bool {
        match self.name.as_str() {
            "mov" => whole_register(&self.operands[0]).is_some(),
            "movq" | "movlps" | "movhps" | "movlpd" | "movhpd" => true,
            _ => false,
        }
    }

    fn last(&self) -> &str {
        self.operands.last().map_or("", String::as_str)
    }

    /// Whether the last operand is changed, and nothing else but flags. Panics if the instruction is not known.
    fn changes_last(&self) -> bool {
        const NOTHING: [&str; 4] = ["cmp", "test", "bt", "nop"];
        const LAST: [&str; 19] = [
            "mov", "add", "sub", "adc", "sbb", "and", "or", "xor", "not", "neg", "inc", "dec", "shl", "shr", "sar", "rol", "ror", "imul",
            "lea",
        ];
        let stem = self.name.strip_suffix(['b', 'w', 'l', 'q']).unwrap_or("");
        let sized = |names: &[&str]| self.is(names) || names.contains(&stem);
        if self.is_jump() || sized(&NOTHING) || self.is(&["push", "pop", "call", "ret", "ud2"]) || self.is(&RAX_RDX) {
            return false;
        }
        if self.is(&["xchg"]) && self.operands[0] == self.operands[1] {
            return false;
        }
        let known = sized(&LAST)
            || LAST_ONLY.split(' ').any(|name| name == self.name)
            || self.name.starts_with("set")
            || self.name.starts_with("cmov");
        let one_operand_product = self.name.starts_with("imul") && self.operands.len() == 1;
        assert!(known && !one_operand_product, "not known whether it writes: {self:?}");
        true
    }

    /// The place in memory that is written, the stack's top by push and call apart.
    fn written(&self) -> Option<&str> {
        (self.changes_last() && !self.is(&["lea"]) && is_memory(self.last())).then(|| self.last())
    }
}

/// What is known before an instruction. Slots go by their distance from the stack pointer at the function's entry.
#[derive(Clone, PartialEq)]
struct State {
    registers: [Pointer; 16],
    slots: BTreeMap<i64, Pointer>,
    top: i64,
}

impl State {
    fn at_entry() -> State {
        let mut registers = [Pointer::Other; 16];
        registers[RDI] = Pointer::Result;
        registers[RSP] = Pointer::Frame;
        State { registers, slots: BTreeMap::new(), top: 0 }
    }

    /// What holds in both.
    fn meet(&self, other: &State) -> State {
        assert_eq!(self.top, other.top, "two heights of the stack");
        let both = |a: Pointer, b: Pointer| if a == b { a } else { Pointer::Other };
        let registers = std::array::from_fn(|i| both(self.registers[i], other.registers[i]));
        let slots = self.slots.iter().filter(|(at, pointer)| other.slots.get(at) == Some(pointer)).map(|(&at, &pointer)| (at, pointer));
        State { registers, slots: slots.collect(), top: self.top }
    }

    /// A slot of the stack by a place's name.
    fn slot(&self, operand: &str) -> Option<i64> {
        place(operand).filter(|&(_, base, indexed)| base == RSP && !indexed).map(|(displacement, ..)| self.top + displacement)
    }

    /// Where a place lies.
    fn lies(&self, operand: &str) -> Pointer {
        place(operand).map_or(Pointer::Other, |(_, base, indexed)| match self.registers[base] {
            Pointer::Result if indexed => Pointer::Other,
            pointer => pointer,
        })
    }

    /// The pointer that an instruction leaves in the operand that it changes.
    fn moved(&self, i: &Instruction) -> Pointer {
        let from = i.operands[0].as_str();
        let source = match (whole_register(from), self.slot(from)) {
            (Some(register), _) => self.registers[register],
            (_, Some(slot)) => self.slots.get(&slot).copied().unwrap_or(Pointer::Other),
            _ => Pointer::Other,
        };
        match i.name.as_str() {
            "mov" => source,
            "lea" => self.lies(from),
            name if name.starts_with("cmov") && register(i.last()).is_some_and(|to| self.registers[to] == source) => source,
            _ => Pointer::Other,
        }
    }

    fn after(&self, i: &Instruction) -> State {
        let mut next = self.clone();
        let last = i.last();
        if i.is(&["push", "pop"]) {
            let operand = whole_register(last);
            if i.is(&["push"]) {
                next.top -= 8;
                next.slots.insert(next.top, operand.map_or(Pointer::Other, |register| self.registers[register]));
            } else {
                let to = operand.unwrap_or_else(|| panic!("{i:?}"));
                next.registers[to] = next.slots.remove(&self.top).unwrap_or(Pointer::Other);
                next.top += 8;
            }
        } else if i.is(&["call"]) {
            CLOBBERED.iter().for_each(|&r| next.registers[r] = Pointer::Other);
        } else if i.is(&RAX_RDX) {
            [RAX, RDX].iter().for_each(|&r| next.registers[r] = Pointer::Other);
        } else if i.changes_last() && whole_register(last) == Some(RSP) {
            let by = i.operands[0].strip_prefix('$').and_then(number).expect("a number added to the stack pointer");
            next.top += match i.name.as_str() {
                "add" => by,
                "sub" => -by,
                _ => panic!("{i:?}"),
            };
        } else if i.changes_last() {
            if let Some(to) = register(last) {
                next.registers[to] = if whole_register(last).is_some() { self.moved(i) } else { Pointer::Other };
            } else if let Some(to) = self.slot(last) {
                let size = if i.operands[0].starts_with("%xmm") { 16 } else { 8 };
                next.slots.retain(|&at, _| at + 8 <= to || to + size <= at);
                if i.is(&["mov"]) && whole_register(&i.operands[0]).is_some() {
                    next.slots.insert(to, self.moved(i));
                }
            }
        }
        next
    }
}

/// What this function does itself.
pub fn effects(functions: &Functions, name: &str) -> Effects {
    let function = functions.get(name).filter(|function| !function.code.is_empty()).unwrap_or_else(|| panic!("{name} was not found"));
    let mut effects = Effects::default();
    for (i, state) in function.code.iter().zip(states(function)) {
        let Some(state) = state else {
            assert!(i.is(&["nop", "nopw", "nopl", "xchg", "ud2"]), "{name}: no way leads to {i:?}");
            continue;
        };
        if i.is(&["call"]) {
            let symbol = i.symbol.clone().unwrap_or_else(|| panic!("{name} calls through a register: {i:?}"));
            effects.calls.push((symbol, state.registers[RDI]));
        } else if i.leaves() {
            effects.calls.push((i.symbol.clone().unwrap(), state.registers[RDI]));
        } else if let Some(place) = i.written() {
            match state.lies(place) {
                Pointer::Frame => (),
                Pointer::Result => effects.result.push(i.clone()),
                Pointer::Other => effects.others.push(i.clone()),
            }
        }
    }
    effects
}

impl Function {
    /// The instructions that can come right after instruction n.
    fn next(&self, n: usize) -> Vec<usize> {
        let (i, number) = (&self.code[n], |at: usize| self.code.iter().position(|i| i.at == at).expect("an instruction"));
        let mut next = Vec::new();
        if i.is_jump() && !i.leaves() {
            assert!(i.symbol.is_none(), "a jump by way of a symbol: {i:?}");
            match i.last().split(' ').next().filter(|at| !at.starts_with('*')) {
                Some(at) => next.push(number(usize::from_str_radix(at, 16).expect("an address"))),
                None => next.extend(self.targets[&self.table(n)].iter().map(|&target| number(target))),
            }
        }
        if !i.ends() {
            next.push(n + 1);
        }
        next
    }

    /// The table that jump n goes through: its place, then its entry are loaded before, with no jump or call between.
    fn table(&self, n: usize) -> usize {
        let jump = &self.code[n];
        let straight = || self.code[..n].iter().rev().take_while(|i| !i.is_jump() && !i.is(&["call"]));
        let load = straight().find(|load| load.is(&["movslq"]) && jump.last().strip_prefix('*') == Some(load.last()));
        let load = load.unwrap_or_else(|| panic!("a jump that is not through a table: {jump:?}"));
        let place = straight().find(|place| place.table().is_some() && load.operands[0].starts_with(&format!("({},", place.last())));
        place.and_then(Instruction::table).unwrap_or_else(|| panic!("a jump through no known table: {jump:?}"))
    }
}

/// Whether a way through the function leads from one of these instructions of it to another, or back to the same.
pub fn one_after_another(functions: &Functions, name: &str, these: &[Instruction]) -> bool {
    let function = &functions[name];
    let is_one = |n: usize| these.iter().any(|i| i.at == function.code[n].at);
    (0..function.code.len()).filter(|&n| is_one(n)).any(|from| {
        let (mut seen, mut waiting) = (BTreeSet::new(), function.next(from));
        while let Some(n) = waiting.pop() {
            if seen.insert(n) {
                waiting.extend(function.next(n));
            }
        }
        seen.into_iter().any(is_one)
    })
}

/// What is known before each instruction; none if no way leads to it.
fn states(function: &Function) -> Vec<Option<State>> {
    let code = &function.code;
    let mut states = vec![None; code.len()];
    let mut waiting = vec![(0, State::at_entry())];
    while let Some((n, state)) = waiting.pop() {
        let known: Option<State> = states[n].take();
        let met = known.as_ref().map_or(state.clone(), |known| known.meet(&state));
        let same = known.as_ref() == Some(&met);
        states[n] = Some(met.clone());
        if same {
            continue;
        }
        let next = met.after(&code[n]);
        waiting.extend(function.next(n).into_iter().map(|n| (n, next.clone())));
    }
    states
}
