//! A step stores one word of the pool, with one instruction, on every way through its code; a call that goes on to the next barrier stores
//! each word with one instruction. The proof speaks of eight byte assignments; that the memory keeps or loses them whole rests on the
//! compiler having made one store of them, and no wider one of two words, which is read here off the compiled code.
//!
//! Looked at is every instruction of the function and of all functions that it calls, in turn. A write goes to a stack frame, or through
//! the pointer under which the caller wants the answer, or it counts as a store, through whatever register. Each function called must be one
//! of the library's own (so neither memcpy nor memset). An instruction of which it is not known whether it writes fails the test.
use compare::code::{effects, functions, one_after_another, parsed, Functions, Instruction, Pointer};
use std::collections::BTreeSet;

/// What a function does to memory beside stack frames, with all functions that it calls, in turn.
#[derive(Default)]
struct Writes {
    /// Of the answer.
    answer: Vec<Instruction>,
    /// All others, with the function that makes each.
    stores: Vec<(String, Instruction)>,
    /// The functions looked at, and where each is asked to put its answer.
    seen: BTreeSet<(String, Pointer)>,
}

impl Writes {
    fn of(functions: &Functions, function: &str) -> Writes {
        let mut writes = Writes::default();
        writes.add(functions, function, Pointer::Result);
        writes
    }

    fn add(&mut self, functions: &Functions, function: &str, answers: Pointer) {
        if !self.seen.insert((function.into(), answers)) {
            return;
        }
        let does = effects(functions, function);
        let store = |write| (function.to_string(), write);
        self.stores.extend(does.others.into_iter().map(store));
        match answers {
            Pointer::Result => self.answer.extend(does.result),
            Pointer::Frame => (),
            Pointer::Other => self.stores.extend(does.result.into_iter().map(store)),
        }
        for (callee, to) in does.calls {
            assert!(functions.contains_key(&callee), "{function} calls {callee}, which is not the library's");
            self.add(functions, &callee, if to == Pointer::Result { answers } else { to });
        }
    }
}

/// The stores of a function, each of one word.
fn stores_of_words(functions: &Functions, function: &str) -> Vec<(String, Instruction)> {
    let Writes { answer, stores, seen } = Writes::of(functions, function);
    assert!(!answer.is_empty(), "{function} does not write its answer");
    for (by, store) in &stores {
        assert!(store.writes_a_word(), "{function}: {by} stores other than a word: {store:?}");
        println!("{function}: {by}: {} {}", store.name, store.operands.join(","));
    }
    println!("{function}: {} functions looked at: {seen:?}", seen.len());
    stores
}

/// Whether a function stores a word, itself, and no way through it leads from one store to another.
fn stores_one_word(functions: &Functions, function: &str) -> bool {
    let stores = stores_of_words(functions, function);
    assert!(stores.iter().all(|(by, _)| by == function), "{function}: stores by functions that it calls");
    let stores: Vec<Instruction> = stores.into_iter().map(|(_, store)| store).collect();
    !stores.is_empty() && !one_after_another(functions, function, &stores)
}

#[test]
fn a_step_stores_one_word() {
    let functions = functions(linked::ARCHIVE);
    for step in ["pool_commit_step", "pool_recover_step"] {
        assert!(stores_one_word(&functions, step), "{step}");
    }
}

#[test]
fn a_call_up_to_the_next_barrier_stores_words() {
    let functions = functions(linked::ARCHIVE);
    for advance in ["pool_commit_advance", "pool_recover_advance"] {
        assert!(!stores_of_words(&functions, advance).is_empty(), "{advance}");
    }
}

/// Functions that write more are found out: through other registers, and by calls of memset and memcpy.
#[test]
fn more_stores_are_seen() {
    let functions = functions(linked::ARCHIVE);
    let allocate = effects(&functions, "pool_allocate");
    let callees = allocate.calls.iter().filter(|(callee, _)| functions.contains_key(callee));
    let by_callees: usize = callees.map(|(callee, _)| effects(&functions, callee).others.len()).sum();
    assert!(allocate.others.len() + by_callees > 1);
    for (function, callee) in [("pool_format", "memset"), ("pool_repair", "memcpy")] {
        assert!(effects(&functions, function).calls.iter().any(|(name, _)| name == callee), "{function} calls {callee}");
        assert!(!functions.contains_key(callee));
    }
}

/// Two words through other registers, one of them by way of the stack; then a pointer that is the answer's on one way only.
#[test]
fn writes_are_told_apart() {
    let functions = parsed(
        "0000000000000000 <two>:
   0:\tsub    $0x10,%rsp
   4:\tmov    %rdi,(%rsp)
   8:\tmov    %rsi,0x8(%rsp)
   d:\tmov    (%rsp),%rax
  11:\tmov    %rdx,0x8(%rax)
  15:\tmov    0x8(%rsp),%rax
  1a:\tmov    %rdx,0x8(%rax)
  1e:\tmovb   $0x1,(%rcx,%rdx,1)
  22:\tadd    $0x10,%rsp
  26:\tret
0000000000000000 <either>:
   0:\tmov    %rdi,%rbx
   3:\ttest   %rdx,%rdx
   6:\tje     b <either+0xb>
   8:\tmov    %rsi,%rbx
   b:\tmov    %rdx,(%rbx)
   e:\tret
",
    );
    for (function, result, others) in [("two", 1, 2), ("either", 0, 1)] {
        let does = effects(&functions, function);
        assert_eq!((does.result.len(), does.others.len()), (result, others), "{function}: {does:?}");
    }
}

/// One store on each of two ways, two on one way, and one in a loop.
#[test]
fn stores_on_one_way_are_told_apart() {
    let functions = parsed(
        "0000000000000000 <either>:
   0:\tmov    %rdx,(%rdi)
   3:\ttest   %rdx,%rdx
   6:\tje     d <either+0xd>
   8:\tmov    %rdx,(%rsi)
   b:\tret
   d:\tmov    %rdx,0x8(%rsi)
  11:\tret
0000000000000000 <both>:
   0:\tmov    %rdx,(%rdi)
   3:\ttest   %rdx,%rdx
   6:\tje     b <both+0xb>
   8:\tmov    %rdx,(%rsi)
   b:\tmov    %rdx,0x8(%rsi)
   f:\tret
0000000000000000 <repeated>:
   0:\tmov    %rdx,(%rdi)
   3:\tmov    %rdx,(%rsi)
   6:\tdec    %rdx
   9:\tjne    3 <repeated+0x3>
   b:\tret
",
    );
    for (function, one) in [("either", true), ("both", false), ("repeated", false)] {
        assert_eq!(stores_one_word(&functions, function), one, "{function}");
    }
}

/// A function that makes a store through its first argument, called with the answer's place and with another; and one reached by a jump.
#[test]
fn stores_of_functions_called_are_seen() {
    let functions = parsed(
        "0000000000000000 <caller>:
   0:\tpush   %rbx
   1:\tmov    %rdi,%rbx
   4:\tcall   9 <caller+0x9>
\t\t\t5: R_X86_64_PLT32\tput-0x4
   9:\tmov    %rsi,%rdi
   c:\tcall   11 <caller+0x11>
\t\t\td: R_X86_64_PLT32\tput-0x4
  11:\tmov    %rbx,%rdi
  14:\tpop    %rbx
  15:\tjmp    1a <caller+0x1a>
\t\t\t16: R_X86_64_PLT32\tlast-0x4
0000000000000000 <put>:
   0:\tmov    %rdx,(%rdi)
   3:\tret
0000000000000000 <last>:
   0:\tmovups %xmm0,(%rcx)
   3:\tret
",
    );
    let Writes { answer, stores, .. } = Writes::of(&functions, "caller");
    assert_eq!((answer.len(), stores.len()), (1, 2), "{stores:?}");
    assert_eq!(stores.iter().filter(|(_, store)| store.writes_a_word()).count(), 1, "{stores:?}");
}

#[test]
#[should_panic(expected = "stores other than a word")]
fn two_words_at_once_are_refused() {
    let text = "0000000000000000 <both>:\n   0:\tmov    %rsi,(%rdi)\n   3:\tmovups %xmm0,0x10(%rdx)\n   7:\tret\n";
    stores_of_words(&parsed(text), "both");
}

#[test]
#[should_panic(expected = "which is not the library's")]
fn a_copy_by_another_function_is_refused() {
    let text = "0000000000000000 <copy>:\n   0:\tcall   5 <copy+0x5>\n\t\t\t1: R_X86_64_PLT32\tmemcpy-0x4\n   5:\tret\n";
    stores_of_words(&parsed(text), "copy");
}

#[test]
#[should_panic(expected = "not known whether it writes")]
fn an_unknown_instruction_is_refused() {
    effects(&parsed("0000000000000000 <fill>:\n   0:\trep stos %rax,%es:(%rdi)\n   3:\tret\n"), "fill");
}

#[test]
#[should_panic(expected = "was not found")]
fn a_missing_function_is_refused() {
    effects(&functions(linked::ARCHIVE), "pool_no_such_step");
}
