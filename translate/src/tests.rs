//! A small program that is translated, and edits of it and of its header that must each be refused.

use std::path::Path;

use crate::file::files;
use crate::header::Header;
use crate::refused::Result;

/// `toy_at(list, place)` gives whether there is such a byte, and the byte: a call makes an enum, a switch
/// takes it apart.
const MIR: &str = r#"program
(lcons (fn-def "toy::found" (fnItem 1 lnil 2
  (lcons (local (tyNamed (pair "toy::Found" lnil)) valueLocal)
  (lcons (local (tyStruct "&[]" (tcons (tyRef (named 0) imm (tyInt 8)) (tcons (tyInt 64) tnil))) valueLocal)
  (lcons (local (tyInt 64) valueLocal) (lcons (local tyPtr valueLocal) (lcons (local tyBool valueLocal)
  (lcons (local (tyInt 8) valueLocal) lnil))))))
  (seq (assign (place 4 lnil)
    (op2 (lt unsigned) (copy (place 2 lnil)) (copy (place 1 (lcons (field 1) lnil)))))
  (seq (if (copy (place 4 lnil)) skip (seq (assign (place 0 lnil) (aggregate (lcons (int 8 0) lnil))) return))
  (seq (assign (place 3 lnil) (op2 offset (copy (place 1 (lcons (field 0) lnil))) (copy (place 2 lnil))))
  (seq (assign (place 5 lnil) (rvOpd (copy (place 3 (lcons (deref (tyInt 8)) lnil)))))
  (seq (assign (place 0 lnil) (aggregate (lcons (int 8 1) (lcons (copy (place 5 lnil)) lnil)))) return))))))
  (lcons (pair "toy::Found" (variants (ttcons tnil (ttcons (tcons (tyInt 8) tnil) ttnil)))) lnil))
(lcons (fn-def "toy::toy_at" (fnItem 1 lnil 2
  (lcons (local (tyNamed (pair "toy::Answer" lnil)) valueLocal)
  (lcons (local (tyStruct "&[]" (tcons (tyRef (named 0) imm (tyInt 8)) (tcons (tyInt 64) tnil))) valueLocal)
  (lcons (local (tyInt 64) valueLocal) (lcons (local (tyNamed (pair "toy::Found" lnil)) valueLocal) lnil))))
  (seq (call (direct (fnRef "toy::found"))
    (lcons (copy (place 1 lnil)) (lcons (copy (place 2 lnil)) lnil)) (place 3 lnil))
  (switch (copy (place 3 (lcons (variant 0) (lcons (field 0) lnil))))
    (arm (lcons 0 lnil) (seq (assign (place 0 lnil) (aggregate (lcons false (lcons (int 8 0) lnil)))) return)
    (arm (lcons 1 lnil) (seq (assign (place 0 lnil) (aggregate (lcons true
      (lcons (copy (place 3 (lcons (variant 1) (lcons (field 1) lnil)))) lnil)))) return) noDefault)))))
  (lcons (pair "toy::Answer" (fields (tcons tyBool (tcons (tyInt 8) tnil))))
  (lcons (pair "toy::Found" (variants (ttcons tnil (ttcons (tcons (tyInt 8) tnil) ttnil)))) lnil)))
lnil))"#;

const HEADER: &str = "
#include <stdint.h>
#define TOY_LIMIT 3
typedef struct {
    bool known; /* whether there is one */
    uint8_t byte;
} toy_answer;
enum { TOY_NONE = 0, TOY_ONE = 1 };
toy_answer toy_at(const uint8_t *list, size_t list_len, size_t place);
";

/// What is replaced, by what, and a word of the reason.
type Edit = (&'static str, &'static str, &'static str);

const EDITS: [Edit; 16] = [
    ("(lt unsigned)", "(lt signed)", "operation lt"),
    ("op2 offset", "op2 withAddr", "operation withAddr"),
    ("(int 8 1) (lcons (copy (place 5", "(int 8 300) (lcons (copy (place 5", "300 in 8 bits"),
    ("(int 8 1) (lcons (copy (place 5", "(int 8 2) (lcons (copy (place 5", "variant 2"),
    ("(local tyPtr", "(local tyFloat", "type tyFloat"),
    ("(tyInt 64) valueLocal) (lcons (local tyPtr", "(tyInt 128) valueLocal) (lcons (local tyPtr", "128 bits"),
    ("(copy (place 2 lnil)) (copy (place 1", "(copy (place 5 lnil)) (copy (place 1", "Lt of Int(8)"),
    ("(place 1 (lcons (field 1)", "(place 1 (lcons (field 2)", "step Field(2)"),
    ("(deref (tyInt 8))", "(deref (tyInt 16))", "an offset"),
    ("(fnRef \"toy::found\")", "(fnRef \"toy::lost\")", "no function toy::lost"),
    ("(fnRef \"toy::found\")", "(fnRef \"toy::toy_at\")", "cycle of calls"),
    ("(lcons (variant 1)", "(lcons (variant 0)", "variant is not known"),
    ("(arm (lcons 1 lnil)", "(arm (lcons 0 lnil)", "two arms for 0"),
    ("(assign (place 5", "(forget (place 5", "statement forget"),
    (
        "(lcons (copy (place 5 lnil)) lnil)))) return))))",
        "(lcons (copy (place 5 lnil)) lnil)))) skip))))",
        "without a return",
    ),
    ("program\n", "library\n", "no program"),
];

const HEADER_EDITS: [Edit; 11] = [
    ("uint8_t byte;", "uint16_t byte;", "the header has uint16_t"),
    ("uint8_t byte;", "uint8_t byte; uint8_t more;", "3 fields"),
    ("uint8_t byte;", "uint8_t byte[2];", "byte of toy_answer is an array"),
    ("const uint8_t *list", "uint8_t *list", "not lent as the MIR has it"),
    ("size_t list_len, ", "", "the length of list"),
    ("size_t place", "uint32_t place", "the header has uint32_t"),
    ("size_t place", "size_t place, uint8_t more", "fewer parameters"),
    ("toy_at(", "toy_by(", "toy has no function toy_by"),
    ("#define TOY_LIMIT 3", "#define uint8_t uint16_t", "by uint16_t"),
    ("enum {", "union {", "where a name is wanted"),
    ("toy_answer toy_at", "extern toy_answer toy_at", "where ( is wanted"),
];

/// `toy_put(settings, place, value)` gives the settings' pairs with a value written into their array, if
/// there is such a place, and else with the array replaced by three others and the value.
const ARRAYS: &str = r#"program
(lcons (fn-def "toy::toy_put" (fnItem 0 lnil 3
  (lcons (local (tyNamed (pair "toy::Pairs" lnil)) valueLocal)
  (lcons (local (tyNamed (pair "toy::Settings" lnil)) valueLocal)
  (lcons (local (tyInt 64) valueLocal) (lcons (local (tyInt 8) valueLocal)
  (lcons (local (tyNamed (pair "toy::Pairs" lnil)) memorySlot) (lcons (local tyBool valueLocal)
  (lcons (local tyPtr valueLocal) (lcons (local tyPtr valueLocal)
  (lcons (local (tyArray (tyInt 8) (lenLit 4)) valueLocal) lnil)))))))))
  (seq (assign (place 4 lnil) (rvOpd (copy (place 1 (lcons (field 1) lnil)))))
  (seq (assign (place 5 lnil) (op2 (lt unsigned) (copy (place 2 lnil)) (int 64 4)))
  (seq (if (copy (place 5 lnil))
    (seq (assign (place 6 lnil) (addrOf (place 4 (lcons (field 1) lnil))))
    (seq (assign (place 7 lnil) (op2 offset (copy (place 6 lnil)) (copy (place 2 lnil))))
    (assign (place 7 (lcons (deref (tyInt 8)) lnil)) (rvOpd (copy (place 3 lnil))))))
    (seq (assign (place 8 lnil) (aggregate (lcons (int 8 1) (lcons (int 8 2) (lcons (int 8 3)
      (lcons (copy (place 3 lnil)) lnil))))))
    (assign (place 4 lnil) (aggregate (lcons (copy (place 1 (lcons (field 0) lnil)))
      (lcons (copy (place 8 lnil)) lnil))))))
  (seq (assign (place 0 lnil) (rvOpd (copy (place 4 lnil)))) return)))))
  (lcons (pair "toy::Settings" (fields (tcons (tyInt 8) (tcons (tyNamed (pair "toy::Pairs" lnil)) tnil))))
  (lcons (pair "toy::Pairs" (fields (tcons (tyInt 8) (tcons (tyArray (tyInt 8) (lenLit 4)) tnil)))) lnil)))
lnil)"#;

const ARRAYS_HEADER: &str = "
#include <stdint.h>
typedef struct {
    uint8_t count;
    uint8_t values[4];
} toy_pairs;
typedef struct {
    uint8_t id;
    toy_pairs pairs;
} toy_settings;
toy_pairs toy_put(toy_settings settings, size_t place, uint8_t value);
";

const ARRAYS_EDITS: [Edit; 3] = [
    ("(deref (tyInt 8))", "(deref (tyInt 16))", "Array { length: 4"),
    ("(int 8 3)\n", "(int 16 3)\n", "parts [Int(8), Int(8), Int(16), Int(8)]"),
    ("(tyArray (tyInt 8) (lenLit 4)) valueLocal", "(tyArray (tyInt 8) (lenLit 5)) valueLocal", "parts"),
];

const ARRAYS_HEADER_EDITS: [Edit; 7] = [
    ("uint8_t values[4];", "uint8_t values[3];", "values of toy_pairs has 3 elements, the MIR 4"),
    ("uint8_t values[4];", "uint8_t values;", "the header has uint8_t where the MIR has Array"),
    ("uint8_t values[4];", "uint16_t values[4];", "the header has uint16_t"),
    ("uint8_t values[4];", "uint8_t values[4][1];", "where ; is wanted"),
    ("uint8_t values[4];", "uint8_t values[LENGTH];", "values has LENGTH elements"),
    ("uint8_t count;", "uint8_t count[1];", "count of toy_pairs is an array"),
    ("toy_pairs pairs;", "toy_pairs pairs[1];", "pairs of toy_settings is an array"),
];

/// `toy_go(n)` lends a struct that it hands over too, and a constant; takes a value of no bits along; and goes over
/// the struct as a slice of one.
const REFERENCES: &str = r#"program
(lcons (fn-def "toy::first" (fnItem 1 lnil 1
  (lcons (local (tyInt 8) valueLocal)
  (lcons (local (tyStruct "&[]" (tcons (tyRef erased mut (tyNamed (pair "toy::Held" lnil))) (tcons (tyInt 64) tnil))) valueLocal)
  (lcons (local (tyInt 64) valueLocal) (lcons (local tyPtr valueLocal) lnil))))
  (seq (assign (place 2 lnil) (op2 (mul unsigned) (int 64 0) (size (tyNamed (pair "toy::Held" lnil)))))
  (seq (assign (place 3 lnil) (op2 offset (copy (place 1 (lcons (field 0) lnil))) (copy (place 2 lnil))))
  (seq (assign (place 0 lnil) (rvOpd (copy (place 3
    (lcons (deref (tyNamed (pair "toy::Held" lnil))) (lcons (field 1) lnil)))))) return)))) lnil)
(lcons (fn-def "toy::moved" (fnItem 1 lnil 3
  (lcons (local (tyInt 8) valueLocal) (lcons (local (tyNamed (pair "toy::Held" lnil)) valueLocal)
  (lcons (local (tyRef erased mut (tyNamed (pair "toy::Held" lnil))) valueLocal)
  (lcons (local (tyNamed (pair "toy::Nothing" lnil)) valueLocal) lnil))))
  (seq (assign (place 2 (lcons (deref (tyNamed (pair "toy::Held" lnil))) (lcons (field 1) lnil))) (rvOpd (int 8 7)))
  (seq (if false unreachable (assign (place 0 lnil) (rvOpd (copy (place 1 (lcons (field 1) lnil)))))) return))) lnil)
(lcons (fn-def "toy::never" (fnItem 0 lnil 0 (lcons (local tyUnit valueLocal) lnil)
  (seq (assign (place 0 lnil) (rvOpd unit)) unreachable)) lnil)
(lcons (fn-def "toy::toy_go" (fnItem 0 lnil 1
  (lcons (local (tyInt 8) valueLocal) (lcons (local (tyInt 8) valueLocal)
  (lcons (local (tyNamed (pair "toy::Held" lnil)) memorySlot)
  (lcons (local (tyRef erased mut (tyNamed (pair "toy::Held" lnil))) valueLocal)
  (lcons (local (tyNamed (pair "toy::Nothing" lnil)) valueLocal) (lcons (local (tyInt 8) valueLocal)
  (lcons (local (tyRef erased imm (tyNamed (pair "toy::Kind" lnil))) valueLocal)
  (lcons (local (tyNamed (pair "toy::Kind" lnil)) staticSlot) (lcons (local tyUnit valueLocal)
  (lcons (local (tyStruct "&[]" (tcons (tyRef erased mut (tyNamed (pair "toy::Held" lnil))) (tcons (tyInt 64) tnil))) valueLocal)
  lnil))))))))))
  (seq (assign (place 7 lnil) (rvOpd (parts (tyNamed (pair "toy::Kind" lnil)) (lcons (int 8 1) lnil))))
  (seq (assign (place 6 lnil) (addrOf (place 7 lnil)))
  (seq (assign (place 2 lnil) (aggregate (lcons (copy (place 6 (lcons (deref (tyNamed (pair "toy::Kind" lnil))) lnil)))
    (lcons (copy (place 1 lnil)) lnil))))
  (seq (assign (place 4 lnil) (aggregate lnil))
  (seq (assign (place 3 lnil) (addrOf (place 2 lnil)))
  (seq (call (direct (fnRef "toy::moved"))
    (lcons (copy (place 2 lnil)) (lcons (copy (place 3 lnil)) (lcons (copy (place 4 lnil)) lnil))) (place 5 lnil))
  (seq (switch (copy (place 2 (lcons (field 0) (lcons (variant 0) (lcons (field 0) lnil)))))
    (arm (lcons 0 lnil) (seq (call (direct (fnRef "toy::never")) lnil (place 8 lnil)) unreachable)
    (arm (lcons 1 lnil) (assign (place 9 lnil) (aggregate (lcons (copy (place 3 lnil)) (lcons (int 64 1) lnil)))) noDefault)))
  (seq (call (direct (fnRef "toy::first")) (lcons (copy (place 9 lnil)) lnil) (place 0 lnil)) return)))))))))
  (lcons (pair "toy::Nothing" (fields tnil))
  (lcons (pair "toy::Kind" (variants (ttcons tnil (ttcons tnil ttnil))))
  (lcons (pair "toy::Held" (fields (tcons (tyNamed (pair "toy::Kind" lnil)) (tcons (tyInt 8) tnil)))) lnil))))
lnil))))"#;

const REFERENCES_HEADER: &str = "
#include <stdint.h>
uint8_t toy_go(uint8_t n);
";

const REFERENCES_EDITS: [Edit; 13] = [
    (
        "(rvOpd (int 8 7))",
        "(rvOpd (size (tyNamed (pair \"toy::Kind\" lnil))))",
        "a size that counts no elements",
    ),
    ("(lcons (int 8 1) lnil))))", "(lcons (int 8 2) lnil))))", "variant 2 of toy::Kind"),
    (
        "(rvOpd (parts (tyNamed (pair \"toy::Kind\" lnil)) (lcons (int 8 1) lnil)))",
        "(rvOpd (copy (place 6 (lcons (deref (tyNamed (pair \"toy::Kind\" lnil))) lnil))))",
        "a constant that is written, or no constant",
    ),
    ("(place 4 lnil) (aggregate lnil)", "(place 7 lnil) (aggregate lnil)", "a constant that is written"),
    ("staticSlot", "elsewhere", "a local's home"),
    (
        "(copy (place 6 (lcons (deref (tyNamed (pair \"toy::Kind\" lnil)))",
        "(copy (place 6 (lcons (deref (tyInt 8))",
        "followed as Int(8)",
    ),
    ("(addrOf (place 2 lnil))", "(addrOf (place 1 lnil))", "the address of a Int(8)"),
    ("(rvOpd unit)) unreachable)", "(rvOpd unit)) (seq (if true return skip) unreachable))", "never reached"),
    (
        "(fields (tcons (tyNamed (pair \"toy::Kind\" lnil))",
        "(fields (tcons (tyRef erased imm (tyNamed (pair \"toy::Held\" lnil)))",
        "a type within itself",
    ),
    (
        "(tyRef erased imm (tyNamed (pair \"toy::Kind\" lnil)))",
        "(tyRef erased imm tyPtr)",
        "a reference to a raw pointer",
    ),
    ("(size (tyNamed (pair \"toy::Held\" lnil)))", "(int 64 2)", "counted by more than its size"),
    (
        "(size (tyNamed (pair \"toy::Held\" lnil)))",
        "(size (tyNamed (pair \"toy::Kind\" lnil)))",
        "counted by more than its size",
    ),
    (
        "(lcons (copy (place 3 lnil)) (lcons (copy (place 4 lnil)) lnil))",
        "(lcons (copy (place 4 lnil)) (lcons (copy (place 3 lnil)) lnil))",
        "parts [",
    ),
];

fn translated(mir: &str, header: &str) -> Result<Vec<(String, String)>> {
    files("toy", mir, &[Header::of("toy.h".to_string(), header, Path::new("."))?])
}

#[test]
fn the_program_is_translated() {
    let made = translated(MIR, HEADER).expect("it is translated");
    assert_eq!(made[0].0, "toy.c");
    assert!(made[0].1.contains("toy_answer toy_at(const uint8_t *list, size_t list_len, size_t place)"));
}

#[test]
fn an_exported_function_may_stand_in_a_module() {
    let mir = MIR.replace("toy::toy_at", "toy::at::toy_at");
    let made = translated(&mir, HEADER).expect("it is translated");
    assert!(made[0].1.contains("return toy__at__toy_at(list_slice, place);"));
    let two = MIR.replace("toy::found", "toy::at::toy_at");
    assert!(reason(&two, HEADER).contains("toy has two functions toy_at"));
}

fn reason(mir: &str, header: &str) -> String {
    translated(mir, header).err().map_or("nothing".to_string(), |why| why.to_string())
}

/// Each edit, of the MIR or of the header, is refused for its reason.
fn refused(mir: &str, header: &str, edits: &[Edit], of_header: bool) {
    for &(old, new, why) in edits {
        let text = if of_header { header } else { mir };
        assert!(text.contains(old), "{old}");
        let edited = text.replacen(old, new, 1);
        let told = if of_header { reason(mir, &edited) } else { reason(&edited, header) };
        assert!(told.contains(why), "{old} -> {new}: {told}");
    }
}

#[test]
fn every_edit_of_the_mir_is_refused() {
    refused(MIR, HEADER, &EDITS, false);
    refused(ARRAYS, ARRAYS_HEADER, &ARRAYS_EDITS, false);
    refused(REFERENCES, REFERENCES_HEADER, &REFERENCES_EDITS, false);
}

#[test]
fn every_edit_of_the_header_is_refused() {
    refused(MIR, HEADER, &HEADER_EDITS, true);
    refused(ARRAYS, ARRAYS_HEADER, &ARRAYS_HEADER_EDITS, true);
}

/// The header's arrays are copied element by element, and lent where they lie; none has a struct of its own.
#[test]
fn arrays_of_the_header_are_translated() {
    let made = translated(ARRAYS, ARRAYS_HEADER).expect("it is translated");
    for line in [
        "static toy_pairs toy__toy_put(const toy_settings *a1, uint64_t a2, uint8_t a3)",
        "v4.values[3] = a1->pairs.values[3];",
        "v6 = v4.values;",
        "v8.at[3] = a3;",
        "v4 = (toy_pairs){.count = a1->id, .values = {v8.at[0], v8.at[1], v8.at[2], v8.at[3]}};",
        "return toy__toy_put(&settings, place, value);",
    ] {
        assert!(made[0].1.contains(line), "{line}: {}", made[0].1);
    }
}

/// What is lent and handed over is copied where the callee can write to it; of what has no bits, and of what is never
/// reached, nothing is left.
#[test]
fn references_are_translated() {
    let made = translated(REFERENCES, REFERENCES_HEADER).expect("it is translated");
    for line in [
        "static uint8_t toy__moved(const toy__Held *a1, toy__Held *a2)",
        "a2->f1 = 7u;\n    result = a1->f1;",
        "v3 = a1.at + (size_t)(v2 / sizeof(toy__Held));",
        "static const toy__Kind v7 = 1u;",
        "v2 = (toy__Held){.f0 = *v6, .f1 = a1};",
        "c1.f1 = v2.f1;",
        "(void)toy__moved(&c1, v3);",
        "default: /* 1 */",
    ] {
        assert!(made[0].1.contains(line), "{line}: {}", made[0].1);
    }
    assert!(!made[0].1.contains("never") && !made[0].1.contains("Nothing"), "{}", made[0].1);
}

/// A function that nothing calls is exported, or would not be there.
const MORE: &str = r#"program
(lcons (fn-def "toy::toy_more" (fnItem 0 lnil 0 (lcons (local tyUnit valueLocal) lnil) return))"#;

#[test]
fn a_function_that_no_header_declares_is_refused() {
    let mir = MIR.replacen("program", MORE, 1) + ")";
    assert!(
        reason(&mir, HEADER).contains("no header declares [\"toy::toy_more\"]"),
        "{}",
        reason(&mir, HEADER)
    );
}
