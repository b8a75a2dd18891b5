//! What the finder finds, and what it passes over.

use crate::code::signatures;
use crate::points::{edits, signature_in, Edit, Kind};

fn found(source: &str) -> Vec<Edit> {
    let own = signatures(source);
    let others = [(
        "arith".to_string(),
        signatures("pub fn sum(w: u32, a: i64, b: i64) -> i64 { a }"),
    )];
    edits(source, &|path| signature_in(path, &own, &others))
}

/// The lines that the edits of a kind make of a body.
fn made(kind: Kind, result: &str, body: &str) -> Vec<String> {
    let source = format!("fn f(){result} {{\n{body}\n}}\n");
    let of_kind = found(&source).into_iter().filter(|edit| edit.kind == kind);
    let body_of = |edit: Edit| {
        let text = edit.applied(&source);
        let inner = text
            .split_once("{\n")
            .unwrap()
            .1
            .rsplit_once("\n}")
            .unwrap()
            .0;
        inner.split_whitespace().collect::<Vec<_>>().join(" ")
    };
    of_kind.map(body_of).collect()
}

#[test]
fn comparisons() {
    assert_eq!(
        made(Kind::Comparison, "", "if a < b { }"),
        ["if a <= b { }"]
    );
    assert_eq!(
        made(Kind::Comparison, "", "if a <= b { }"),
        ["if a < b { }"]
    );
    assert_eq!(
        made(Kind::Comparison, "", "if a == b { }"),
        ["if a != b { }"]
    );
    assert_eq!(
        made(Kind::Comparison, "", "if f(a) != b { }"),
        ["if f(a) == b { }"]
    );
}

#[test]
fn operators_stand_between_two_values() {
    assert_eq!(
        made(Kind::Operator, "", "x = a + b * c / d;"),
        [
            "x = a - b * c / d;",
            "x = a + b + c / d;",
            "x = a + b * c * d;"
        ]
    );
    assert_eq!(made(Kind::Operator, "", "x += -y;"), ["x -= -y;"]);
    assert_eq!(made(Kind::Operator, "", "x = *a; return -(b);"), [""; 0]);
}

#[test]
fn literals_but_not_fields_and_lengths() {
    assert_eq!(
        made(Kind::Literal, "", "x = [0u8; 128];"),
        ["x = [1u8; 128];"]
    );
    assert_eq!(made(Kind::Literal, "", "x = a.0 + 9;"), ["x = a.0 + 10;"]);
    assert_eq!(made(Kind::Literal, "", "x = &a[..0];"), ["x = &a[..1];"]);
    assert_eq!(made(Kind::Literal, "", "let x: [u8; 4] = y;"), [""; 0]);
    assert_eq!(made(Kind::Literal, "", "x = 0x10;"), [""; 0]);
}

#[test]
fn truth() {
    assert_eq!(
        made(Kind::Truth, "", "x = true; y = false;"),
        ["x = false; y = false;", "x = true; y = true;"]
    );
}

#[test]
fn an_index_but_not_a_range_or_a_literal() {
    assert_eq!(made(Kind::Index, "", "x = a[i];"), ["x = a[i + 1];"]);
    assert_eq!(
        made(Kind::Index, "", "a[b[i] as usize] = 1;"),
        ["a[b[i + 1] as usize] = 1;", "a[b[i] as usize + 1] = 1;"]
    );
    assert_eq!(
        made(Kind::Index, "", "x = &a[..n]; y = a[0]; z = [0u8; 4];"),
        [""; 0]
    );
}

#[test]
fn arguments_of_one_type_are_exchanged() {
    assert_eq!(
        made(Kind::Exchanged, "", "arith::sum(w, a, b);"),
        ["arith::sum(w, b, a);"]
    );
    assert_eq!(made(Kind::Exchanged, "", "arith::sum(w, a, a);"), [""; 0]);
    assert_eq!(
        made(Kind::Exchanged, "", "unknown(g(a), b);"),
        ["unknown(b, g(a));"]
    );
    assert_eq!(
        made(Kind::Exchanged, "", "match x { A(b, c) => {} }"),
        [""; 0]
    );
}

#[test]
fn arguments_on_lines_of_their_own() {
    assert_eq!(
        made(Kind::Exchanged, "", "g(\n  a,\n  b,\n);"),
        ["g( b, a, );"]
    );
}

#[test]
fn a_dropped_assignment_or_call() {
    assert_eq!(made(Kind::Dropped, "", "x += 1;"), [""]);
    assert_eq!(
        made(Kind::Dropped, "", "let y = 2; a[i] = y; g(y);"),
        ["let y = 2; g(y);", "let y = 2; a[i] = y;"]
    );
    assert_eq!(
        made(Kind::Dropped, "", "while a { x.y = 1; }"),
        ["while a { }"]
    );
    assert_eq!(
        made(
            Kind::Dropped,
            "",
            "match a { B(c) => { x = c; } D => { return; } } i += 1;"
        ),
        [
            "match a { B(c) => { } D => { return; } } i += 1;",
            "match a { B(c) => { x = c; } D => { return; } }"
        ]
    );
}

#[test]
fn what_is_no_such_statement_stays() {
    assert_eq!(
        made(
            Kind::Dropped,
            "",
            "let x = 1; return x; break; Size { a: b(c), d }"
        ),
        [""; 0]
    );
}

#[test]
fn returned_numbers() {
    assert_eq!(
        made(Kind::Returned, " -> usize", "x = 1; y"),
        ["x = 1; y + 1"]
    );
    assert_eq!(
        made(Kind::Returned, " -> u32", "if a { return b; } c as u32"),
        [
            "if a { return b + 1; } c as u32",
            "if a { return b; } c as u32 + 1"
        ]
    );
    assert_eq!(
        made(Kind::Returned, " -> i64", "if a { b } else { c }"),
        ["if a { b + 1 } else { c }", "if a { b } else { c + 1 }"]
    );
    assert_eq!(
        made(
            Kind::Returned,
            " -> i64",
            "match a { B(_) => 1, C(d) => g(d, e), D => { h } }"
        ),
        [
            "match a { B(_) => 1, C(d) => g(d, e) + 1, D => { h } }",
            "match a { B(_) => 1, C(d) => g(d, e), D => { h + 1 } }"
        ]
    );
}

#[test]
fn only_numbers_are_returned_plus_one() {
    assert_eq!(made(Kind::Returned, " -> bool", "a == b"), [""; 0]);
    assert_eq!(made(Kind::Returned, "", "a(b);"), [""; 0]);
    assert_eq!(made(Kind::Returned, " -> usize", "return 7;"), [""; 0]);
}

#[test]
fn contracts_signatures_and_comments_are_left_alone() {
    let source = "
// a < b
ghost use Prim.Native.Nat.{_+_, _<_};
pub struct Row { at: [u8; 4] }
fn f(a: &[u8; 3], b: usize) -> usize
    requires { ⌜ a + 1 < 2 ⌝ }
    ensures { λ r. ⌜ r ≡ b [ 0 ] ⌝ }
{
    // x = a[i];
    b
}
";
    let whats: Vec<String> = found(source).into_iter().map(|edit| edit.what).collect();
    assert_eq!(whats, ["returned `b` plus one"]);
}

#[test]
fn an_edit_knows_its_line_and_its_function() {
    let source = "const A: u8 = 1;\n\nfn g() {\n    x = y +\n        2;\n}\n";
    let places: Vec<(usize, String)> = found(source)
        .iter()
        .map(|e| (e.line(source), e.inside.clone()))
        .collect();
    let g = || "g".to_string();
    assert_eq!(places, [(1, "A".to_string()), (4, g()), (4, g()), (5, g())]);
}
