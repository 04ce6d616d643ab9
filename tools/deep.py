#!/usr/bin/env python3
"""Runs the program on texts with deeply nested forms, and fails if one does not end as expected: with status 0, or with 1 if the innermost
token is wrong; or if four times the levels take much more than four times as long. Three forms take sixteen times as long, and get fewer
levels: items that are stored verbatim, each in the type or the value of another.

The text of a form is, with the given number of levels: the text before, the opening of each level, the middle, the closing of each level,
and the text after. For each form a line is printed: its name, and the most seconds of processor that one of its runs took. If words are
given, only the forms run whose names contain one of them.
"""

import argparse
import os
import resource
import subprocess
import sys
import tempfile
import threading
from dataclasses import dataclass
from pathlib import Path

TOP = Path(__file__).resolve().parent.parent
# The usual stack of a main thread.
STACK = 8 << 20
# How many levels a form has at most whose time grows as their square, and how many times as long four times the levels may take.
SQUARE_LEVELS, SQUARE_GROWTH = 1000, 24
# With this after the middle every form is refused.
WRONG = " => "


@dataclass(frozen=True)
class Place:
    """The context of a form: the kind of the text, and the text around the form."""

    kind: str
    before: str
    behind: str


TYPE = Place("derive", "struct S { a: ", " }")
FIELDS = Place("derive", "struct S { ", " }")
BOUND = Place("derive", "struct S<T: ", ">;")
WHERE = Place("derive", "struct S where T: for<'a> ", ";")
PREDICATE = Place("derive", "struct S where ", ": T;")
PARAMETERS = Place("derive", "struct S<", ">;")
DEFAULT = Place("derive", "struct S { a: u8 = ", " }")
VALUE = Place("derive", "enum E { A = ", " }")
ATTRIBUTES = Place("derive", "", " struct S;")
VISIBILITY = Place("visibility", "pub(in a", ")")
EXPRESSION = Place("stmts", "let _ = ", ";")
STATEMENTS = Place("stmts", "", "")
STATEMENT = Place("stmt", "", ";")
PATTERN = Place("stmts", "let ", " = a;")
ITEM = Place("item", "", "")
FILE = Place("file", "", "")
USE = Place("item", "use ", ";")


@dataclass(frozen=True)
class Form:
    """A form that can be nested in itself. `raw`: its content is stored as tokens, so that no token is wrong there. `square`: its time
    grows as the square of the levels."""

    name: str
    place: Place
    opening: str
    middle: str
    closing: str = ""
    raw: bool = False
    square: bool = False

    def text(self, levels, middle=None):
        inside = self.middle if middle is None else middle
        return self.place.before + self.opening * levels + inside + self.closing * levels + self.place.behind


FORMS = [
    Form("types in parentheses", TYPE, "(", "u8", ")"),
    Form("tuple types", TYPE, "(u8, ", "u8", ")"),
    Form("slice types", TYPE, "[", "u8", "]"),
    Form("array types", TYPE, "[", "u8", "; 1]"),
    Form("lengths of array types", TYPE, "[u8; { let _: ", "u8", "; }]"),
    Form("references", TYPE, "&'a mut ", "u8"),
    Form("pointers", TYPE, "*const ", "u8"),
    Form("qualified paths", TYPE, "<", "u8", " as A>::B"),
    Form("qualified paths without `as`", TYPE, "<", "u8", ">::B"),
    Form("words of type paths", TYPE, "a::", "A"),
    Form("path arguments", TYPE, "A<", "u8", ">"),
    Form("path arguments in paths as they are cast", TYPE, "<u8 as A<", "u8", ">>::B"),
    Form("associated types", TYPE, "A<B = ", "u8", ">"),
    Form("lists with late lifetimes", TYPE, "A<u8, ", "u8", ", 'a>"),
    Form("lists with late lifetimes first", TYPE, "A<u8, 'a, ", "u8", ">"),
    Form("late lifetimes in one list", PARAMETERS, "T, 'a: 'b + 'c, ", "T"),
    Form("arguments in parentheses", TYPE, "A(", "u8", ")"),
    Form("return types", TYPE, "A() -> ", "u8"),
    Form("constant arguments", TYPE, "A<{ let _: ", "u8", "; }>"),
    Form("constant arguments in expressions", EXPRESSION, "A::<{ ", "a", " }>"),
    Form("nameless structs", FIELDS, "_: struct { ", "a: u8", " }"),
    Form("nameless unions", FIELDS, "a: u8, _: union { ", "a: u8", ", b: u8 }"),
    Form("nameless structs with late lifetimes", FIELDS, "_: struct { a: A<u8, 'a>, ", "a: u8", " }"),
    Form("nameless structs and blocks", FIELDS, "_: struct { a: u8 = { let _ = b else { c }; }, ", "a: u8", " }"),
    Form("types in bounds", BOUND, "A<", "u8", ">"),
    Form("bounds", BOUND, "A + ", "A"),
    Form("lifetimes of bounds", BOUND, "for<'a> A + ", "A"),
    Form("bounds of a predicate", WHERE, "A + ", "A"),
    Form("types in bounds of a predicate", WHERE, "A<", "u8", ">"),
    Form("types of predicates", PREDICATE, "A<", "u8", ">"),
    Form("predicates", PREDICATE, "T: A, ", "T"),
    Form("parameters with attributes", PARAMETERS, "#[a] T: A = B, ", "T"),
    Form("fields", FIELDS, "pub a: u8, ", "a: u8"),
    Form("defaults of fields", DEFAULT, "(", "1", ")"),
    Form("values of variants", VALUE, "(", "1", ")"),
    Form("attributes", ATTRIBUTES, "#[a]", ""),
    Form("groups in an attribute", Place("derive", "#[a(", ")] struct S;"), "([{", "a", "}])", raw=True),
    Form("tokens in an attribute", Place("derive", "#[a = ", "] struct S;"), "(", "a", ")", raw=True),
    Form("words of a restricted visibility", VISIBILITY, "::a", ""),
    Form("parentheses", EXPRESSION, "(", "a", ")"),
    Form("parentheses in a statement", STATEMENTS, "(", "a", ")"),
    Form("parentheses in one statement", STATEMENT, "(", "a", ")"),
    Form("tuples", EXPRESSION, "(a, ", "a", ")"),
    Form("arrays", EXPRESSION, "[", "a", "]"),
    Form("repeated values", EXPRESSION, "[", "a", "; 1]"),
    Form("numbers of values", EXPRESSION, "[a; ", "1", "]"),
    Form("calls", EXPRESSION, "a(", "a", ")"),
    Form("calls of calls", EXPRESSION, "", "a", "()"),
    Form("method calls", EXPRESSION, "a.b(", "a", ")"),
    Form("method calls in a row", EXPRESSION, "", "a", ".b()"),
    Form("method calls with arguments of types", EXPRESSION, "a.b::<u8>(", "a", ")"),
    Form("types of method calls", EXPRESSION, "a.b::<[u8; ", "1", "]>()"),
    Form("indexes", EXPRESSION, "a[", "a", "]"),
    Form("indexes in a row", EXPRESSION, "", "a", "[1]"),
    Form("members", EXPRESSION, "", "a", ".b"),
    Form("numbered members", EXPRESSION, "", "a", ".0 "),
    Form("`?`", EXPRESSION, "", "a", "?"),
    Form("`!`", EXPRESSION, "!", "a"),
    Form("signs", EXPRESSION, "-", "a"),
    Form("`*`", EXPRESSION, "*", "a"),
    Form("`&`", EXPRESSION, "&", "a"),
    Form("`&mut`", EXPRESSION, "&mut ", "a"),
    Form("casts", EXPRESSION, "", "a", " as u8"),
    Form("casts in parentheses", EXPRESSION, "(", "a", " as u8)"),
    Form("types of casts", EXPRESSION, "a as [u8; ", "1", "]"),
    *(Form(f"`{it}` in a row", EXPRESSION, f"a {it} ", "a") for it in ("*", "/", "%", "+", "-", "<<", ">>", "&", "^", "|", "&&", "||", "=", "+=", "<<=")),
    *(Form(f"`{it}` in parentheses", EXPRESSION, f"(a {it} ", "a", ")") for it in ("*", "-", "<<", "==", "<", ">=", "||", "=")),
    Form("every level", EXPRESSION, "a = a || a && a | a ^ a & a << a + a * -a as u8 | ", "a"),
    Form("operators in a statement", STATEMENTS, "a + ", "a"),
    Form("`return`", EXPRESSION, "return ", "a"),
    Form("blocks", EXPRESSION, "{ ", "a", " }"),
    Form("blocks in statements", STATEMENTS, "{ ", "a", " }"),
    Form("blocks in a block", Place("block", "{", "}"), "{ ", "a", " }"),
    Form("blocks with inner attributes", EXPRESSION, "{ #![a] ", "a", " }"),
    Form("inner attributes", Place("stmts", "{ ", " }"), "#![a]", ""),
    Form("labelled blocks", EXPRESSION, "'a: { ", "a", " }"),
    Form("`unsafe`", EXPRESSION, "unsafe { ", "a", " }"),
    Form("`else if`", STATEMENTS, "if a {} else ", "{}"),
    Form("`else if` as a value", EXPRESSION, "if a {} else ", "{}"),
    Form("`else` and `if` in braces", EXPRESSION, "if a {} else { ", "a", " }"),
    Form("`if` in `if`", EXPRESSION, "if a { ", "a", " }"),
    Form("`if` as a condition", EXPRESSION, "if ", "a", " {}"),
    Form("`while`", STATEMENTS, "while a { ", "a", " }"),
    Form("`while` as a condition", STATEMENTS, "while ", "a", " {}"),
    Form("`loop`", STATEMENTS, "loop { ", "a", " }"),
    Form("`for`", STATEMENTS, "for a in a { ", "a", " }"),
    Form("`for` over blocks", STATEMENTS, "for a in { ", "a", " } {}"),
    Form("locals in locals", STATEMENTS, "let _ = { ", "a", " };"),
    Form("types of locals", STATEMENTS, "let _: [u8; { ", "a", " }] = a;"),
    Form("`let` with `else`", STATEMENTS, "let _ = a else { ", "a", " };"),
    Form("calls in `let` with `else`", STATEMENTS, "let _ = a({ ", "a", " }) else { a };"),
    Form("statements", STATEMENTS, "a; let b = c; ", "a"),
    Form("blocks in a row", STATEMENTS, "{ a } ", "a"),
    Form("blocks that go on", STATEMENTS, "{ ", "a", " }.b;"),
    Form("`;`", STATEMENTS, ";", ""),
    Form("attributes of statements", STATEMENTS, "#[a] ", "a"),
    Form("attributes of operands", EXPRESSION, "#[a] -", "a"),
    Form("macros", EXPRESSION, "m!(", "a", ")", raw=True),
    Form("macros in brackets and braces", EXPRESSION, "m![{", "a", "}]", raw=True),
    Form("macros in statements", STATEMENTS, "m! { ", "a", " }", raw=True),
    Form("words of paths", EXPRESSION, "a::", "a"),
    Form("words of a macro's path", EXPRESSION, "a::", "m!()"),
    Form("qualified paths in expressions", EXPRESSION, "<[u8; ", "1", "]>::B"),
    Form("types in expressions", EXPRESSION, "A::<[u8; ", "1", "]>"),
    Form("tuple patterns", PATTERN, "(a, ", "a", ")"),
    Form("patterns in parentheses", PATTERN, "(", "a", ")"),
    Form("patterns of tuple structs", PATTERN, "A(", "a", ")"),
    Form("types in patterns", PATTERN, "A::<[u8; { let ", "a", " = a; }]>"),
    Form("struct literals", EXPRESSION, "S { a: ", "1", " }"),
    Form("struct literals with attributes", EXPRESSION, "S { #[a] a: b, c: ", "1", " }"),
    Form("what a struct literal takes the rest of", EXPRESSION, "S { ..", "a", " }"),
    Form("struct literals in heads", STATEMENTS, "if (S { a: ", "1", " }) {}"),
    Form("modules", ITEM, "mod m { ", "", " }"),
    Form("modules with attributes", ITEM, "#[a] mod m { #![b] ", "", " }"),
    Form("modules in a file", FILE, "use a; mod m { ", "", " } fn f();"),
    Form("functions", ITEM, "fn f() { ", "", " }"),
    Form("functions behind attributes", ITEM, "#[a] fn f() { #![b] ", "", " }"),
    Form("functions in a file", FILE, "fn f() { ", "a", " }"),
    Form("types of parameters", ITEM, "fn f(a: [u8; { ", "1", " }]) {}"),
    Form("types of functions that are kept", ITEM, "fn f(a: [u8; { ", "1", " }]);", square=True),
    Form("nameless parameters", ITEM, "trait T { fn f(A<{ ", "1", " }>); }"),
    Form("values of constants", ITEM, "const A: u8 = { ", "1", " };"),
    Form("values of constants that are kept", ITEM, "const A: u8 = { ", "1", " } where A: B;", square=True),
    Form("constants with generics", ITEM, "const A<T>: u8 = { ", "1", " };"),
    Form("values of statics", ITEM, "static A: u8 = { ", "1", " };"),
    Form("types of statics that are kept", ITEM, "static A: [u8; { ", "1", " }];", square=True),
    Form("type aliases", ITEM, "type A = [u8; { ", "1", " }];"),
    Form("bounds of types that are kept", ITEM, "type A: B<{ ", "1", " }>;"),
    Form("traits", ITEM, "trait T { fn f() { ", "", " } }"),
    Form("constants of traits", ITEM, "trait T { const A: u8 = { ", "1", " }; }"),
    Form("impls", ITEM, "impl T { fn f() { ", "", " } }"),
    Form("impls with generics", ITEM, "impl<> <A<{ ", "1", " }>>::B {}"),
    Form("self types of impls", ITEM, "impl A for B<{ ", "1", " }> {}"),
    Form("impls with late lifetimes", ITEM, "impl<T, 'a> T { fn f() { ", "", " } }"),
    Form("constants of impls", ITEM, "impl T { const A: u8 = { ", "1", " }; }"),
    Form("constants of impls that are kept", ITEM, "impl T { const A<T>: u8 = { ", "1", " }; }"),
    Form("foreign modules", ITEM, 'extern "C" { static a: [u8; { ', "1", " }]; }"),
    Form("use trees in braces", USE, "a::{", "b", "}"),
    Form("use trees in braces alone", USE, "{", "b", "}"),
    Form("use trees with `::` before them", Place("item", "use {::a, ", "};"), "{", "b", "}"),
    Form("words of a use", USE, "a::", "b"),
    Form("items in a row", FILE, "fn f() {} ", ""),
    Form("definitions by `macro`", ITEM, "macro m { ", "", " }", raw=True),
]

# Delimiters that are never closed.
UNCLOSED = [
    Form("unclosed parentheses", EXPRESSION, "(", ""),
    Form("unclosed brackets", EXPRESSION, "[", ""),
    Form("unclosed braces", STATEMENTS, "{", ""),
    Form("unclosed groups of each kind", STATEMENTS, "([{", ""),
    Form("unclosed `<`", TYPE, "A<", "u8"),
    Form("unclosed nameless structs", FIELDS, "_: struct { ", "a: u8"),
]


def limited():
    """Gives the child the usual stack."""
    resource.setrlimit(resource.RLIMIT_STACK, (STACK, resource.getrlimit(resource.RLIMIT_STACK)[1]))


def run(binary, task, kind, text, seconds):
    """The status of the program, or None after a timeout, and its seconds of processor."""
    with tempfile.TemporaryFile() as given:
        given.write(text.encode())
        given.seek(0)
        child = subprocess.Popen([binary, task, kind], stdin=given, stdout=subprocess.DEVNULL, stderr=subprocess.DEVNULL, preexec_fn=limited)
        late = threading.Timer(seconds, child.kill)
        late.start()
        _pid, ended, used = os.wait4(child.pid, 0)
        late.cancel()
        child.returncode = os.waitstatus_to_exitcode(ended)
    return child.returncode, used.ru_utime + used.ru_stime


def runs_of(form):
    """The runs of a form: the task, the text in place of its middle, and the expected status."""
    if form in UNCLOSED:
        return [("print", None, 1)]
    wrong = [] if form.raw else [("print", form.middle + WRONG, 1)]
    return [("print", None, 0), ("check", None, 0), *wrong]


def tried(form, options):
    """The most seconds that a run of the form took, and its errors."""
    most, faults = 0.0, []
    most_levels, growth = (min(options.levels, SQUARE_LEVELS), SQUARE_GROWTH) if form.square else (options.levels, options.growth)
    for task, middle, wanted in runs_of(form):
        took = []
        for levels in (most_levels // 4, most_levels):
            status, seconds = run(options.bin, task, form.place.kind, form.text(levels, middle), options.seconds)
            took.append(seconds)
            if status != wanted:
                faults.append(f"{task}, {levels} levels: status {status} instead of {wanted}" + ("" if middle is None else ", with a wrong token"))
        few, many = took
        if many > growth * few + options.noise:
            faults.append(f"{task}: {few:.2f} s for {most_levels // 4} levels, {many:.2f} s for {most_levels}")
        most = max(most, many)
    return most, faults


def parsed(words):
    parser = argparse.ArgumentParser(description=__doc__.splitlines()[0])
    parser.add_argument("words", nargs="*", help="those forms alone whose names contain one of these")
    parser.add_argument("--bin", default=str(TOP / "crates/syn_canon/out/syn_canon"), help="the built program")
    parser.add_argument("--levels", type=int, default=100_000, help="how many levels; a quarter of them is run too")
    parser.add_argument("--seconds", type=float, default=20, help="how long a run may take")
    parser.add_argument("--growth", type=float, default=8, help="how many times as long four times the levels may take")
    parser.add_argument("--noise", type=float, default=0.3, help="the seconds that this may be wrong by")
    return parser.parse_args(words)


def main(words=None):
    options = parsed(words)
    forms = [it for it in FORMS + UNCLOSED if not options.words or any(word in it.name for word in options.words)]
    wrong = 0
    for form in forms:
        seconds, faults = tried(form, options)
        print(f"{form.name:45} {seconds:6.2f} s", flush=True)
        for fault in faults:
            print(f"    {fault}", flush=True)
        wrong += bool(faults)
    print(f"{len(forms) - wrong} of {len(forms)} forms passed")
    return 1 if wrong or not forms else 0


if __name__ == "__main__":
    sys.exit(main())
