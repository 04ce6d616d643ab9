#!/usr/bin/env python3
"""Tests of no_alloc_error.py."""

import unittest

from no_alloc_error import made_in

MADE = (
    "fn f() -> Result<(), AllocError> {\n    Err(AllocError)\n}",
    "fn f() -> Refusal {\n    Refusal::Memory(AllocError)\n}",
    "fn f() -> AllocError {\n    AllocError\n}",
    "fn f() {\n    let e = AllocError;\n}",
    "fn f() {\n    return Err(AllocError.into());\n}",
    "fn f() {\n    g(1, AllocError)\n}",
    "fn f() {\n    x.ok_or(AllocError)?\n}",
    "fn f() {\n    AllocError::from(AllocFailed { value: 1 })\n}",
    "impl A {\n    fn f() -> B { AllocError }\n}\n",
    "fn f()\n    ensures { x }\n{ match a { Some(_) => AllocError, None => b } }",
    "use std::alloc::AllocError as E;",
    "use std::alloc::{AllocFailed as F, Global};",
    "type E = std::alloc::AllocError;",
    "impl A for AllocError { fn f() -> Self { Self } }",
)
FINE = (
    "use std::alloc::{AllocError, AllocFailed};",
    "pub enum Refusal { Memory(AllocError), Syntax }",
    "pub struct A { e: AllocError, f: u8 }",
    "pub struct A(AllocError);",
    "impl From<AllocError> for A { fn from(e: AllocError) -> A { A(e) } }",
    "impl<T: Drop> From<AllocFailed<T>> for A { fn from(e: AllocFailed<T>) -> A { A(AllocError::from(e)) } }",
    "fn f(e: AllocError) -> Result<u8, AllocError> { g() }",
    "fn f() { let r: Result<u8, AllocError> = g(); }",
    "fn f() { g::<u8, AllocError>() }",
    "fn f() { match r { Err(AllocError) => 1, Ok(_) => 2 } }",
    "fn f() { if let Err(AllocError) = r { g() } }",
    "fn f() { match r { Err(AllocFailed { value }) => value, Ok(()) => 1 } }",
    "fn f() { g() } // AllocError",
    'fn f() { g("AllocError") }',
    "type R = std::result::Result<u8, AllocError>;",
    "impl A { ghost from_gives = { AllocError }; fn f() { g() } }",
)


class NoAllocError(unittest.TestCase):
    def test_expressions_are_found(self):
        for text in MADE:
            with self.subTest(text):
                self.assertEqual(len(made_in(text)), 1)

    def test_types_and_patterns_are_fine(self):
        for text in FINE:
            with self.subTest(text):
                self.assertEqual(made_in(text), [])

    def test_the_line_is_that_of_the_expression(self):
        self.assertEqual(made_in(MADE[0]), [2])


if __name__ == "__main__":
    unittest.main()
