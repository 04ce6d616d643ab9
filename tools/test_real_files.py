#!/usr/bin/env python3
"""Tests of real_files.py: which items it finds in a file, and where they begin and end."""

import re
import unittest

from real_files import items_of, line_at, place, trees

TOKEN = re.compile(r"\w+|\S")


def line_of(text):
    """The line that `token_lines` prints for a text without literals and lifetimes."""
    words = []
    for match in TOKEN.finditer(text):
        token, place_of = match[0], f"{match.start()}:{match.end()}"
        if token in "(){}[]":
            words.append(f"{token}:{place_of}")
        elif token[0].isalpha():
            words.append(f"Ident:{place_of}:{token.encode().hex()}")
        else:
            words.append(f"Punct:{place_of}:{token.encode().hex()}:Alone")
    return " ".join(words) + "\t"


def found(text):
    return [text[start:end] for start, end in items_of(trees(line_of(text)))]


class Items(unittest.TestCase):
    def test_each_item_of_a_file(self):
        items = ["#[a] pub(crate) use a::{b, c};", "const C: u8 = a < b;", "fn f() -> T<{ N }> { ; }", "impl<T> A<T> for B {}", "m! { a; }", "mod m;"]
        self.assertEqual(found(" ".join(items)), items)

    def test_inner_attributes_belong_to_no_item(self):
        self.assertEqual(found("#![a] #![b(c)] struct S; enum E {}"), ["struct S;", "enum E {}"])

    def test_what_is_in_braces_is_no_end_of_a_value(self):
        items = ["static S: T = T { a: 1 };", "type A = [u8; { 1 }];", "const fn f() {}", "extern crate a;", "extern fn g() {}"]
        self.assertEqual(found(" ".join(items)), items)

    def test_what_has_no_end_is_left_out(self):
        self.assertEqual(found("struct S; use a"), ["struct S;"])

    def test_an_item_begins_with_its_attributes(self):
        text = "fn f() {} #[a] #[b(c)] pub(crate) struct S; struct T(u8);"
        self.assertEqual(found(text), ["fn f() {}", "#[a] #[b(c)] pub(crate) struct S;", "struct T(u8);"])

    def test_an_item_ends_outside_of_generics(self):
        text = "struct S<const N: usize = { 1 }>(u8) where T: F<{ 2 }>; enum E {}"
        self.assertEqual(found(text), ["struct S<const N: usize = { 1 }>(u8) where T: F<{ 2 }>;", "enum E {}"])

    def test_an_arrow_closes_no_generics(self):
        self.assertEqual(found("struct S<F: Fn() -> u8> { f: F } x"), ["struct S<F: Fn() -> u8> { f: F }"])

    def test_a_refused_text_has_no_tokens(self):
        self.assertIsNone(trees("refused at 0: unbalanced group"))

    def test_the_line_of_a_refusal(self):
        self.assertEqual(place("refused at 12: expected `;`"), 12)
        self.assertEqual(line_at(b"a\n  b  c\nd", 5), "b c")


if __name__ == "__main__":
    unittest.main()
