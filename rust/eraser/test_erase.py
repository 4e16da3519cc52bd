#!/usr/bin/env python3
"""Tests of the eraser: what each rule makes of its form, and which forms are refused. And of `same_code.py`, how it
knows the symbol of a function.
"""

import re
import sys
import unittest

sys.dont_write_bytecode = True
from erase import Refused, deleted, erased  # noqa: E402
from same_code import functions, symbols  # noqa: E402

HOMES = {"moka_index": "engine", "moka_engine": "engine", "moka_uses": "callers"}
USES = "use crate::support::prelude::*;\n"


def made(text, crate="moka_engine"):
    return erased(text, crate, HOMES).removeprefix(USES)


class Deletes(unittest.TestCase):
    def test_clauses(self):
        text = "fn f(x: u64) -> u64\n    requires { 1 ≤ x }\n    ensures big { x ≤ result × {} }\n{\n    x\n}\n"
        self.assertEqual(made(text), "fn f(x: u64) -> u64\n{\n    x\n}\n")
        self.assertEqual(made("fn f()\n    requires* r { A };\n"), "fn f();\n")

    def test_ghost_items(self):
        self.assertEqual(made("ghost use A.{a, b};\nfn f() {}\n"), "\nfn f() {}\n")
        text = "trait T {\n    ghost says: { A } = { λ a. a };\n\n    fn f();\n}\n"
        self.assertEqual(made(text), "trait T {\n\n    fn f();\n}\n")
        self.assertEqual(made("impl T for A {\n    ghost says = { A } by { B };\n}\n"), "impl T for A {\n\n}\n")

    def test_models(self):
        text = "use std::marker::{Model, PhantomData};\n"
        text += "impl<K> Model for A<K> {\n    ghost Value = { K };\n}\nstruct B;\n"
        self.assertEqual(made(text), "use std::marker::PhantomData;\nstruct B;\n")
        text = "impl<K> Model\n    for A<K>\n{\n    ghost Value = { K };\n}\nstruct B;\n"
        self.assertEqual(made(text), "struct B;\n")

    def test_tactics(self):
        self.assertEqual(made("#![tactic(auto)]\nmod a;\n"), "mod a;\n")

    def test_drops(self):
        self.assertEqual(made("#[derive(Drop)]\nstruct A;\n"), "struct A;\n")
        self.assertEqual(made("#[derive(Clone, Drop)]\nstruct A;\n"), "#[derive(Clone)]\nstruct A;\n")
        self.assertEqual(made("impl<K: Eq + Drop, V: Drop> A<K, V> {}\n"), "impl<K: Eq, V> A<K, V> {}\n")
        self.assertEqual(made("fn f<K>(k: K)\nwhere\n    K: Drop,\n{\n}\n"), "fn f<K>(k: K)\n{\n}\n")
        text = "impl<K: Drop> Drop for A<K> {\n    fn drop(self) {\n"
        text += "        let A { a: _, b: _ } = self;\n    }\n}\nfn f() {}\n"
        self.assertEqual(made(text), "fn f() {}\n")

    def test_functions_exported_to_c(self):
        text = "fn a() {}\n\n/// B.\n#[unsafe(no_mangle)]\npub extern \"C\" fn b(\n    c: &[u8],\n) -> u64\n"
        text += "    ensures { c }\n{\n    if c {\n        a()\n    }\n}\n\nfn d() {}\n"
        self.assertEqual(made(text), "fn a() {}\n\nfn d() {}\n")

    def test_leaves_strings_and_comments(self):
        text = 'fn f() -> &str { "ghost use {" }\n// requires { a }\n'
        self.assertEqual(deleted(text), text)
        self.assertEqual(deleted("let c = '{'; let d: &'a str = r#\"ensures { \"#;\n").count("{"), 2)

    def test_keeps_lines(self):
        text = "ghost use A.{\n    a};\nfn f()\n    ensures { a\n    }\n{}\n"
        self.assertEqual(deleted(text, for_rattle=True).count("\n"), text.count("\n"))

    def test_members_that_std_requires(self):
        text = "impl BuildHasher for A {\n    ghost build_hasher = { λ a. a };\n}\n"
        self.assertEqual(deleted(text, for_rattle=True), text)
        self.assertEqual(deleted(text).count("ghost"), 0)


class Renames(unittest.TestCase):
    def test_paths(self):
        self.assertEqual(made("use crate::a::B;\n"), "use crate::engine::moka_engine::a::B;\n")
        self.assertEqual(made("use moka_index::Index;\n"), "use crate::engine::moka_index::Index;\n")
        self.assertEqual(made("use crate::a::B;\n", "moka_uses"), "use crate::callers::moka_uses::a::B;\n")
        text = "use std::hash::Hash;\nuse circular_buffer::heap::HeapCircularBuffer;\nuse std::fmt;\n"
        wanted = "use crate::support::hash::Hash;\nuse crate::support::circular_buffer::heap::HeapCircularBuffer;\n"
        self.assertEqual(made(text), wanted + "use std::fmt;\n")

    def test_clones_and_formatters(self):
        self.assertEqual(made("let b = a.clone();\n"), "let b = a.try_clone();\n")
        self.assertEqual(made("fn fmt<W: fmt::Write>(&self, f: &mut fmt::Formatter<W>) -> fmt::Result {}\n"),
                         "fn fmt(&self, f: &mut fmt::Formatter<'_>) -> fmt::Result {}\n")

    def test_clones_that_are_written_out(self):
        text = "impl Clone for A {\n    fn clone(&self) -> Result<Self, AllocError> {\n"
        text += "        Ok(A(self.0.clone()?))\n    }\n}\n"
        wanted = "impl Clone for A {\n    fn clone(&self) -> Self {\n"
        wanted += "        crate::support::clone::unless_refused((|| {\n"
        wanted += "        Ok(A(self.0.try_clone()?))\n    })())\n    }\n}\n"
        self.assertEqual(made(text), wanted)


class Refuses(unittest.TestCase):
    def test_unknown_forms(self):
        for text in [
            "ghost fn f() {}\n",
            "fn f() requires a + b {}\n",
            "trait T { ghost says = { a } }\n",
            "fn f() ensures { a \n",
            "/* a block comment */\n",
            "fn f() { prove!{ a } }\n",
            "impl Drop for A {\n    fn drop(self) {\n        count();\n    }\n}\n",
            "impl Drop for A {\n    fn drop(self) {\n        let A { a } = self;\n    }\n}\n",
            "fn f() { unsafe { g() } }\n",
            "#[tactic(none)] fn f() {}\n",
            "impl Model for A { fn f() {} }\n",
            "fn f(rt: HostRuntime) {}\n",
            "impl Clone for A {\n    fn clone(&self) -> A {\n        A\n    }\n}\n",
            'fn f() {\n    g("a.clone()");\n}\n',
            'fn f() {\n    g("std::io::x");\n}\n',
            "fn f() {\n    let x = a // as said\n    ;\n}\n",
            "impl<K> Clone\n    for A<K>\n{\n    fn clone(&self) -> Result<Self, AllocError> {\n        A\n    }\n}\n",
        ]:
            with self.subTest(text), self.assertRaises(Refused):
                erased(text, "moka_engine", HOMES)

    def refuses(self, what, *texts):
        for text in texts:
            with self.subTest(text), self.assertRaisesRegex(Refused, f"^{what} is left over"):
                erased(text, "moka_engine", HOMES)

    def test_attributes(self):
        self.refuses("an attribute", "#[decreases(n)]\nfn f() {}\n", "#[lemma]\nfn f() {}\n", "#![no_std]\n",
                     "#[derive(Eq, Frob)]\nstruct A;\n", "#[derive(Eq, Drop, Frob)]\nstruct A;\n",
                     "#[inline(often)]\nfn f() {}\n", "#[unsafe(no_mangle)]\nfn f() {}\n", "#[test]\nfn f() {}\n",
                     "#[cfg(test)]\nmod a;\n")

    def test_macros(self):
        self.refuses("a macro", "fn f() { assume!{ a } }\n", "fn f() { assume !(a) }\n",
                     'fn f() { println!(rt; "a"); }\n', 'fn f() { write!(rt; "a") }\n', "fn f() { matches!{ a } }\n",
                     "fn f() { text!(a) }\n", "fn f() { matches!(a(1); 2) }\n", "fn f() { vec![1] }\n",
                     "fn f() { assert!(rt; a) }\n", "fn f() { assert!(a) }\n", 'fn f() { panic!(rt; "a") }\n',
                     'fn f() { format!(in alloc; "a") }\n', "fn f() { vec![in alloc; 1] }\n")

    def test_words(self):
        self.refuses("a word behind a name", "proof fn f() {}\n", "pub spec fn f() {}\n", "pub(crate) spec fn f() {}\n",
                     "fn f() -> bool decreases n {}\n", "fn f() decreases n {}\n", "fn f(tracked x: u64) {}\n")
        self.refuses("a word behind a bracket or text", "fn f() decreases (n) {}\n", "fn f() invariant { x }\n",
                     "fn f() -> [u8; 2] invariant { x }\n", 'fn f() { while a == "" invariant { x } }\n')
        self.refuses("a word behind a type", "fn f() -> A<u64> decreases(n) {}\n", "fn f() -> A<u64> invariant { x }\n")
        self.refuses("a word before a brace", "fn f() { invariant { x } }\n", "fn f() { let x = calc { a }; }\n",
                     "fn f() { calc { .. } }\n", "fn f() { assert { a } }\n", "fn f() { g(); assert { a } by { b } }\n",
                     "fn f() { match a { A => calc { b } } }\n", "fn f() { loop invariant { a } }\n", "spec { a }\n",
                     "fn f() { if a { b } invariant { c } }\n", "mod tests {\n    fn f() {}\n}\n")

    def test_characters_and_calls(self):
        self.refuses("a character of Rattle's", "fn f() { x ∧ 1 }\n", "fn f(é: u64) {}\n")
        self.refuses("a word of Rattle's", "fn f(rt: HostRuntime) {}\n", "fn f() { a ==> b }\n")
        self.refuses("a clone that can fail", "fn f() { K::clone(&k)? }\n", "fn f() { k.clone( ) }\n")


class Allows(unittest.TestCase):
    def test_forms_of_rust(self):
        for text in [
            '// proof fn ∧\nfn f() -> &str { "proof fn ∧ #[lemma] a!{ b }" }\n',
            "#[derive(Clone, Copy)]\npub(crate) struct A(pub(super) u64);\n",
            "#[inline(always)]\nfn f<'a>(x: &'a mut u64) -> bool {\n    !(x as u64 != 1)\n}\n",
            "impl<K> A<K> for B<K>\nwhere\n    K: Eq,\n{\n    fn f() -> A<K> where K: Eq { A { b: 1 } }\n}\n",
            "fn f() {\n    let Some(x) = a.b() else { return !y };\n    for x in a[1..b] { if !c && d { g() } }\n}\n",
            'fn f() {\n    while let A { b } = c {\n        write!(f, "", g(1));\n    }\n}\n',
        ]:
            with self.subTest(text):
                self.assertEqual(made(text), text)


class Symbols(unittest.TestCase):
    def test_functions(self):
        text = "fn f(a: &[u8; 8]) -> [u8; 2]\n    ensures { a }\n{\n    if x { 'f' }\n}\n"
        text += "pub trait T<K> {\n    fn none(&self);\n    fn f(&self) {}\n}\n"
        text += "struct Of;\nimpl<\n    K: Fn(&K) -> u64,\n> Of<K> {\n    fn f() {}\n}\n"
        text += "impl By<K> {\n    fn f() {}\n}\n"
        text += "impl<K> T<K> for Of<u64>\nwhere\n    K: Eq,\n{\n    fn f() {}\n}\n"
        text += "impl<K> Drop for Of<K> {\n    fn drop() {}\n}\n"
        text += "impl<'a> c::T<A> for &'a str {\n    fn f() {}\n}\nimpl<X: Eq> T<X> for X {\n    fn f() {}\n}\n"
        text += "impl From<Soon> for Of {\n    fn f() {}\n}\nimpl From<io::Late> for Of {\n    fn f() {}\n}\n"
        wanted = {
            "f": ["a::b::f"],
            "T::f": ["a::b::T::f"],
            "Of::f": ["a::b::Of::f", "a::b::Of+K+U64::f"],
            "By::f": ["a::By::f", "a::c::By::f"],
            "<Of as T>::f": ["a::b::OfT::f", "a::b::OfU64TU64::f"],
            "Of::drop": ["a::b::Of::drop"],
            "<str as T>::f": ["a::b::RefStrTA::f"],
            "<X as T>::f": ["a::b::AnyT::f"],
            "<Of as From<Soon>>::f": ["a::b::OfFromSoon::f"],
            "<Of as From<io::Late>>::f": ["a::b::OfFromIoLate::f"],
        }
        found = dict(functions(text, "a::b"))
        self.assertEqual([*found], [*wanted])
        for name, form in found.items():
            for other, its in wanted.items():
                for symbol in its:
                    with self.subTest(name, symbol=symbol):
                        self.assertEqual(bool(re.fullmatch(form, symbol)), other == name)

    def test_symbols(self):
        module = 'define i64 @"a::b::A::f::<#1f>"(ptr %0) {\ndefine void @main() {\n'
        module += 'define void @"all_calls::c::f"() {\n'
        module += 'declare void @"a::b::g"()\n  call void @"a::b::h"()\n'
        self.assertEqual(symbols(module), "a::b::A::f\nmain\nc::f\n")


if __name__ == "__main__":
    unittest.main()
