#!/usr/bin/env python3
"""Tests of borsh_derive.py: what it takes, what it refuses, and that it writes the same twice."""

import contextlib
import io
import os
import shutil
import subprocess
import time
import unittest
import unittest.mock

import borsh_derive
from cases import HEAD, Cases, droppable
from test_refused import Refused  # noqa: F401, which is run with the others
from test_words import Words  # noqa: F401, which is run with the others


class Taken(Cases):
    def test_named_struct(self):
        text = self.written('// derive: borsh\npub struct Point {\n    pub x: u32,\n    pub y: u32,\n}\n', 'types_point')
        self.assertIn('type Fields = (u32, u32);', text)
        self.assertIn('ghost view = { λ v. (v.x, v.y) };', text)
        self.assertIn('write_two(&self.x, &self.y, alloc, writer)', text)
        self.assertIn('    fn from_parts((x, y): Fields) -> Point {\n        Point { x, y }\n', text)

    def test_put(self):
        text = self.written('// derive: borsh\npub struct Point {\n    pub x: u32,\n    pub y: Option<[u8; 4]>,\n}\n', 'types_point')
        self.assertIn('    fn put(&self, room: &mut [u8]) -> Option<usize> {\n        put_two(&self.x, &self.y, room)\n', text)
        text = self.written('// derive: borsh\npub struct Id<A>(pub A, pub PhantomData<String>);\n', 'types_id')
        self.assertIn('        put_two(&self.0, &self.1, room)\n', text)
        text = self.written('// derive: borsh\npub struct Id(pub u64);\n', 'types_id')
        self.assertIn('        self.0.put(room)\n', text)
        text = self.written('// derive: borsh\npub enum Side {\n    Left,\n    Right,\n}\n', 'types_side')
        self.assertIn('            Side::Right => put_bytes(&[1], room),\n', text)
        text = self.written('// derive: borsh\npub enum Side {\n    Left(u8),\n    Right { at: String },\n}\n', 'types_side')
        self.assertIn('            Side::Right { at } => put_two(&Tag(1), at, room),\n', text)

    def test_what_grows_is_put_into_a_room_first(self):
        put = '        if let Some(n) = self.put(&mut room) {\n            return write_bytes(&room[..n], writer);\n        }\n'
        for types in ('struct S(pub u8, pub String);', 'struct S(pub u8, pub Option<[Vec<u8>; 2]>);', 'enum S {\n    A,\n    B(String),\n}'):
            self.assertIn(put, self.written('// derive: borsh\npub %s\n' % types, 'types_s'))
        for types in ('struct S(pub String);', 'struct S(pub u8, pub [u8; 32]);', 'enum S {\n    A,\n    B(u8),\n}'):
            self.assertNotIn(put, self.written('// derive: borsh\npub %s\n' % types, 'types_s'))

    def test_length(self):
        text = self.written('// derive: borsh\npub struct Point(pub u8, pub u16, pub String);\n', 'types_point')
        self.assertIn('        let fields = (&self.0, &self.1, &self.2);\n        fields.encoded_length()\n', text)
        text = self.written('// derive: borsh\npub struct Id(pub u64);\n', 'types_id')
        self.assertIn('        self.0.encoded_length()\n', text)
        text = self.written('// derive: borsh\npub struct Note<\'a>(pub u8, pub &\'a str);\n', 'types_note')
        self.assertNotIn('encoded_length', text)

    def test_no_put(self):
        fields = ''.join('    pub f%d: u8,\n' % index for index in range(13))
        for types in ('struct S(pub Option<BTreeMap<u8, u8>>);', 'struct S(pub u8, pub [VecDeque<u8>; 2]);', 'struct S;',
                      'struct S {\n%s}' % fields, 'enum S {\n    A,\n    B {\n%s},\n}' % fields.replace('pub ', '    ')):
            text = self.written('// derive: borsh\npub %s\n' % types, 'types_s')
            self.assertNotIn('fn put', text)

    def test_fields_named_as_the_parameter(self):
        one = self.written('// derive: borsh\npub struct Form {\n    pub fields: u64,\n}\n', 'types_form')
        self.assertIn('    fn from_parts(fields: Fields) -> Form {\n        Form { fields }\n', one)

    def test_tuple_struct_of_one_field(self):
        text = self.written('// derive: borsh\npub struct Id(pub u64);\n', 'types_id')
        self.assertIn('type Fields = u64;', text)
        self.assertIn('ghost view = { λ v. v.0 };', text)
        self.assertIn('        self.0.serialize(alloc, writer)\n', text)
        self.assertIn('    fn from_parts(part0: Fields) -> Id {\n        Id(part0)\n', text)

    def test_a_list_of_a_type_of_ones_own_alone(self):
        for kind in ('Vec<B>', 'Box<B>', 'Rc<B>', 'Option<Vec<B>>', 'BTreeMap<u8, (B, u8)>', 'Vec<C>', 'Result<u8, [C; 2]>'):
            text = self.written('use super::other::C;\n\n// derive: borsh\npub struct B(pub String);\n\n// derive: borsh, schema\npub struct A {\n    pub b: %s,\n    // skip\n    pub c: u8,\n}\n' % kind, 'types_a')
            for row in ('type Fields = (%s, ());' % kind, 'ghost view = { λ v. (v.b, tt) };', '        self.b.serialize(alloc, writer)\n', 'fn from_parts((b, _): Fields) -> A {\n        A {\n            b,\n', 'add_named::<Fields>(alloc, "A", NAMES, map)'):
                self.assertIn(row, text)
        for kind in ('B', 'Vec<String>', '[B; 2]', '(B, u8)', 'Vec<T>'):
            text = self.written('// derive: borsh\npub struct B(pub String);\n\n// derive: borsh\npub struct A<T>(pub %s, pub PhantomData<T>);\n'.replace(', pub PhantomData<T>', '').replace('A<T>', 'A<T>' if 'T' in kind else 'A') % kind, 'types_a')
            self.assertIn('= %s;\n' % kind, text)

    def test_references(self):
        text = self.written('use super::other::Other;\n\n// derive: borsh\npub struct Message<\'a, T: Clone> {\n    pub to: &\'a str,\n    pub rows: &\'a [(u8, T)],\n    pub other: &\'a Other,\n    pub name: CowStr<\'a>,\n}\n', 'types_message')
        for row in ("type Fields<'a, T> = (&'a str, &'a [(u8, T)], &'a Other, CowStr<'a>);", "impl<'a, T: Clone + BorshSerialize> BorshSerialize for Message<'a, T> {", 'use super::other::Other;\n',
                    "        ensures { result ≡ ⟦<Fields<'a, T> as BorshType>⟧.codec.is_zero_width }\n", '        write_four(&self.to, &self.rows, &self.other, &self.name, alloc, writer)\n'):
            self.assertIn(row, text)
        for word in ('FromParts', 'BorshDeserialize'):
            self.assertNotIn(word, text)
        self.assertIn("impl BorshType for Note {", self.written('// derive: borsh\npub struct Note(pub &\'static [u8]);\n', 'types_note'))
        self.assertIn('read_parts', self.written('// derive: borsh\npub struct Note(pub CowStr<\'static>);\n', 'types_note'))
        self.assertIn('read_parts', self.written('// derive: borsh\npub struct Note<\'a>(pub u8, pub PhantomData<&\'a u8>);\n', 'types_note'))
        for field in ('CowStr<\'a>', 'Cow<\'a, u16>', 'Vec<CowStr<\'a>>', 'Option<CowSlice<\'a, u8>>, pub CowStr<\'a>'):
            text = self.written('// derive: borsh\npub struct Note<\'a>(pub f64, pub %s);\n' % field, 'types_note')
            for row in ("type Parts = Fields<'a>;", "fn deserialize_reader<R: Read>(alloc: Global, reader: &mut R) -> Result<Note<'a>> {", 'read_parts'):
                self.assertIn(row, text)
        self.assertIn('fn put', self.written('// derive: borsh\npub struct Note<\'a>(pub f64, pub CowStr<\'a>);\n', 'types_note'))
        self.assertIn('fn put', self.written('// derive: borsh\npub struct Note<\'a>(pub f64, pub Cow<\'a, u8>);\n', 'types_note'))
        self.refused('// derive: borsh\npub struct A<\'a>(%s);\n' % ', '.join(['pub &\'a str'] * 13), 2, 'more than 12 fields')
        self.refused('// derive: borsh, schema\npub struct A<\'a>(pub &\'a str);\n', 2, 'only encoded, so it has no schema and is no key')

    def test_unit_struct(self):
        text = self.written('// derive: borsh\npub struct Marker;\n', 'types_marker')
        self.assertIn('type Fields = ();', text)
        self.assertIn('ghost view = { λ _. tt };', text)
        self.assertIn('(&self, _alloc: Global, writer: &mut W)', text)
        self.assertIn('write_bytes(&[], writer)', text)

    def test_parameters_bounds_and_where(self):
        text = self.written('// derive: borsh\npub struct Pair<A: Clone, B, const N: usize>\nwhere\n    B: Copy,\n{\n    pub a: A,\n    pub b: B,\n    pub c: [u8; N],\n}\n', 'types_pair')
        self.assertIn('impl<A: Clone + BorshType, B: BorshType, const N: usize> BorshType for Pair<A, B, N>\nwhere\n    B: Copy,\n{', text)
        self.assertIn('type Fields<A, B, const N: usize> = (A, B, [u8; N]);', text)
        self.assertIn('Prim.search (key_facts, A.premises, B.premises)', text)
        self.assertIn('    fn width() -> usize {\n        0\n', text)
        text = self.written('// derive: borsh\npub struct Rows<A>(pub [Vec<A>; 2]);\n', 'types_rows')
        self.assertIn('    fn width() -> usize {\n        0\n', text)
        text = self.written('// derive: borsh\npub struct Rows<A>(pub Vec<A>, pub [u8; 2]);\n', 'types_rows')
        self.assertNotIn('width', text)

    def test_nested_types_in_one_line(self):
        text = self.written('// derive: borsh\npub struct Deep {\n\tpub map: Map<\n\t\tString,\n\t\tVec<Option<Vec<(u8,\n\t\tu16)>>>,\n\t>,\n}\n', 'types_deep')
        self.assertIn('type Fields = Map<String, Vec<Option<Vec<(u8, u16)>>>>;', text)

    def test_more_than_twelve_fields(self):
        fields = ''.join('    pub f%d: u8,\n' % index for index in range(20))
        text = self.written('// derive: borsh\npub struct Wide {\n%s}\n' % fields, 'types_wide')
        self.assertIn('        let (group1, group2) = fields;\n        let (f0, f1, f2, f3, f4, f5, f6, f7, f8, f9) = group1;\n        let (f10, ', text)
        self.assertIn('type Fields = (Part1Fields, Part2Fields);', text)
        self.assertIn('type Part2Fields = (u8, u8, u8, u8, u8, u8, u8, u8, u8, u8);', text)
        self.assertIn("struct Part2<'a>(&'a Wide);\n", text)
        self.assertIn('        let whole = self.0;\n        write_ten(\n            &whole.f10, &whole.f11, ', text)
        self.assertIn('        let part1 = Part1(self);\n        let part2 = Part2(self);\n        write_two(&part1, &part2, alloc, writer)\n', text)
        self.assertIn('contramap (λ r. (⟦<Wide as FromParts>⟧.view r.0.now).1)', text)
        self.assertIn('        ensures { result ≡ ⟦<Part2Fields as BorshType>⟧.codec.is_zero_width }\n', text)
        self.assertIn('        ensures { ⊤ → ⟦<Wide as FromParts>⟧.view result ≡ fields }\n', text)

    def test_two_hundred_fields(self):
        fields = ''.join('    pub f%d: u8,\n' % index for index in range(200))
        text = self.written('// derive: borsh, schema\npub struct Wide {\n%s}\n' % fields, 'types_wide')
        # seventeen groups in two groups
        self.assertIn('type Fields = (Part1Fields, Part2Fields);', text)
        self.assertIn("contramap (λ r. (⟦<Wide as FromParts>⟧.view r.0.now).1.8)", text)
        self.assertEqual(text.count("struct Part"), 19)
        self.assertEqual(' '.join(text.split()).count('groups_described (more_groups '), 3)
        for index in range(200):
            self.assertIn('&whole.f%d,' % index, text)
            self.assertIn('v.f%d,' % index, text)

    def test_more_than_twelve_fields_with_parameters(self):
        fields = ''.join('    pub f%d: u8,\n' % index for index in range(11))
        text = self.written('// derive: borsh\npub struct Wide<A: Clone, B, const N: usize> {\n    pub z: B,\n%s    pub a: Vec<A>,\n    pub b: [u8; N],\n}\n' % fields, 'types_wide')
        self.assertIn("type Fields<A, B, const N: usize> = (Part1Fields<B>, Part2Fields<A, N>);", text)
        self.assertIn("type Part2Fields<A, const N: usize> = (u8, u8, u8, u8, u8, Vec<A>, [u8; N]);", text)
        self.assertIn("&'a u8, &'a Vec<A>, &'a [u8; N]);", ' '.join(text.split()).replace('u8; N], )', 'u8; N])'))
        self.assertIn("impl<'a, A: Clone + BorshType, const N: usize> BorshType for Part2<'a, A, N> {", text)
        self.assertIn("impl<'a, A: Clone + BorshSerialize, const N: usize> BorshSerialize for Part2<'a, A, N> {", text)
        self.assertIn('Prim.search (key_facts, A.premises) };', text)
        self.assertIn('&Part2(', text)

    def test_variants_of_more_than_eleven_fields(self):
        fields = ', '.join('f%d: u8' % index for index in range(13))
        text = self.written('// derive: borsh\npub enum E {\n    A,\n    B { %s },\n}\n' % fields, 'types_e')
        self.assertIn("struct BPart1<'a>(&'a u8, &'a u8, &'a u8, &'a u8, &'a u8, &'a u8);", text)
        self.assertIn("struct BPart<'a>(", text)
        self.assertIn('            &BPart1(self.0, self.1, self.2, self.3, self.4, self.5),\n', text)
        self.assertIn('write_two( &Tag(1), &BPart(f0, f1, f2, f3, f4, f5, f6, f7, f8, f9, f10, f11, f12), alloc, writer, )', ' '.join(text.split()))
        self.assertIn('Case<1, ((u8, u8, u8, u8, u8, u8), (u8, u8, u8, u8, u8, u8, u8))>', ' '.join(text.split()))
        twelve = self.written('// derive: borsh\npub enum E {\n    B { %s },\n}\n' % fields.replace(', f12: u8', ''), 'types_e')
        self.assertIn('&BPart(', twelve)
        self.assertNotIn('BPart1', twelve)

    def test_enum(self):
        text = self.written('// derive: borsh\npub enum E {\n    A,\n    B(u8, String),\n    C { x: u64 },\n}\n', 'types_e')
        self.assertIn('type Variants = Fork<Fork<Case<0, ()>, Case<1, (u8, String)>>, Case<2, u64>>;', text)
        self.assertIn('E.B part0 part1 ↦ left (right (fields (part0, part1)))', text)
        self.assertIn('Fork::Right((_, x)) => E::C { x },', text)
        self.assertIn('    fn from_cases(cases: Variants) -> E\n        ensures { ⊤ → ⟦<E as FromCases>⟧.view result ≡ cases }\n    {\n', text)
        self.assertIn('E::A => write_bytes(&[0], writer),', text)
        self.assertIn('E::B(part0, part1) => write_three(&Tag(1), part0, part1, alloc, writer),', text)

    def test_an_enum_of_many_variants(self):
        kinds = ('    V%d,\n', '    V%d(u8, String),\n', '    V%d { a: u64, b: Vec<u8> },\n', '    V%d(u64),\n')
        variants = ''.join(kinds[index % 4] % index for index in range(32))
        text = self.written('// derive: borsh, schema\npub enum Opcode {\n%s}\n' % variants, 'types_opcode')
        flat = ' '.join(text.split())
        # the tree is as deep as the logarithm of the number of variants, and each variant has its place in it
        self.assertIn('type Variants = Fork< Fork< Fork< Fork< Fork<Case<0, ()>, Case<1, (u8, String)>>, Fork<Case<2, (u64, Vec<u8>)>, Case<3, u64>>, >,', flat)
        self.assertIn('Opcode.V0 ↦ left (left (left (left (left (fields tt)))))', flat)
        self.assertIn('Opcode.V21 part0 part1 ↦ right (left (right (left (right (fields (part0, part1))))))', flat)
        self.assertIn('Opcode.V31 part0 ↦ right (right (right (right (right (fields part0)))))', flat)
        for index in range(32):
            self.assertIn('Case<%d, ' % index, flat)
            self.assertIn('("V%d", &[%s])' % (index, '"a", "b"' if index % 4 == 2 else ''), flat)
        self.assertIn('Opcode::V30 { a, b } => write_three(&Tag(30), a, b, alloc, writer),', flat)
        self.assertEqual(flat.count('Fork<'), 2 * 31)

    def test_empty_encodings_and_sizes(self):
        def shown(types, file='types_a'):
            text = self.written('// derive: borsh\n' + types, file)
            return text[text.index('fn encodes_empty'):text.index(' BorshSerialize for ')]

        text = shown('pub struct A {\n    pub a: (),\n    pub b: Vec<u8>,\n}\n')
        self.assertIn('        false\n', text)
        self.assertIn('        size_of::<A>()\n', text)
        # a name may be the file's own, and an array may have no elements
        for types in ('pub struct A(pub ());\n', 'pub struct A(pub [u8; N]);\npub const N: usize = 0;\n',
                      'pub struct A(pub String);\n\npub type String = ();\n', 'pub struct A(pub other::Vec);\n'):
            self.assertIn('        <Fields>::encodes_empty()\n', shown(types))
        text = shown('pub struct A<T> {\n    pub a: T,\n    pub b: u8,\n}\n')
        self.assertIn('        <Fields<T>>::encodes_empty()\n', text)
        self.assertIn('        <Fields<T>>::element_size()\n', text)
        self.assertIn('        size_of::<A>()\n', shown('pub enum A {\n    B(u8),\n    C,\n}\n'))

    def test_tags(self):
        text = self.written('// derive: borsh\npub enum E {\n    A = 3,\n    B,\n    C = 0x1_0,\n}\n', 'types_e')
        self.assertIn('Fork<Fork<Case<3, ()>, Case<4, ()>>, Case<16, ()>>', text)
        text = self.written('// derive: borsh\npub enum E {\n    // tag: 7\n    A(u8),\n    B,\n}\n', 'types_e')
        self.assertIn('Fork<Case<7, u8>, Case<8, ()>>', text)

    def test_skipped_fields(self):
        text = self.written('// derive: borsh\npub struct Cached {\n    pub key: u8,\n    // skip\n    pub cache: Option<u64>,\n}\n', 'types_cached')
        self.assertIn('type Fields = u8;', text)
        self.assertIn('cache: Default::default(),', text)
        self.assertNotIn('u64', text)

    def test_skipped_in_the_line_of_the_field(self):
        for types in ('struct A {\n    pub a: u8,\n    pub b: u16, // skip\n}\n', 'struct A {\n    pub b: Option<\n        u16,\n    >, // skip\n    pub a: u8,\n}\n',
                      'struct A {\n    pub a: u8,\n    pub b: u16 // skip\n}\n', 'struct A(\n    pub u16, // skip\n    pub u8,\n);\n',
                      'struct A(\n    pub u16, // skip\n    // skip\n    pub u32,\n    pub u8\n);\n', 'struct A(\n    pub u8,\n    pub u16 // skip\n);\n'):
            text = self.written('// derive: borsh\npub ' + types, 'types_a')
            self.assertIn('type Fields = u8;', text, types)
        text = self.written('// derive: borsh\npub enum E {\n    A {\n        x: u16, // skip\n        y: u8,\n    },\n    B,\n}\n', 'types_e')
        self.assertIn('type Variants = Fork<Case<0, u8>, Case<1, ()>>;', text)

    def test_skipped_fields_without_names(self):
        text = self.written('// derive: borsh, schema\npub struct Cached(\n    pub u8,\n    // skip\n    pub Option<u64>,\n    pub u16,\n);\n', 'types_cached')
        self.assertIn('type Fields = (u8, u16);', text)
        self.assertIn('λ v. (v.0, v.2)', text)
        self.assertIn('        write_two(&self.0, &self.2, alloc, writer)\n', text)
        self.assertIn('        Cached(part0, Default::default(), part1)\n', text)
        self.assertNotIn('u64', text)

    def test_skipped_fields_of_variants(self):
        variants = '    A(\n        u8,\n        // skip\n        u64,\n    ),\n    B {\n        // skip\n        x: u64,\n        y: u16,\n    },\n    C {\n        // skip\n        z: u64,\n    },\n'
        text = self.written('// derive: borsh, schema\npub enum E {\n%s}\n' % variants, 'types_e')
        self.assertIn('type Variants = Fork<Fork<Case<0, u8>, Case<1, u16>>, Case<2, ()>>;', text)
        self.assertIn('E.A part0 _ ↦ left (left (fields part0))', text)
        self.assertIn('            E::A(part0, _) => write_two(&Tag(0), part0, alloc, writer),\n', text)
        self.assertIn('E::B { y, .. } => write_two(&Tag(1), y, alloc, writer),', text)
        self.assertIn('E::C { .. } => write_bytes(&[2], writer),', text)
        self.assertIn('("B", &["y"]), ("C", &[])', text)
        self.assertNotIn('u64', text)

    def test_imports_of_fields(self):
        text = self.written('use std::collections::{BTreeMap, HashMap as Table};\nuse super::other::Other;\n\n// derive: borsh\npub struct Own(pub u8);\n\n// derive: borsh\npub struct Book {\n    pub a: Table<u8, Own>,\n    pub b: Other,\n}\n', 'types_book')
        self.assertIn('use super::other::Other;\nuse super::types::{Book, Own};\n', text)
        self.assertIn('use std::collections::HashMap as Table;\n', text)
        self.assertNotIn('BTreeMap', text)

    def test_names_of_the_library(self):
        text = self.written('use super::mine::Write;\n\n// derive: borsh\npub struct Book {\n    pub a: Result<u8, Write>,\n    pub b: u8,\n}\n', 'types_book')
        self.assertIn('fn serialize<W: borsh::derived::Write>(', text)
        self.assertIn('-> borsh::derived::Result<()> {', text)
        self.assertNotIn('derived::*', text)
        text = self.written('// derive: borsh\npub struct Case<W, R>(pub W, pub R);\n', 'types_case')
        self.assertIn('fn serialize<WType: Write>(', text)
        self.assertIn('fn deserialize_reader<RType: Read>(', text)

    def test_imports_of_the_library(self):
        text = self.written('// derive: borsh\npub struct Book(pub u8);\n', 'types_book')
        self.assertIn('use super::types::Book;\nuse borsh::derived::*;\n\n', text)
        text = self.written('use borsh::BorshKey;\n\n// derive: borsh\npub struct Book<K: BorshKey + Ord>(pub Set<K>);\n', 'types_book')
        self.assertIn('use super::types::Book;\nuse borsh::derived::*;\n\n', text)
        text = self.written('use borsh::BorshKey;\n\n// derive: borsh\npub struct Book<K: BorshKey + Ord>(pub Result<Set<K>, u8>);\n', 'types_book')
        self.assertIn('use borsh::derived::{\n    BorshDeserialize, BorshKey, ', text)
        text = self.written('use super::other::*;\n\n// derive: borsh\npub struct Book(pub u8);\n', 'types_book')
        self.assertIn('use borsh::derived::{\n', text)
        self.assertNotIn('derived::*', text)

    def test_keys(self):
        text = self.written('// derive: borsh, key\n#[derive(Drop, PartialEq, Eq, PartialOrd, Ord)]\npub struct Id {\n    pub a: u8,\n    pub b: String,\n    pub c: bool,\n}\n', 'types_id')
        self.assertIn('impl BorshKey for Id {\n', text)
        self.assertIn('contramap_ordered', text)
        self.assertIn('(λ v. (v.a, (v.b, v.c)))', text)
        self.assertIn('⟦<(u8, (String, bool)) as BorshKey>⟧.ordered', text)

    def test_enums_as_keys(self):
        text = self.written('// derive: borsh, key\n#[derive(Drop, PartialEq, Eq, PartialOrd, Ord)]\npub enum Side {\n    Left,\n    Right,\n}\n', 'types_side')
        for row in ('impl BorshKey for Side {\n', '        | Side.Right ↦ elim [\n          | Side.Right ↦ (λ _. refl, λ _. refl)\n          | _ ↦ (λ e. absurd (true≢false (sym e)), λ h. absurd h)\n        ]\n',
                    'ghost use Rattle.sample.specs.contracts.types.SideOrd.TheImpl.Laws.{total-law, matches_eq-law};\n', 'ghost use Rattle.std.proofs.Common.{sym, true≢false};\n'):
            self.assertIn(row, text)
        text = self.written('// derive: borsh, key\n#[derive(Drop, PartialEq, Eq, PartialOrd, Ord)]\npub enum One {\n    Left,\n}\n', 'types_one')
        self.assertNotIn('absurd', text)

    def test_schemas(self):
        text = self.written('// derive: borsh, schema\npub struct P {\n    pub x: u8,\n    pub y: String,\n}\n', 'types_p')
        self.assertIn('(codes "x" ∷ codes "y" ∷ [])', text)
        self.assertIn('⟦<Chain<Fields> as FieldTypes>⟧.described', text)
        self.assertIn('        const NAMES: &[&str] = &["x", "y"];\n', text)
        self.assertIn('add_named::<Chain<Fields>>(alloc, "P", NAMES, map)', text)
        text = self.written('// derive: borsh, schema\npub struct P(pub u8);\n', 'types_p')
        self.assertIn('add_unnamed::<(Fields, ())>(alloc, "P", map)', text)
        text = self.written('// derive: borsh, schema\npub struct P;\n', 'types_p')
        self.assertIn('add_unit(alloc, "P", map)', text)
        fields = ''.join('    pub f%d: u8,\n' % index for index in range(13))
        text = self.written('// derive: borsh, schema\npub struct P {\n%s}\n' % fields, 'types_p')
        self.assertIn('⟦<FieldList as FieldTypes>⟧.described', text)
        self.assertIn('type FieldList = ChainTo<Part1Fields, FieldList1>;\n\ntype FieldList1 = Chain<Part2Fields>;\n', text)
        self.assertIn('(groups_described (more_groups ⟦<Chain<Part1Fields> as FieldTypes>⟧.described (more_groups', ' '.join(text.split()))

    def test_schemas_of_enums(self):
        text = self.written('// derive: borsh, schema\npub enum E {\n    A,\n    // tag: 7\n    B(u8),\n    C { x: u8, y: u16 },\n}\n', 'types_e')
        self.assertIn('type VariantList = Fork<Fork<Case<0, ()>, Case<7, (u8, ())>>, Case<8, (u8, (u16, ()))>>;', text)
        self.assertIn('∷ (codes "C", codes "x" ∷ codes "y" ∷ [])', text)
        self.assertIn('(case_described (λ v. (v.0, (v.1, tt)))\n        ⟦<(u8, (u16, ())) as FieldTypes>⟧.described refl refl)', text)
        self.assertIn('&[("A", &[]), ("B", &[]), ("C", &["x", "y"])]', text)
        text = self.written('// derive: borsh, schema\npub enum E {\n    A,\n    B,\n}\n', 'types_e')
        self.assertIn('⟦<Variants as VariantTypes>⟧.read', text)
        self.assertNotIn('VariantList', text)

    def test_schemas_of_enums_with_parameters(self):
        text = self.written('// derive: borsh, schema\npub enum E<A, B, M> {\n    N,\n    L(B, A),\n    R { r: Vec<B> },\n    P(PhantomData<M>),\n}\n', 'types_e')
        for row in ('CaseWith<1, A, (B, ()), (B, (A, ()))>', 'CaseWith<2, B, (), (Vec<B>, ())>', 'Case<3, (PhantomData<M>, ())>', 'enum_definitions_as (name_with (codes "E") A.name (B.name ∷ []))',
                    'add_enum_with::<A, (B, ()), VariantList<A, B, M>>(alloc, "E", NAMES, map)', 'declared_with::<A, (B, ())>(alloc, "E")',
                    '(case_in refl (describes_contramap (λ v. (v.0, v.1)) (describes_parts held.1.0.1.0 (all_more (B.describes defs held.1.0.1.1.0) (all_one (A.describes defs held.1.0.1.1.1.0))))))'):
            self.assertIn(row, ' '.join(text.split()))
        text = self.written('// derive: borsh, schema\npub enum E<M> {\n    P(PhantomData<M>),\n}\n', 'types_e')
        self.assertIn('Self.described.describes', text)
        self.assertIn('add_enum::<VariantList<M>>', text)

    def test_schemas_with_parameters(self):
        text = self.written('// derive: borsh, schema\npub struct P<A, B, N> {\n    pub a: Vec<A>,\n    pub b: (u8, Option<B>),\n    pub n: PhantomData<N>,\n}\n', 'types_p')
        self.assertIn('name_with (codes "P") A.name (B.name ∷ [])', text)
        self.assertIn('declared_with::<A, (B, ())>(alloc, "P")', text)
        self.assertIn('impl<A: BorshSchema, B: BorshSchema, N> BorshSchema for P<A, B, N> {', text)
        self.assertIn('(describes_contramap (λ list. list.items) (describes_elements held.1.0.0 (A.describes defs held.1.0.1.0)))', ' '.join(text.split()))

    def test_schemas_of_sets_maps_and_pointers_of_parameters(self):
        head = 'use borsh::BorshKey;\n\n// derive: borsh, schema\npub struct P<K: BorshKey + Ord + Hash, V>'
        text = self.written(head + '(pub Set<u8>, pub HashSet<K>, pub Box<V>);\n', 'types_p')
        self.assertIn('ghost use Rattle.std.specs.Prelude.{codes, ⊤, ◌∷◌, []};\n', text)
        self.assertIn('(describes_sorted K.cmp (λ _ _. ⊤) held.1.1.0.0 ', ' '.join(text.split()))
        self.assertIn('(describes_contramap (λ boxed. boxed.value) (describes_stored', ' '.join(text.split()))
        text = self.written(head + '(pub HashMap<K, V>, pub BTreeMap<u8, V>);\n', 'types_p')
        self.assertIn('(describes_sorted K.cmp V.codec.equivalent held.1.0.0 ', ' '.join(text.split()))
        self.assertIn('(describes_ordered ⟦<u8 as Ord>⟧.cmp held.1.1.0.0 ', ' '.join(text.split()))

    def test_parameters_that_are_keys(self):
        text = self.written('use borsh::BorshKey;\n\n// derive: borsh\npub struct Book<K: BorshKey + Ord, V> {\n    pub map: Map<K, V>,\n}\n', 'types_book')
        self.assertIn('let k_key : IsKey K.ordered K.cmp K.eq K.codec =', text)
        self.assertIn('Prim.search (key_facts, k_key, K.premises, V.premises)', text)

    def test_names_of_ghost_terms(self):
        text = self.written('// derive: borsh\npub struct Book {\n    pub data: u8,\n    pub record: u8,\n}\n', 'types_book')
        self.assertIn('λ v. (v.«data», v.«record»)', text)
        text = self.written('// derive: borsh\npub enum E {\n    A { left: u8, right: u8 },\n}\n', 'types_e')
        self.assertIn('E.A part0 part1 ↦ fields (part0, part1)', text)

    def test_fields_named_as_parameters(self):
        text = self.written('// derive: borsh\npub enum E {\n    A { alloc: u8, writer: u16 },\n}\n', 'types_e')
        self.assertIn('alloc: part0,', text)
        self.assertIn('write_three(&Tag(0), part0, part1, alloc, writer)', text)

    def test_what_only_looks_like_a_mark(self):
        crate = self.crate('// derive: other things\npub const A: &str = "\n// derive: borsh\npub struct B;\n";\n'.replace('// derive: other things\n', '')
                           + '/* // derive: borsh\npub struct C; */\n/// // derive: borsh\npub struct D;\nconst E: &str = r#"// derive: borsh "pub struct F;"#;\npub fn g(c: char) -> bool {\n    c == \'"\' || c == \'\\\'\'\n}\n')
        self.assertIn('src: no type is marked', crate.run()[1])
        self.assertEqual(crate.files(), ['lib.rt', 'types.rt'])

    def test_what_is_between_mark_and_type(self):
        text = self.written('// derive: borsh\n/// A point; // derive: borsh\n// More.\n#[derive(Drop, Clone)]\npub struct Point {\n    /// The first: `pub x: u8,`\n    pub x: u8, // pub y: u8,\n    /* pub z: u8, */\n}\n', 'types_point')
        self.assertIn('type Fields = u8;', text)

    def test_a_mark_below_the_attributes(self):
        self.written('#[derive(Drop)]\n// derive: borsh\npub struct Point(pub u8);\n', 'types_point')

    def test_types_in_the_root_file(self):
        crate = self.crate('', root='//! A program.\n#![tactic(auto)]\n\n// derive: borsh\npub struct Own {\n    a: u8,\n}\n\n// derive: borsh\npub enum Kind {\n    A,\n}\n')
        self.assertEqual(crate.run()[0], 0)
        self.assertIn('use super::Own;\n', crate.read('root_own'))
        self.assertIn('ghost use Rattle.sample.specs.declared.Kind.{Kind};\n', crate.read('root_kind'))
        self.assertIn('#![tactic(auto)]\n\nmod root_kind;\nmod root_own;\n', crate.read('lib'))

    def test_mod_lines(self):
        crate = self.crate('// derive: borsh\npub struct A;\n\n// derive: borsh\npub struct B;\n', root=HEAD + 'mod types_a;\nmod zoo;\n')
        self.assertEqual(crate.run()[0], 0)
        self.assertIn('pub mod types;\nmod types_a;\nmod types_b;\nmod zoo;\n', crate.read('lib'))

    def test_five_fields_with_a_schema(self):
        rows = [('count', 'u64'), ('label', 'String'), ('image', 'Vec<u8>'), ('notes', 'Option<String>')]
        for kind in ('u32', '[u8; 32]', 'BTreeMap<String, u64>'):
            fields = ''.join('    pub %s: %s,\n' % row for row in rows + [('rates', kind)])
            text = self.written('use std::collections::BTreeMap;\n\n// derive: borsh, schema\npub struct Stock {\n%s}\n' % fields, 'types_stock')
            self.assertLess(len(text.splitlines()), 115)

    def test_wide_tuples(self):
        kinds = ('[u8; 32]', 'String', 'Vec<u8>', 'Option<String>', 'BTreeMap<String, u64>')
        fields = ''.join('    pub f%d: %s,\n' % row for row in enumerate(kinds))
        text = self.written('// derive: borsh\npub struct Wide {\n%s}\n' % fields, 'types_wide')
        self.assertIn('type Fields = Tuple5<[u8; 32], String, Vec<u8>, Option<String>, BTreeMap<String, u64>>;', text)

    def test_arms_that_are_too_wide(self):
        text = self.written('// derive: borsh\npub enum Message {\n    NumberedOne { label: String, count: u32 },\n    Other,\n}\n', 'types_message')
        self.assertIn('                &Tag(0),\n                label,\n', text)
        names = ''.join('    AVariantOfALongName%d(u8),\n' % index for index in range(16))
        text = self.written('// derive: borsh\npub enum Message {\n%s}\n' % names, 'types_message')
        self.assertIn('(_, part0))))) =>\n                Message::AVariantOfALongName0(part0),\n', text)

    def test_names_of_variants_that_are_too_wide(self):
        fields = ', '.join('%s_field: u8' % name for name in ('first', 'second', 'third', 'fourth'))
        text = self.written('// derive: borsh, schema\npub enum E {\n    First { %s },\n    Other,\n}\n' % fields, 'types_e')
        self.assertIn('        const NAMES: &[(&str, &[&str])] = &[\n            (\n                "First",\n                &["first_field", ', text)

    def test_lines_are_short(self):
        fields = ''.join('    pub a_rather_long_name_%d: std::collections::BTreeMap<String, Vec<u8>>,\n' % index for index in range(12))
        text = self.written('// derive: borsh\npub struct Wide {\n%s}\n' % fields, 'types_wide')
        self.assertLessEqual(max(len(line) for line in text.split('\n')), 100)

    def test_comments_beside_attributes_and_docs(self):
        field = '// derive: borsh\npub struct A {\n    pub a: u8,\n%s    pub b: u16,\n}\n'
        for above in ('    // skip\n    #[allow(unused)]\n', '    #[allow(unused)]\n    // skip\n', '    /// A doc.\n    // skip\n',
                      '    // skip\n    /// A doc.\n', '    #[allow(unused)] // skip\n', '    /* A block. */\n    //skip\n    #[doc = "a skip"]\n    /// A doc.\n'):
            self.assertIn('type Fields = u8;', self.written(field % above, 'types_a'), above)
        variant = '// derive: borsh\npub enum A {\n%s    B(u8),\n    C,\n}\n'
        for above in ('    // tag: 7\n    #[default]\n', '    #[default]\n    // tag: 7\n', '    /// A doc.\n    // tag: 7\n',
                      '    // tag: 7\n    /// A doc.\n', '    #[default] // tag: 7\n', '    #[doc = "7"]\n    // tag : 0x7\n    /// A doc.\n'):
            self.assertIn('Fork<Case<7, u8>, Case<8, ()>>', self.written(variant % above, 'types_a'), above)

    def test_words_of_the_provers_language(self):
        for fields, arm in (('yes: u8, no: u8', 'E.A part0 part1 ↦ fields (part0, part1)'), ('refl: u8', 'E.A part0 ↦ fields part0'),
                            ('package: u8, record: u8', 'E.A part0 part1 ↦'), ('from: u8, search: u8', 'E.A part0 part1 ↦'), ('from: u8, to: u8', 'E.A from to ↦ fields (from, to)')):
            self.assertIn(arm, self.written('// derive: borsh\npub enum E {\n    A { %s },\n}\n' % fields, 'types_e'))
        text = self.written('', 'data_type', root=HEAD + 'pub mod data;\n', data='// derive: borsh\npub enum Type {\n    Type(u8),\n}\n')
        self.assertIn('ghost use Rattle.sample.specs.declared.«data».«Type».{«Type»};\n', text)
        self.assertIn('«Type».«Type» part0 ↦ fields part0', text)
        self.assertIn('λ v. (v.«let», v.in_s)', self.written('// derive: borsh\npub struct E {\n    pub let: u8,\n    pub in_s: u8,\n}\n', 'types_e'))

    def test_parts_named_as_fields(self):
        text = self.written('// derive: borsh\npub enum E {\n    A { alloc: u8, part0: u16 },\n}\n', 'types_e')
        self.assertIn('alloc: part0_parts,', text)

    def test_tuples_as_fields_of_tuples(self):
        text = self.written('// derive: borsh\npub struct A(pub (u8, u16), pub(crate) (String,), pub(in super::a) u8);\n', 'types_a')
        self.assertIn('type Fields = ((u8, u16), (String,), u8);', text)

    def test_a_chain_of_types(self):
        types = ''.join('// derive: borsh\npub struct T%d {\n    pub a: T%d,\n    pub b: T%d,\n}\n\n' % (n, n + 1, n + 1) for n in range(40))
        crate = self.crate(types + '// derive: borsh\npub struct T40(pub u8);\n')
        start = time.process_time()
        self.assertEqual(crate.run()[0], 0)
        self.assertLess(time.process_time() - start, 2)

    def test_places_of_mod_lines(self):
        head = '//! A.\n#![tactic(auto)]\n'
        for before, after in (
                (head + '\npub mod types;\n', head + '\npub mod types;\nmod types_a;\n'),
                (head + '\nuse b::c;\n\n/// The types.\npub mod types;\n', head + '\nuse b::c;\n\n/// The types.\npub mod types;\nmod types_a;\n'),
                (head + '\n#[cfg(test)]\nmod tests;\npub mod types;\n', head + '\n#[cfg(test)]\nmod tests;\npub mod types;\nmod types_a;\n'),
                (head + '\nmod types;\n#[cfg(test)]\n// Tests.\nmod zoo;\n', head + '\nmod types;\nmod types_a;\n#[cfg(test)]\n// Tests.\nmod zoo;\n'),
                (head + '\nmod types; // Those.\nmod zoo;\n', head + '\nmod types; // Those.\nmod types_a;\nmod zoo;\n'),
                (head + '\nmod types;\n\n// Later.\nmod zoo;\n', head + '\nmod types;\nmod types_a;\n\n// Later.\nmod zoo;\n'),
                (head + '\nmod types;\npub(crate) mod types_a;\n', None),
                (head + '\nmod types;\n#[rustfmt::skip]\nmod  types_a ;\n', None),
                (head + '\nmod types;\n/* mod types_a; */\n', head + '\nmod types;\nmod types_a;\n/* mod types_a; */\n')):
            crate = self.crate('// derive: borsh\npub struct A;\n', root=before)
            self.assertEqual(crate.run()[0], 0)
            self.assertEqual(crate.read('lib'), droppable(after or before))
            self.assertEqual(crate.run('--check'), (0, ''))
        for before, after in (
                ('// derive: borsh\npub struct A;\n', 'mod root_a;\n\n// derive: borsh\npub struct A;\n'),
                (head + '// derive: borsh\npub struct A;\n', head + '\nmod root_a;\n\n// derive: borsh\npub struct A;\n'),
                (head + '\nuse b::c;\n\n// derive: borsh\npub struct A;\n', head + '\nmod root_a;\n\nuse b::c;\n\n// derive: borsh\npub struct A;\n')):
            crate = self.crate('', root=before)
            self.assertEqual(crate.run()[0], 0)
            self.assertEqual(crate.read('lib'), droppable(after))
            self.assertEqual(crate.run('--check'), (0, ''))

    def test_the_name_of_the_root_file(self):
        crate = self.crate('', main='// derive: borsh\npub struct A;\n')
        os.remove(crate.path('lib'))
        self.assertEqual(crate.run()[0], 0)
        self.assertIn('from main.rt: edit', crate.read('root_a'))

    def test_line_ends_are_kept(self):
        crate = self.crate('// derive: borsh\npub struct A;\n', root=HEAD.replace('\n', '\r\n'))
        self.assertEqual(crate.run()[0], 0)
        with open(crate.path('lib'), 'rb') as file:
            self.assertTrue(file.read().endswith(b'pub mod types;\r\nmod types_a;\r\n'))

    def test_widths_of_ghost_text(self):
        text = self.written('use std::collections::BTreeMap;\n\n// derive: borsh, schema\npub struct Table<C> {\n    pub rows: Vec<C>,\n    pub by_number: BTreeMap<u32, Option<C>>,\n    pub last: (u8, Result<C, String>),\n}\n', 'types_table')
        self.assertIn('    ghost describes = { λ defs held. describes_contramap (λ v. (v.rows, (v.by_number, v.last)))\n        (describes_parts held.0 (all_more (describes_contramap', text)
        self.assertIn('(C.describes defs held.1.0.1.0)', ' '.join(text.split()))
        self.assertLessEqual(max(len(line) for line in text.split('\n')), 100)

    @unittest.skipUnless(shutil.which('rt'), 'the formatter is not there')
    def test_the_formatter_leaves_what_is_written(self):
        kinds = ('u8', 'String', 'Vec<u8>', 'BTreeMap<String, Vec<Option<(u8, String)>>>', '[u8; 32]', '(u64, String)')
        names = {'short': 'f%d', 'long': 'a_rather_long_name_of_a_field_%d'}
        types = ['use std::collections::BTreeMap;\n']
        for size, name in names.items():
            title = {'short': 'S', 'long': 'ATypeWhoseNameHasMoreThanTwentyLetters'}[size]
            for count in (1, 2, 3, 4, 5, 6, 8, 11, 12, 13, 16, 20, 40):
                fields = [(name % n, kinds[(n + count) % len(kinds)]) for n in range(count)]
                rows = ''.join('    pub %s: %s,\n' % row for row in fields)
                types.append('// derive: borsh, schema\npub struct %s%d {\n%s}\n' % (title, count, rows))
                generic = rows.replace('(u64, String)', '(u64, Vec<A>)').replace('u8;', 'Vec<A>;')
                types.append('// derive: borsh, schema\npub struct %sOf%d<A> {\n%s}\n' % (title, count, generic))
                lengths = rows.replace('; 32', '; N')
                types.append('// derive: borsh\npub struct %sWith%d<const N: usize> {\n%s}\n' % (title, count, lengths))
                types.append('// derive: borsh, schema\npub struct %sTuple%d(%s);\n' % (title, count, ', '.join('pub ' + kind for _, kind in fields)))
            for count in (1, 2, 3, 5, 8, 16, 31, 32, 33, 64):
                rows = ''
                for n in range(count):
                    fields = [(name % m, kinds[(n + m) % len(kinds)]) for m in range(n % 6 if n % 16 else 12)]
                    variant = '%sV%d' % (title[:1] if size == 'short' else title[:24], n)
                    named = ' { %s }' % ', '.join('%s: %s' % row for row in fields)
                    rows += '    %s%s,\n' % (variant, ('', '(%s)' % ', '.join(kind for _, kind in fields), named)[n % 3] if fields else '')
                types.append('// derive: borsh, schema\npub enum %sEnum%d {\n%s}\n' % (title, count, rows))
        crate = self.crate('\n'.join(types))
        top = os.path.dirname(crate.folder)
        os.makedirs(os.path.join(top, 'crates'))
        shutil.move(crate.folder, os.path.join(top, 'crates'))
        crate.folder = os.path.join(top, 'crates', 'sample')
        with open(os.path.join(top, 'crates.txt'), 'w', encoding='utf-8') as file:
            file.write('sample: borsh borsh_schema borsh_walks borsh_io\n')
        self.assertEqual(crate.run()[0], 0)
        before = crate.texts()
        subprocess.run(['rt', 'fmt'], cwd=crate.folder, stdout=subprocess.PIPE, stderr=subprocess.STDOUT, check=True)
        differing = [name for name, text in crate.texts().items() if text != before[name] and name != 'types.rt']
        self.assertEqual(differing, [])


class Again(Cases):
    TYPES = '// derive: borsh\npub struct A(pub u8);\n\n// derive: borsh\npub enum B {\n    C(A),\n}\n'

    def test_the_second_run_changes_nothing(self):
        crate = self.crate(self.TYPES)
        crate.run()
        before = {name: crate.read(name[:-3]) for name in crate.files()}
        self.assertEqual(crate.run(), (0, ''))
        self.assertEqual(before, {name: crate.read(name[:-3]) for name in crate.files()})

    def test_check_before_and_after(self):
        crate = self.crate(self.TYPES)
        status, said = crate.run('--check')
        self.assertEqual(status, 1)
        self.assertEqual(len(said.splitlines()), 3)
        self.assertEqual(crate.files(), ['lib.rt', 'types.rt'])
        crate.run()
        self.assertEqual(crate.run('--check'), (0, ''))

    def test_check_names_what_differs(self):
        crate = self.crate(self.TYPES)
        crate.run()
        crate.write('types_a', crate.read('types_a').replace('u8', 'u16'))
        status, said = crate.run('--check')
        self.assertEqual(status, 1)
        self.assertIn('types_a.rt', said)
        self.assertNotIn('types_b.rt', said)

    def test_check_misses_a_mod_line(self):
        crate = self.crate(self.TYPES)
        crate.run()
        crate.write('lib', HEAD)
        status, said = crate.run('--check')
        self.assertEqual(status, 1)
        self.assertIn('lib.rt', said)

    def test_without_a_folder(self):
        with contextlib.redirect_stderr(io.StringIO()):
            self.assertEqual(borsh_derive.main([]), 2)
            self.assertEqual(borsh_derive.main(['/no/such/folder']), 1)


class Errors(Cases):
    """Whatever the files are, there is one line of error."""

    def error(self, crate, said):
        for flags in ((), ('--check',)):
            status, text = crate.run(*flags)
            self.assertEqual((status, text.count('\n')), (1, 1), text)
            self.assertIn(said, text)

    def test_files(self):
        for content, said in ((b'pub struct A;\n// \xff\n', 'src/types.rt:2: the file is not UTF-8'), (b'pub fn a() {\n    (]\n}\n', 'src/types.rt:2: `]` closes the `(` of line 2'),
                              (b'pub fn a() {\n    (\n', 'src/types.rt:2: the bracket `(` is not closed'), (b'}\n', 'src/types.rt:1: `}` closes nothing'),
                              (b'\n# foo\n', 'src/types.rt:2: `#` begins no attribute'), (b'# ', 'src/types.rt:1: '), (b'#!', 'src/types.rt:1: '),
                              (b'const A: &str = r#"\n', 'src/types.rt:1: a string is not closed'), (b'// derive: borsh', 'src/types.rt:1: no type is below'),
                              (b'// derive: borsh\npub enum A {\n    B = 0x' + b'f' * 5000 + b',\n}\n', 'src/types.rt:3: '),
                              (b'// derive: borsh\npub struct A(pub ' + b'Vec<' * 3000 + b'u8' + b'>' * 3000 + b');\n', 'src/types.rt:2: `A`: more than 100 levels'),
                              (b'use a::' + b'{b::' * 3000 + b'c' + b'}' * 3000 + b';\n', 'src/types.rt:1: more than 100 levels')):
            crate = self.crate('')
            with open(crate.path('types'), 'wb') as file:
                file.write(content)
            self.error(crate, said)

    def test_empty_files(self):
        for crate in (self.crate(''), self.crate('', root='')):
            self.error(crate, '/sample/src: no type is marked: write `// derive: borsh` above')

    def test_what_is_no_file(self):
        crate = self.crate('// derive: borsh\npub struct A;\n')
        os.mkdir(crate.path('types_a'))
        self.error(crate, "src/types_a.rt: can't be read: Is a directory")
        crate = self.crate('')
        os.symlink('/no/such/file', crate.path('gone'))
        self.error(crate, "src/gone.rt: can't be read: No such file or directory")
        with unittest.mock.patch('os.listdir', side_effect=PermissionError(13, 'Permission denied')):
            self.error(crate, "src: can't be read: Permission denied")
        os.remove(crate.path('lib'))
        os.remove(crate.path('gone'))
        self.error(crate, 'src: there is neither lib.rt nor main.rt')
        shutil.rmtree(os.path.join(crate.folder, 'src'))
        self.error(crate, 'src: there is no such folder: give the folder of a crate')

    def test_a_file_that_cannot_be_written(self):
        name = 'A' * 300
        status, said = self.crate('// derive: borsh\npub struct %s;\n' % name).run()
        self.assertEqual(status, 1)
        self.assertIn("types_%s.rt: can't be written: File name too long" % name.lower(), said)

    def test_arguments(self):
        for arguments, status in (([], 2), (['a', 'b'], 2), (['--chek', 'a'], 2), (['--check'], 2), (['--help'], 0), (['/no/such/folder'], 1), (['/'], 1), ([''], 1)):
            out = io.StringIO()
            with contextlib.redirect_stdout(out), contextlib.redirect_stderr(out):
                self.assertEqual(borsh_derive.main(arguments), status, arguments)


if __name__ == '__main__':
    unittest.main()
