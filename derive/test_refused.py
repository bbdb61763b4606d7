"""Tests of what borsh_derive.py refuses, with the line and the reason. `test_borsh_derive.py` runs them."""

import os

from cases import HEAD, Cases


class Refused(Cases):
    def one(self, definition, line, reason):
        self.refused('// derive: borsh\n' + definition, line, reason)

    def test_options(self):
        self.refused('// derive: schema\npub struct A;\n', 1, 'the option `borsh` is missing')
        self.refused('// derive: borsh, json\npub struct A;\n', 1, '`json` is no option')
        self.refused('// derive: borsh, borsh\npub struct A;\n', 1, 'comes twice')
        self.refused('// derive:\npub struct A;\n', 1, '`` is no option')

    def test_schemas(self):
        self.written('// derive: borsh, schema\npub enum A<T> {\n    B(Box<T>),\n}\n', 'types_a')
        self.refused('// derive: borsh, schema\npub struct A<T> {\n    pub a: Other<T>,\n}\n', 3, 'a schema of a type with parameters')
        self.refused('// derive: borsh, schema\npub struct A<const N: usize> {\n    pub a: [u8; N],\n}\n', 2, '`A`: a schema of a type with the length `N` as a parameter is not written: types of two lengths would have one name')
        self.written('// derive: borsh, schema\npub struct A<const N: usize>(pub u8, pub PhantomData<[u8; N]>);\n', 'types_a')

    def test_keys(self):
        self.refused('// derive: borsh, key\n#[derive(Drop, PartialEq, Eq)]\npub struct A(pub u8);\n', 3, 'lacks `PartialOrd`, `Ord`')
        derive = '// derive: borsh, key\n#[derive(PartialEq, Eq, PartialOrd, Ord)]\n'
        self.refused(derive + 'pub enum A {\n    B,\n    C(u8),\n}\n', 3, 'a key is a struct, or an enum without fields')
        self.refused(derive + 'pub struct A;\n', 3, 'a key without fields')
        self.refused(derive + 'pub struct A<T>(pub T);\n', 3, 'a key with parameters')
        self.refused(derive + 'pub struct A {\n    pub a: u8,\n    // skip\n    pub b: u8,\n}\n', 3, 'no field that is left out')

    def test_marks_that_mark_nothing(self):
        self.one('struct A;\n', 1, 'no `pub struct` or `pub enum` is below')
        self.one('pub fn a() {}\n', 1, 'no `pub struct` or `pub enum` is below')
        self.refused('pub struct A;\n// derive: borsh\n', 2, 'no type is below')
        self.refused('pub struct B; // derive: borsh\npub struct A;\n', 1, 'behind code')
        self.refused('mod inner {\n    // derive: borsh\n    pub struct A;\n}\n', 2, 'within an item')
        self.one('// derive: borsh\npub struct A;\n', 2, 'a second comment')

    def test_attributes(self):
        self.one('#[borsh(init = start)]\npub struct A;\n', 2, 'the attribute `#[borsh(init = start)]` of a type')
        self.one('pub struct A {\n    #[borsh(skip)]\n    pub a: u8,\n}\n', 3, 'the attribute `#[borsh(skip)]` of a field')
        self.one('pub enum A {\n    #[cfg(test)]\n    B,\n}\n', 3, 'the attribute `#[cfg(test)]` of a variant')

    def test_comments_that_are_almost_marks(self):
        for comment in ('/// derive: borsh', '//! derive: borsh', '// Derive: Borsh', '/* derive: borsh */', '// derive(borsh)', '// derive borsh, schema',
                        '// #[derive(BorshSerialize)]', '// borsh: derive', '// derive - borsh', '// derives: borsh', '// Derived: borsh, key', '// drive: borsh', '// dervie: borsh, schema',
                        '// borsh', '// Borsh.', '// borsh: schema', '// borsh, key', '//// derive: borsh', '/// derive: borsh, json', '// deriving borsh;', '// @derive borsh'):
            self.refused(comment + '\npub struct A(pub u8);\n', 1, '`%s` marks nothing: write `// derive: borsh`' % comment)
        self.one('struct A;\n\n// This derives borsh: all of it.\n// Derive Borsh by hand.\n// Derive: of borsh.\n'.replace('struct', 'pub struct') + '/// derive: Borsh\npub fn f() {}\n', 7, 'marks nothing')
        self.refused('#[derive(Drop, BorshSerialize)]\npub struct A(pub u8);\n', 1, '`BorshSerialize` in `#[derive(Drop, BorshSerialize)]`: there is no such macro here, so write `// derive: borsh`')
        self.refused('/// A.\n#[derive(Drop)]\n#[derive(BorshSchema)]\npub enum A {\n    B,\n}\n', 3, 'there is no such macro here')

    def test_types_that_cannot_be_let_go(self):
        for attributes in ('#[must_use]\n', '#[derive(Clone)]\n#[derive(Debug)]\n', '#[doc = "Drop"]\n'):
            crate = self.crate('')
            crate.write('types', '// derive: borsh\n%spub struct A(pub u8);\n' % attributes)
            self.assertIn('src/types.rt:%d: `A` has values that can\'t be let go, which encoding and decoding do: write `#[derive(Drop)]` above it' % (attributes.count('\n') + 2), crate.run()[1])
        for before, behind in (('#[derive(Clone, Copy)]', ''), ('#[must_use]', 'impl Drop for A {\n    fn drop(self) {}\n}\n'), ('#[derive_where(Drop; u8)]', '')):
            crate = self.crate('')
            crate.write('types', '// derive: borsh\n%s\npub struct A(pub u8);\n%s' % (before, behind))
            self.assertEqual(crate.run()[0], 0)

    def test_fields_of_types_that_are_not_marked(self):
        two = 'pub struct B;\n\n// derive: borsh\npub struct A {\n    pub b: Vec<B>,\n}\n'
        self.refused(two, 5, '`A`: the type `B` of the field `b` is not marked: mark `B`, by `// derive: borsh` above it')
        self.refused(two.replace('pub struct B;', 'use super::other::C as B;'), 5, 'the type `B` of the field `b` is not marked: mark `C`', root=HEAD + 'mod other;\n', other='pub enum C {\n    D,\n}\n')
        for head in ('use super::other::B;', 'use other::B;', 'pub type B = u8;', 'pub struct B;\nimpl BorshType for B {}', '// derive: borsh\npub struct B;'):
            self.written(two.replace('pub struct B;', head), 'types_a', root=HEAD + 'mod other;\n', other='pub struct B;\nimpl<T> BorshType for B {}\n')
        self.written('// derive: borsh\npub struct A<B>(\n    pub B,\n    // skip\n    pub C,\n    pub PhantomData<C>,\n);\n\npub struct B;\n\n#[derive(Drop, Default)]\npub struct C;\n', 'types_a')

    def test_discriminants_beside_fields(self):
        self.one('pub enum A {\n    B(String) = 3,\n    C(u32, u64) = 7,\n    D = 200,\n}\n', 3, 'where no variant has fields, and `B` has: write `// tag: 3` above `B` in its place')
        self.one('pub enum A {\n    B = 0x10,\n    C {},\n}\n', 3, '`C` has: write `// tag: 16` above `B` in its place')
        self.written('// derive: borsh\npub enum A {\n    B = 3,\n    C,\n}\n', 'types_a')

    def test_keys_of_maps(self):
        own = 'use std::collections::{BTreeMap, HashMap as Table, BTreeSet};\n\n// derive: borsh, schema\npub struct K(pub u8);\n\n// derive: borsh\npub struct A {\n    pub a: %s,\n}\n'
        for kind, reason in (
                ('BTreeMap<f64, u8>', '`A`: the field `a` has a map or a set with the key `f64`, whose values have no order: hold a list, `Vec<(f64, u8)>`'),
                ('Option<Table<(u8, [f32; 2]), String>>', 'the key `f32`, whose values have no order: hold a list, `Vec<((u8, [f32; 2]), String)>`'),
                ('BTreeSet<Option<f32>>', 'hold a list, `Vec<Option<f32>>`'), ('std::collections::BTreeSet<f64>', 'hold a list, `Vec<f64>`'),
                ('BTreeMap<Vec<K>, u8>', 'the key `K`, which isn\'t marked as one: write `// derive: borsh, schema, key` above it'),
                ('BTreeMap<K, u8>', 'which isn\'t marked as one'), ('BTreeMap<u8, BTreeSet<Box<K>>>', 'which isn\'t marked as one'),
                ('BTreeSet<Table<u8, u8>>', 'the key `HashMap`, which is no key'), ('BTreeSet<(u8, u8, u8, u8, u8, u8)>', 'a tuple of more than 5, which is no key: write some of them as a tuple within')):
            self.refused(own % kind, 8, reason)
        for kind in ('BTreeMap<u8, f64>', 'Vec<f64>', 'PhantomData<BTreeSet<f64>>', 'BTreeMap<(String, [u8; 4]), K>', 'Vec<(f64, u8)>', 'other::BTreeMap<f64, u8>'):
            self.written(own % kind, 'types_a')
        for mark in ('// derive: borsh, key\n#[derive(Drop, PartialEq, Eq, PartialOrd, Ord)]\n', '// derive: borsh\n', ''):
            traits = 'impl BorshKey for K {}\n\nimpl BorshType for K {}\n' if 'key' not in mark else ''
            self.written(mark + 'pub struct K(pub u8);\n\n%s\n// derive: borsh\npub struct A(pub BTreeSet<K>);\n' % traits, 'types_a')
        self.written('pub struct BTreeSet<T>(T);\nimpl<T> BorshType for BTreeSet<T> {}\n\n// derive: borsh\npub struct A(pub BTreeSet<f64>);\n', 'types_a')
        self.one('pub struct A<K: Ord, V>(pub BTreeMap<K, V>);\n', 2, 'the key `K`, which needs bounds: write `K: BorshKey + Ord`')
        self.one('pub struct A<K>(pub BTreeSet<(u8, K)>)\nwhere\n    K: Clone;\n', 2, 'which needs bounds')
        for bounds in ('<K: BorshKey + Ord>(pub BTreeSet<K>);', '<K: Mine>(pub BTreeSet<K>);', '<K>(pub BTreeSet<K>)\nwhere\n    K: BorshKey + Ord;'):
            self.written('// derive: borsh\npub struct A%s\n' % bounds, 'types_a')
        derive = '// derive: borsh, key\n#[derive(Drop, PartialEq, Eq, PartialOrd, Ord)]\n'
        self.refused(derive + 'pub struct A {\n    pub a: u8,\n    pub b: f64,\n}\n', 5, 'a key is made of keys, and the field `b` holds `f64`')
        self.refused('// derive: borsh\npub enum B {\n    C,\n}\n\n' + derive + 'pub struct A(pub B);\n', 8, 'write `// derive: borsh, key` above it')

    def test_fields_that_are_left_out_have_a_default(self):
        own = 'use std::net::IpAddr;\n\n#[derive(Drop)]\npub struct C(pub u8);\n\n#[derive(Drop, Default)]\npub struct D(pub u8);\n\n// derive: borsh\npub struct A<T> {\n    pub t: T,\n    // skip\n    pub a: %s,\n}\n'
        for kind, reason in (
                ('C', '`A`: the field `a` is left out, so a decoded value has the `Default` of its type there, and there is none of `C`: write `#[derive(Default)]` above `C`'),
                ('[(u8, C); 2]', 'there is none of `C`'), ('String', 'there is none of `String`: hold an `Option` of it, whose default is `None`'), ('(u8, Vec<u8>)', 'there is none of `Vec`'),
                ('IpAddr', 'there is none of `IpAddr`'), ('std::num::NonZeroU8', 'there is none of `NonZeroU8`'), ('RefCell<Box<u8>>', 'there is none of `Box`'), ('T', 'there is none of `T`: write `T: Default`')):
            self.refused(own % kind, 13, reason)
        for kind in ('D', 'Option<C>', '[(u8, D); 2]', 'PhantomData<String>', 'RefCell<u8>', 'other::String', '&\'static str', 'bool', 'Option<String>'):
            self.written(own % kind, 'types_a')
        self.written('// derive: borsh\npub struct A<T: Clone + Default> {\n    pub t: T,\n    // skip\n    pub a: T,\n}\n', 'types_a')
        self.written("// derive: borsh\npub struct A<'a> {\n    pub t: &'a str,\n    // skip\n    pub a: String,\n}\n", 'types_a')
        self.written('pub struct C(pub u8);\n\nimpl Default for C {\n    fn default() -> C {\n        C(3)\n    }\n}\n\n// derive: borsh\npub struct A {\n    // skip\n    pub a: C,\n}\n', 'types_a')

    def test_each_type_that_is_refused(self):
        good = '// derive: borsh\npub struct Good(pub u8);\n\n'
        types = (good + '// derive: borsh\npub struct A {\n    pub a: &u8,\n}\n\n// derive: brosh\npub struct B;\n\n' + '// derive: borsh\npub enum C {\n    D(char),\n}\n\n'
                 '// derive: borsh\npub struct E {\n    /// skip\n    pub a: u8,\n    pub b: Cell,\n}\n\n// derive: borsh\npub struct F(pub A);\n\nfn inner() {\n    // derive: borsh\n}\n\n'
                 'pub struct G;\n\n// derive: borsh\npub struct H(pub u8, pub G);\n')
        crate = self.crate(types, root=HEAD + 'pub mod other;\n', other='// derive: borsh\nstruct O;\n')
        before = crate.texts()
        status, said = crate.run()
        self.assertEqual((status, crate.texts()), (1, before))
        path = 'borsh_derive: ' + os.path.join(crate.folder, 'src', '')
        rows = ('other.rt:1: no `pub struct`', 'types.rt:6: `A`: a reference without', 'types.rt:9: `brosh` is no option', 'types.rt:14: `C`: the type `char`',
                'types.rt:19: `E`: `/// skip` changes', 'types.rt:28: the comment is within an item', 'types.rt:34: `H`: the type `G` of the field `1` is not marked')
        self.assertEqual([line[:len(path + row)] for line, row in zip(said.split('\n'), rows)], [path + row for row in rows])
        self.assertEqual(said.count('\n'), len(rows), said)

    def test_wide_tuples_and_unions(self):
        self.one('pub struct A(pub u8, pub Vec<(%s)>);\n' % ', '.join(['u8'] * 13), 2, 'a tuple of more than 12')
        self.written('// derive: borsh\npub struct A(pub (%s));\n' % ', '.join(['u8'] * 12), 'types_a')
        for word in ('pub union', 'union'):
            self.one('%s A {\n    a: u8,\n    b: u16,\n}\n' % word, 2, 'a union has no encoding, since its bytes don\'t say which field they are: write an enum')

    def test_one_form_of_paths(self):
        crate = self.crate('// derive: borsh\npub struct A;\n')
        path = os.path.join(crate.folder, 'src', '')
        for flags, status, ends in (((), 0, ('lib.rt', 'types_a.rt')), (('--check',), 0, ())):
            said = crate.run(*flags)
            self.assertEqual(said, (status, ''.join('borsh_derive: wrote %s%s\n' % (path, end) for end in ends)))
        crate.write('types', '// derive: borsh\npub struct A(pub &u8);\n')
        self.assertTrue(crate.run()[1].startswith('borsh_derive: %stypes.rt:2: ' % path))
        crate.write('types', '// derive: borsh\n#[derive(Drop)]\npub struct B;\n')
        self.assertTrue(crate.run('--check')[1].startswith('borsh_derive: %stypes_a.rt:1: no type is marked for this file any more' % path))

    def test_types_that_hold_themselves(self):
        self.one('pub enum Tree {\n    Leaf(u8),\n    Node(Vec<Tree>),\n}\n', 2, '`Tree` holds itself')
        self.one('pub struct A(pub Vec<B>);\n\n// derive: borsh\npub struct B(pub Option<A>);\n', 2, '`A` holds itself through `B`')

    def test_two_types_of_one_name(self):
        root, other = HEAD + 'pub mod other;\n', '// derive: borsh\npub enum A {\n    B,\n}\n'
        reason = 'a second type `A`: the other one is in src/other.rt'
        self.refused('// derive: borsh\npub struct A;\n\n// derive: borsh\npub struct C(pub A);\n', 2, reason, root=root, other=other)
        self.refused('use super::other::A as D;\n\n// derive: borsh\npub struct A;\n\n// derive: borsh\npub struct C(pub D);\n', 4, reason, root=root, other=other)
        self.refused('// derive: borsh\npub struct A;\n\n// derive: borsh\npub enum A {\n    B,\n}\n', 5, 'a second type `A`: the other one is in src/types.rt')
        text = self.written('// derive: borsh\npub struct A;\n', 'types_a', root=root, other=other)
        self.assertIn('use super::types::A;\n', text)

    def test_two_types_with_one_file(self):
        self.refused('// derive: borsh\npub struct ABC;\n\n// derive: borsh\npub struct Abc;\n', 5, 'would have one file, types_abc.rt')

    def test_a_file_that_was_written_by_hand(self):
        crate = self.crate('// derive: borsh\npub struct A;\n', types_a='// By hand.\n')
        status, said = crate.run()
        self.assertEqual(status, 1)
        self.assertIn('src/types_a.rt:1: this file would be written over', said)
        self.assertEqual(crate.read('types_a'), '// By hand.\n')

    def test_a_file_whose_type_is_gone(self):
        crate = self.crate('// derive: borsh\npub struct A;\n')
        crate.run()
        crate.write('types', '// Nothing.\n')
        status, said = crate.run('--check')
        self.assertEqual(status, 1)
        self.assertIn('src/types_a.rt:1: no type is marked for this file any more', said)

    def test_lifetimes_of_values_that_are_decoded(self):
        for parameters in ('T', "'b"):
            self.one("pub struct A<'a, %s>(pub CowStr<'a>, pub Cow<'a, %s>);\n" % (parameters, 'T' if parameters == 'T' else 'u8'), 2,
                     "`A`: a struct with the lifetime `'a` and the parameter `%s` is not decoded" % parameters)
        for field in ("CowSlice<'a, CowStr<'a>>", "Option<Cow<'a, Vec<CowStr<'a>>>>"):
            self.one("pub struct A<'a> {\n    pub a: u8,\n    pub b: %s,\n}\n" % field, 4, '`A`: a `Cow` of what borrows is not taken')
        self.refused("// derive: borsh, schema\npub struct A<'a>(pub CowStr<'a>);\n", 2, '`A`: a schema of a struct with a lifetime is not written')
        self.one("pub struct A<'a>(%s);\n" % ', '.join(["pub CowStr<'a>"] * 13), 2, 'more than 12 fields')
        self.one("pub enum A<'a> {\n    B(CowStr<'a>),\n}\n", 2, "the lifetime `'a` of an enum is not taken")
        self.one("pub struct A<'a>(pub Cow<'a, str>);\n", 2, '`CowStr` for `Cow<str>`')
        self.one("pub struct A<'a>(pub Cow<'a, [u8]>);\n", 2, '`CowSlice<..>` for `Cow<[..]>`')

    def test_fields(self):
        self.one('pub enum A<\'a> {\n    B(&\'a str),\n}\n', 2, 'the lifetime `\'a` of an enum')
        self.one('pub enum A {\n    B(&\'static str),\n}\n', 2, 'an enum with references is not taken')
        self.one('pub struct A {\n    pub a: &str,\n}\n', 3, 'a reference without a lifetime: write `&\'a ..`')
        self.one('pub struct A<\'a> {\n    pub a: &\'a mut u8,\n}\n', 3, 'a `&mut` in a field is not taken')
        self.one('pub struct A {\n    pub a: Box<dyn Fn(u8)>,\n}\n', 3, 'a trait object')
        self.one('pub struct A {\n    pub a: fn(u8) -> u8,\n}\n', 3, 'a function pointer')
        self.one('pub struct A {\n    pub a: *const u8,\n}\n', 3, 'a raw pointer')
        self.one('pub struct A {\n    pub a: [u8],\n}\n', 3, 'a slice without a length')
        self.one('pub struct A {\n    pub a: <u8 as B>::C,\n}\n', 3, 'a type by its trait')
        self.one('pub struct A {\n    pub a: \'a,\n}\n', 3, 'the lifetime `\'a`')
        self.one('pub struct A {\n    pub a: Box<Fn(u8) -> u8>,\n}\n', 3, 'a function pointer')
        self.one('pub struct A {\n    pub a: list![u8],\n}\n', 3, 'a macro in the place of a type')
        self.one('pub struct A {\n    pub a: = 3,\n}\n', 3, '`=` begins no type')
        self.one('pub struct A {\n    pub a u8,\n}\n', 3, '`u8` where `:` is expected')
        self.one('pub struct A {\n    pub 3: u8,\n}\n', 3, '`3` where a name is expected')
        self.one('pub struct A {\n    pub r#type: u8,\n}\n', 3, 'the raw identifier `r#type`')
        self.one('pub struct A {\n    pub a: u8,\n    ghost small: { a < 3 },\n}\n', 4, 'a ghost field')
        self.one('pub struct A {\n    pub a: u8,\n    b: u8,\n}\n', 4, 'the field `b` of `A` is private')
        self.one('pub struct A(u8);\n', 2, 'the field `0` of `A` is private')
        self.refused('struct B; impl BorshType for B {}\n\n// derive: borsh\npub struct A(pub B);\n', 4, 'names `B`, which is private')

    def test_too_many_fields(self):
        fields = ''.join('    pub f%d: u8,\n' % index for index in range(201))
        self.one('pub struct A {\n%s}\n' % fields, 203, 'more than 200 fields')
        self.one('pub enum A {\n    B(%s),\n}\n' % ', '.join(['u8'] * 201), 3, 'more than 200 fields')

    def test_parameters(self):
        self.one('pub struct A<T = u8>(pub T);\n', 2, 'the parameter `T` has a default')

    def test_arrays_of_parameters(self):
        for kind in ('[T; 2]', 'Vec<[T; 2]>', '[(u8, T); N]', '[[T; 2]; 3]', 'Option<[Option<T>; 2]>'):
            self.one('pub struct A<T, const N: usize> {\n    pub a: %s,\n}\n' % kind, 3, 'the parameter `T` is by itself in an array')
        self.one('pub enum A<T> {\n    B(Vec<[T; 2]>),\n}\n', 3, 'the parameter `T` is by itself in an array')
        self.written('// derive: borsh\npub struct A<T, const N: usize>(pub [Vec<T>; 2], pub [u8; N], pub PhantomData<[T; 2]>);\n', 'types_a')

    def test_lengths_on_the_heap(self):
        for kind in ('Vec<[u8; N]>', 'Option<Box<[[u8; N]; 2]>>', '(u8, Vec<Grid<N>>)', '[Vec<Grid<N>>; 2]'):
            self.one('pub struct A<const N: usize> {\n    pub a: %s,\n}\n' % kind, 3, 'the length `N` is within a type like `Vec`')
        self.written('// derive: borsh\npub struct A<const N: usize>(pub (u8, [u8; N]), pub PhantomData<[u8; N]>);\n', 'types_a')

    def test_parameters_of_enums(self):
        self.one('pub enum A<const N: usize> {\n    B([u8; N]),\n}\n', 3, 'write the length as a number')
        self.written('// derive: borsh\npub enum A<T, U> {\n    B(Vec<(T, T)>),\n    C(Option<T>),\n    D(T),\n    E { t: (T, u8), u: U },\n}\n', 'types_a')

    def test_variants(self):
        self.one('pub enum A {}\n', 2, 'an enum without variants')
        self.one('pub enum A {\n    B = 3,\n    C = 3,\n}\n', 4, '`B` and `C` have one tag, 3')
        self.one('pub enum A {\n    B = 256,\n}\n', 3, 'a tag is one byte')
        self.one('pub enum A {\n    B = 255,\n    C,\n}\n', 4, 'a tag is one byte')
        self.one('pub enum A {\n    B = FIRST,\n}\n', 3, 'the discriminant `FIRST` is no number')
        self.one('pub enum A {\n    // tag: first\n    B(u8),\n}\n', 3, '`first` is no number')
        self.one('pub enum A {\n    // tag: 3\n    B = 3,\n}\n', 4, 'write one of them')
        self.one('pub enum A {\n    B(u8), // tag: 3\n    C,\n}\n', 3, 'behind code')

    def test_sources_that_end_early(self):
        self.one('pub struct A {\n    pub a: u8,\n', 4, 'the file ends within an item')
        self.refused('/* // derive: borsh', 1, 'a comment is not closed')
        self.refused('const A: &str = "', 1, 'a string is not closed')

    def test_types_without_an_encoding(self):
        for kind, reason in (
                ('Mutex<u8>', 'the type `Mutex` of the field `b` has no encoding here: hold the value itself, or an `Arc` of it'),
                ('Vec<std::sync::RwLock<u8>>', 'or an `Arc` of it'), ('Option<RefCell<u8>>', 'hold the value itself'), ('(u8, [Cell<u8>; 2])', 'hold the value itself'),
                ('char', 'hold its number, as a `u32`'), ('Box<str>', '`BoxedStr` for `Box<str>`'), ('Box<[u8]>', '`BoxedSlice<..>` for `Box<[..]>`'),
                ('Time', 'the type `SystemTime`')):
            self.refused('use std::sync::Mutex;\n\n// derive: borsh\npub struct A {\n    pub a: u8,\n    pub b: %s,\n}\n' % kind.replace('Time', 'std::time::SystemTime'), 6, reason)
        self.written('use super::mine::Mutex;\n\n// derive: borsh\npub struct A {\n    pub a: Mutex,\n    // skip\n    pub b: char,\n}\n', 'types_a')

    def test_floats_and_what_threads_share(self):
        text = self.written('use std::sync::{Arc, ArcSlice, ArcStr};\n\n// derive: borsh, schema\npub struct A<T> {\n    pub a: f32,\n    pub b: Vec<f64>,\n    pub c: Arc<T>,\n    pub d: (ArcStr, ArcSlice<u8>),\n}\n', 'types_a')
        self.assertIn('type Fields<T> = (f32, Vec<f64>, Arc<T>, (ArcStr, ArcSlice<u8>));', text)
        self.assertIn('describes_stored', text)

    def test_each_names_its_type(self):
        for field in ('&u8', 'fn(u8)', 'dyn Fn(u8)', 'Box<dyn Fn(u8)>', 'char', 'impl Copy', '*const u8', '!'):
            self.refused('// derive: borsh\npub struct Named {\n    pub a: %s,\n}\n' % field, 3, '`Named`')

    def test_attributes_in_place_of_comments(self):
        for attribute, reason in (('borsh(skip)', 'write a comment `// skip` above the field'), ('borsh(deserialize_with = "f")', 'implement the traits by hand'),
                                  ('borsh(bound(serialize = ""))', 'write the bounds at the parameters'), ('cfg(test)', 'write two types')):
            self.one('pub struct A {\n    #[%s]\n    pub a: u8,\n}\n' % attribute, 3, reason)
        self.one('#[borsh(use_discriminant = true)]\npub enum A {\n    B = 1,\n}\n', 2, 'discriminants are always the tags, so remove it')
        self.one('#[derive(Drop, BorshSerialize)]\npub struct A;\n', 2, '`BorshSerialize` in `#[derive(Drop, BorshSerialize)]`: the comment is in its place')

    def test_comments_that_are_above_nothing(self):
        for definition, line, reason in (
                ('pub struct A { // skip\n    pub a: u8,\n}\n', 2, '`// skip` is behind code'),
                ('pub struct A {\n    pub a: u8, pub b: u8, // skip\n}\n', 3, '`// skip` is behind two fields'),
                ('pub struct A {\n    // skip\n    pub a: u8, // skip\n}\n', 4, 'a second comment `// skip`'),
                ('pub struct A {\n    pub a: // skip\n    u8,\n}\n', 3, '`// skip` is not above a field'),
                ('pub struct A {\n    // skip\n    // skip\n    pub a: u8,\n}\n', 4, 'a second comment `// skip`'),
                ('// skip\npub struct A(pub u8);\n', 2, '`// skip` is not above a field'),
                ('pub struct A(pub u8); // skip\n', 2, '`// skip` is not above a field'),
                ('pub struct A {\n    // tag: 3\n    pub a: u8,\n}\n', 3, '`// tag: 3` is not above a variant'),
                ('pub enum A {\n    // skip\n    B,\n}\n', 3, '`// skip` is not above a field'),
                ('pub enum A {\n    B, // tag: 3\n}\n', 3, '`// tag: 3` is not above a variant'),
                ('pub enum A {\n    // tag: 3\n    /// B.\n    // tag: 4\n    B,\n}\n', 5, 'a second comment `// tag: ..`')):
            self.one(definition, line, reason)

    def test_words_of_the_provers_language(self):
        self.one('pub struct A {\n    pub deriving: u8,\n}\n', 3, 'the word `deriving`, which names nothing else: choose another name')
        self.one('pub enum A {\n    B { deriving: u8 },\n}\n', 3, 'choose another name')
        self.one('pub struct A<Type>(pub Type);\n', 2, 'a meaning of its own for `Type`: choose another name')
        self.one('pub enum Prim {\n    B,\n}\n', 2, 'a meaning of its own for `Prim`: choose another name')

    def test_roots_and_folders(self):
        types = '// derive: borsh\npub struct A;\n'
        for root, place, reason in (
                ('//! A.\nmod other;\n', 'types.rt:2', 'the file is no module of the crate: src/lib.rt has no line `mod types;`'),
                (HEAD + '\npub fn types_a() {}\n', 'lib.rt:6', 'the name `types_a` is that of the module to be written'),
                (HEAD + '\nuse other::types_a;\n', 'lib.rt:6', 'the name `types_a` is that of the module to be written'),
                (HEAD + '}\n', 'lib.rt:5', '`}` closes nothing'),
                (HEAD + '# mod a;\n', 'lib.rt:5', '`mod` where a bracket is expected'),
                (HEAD + 'mod a {\n', 'lib.rt:5', 'the bracket `{` is not closed')):
            crate = self.crate(types, root=root)
            status, said = crate.run()
            self.assertEqual(status, 1)
            self.assertIn('src/%s: %s' % (place, reason), said)
        crate = self.crate('')
        os.makedirs(os.path.join(crate.folder, 'src', 'inner'))
        crate.write('inner/types', types)
        self.assertIn('src/inner/types.rt:1: only types of files in src/ itself', crate.run()[1])
