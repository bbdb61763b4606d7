"""Tests of the comments at a field or a variant: each spelling is a mark, refused with the right one, or prose.
`test_borsh_derive.py` runs them."""

from cases import Cases

# what is written at the second of two fields, `pub a: u8` and `pub b: u32`, above it and behind it: 'left out', 'prose', or what
# the refusal says to write
SKIP = 'write `// skip` above the field or behind it'
FIELDS = (
    ('// skip', 'left out'), ('//skip', 'left out'), ('//   skip  ', 'left out'), ('//\tskip', 'left out'),
    ('/// skip', SKIP), ('//! skip', SKIP), ('//// skip', SKIP), ('/* skip */', SKIP), ('/*skip*/', SKIP), ('/** skip */', SKIP), ('/*! skip */', SKIP),
    ('/* The cache.\n     * skip\n     */', SKIP), ('/*\n    skip */', SKIP), ('/// The cache.\n    /// skip', SKIP), ('// The cache,\n    // skip it', SKIP),
    ('// Skip', SKIP), ('// SKIP', SKIP), ('// sKip', SKIP), ('// skip.', SKIP), ('// skip!', SKIP), ('// skip;', SKIP), ('// skip: cache', SKIP), ('// skip:', SKIP),
    ('// skip = true', SKIP), ('// skip this, it is derived', SKIP), ('// skip // the cache', SKIP), ('// skip-field', SKIP), ('// skip_field', SKIP), ('// (skip)', SKIP),
    ('// [skip]', SKIP), ('// "skip"', SKIP), ('// `skip`', SKIP), ('// - skip', SKIP), ('// @skip', SKIP), ('// #skip', SKIP), ('// _skip', SKIP), ('// skipped', SKIP),
    ('// Skipped: cache', SKIP), ('// skipping', SKIP), ('// skips', SKIP), ('// borsh: skip', SKIP), ('// borsh skip', SKIP), ('// borsh(skip)', SKIP),
    ('// #[borsh(skip)]', SKIP), ('// borsh_skip', SKIP), ('// borshskip', SKIP), ('// Borsh: Skip', SKIP), ('// #[serde(skip)]', SKIP), ('// skp', SKIP), ('// sikp', SKIP),
    ('// skipp', SKIP), ('// \u200bskip', SKIP), ('// \uff53\uff4b\uff49\uff50', SKIP), ('/// skip\tthis', SKIP),
    ('// borsh: left out', 'there are `// skip` for a field and `// tag: 7` for a variant'),
    ('// borsh(deserialize_with = "f")', 'there are `// skip` for a field'),
    ('#[doc = "skip"]', SKIP), ('#[doc = " A cache.\\n skip"]', SKIP), ('#[doc = r#"Skip"#]', SKIP),
    ('// skips nothing of what is behind it', 'prose'), ('// Skipping it is no use', 'prose'), ('// not skip', 'prose'), ('// a skip list', 'prose'), ('// skipper', 'prose'),
    ('// borsh has no other form of it', 'prose'), ('// pub skip: u8,', 'prose'), ('// kips', 'prose'), ('/// The `// skip` above would leave it out.', 'prose'), ('//', 'prose'),
    ('/**/', 'prose'), ('#[doc = "not skip"]', 'prose'), ('#[doc(alias = "skip")]', 'prose'))

# what is written above the second of two variants, `A` and `B(u8)`: its tag, or what the refusal says to write
TAG = 'write `// tag: 7` above the variant'
VARIANTS = (
    ('// tag: 7', 7), ('//tag:7', 7), ('// tag : 7', 7), ('// tag:   0x07', 7), ('// tag: 7u8', 7), ('// tag: 0b1_11', 7), ('// tag: 255', 255),
    ('// tag 7', TAG), ('// tag = 7', TAG), ('// Tag: 7', TAG), ('// TAG: 7', TAG), ('// tag', TAG), ('// tag(7)', TAG), ('// tag - 7', TAG), ('// tag; 7', TAG), ('// tag #7', TAG),
    ('// tag no. 7', TAG), ('// tag is 7', TAG), ('// tag=7', TAG), ('// tag\uff1a 7', TAG), ('// #tag: 7', TAG), ('// "tag": 7', TAG), ('// [tag: 7]', TAG), ('// tag_7', TAG),
    ('// tag-7', TAG), ('// tag of 7', TAG), ('// Tag of what is bought', TAG), ('/// tag: 7', TAG), ('//! tag: 7', TAG), ('//// tag: 7', TAG), ('/* tag: 7 */', TAG), ('/** tag: 7 */', TAG),
    ('/*\n     * tag: 7\n     */', TAG), ('/// B.\n    /// tag: 7', TAG), ('// tags: 7', TAG), ('// tagged: 7', TAG), ('// tagged 7', TAG), ('// discriminant: 7', TAG),
    ('// discriminant = 7', TAG), ('// Discriminant 7', TAG), ('/// discriminant: 7', TAG), ('// discriminator: 7', TAG), ('// discr: 7', TAG), ('// borsh: tag: 7', TAG), ('// borsh_tag: 7', TAG),
    ('// borsh(tag = 7)', TAG), ('// borsh: discriminant = 7', TAG), ('// borsh: use_discriminant = true', 'there are `// skip` for a field and `// tag: 7` for a variant'),
    ('// tga: 7', TAG), ('// tg: 7', TAG), ('#[doc = "tag: 7"]', TAG), ('// Tag: 0x1f', 'write `// tag: 0x1f` above the variant'), ('/// skip', SKIP), ('// skipped', SKIP),
    ('// tag: seven', '`seven` is no number'), ('// tag: 7, the old one', '`7, the old one` is no number'), ('// tag: 7.', '`7.` is no number'), ('// tag:', '`` is no number'),
    ('// tag: 256', 'a tag is one byte'), ('// tag: -1', 'a tag is one byte'),
    ('// tagged by what is before it', 1), ('// the tag is 7', 1), ('// 7', 1), ('// tango: 7', 1), ('// B = 7', 1), ('// stage: 7', 1), ('// 7 is the tag', 1))


class Words(Cases):
    def answered(self, types, mark):
        """What is written for types, or the refusal."""
        crate = self.crate(types)
        status, said = crate.run()
        return crate.read(mark) if status == 0 else said

    def test_comments_at_a_field(self):
        for comment, answer in FIELDS:
            above = 'pub struct A {\n    pub a: u8,\n    %s\n    pub b: u32,\n}\n' % comment
            behind = 'pub struct A {\n    pub a: u8,\n    pub b: u32, %s\n}\n' % comment
            for types in (above,) if comment.startswith(('//!', '#[')) else (above, behind, above.replace(' {', '(').replace('}', ');').replace('a: ', '').replace('b: ', '')):
                said = self.answered('// derive: borsh\n' + types, 'types_a')
                rows = {'left out': 'type Fields = u8;\n', 'prose': 'type Fields = (u8, u32);\n'}
                with self.subTest(types):
                    self.assertIn(rows.get(answer, answer), said)

    def test_comments_at_a_variant(self):
        for comment, answer in VARIANTS:
            row = answer if isinstance(answer, str) else 'type Variants = Fork<Case<0, ()>, Case<%d, u8>>;\n' % answer
            with self.subTest(comment):
                self.assertIn(row, self.answered('// derive: borsh\npub enum A {\n    B,\n    %s\n    C(u8),\n}\n' % comment, 'types_a'))

    def test_places(self):
        """A word is seen wherever it is in a type; above the type, where docs are, if it is by itself."""
        for types, line in (
                ('pub struct A(pub u8, /* skip */ pub u8);\n', 2), ('pub struct A(pub u8, pub /* skip */ u8);\n', 2), ('pub struct A(pub u8, pub Vec<u8 /* skip */>);\n', 2),
                ('pub struct A {\n    pub a: u8,\n    // skip the rest\n}\n', 4), ('pub struct A(pub u8); /* skip */\n', 2), ('pub struct A(pub u8); // skipped: all\n', 2),
                ('pub enum A {\n    B { /// skip\n        b: u8 },\n}\n', 3), ('pub enum A {\n    B, // Tag: 7\n}\n', 3), ('pub enum A {\n    B(u8), // tag 7\n    C,\n}\n', 3),
                ('pub enum A {\n    /* One.\n\n    Tag = 7 */\n    B,\n}\n', 5), ('/// skip\npub struct A(pub u8);\n', 2), ('// Tag = 7\npub enum A {\n    B,\n}\n', 2)):
            with self.subTest(types):
                self.refused('// derive: borsh\n' + types, line, 'changes no byte of the encoding, and begins as if it did')
        for types in ('/// Skip list.\npub struct A(pub u8);\n', '/// Tag of a message.\npub struct A(pub u8);\n', '// Tags, 7 of them\npub struct A(pub u8);\n',
                      'pub struct A(pub u8);\n\n// skip\npub struct B {\n    /// skip\n    pub a: u8,\n}\n'):
            self.written('// derive: borsh\n' + types, 'types_a')
