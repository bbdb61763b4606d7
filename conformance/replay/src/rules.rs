//! The answers to `check`, `size` and `counts` by the definitions of docs/DESIGN.md, and by two
//! faults of the original.

use crate::requests::digits_of;
use borsh::schema::{BorshSchemaContainer, Definition, Fields};
use std::collections::{BTreeMap, BTreeSet};

/// Every size is below it, and whatever isn't is an overflow.
const LIMIT: u128 = 1 << 64;

/// Which faults of the original are to be taken over.
#[derive(Clone, Copy, Default)]
pub struct Faults {
    /// The size of an enum isn't multiplied by the count of a sequence of it.
    pub single_enums: bool,
    /// A sequence without bytes that was met before is taken for one that leads back, and so for
    /// one with bytes.
    pub met_sequences: bool,
}

/// A container and the questions about it.
pub struct Rules<'a> {
    root: &'a str,
    definitions: BTreeMap<&'a str, &'a Definition>,
    faults: Faults,
}

/// The names that a definition mentions.
fn mentions(definition: &Definition) -> Vec<&str> {
    match definition {
        Definition::Primitive(_) => Vec::new(),
        Definition::Sequence { elements, .. } => vec![elements],
        Definition::Tuple { elements } => elements.iter().map(|name| name.as_str()).collect(),
        Definition::Enum { variants, .. } => {
            variants.iter().map(|(_, _, name)| name.as_str()).collect()
        }
        Definition::Struct { fields } => match fields {
            Fields::NamedFields(fields) => fields.iter().map(|(_, name)| name.as_str()).collect(),
            Fields::UnnamedFields(fields) => fields.iter().map(|name| name.as_str()).collect(),
            Fields::Empty => Vec::new(),
        },
    }
}

/// The names that a size needs: all mentions but the element of a sequence that ends at 0.
fn needs(definition: &Definition) -> Vec<&str> {
    match definition {
        Definition::Sequence { length_range, .. } if *length_range.end() == 0 => Vec::new(),
        _ => mentions(definition),
    }
}

/// The element of a sequence that isn't an array.
fn checked_element(definition: &Definition) -> Option<&str> {
    match definition {
        Definition::Sequence {
            length_width: 0,
            length_range,
            ..
        } if length_range.start() == length_range.end() => None,
        Definition::Sequence { elements, .. } => Some(elements),
        _ => None,
    }
}

impl<'a> Rules<'a> {
    pub fn new(container: &'a BorshSchemaContainer, faults: Faults) -> Rules<'a> {
        Rules {
            root: container.declaration(),
            definitions: container
                .definitions()
                .map(|(name, definition)| (name.as_str(), definition))
                .collect(),
            faults,
        }
    }

    /// How many mentions a walk meets that looks at each of them; one that leads back isn't followed.
    pub fn count_mentions(&self) -> u64 {
        self.mentions_below(self.root, &mut BTreeMap::new())
    }

    fn mentions_below(&self, name: &'a str, counted: &mut BTreeMap<&'a str, u64>) -> u64 {
        if let Some(count) = counted.get(name) {
            return *count;
        }
        counted.insert(name, 1);
        let mut count = 1u64;
        for mention in self.definition(name).map(mentions).unwrap_or_default() {
            count = count.saturating_add(self.mentions_below(mention, counted));
        }
        counted.insert(name, count);
        count
    }

    fn definition(&self, name: &str) -> Option<&'a Definition> {
        self.definitions.get(name).copied()
    }

    /// The root and all names that it leads to.
    fn led_to(&self, from: &'a str, step: fn(&'a Definition) -> Vec<&'a str>) -> BTreeSet<&'a str> {
        let mut names = BTreeSet::new();
        let mut left = vec![from];
        while let Some(name) = left.pop() {
            if names.insert(name) {
                left.extend(self.definition(name).into_iter().flat_map(step));
            }
        }
        names
    }

    /// Every answer to `check`: `valid`, or each rule that a reached name breaks.
    pub fn check(&self) -> Vec<String> {
        let mut answers = Vec::new();
        for name in self.led_to(self.root, mentions) {
            for rule in self.broken_rules(name) {
                answers.push(format!("invalid {rule} {}", digits_of(name.as_bytes())));
            }
        }
        if answers.is_empty() {
            answers.push("valid".to_string());
        }
        answers
    }

    fn broken_rules(&self, name: &str) -> Vec<&'static str> {
        match self.definition(name) {
            None => vec!["MissingDefinition"],
            Some(Definition::Enum { tag_width, .. }) if *tag_width > 8 => vec!["TagTooWide"],
            Some(definition) => match checked_element(definition) {
                Some(element) => self.broken_by_sequence(definition, element),
                None => Vec::new(),
            },
        }
    }

    fn broken_by_sequence(&self, definition: &Definition, element: &str) -> Vec<&'static str> {
        let Definition::Sequence {
            length_width,
            length_range,
            ..
        } = definition
        else {
            return Vec::new();
        };
        let mut rules = Vec::new();
        if length_range.start() > length_range.end() {
            rules.push("EmptyLengthRange");
        }
        match length_width {
            3 | 5 | 6 | 7 => rules.push("TagNotPowerOfTwo"),
            1 | 2 | 4 if *length_range.end() >= 1 << (8 * length_width) => {
                rules.push("TagTooNarrow")
            }
            0..=8 => {}
            _ => rules.push("TagTooWide"),
        }
        if self.is_empty(element) {
            rules.push("ZSTSequence");
        }
        rules
    }

    /// Whether every member of the name is empty.
    fn is_empty(&self, name: &str) -> bool {
        let mut met = Vec::new();
        self.is_empty_below(name, &mut met)
    }

    /// The same below the names that were met, none of which is empty.
    fn is_empty_below<'b>(&'b self, name: &'b str, met: &mut Vec<&'b str>) -> bool {
        if met.contains(&name) {
            return false;
        }
        let Some(definition) = self.definition(name) else {
            return false;
        };
        met.push(name);
        let mut all = |names: Vec<&'b str>| names.iter().all(|name| self.is_empty_below(name, met));
        let empty = match definition {
            Definition::Primitive(size) => *size == 0,
            Definition::Sequence {
                length_width,
                length_range,
                elements,
            } => *length_width == 0 && (*length_range == (0..=0) || all(vec![elements])),
            Definition::Enum { tag_width, .. } => *tag_width == 0 && all(mentions(definition)),
            Definition::Tuple { .. } | Definition::Struct { .. } => all(mentions(definition)),
        };
        let stays =
            self.faults.met_sequences && empty && matches!(definition, Definition::Sequence { .. });
        if !stays {
            met.pop();
        }
        empty
    }

    /// Every answer to `size`: the size, or each fault that there is.
    pub fn size(&self) -> Vec<String> {
        let mut answers = Vec::new();
        for name in self.led_to(self.root, needs) {
            match self.definition(name) {
                None => answers.push(format!("missing {}", digits_of(name.as_bytes()))),
                Some(definition) => {
                    let below = needs(definition);
                    if below
                        .iter()
                        .any(|part| self.led_to(part, needs).contains(name))
                    {
                        answers.push("recursive".to_string());
                    }
                }
            }
        }
        answers.dedup();
        let size = self.size_below(self.root, &mut Vec::new());
        if size >= LIMIT {
            answers.push("overflow".to_string());
        } else if answers.is_empty() {
            answers.push(size.to_string());
        }
        answers.sort();
        answers.dedup();
        answers
    }

    /// The size of a name, as far as it is below the limit. A name without a definition and one
    /// below itself count as 0.
    fn size_below(&self, name: &'a str, above: &mut Vec<&'a str>) -> u128 {
        if above.contains(&name) {
            return 0;
        }
        let Some(definition) = self.definition(name) else {
            return 0;
        };
        above.push(name);
        let mut parts = needs(definition)
            .into_iter()
            .map(|part| self.size_below(part, above));
        let size = match definition {
            Definition::Primitive(size) => *size as u128,
            Definition::Sequence {
                length_width,
                length_range,
                elements,
            } => {
                let once = self.faults.single_enums
                    && matches!(self.definition(elements), Some(Definition::Enum { .. }));
                let count = if once { 1 } else { *length_range.end() as u128 };
                *length_width as u128 + count * parts.next().unwrap_or(0)
            }
            Definition::Enum { tag_width, .. } => *tag_width as u128 + parts.max().unwrap_or(0),
            Definition::Tuple { .. } | Definition::Struct { .. } => parts.sum(),
        };
        above.pop();
        size.min(LIMIT)
    }

    /// The answer to `counts`, with `A..B` for a number from A to B. The rules look at each reached
    /// name once if the container is valid, and a size at each needed name once if there is one. No
    /// question looks at more names than there are definitions.
    pub fn counts(&self) -> String {
        let all = self.definitions.len();
        let reached = self.led_to(self.root, mentions);
        let rules = if self.check() == ["valid"] {
            let elements = reached
                .iter()
                .filter_map(|name| self.definition(name))
                .filter_map(checked_element);
            let elements: BTreeSet<&str> = elements.collect();
            (reached.len().to_string(), elements.len())
        } else {
            (format!("0..{all}"), 0)
        };
        let needed = self.led_to(self.root, needs).len();
        let has_size = self.size().iter().all(|size| size.parse::<u64>().is_ok());
        let size = if has_size {
            needed.to_string()
        } else {
            format!("0..{all}")
        };
        format!("rules {} zero {}..{all} size {size}", rules.0, rules.1)
    }

    /// Whether the original panics: it counts the elements of a sequence of width 0, and there are
    /// too many.
    pub fn counts_too_far(&self) -> bool {
        let reached = self.led_to(self.root, mentions);
        let mut definitions = reached.iter().filter_map(|name| self.definition(name));
        definitions.any(|definition| match definition {
            Definition::Sequence {
                length_width: 0,
                length_range,
                ..
            } => *length_range == (0..=u64::MAX),
            _ => false,
        })
    }
}
