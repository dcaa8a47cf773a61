//! The rules with their numbers and words.

use std::fmt;

/// A rule that a text can break.
///
/// The place of a refusal is that of the value or name that breaks the rule, and its end is
/// the end of that. Under the rules 1 to 5 and 18 the end is the place itself.
///
/// ```
/// use kebrawish::Rule;
///
/// let refusal = kebrawish::judge(br#"{"type":"CityJSON","type":1}"#).unwrap_err();
/// assert_eq!(refusal.rule, Rule::RepeatedName);
/// assert_eq!(refusal.rule.number(), 6);
/// assert_eq!(refusal.rule.to_string(), "repeated name");
/// assert_eq!(Rule::from_number(6), Some(Rule::RepeatedName));
/// ```
#[derive(Clone, Copy, Debug, PartialEq, Eq, PartialOrd, Ord, Hash)]
#[non_exhaustive]
pub enum Rule {
    /// 1: more than 65,535 bytes. The place is 65,535.
    TooLong = 1,
    /// 2: not UTF-8. The place is the length of the longest prefix of whole characters.
    NotUtf8 = 2,
    /// 3: not JSON. The place is the length of the longest prefix that begins a JSON text.
    NotJson = 3,
    /// 4: more than 32 levels. The place is that of the bracket that opens the 33rd.
    TooDeep = 4,
    /// 5: unpaired surrogate escape. The place is that of its backslash.
    UnpairedSurrogate = 5,
    /// 6: repeated name, of any object: the later one.
    RepeatedName = 6,
    /// 7: wrong JSON kind of a value.
    WrongKind = 7,
    /// 8: required member absent, from an object.
    MissingMember = 8,
    /// 9: more than 1,024 city objects: the name of the 1,025th.
    TooManyObjects = 9,
    /// 10: wrong word, a string.
    WrongWord = 10,
    /// 11: type not carried: `GeometryInstance`, or the type of an object of an extension.
    NotCarried = 11,
    /// 12: wrong shape of a transform, a vertex, a boundary or the values over one: the array
    /// or the element.
    WrongShape = 12,
    /// 13: number out of range.
    OutOfRange = 13,
    /// 14: geometry type not permitted for the object type: the geometry's `type`.
    NotPermitted = 14,
    /// 15: linked ID absent, or listed twice: the string in the list.
    UnknownLink = 15,
    /// 16: second-level object with no parent: the object.
    NoParent = 16,
    /// 17: one-sided link: the string in the list.
    OneSidedLink = 17,
    /// 18: sheet longer than the lent room, from [`lay`](crate::lay) only. The place is 0.
    NoRoom = 18,
}

impl Rule {
    /// All rules, in the order of their numbers.
    pub const ALL: [Rule; 18] = [
        Rule::TooLong,
        Rule::NotUtf8,
        Rule::NotJson,
        Rule::TooDeep,
        Rule::UnpairedSurrogate,
        Rule::RepeatedName,
        Rule::WrongKind,
        Rule::MissingMember,
        Rule::TooManyObjects,
        Rule::WrongWord,
        Rule::NotCarried,
        Rule::WrongShape,
        Rule::OutOfRange,
        Rule::NotPermitted,
        Rule::UnknownLink,
        Rule::NoParent,
        Rule::OneSidedLink,
        Rule::NoRoom,
    ];

    /// The rule's number, from 1 to 18.
    pub fn number(self) -> u32 {
        self as u32
    }

    /// The rule of a number, if there is one.
    pub fn from_number(number: u32) -> Option<Rule> {
        Rule::ALL.into_iter().find(|rule| rule.number() == number)
    }

    /// What is wrong with the text, in a few words.
    pub fn words(self) -> &'static str {
        match self {
            Rule::TooLong => "more than 65,535 bytes",
            Rule::NotUtf8 => "not UTF-8",
            Rule::NotJson => "not JSON",
            Rule::TooDeep => "more than 32 levels",
            Rule::UnpairedSurrogate => "unpaired surrogate escape",
            Rule::RepeatedName => "repeated name",
            Rule::WrongKind => "wrong JSON kind",
            Rule::MissingMember => "required member absent",
            Rule::TooManyObjects => "more than 1,024 city objects",
            Rule::WrongWord => "wrong word",
            Rule::NotCarried => "type not carried",
            Rule::WrongShape => "wrong shape",
            Rule::OutOfRange => "number out of range",
            Rule::NotPermitted => "geometry type not permitted for the object type",
            Rule::UnknownLink => "linked ID absent, or listed twice",
            Rule::NoParent => "second-level object with no parent",
            Rule::OneSidedLink => "one-sided link",
            Rule::NoRoom => "sheet longer than the lent room",
        }
    }
}

/// Prints the words.
impl fmt::Display for Rule {
    fn fmt(&self, formatter: &mut fmt::Formatter) -> fmt::Result {
        formatter.pad(self.words())
    }
}

#[cfg(test)]
mod tests {
    use super::Rule;

    #[test]
    fn a_rule_is_found_by_its_number() {
        for (number, rule) in (1..).zip(Rule::ALL) {
            assert_eq!(rule.number(), number);
            assert_eq!(Rule::from_number(number), Some(rule));
        }
        for number in [0, 19, u32::MAX] {
            assert_eq!(Rule::from_number(number), None);
        }
    }

    #[test]
    fn the_words_tell_the_rules_apart() {
        let mut words = Rule::ALL.map(Rule::words).to_vec();
        words.sort();
        words.dedup();
        assert_eq!(words.len(), Rule::ALL.len());
    }
}
