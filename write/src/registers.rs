//! Names of registers, as a listing has them.

use crate::table::Table;

/// What names depend on: the layout, and for some V8s the number of parameters.
#[derive(Debug, Clone, Copy)]
pub struct Registers {
    context: i32,
    closure: i32,
    first_param: i32,
    /// Where parameters are counted from their end.
    base: Option<i32>,
    parameters: Option<i32>,
}

const WANTED: &str = "expected a register: r0, a0, <this>, <context> or <closure>";
const PARAMETERS: &str =
    "the names of parameters depend on their number here: `Parameter count N` or --parameters N";

impl Registers {
    pub fn new(table: &Table, parameters: Option<i32>) -> Registers {
        Registers {
            context: table.layout(14),
            closure: table.layout(15),
            first_param: table.layout(16),
            base: (table.layout(18) == 1).then(|| table.layout(17)),
            parameters,
        }
    }

    /// The name of a register; None where it depends on a number of parameters that is not known.
    pub fn name(&self, index: i32) -> Option<String> {
        if index == self.context {
            return Some("<context>".into());
        }
        if index == self.closure {
            return Some("<closure>".into());
        }
        if index >= 0 {
            return Some(format!("r{index}"));
        }
        Some(match self.parameter_of(index)? {
            0 => "<this>".into(),
            parameter => format!("a{}", parameter.wrapping_sub(1)),
        })
    }

    /// The register that has just this name.
    pub fn index(&self, name: &str) -> Result<i32, String> {
        let number = |digits: &str| digits.parse::<i32>().ok();
        let index = match name {
            "<context>" => Some(self.context),
            "<closure>" => Some(self.closure),
            "<this>" => Some(self.index_of(0)?),
            _ => match (name.strip_prefix('r'), name.strip_prefix('a').and_then(number)) {
                (Some(digits), _) => number(digits),
                (_, Some(parameter)) => Some(self.index_of(parameter.wrapping_add(1))?),
                _ => None,
            },
        };
        let named = index.filter(|index| self.name(*index).as_deref() == Some(name));
        named.ok_or_else(|| format!("{WANTED}, not {name}"))
    }

    /// The parameter of a register, 0 for the receiver; numbers wrap.
    fn parameter_of(&self, index: i32) -> Option<i32> {
        match self.base {
            Some(base) => Some(index.wrapping_sub(base).wrapping_add(self.parameters?)),
            None => Some(self.first_param.wrapping_sub(index)),
        }
    }

    fn index_of(&self, parameter: i32) -> Result<i32, String> {
        match self.base {
            Some(base) => {
                let parameters = self.parameters.ok_or(PARAMETERS)?;
                Ok(parameter.wrapping_add(base).wrapping_sub(parameters))
            }
            None => Ok(self.first_param.wrapping_sub(parameter)),
        }
    }
}

/// Two names with a `-` between them; a name can have one itself (`a-2`).
pub fn range(text: &str) -> Option<(&str, &str)> {
    let places = text.match_indices('-').map(|(at, _)| at);
    let mut cuts = places.map(|at| (&text[..at], &text[at + 1..]));
    cuts.find(|(first, last)| is_name(first) && is_name(last))
}

fn is_name(text: &str) -> bool {
    let behind = |letter| text.strip_prefix(letter);
    match behind('r').or_else(|| behind('a').map(|rest| rest.strip_prefix('-').unwrap_or(rest))) {
        Some(digits) => !digits.is_empty() && digits.bytes().all(|b| b.is_ascii_digit()),
        None => matches!(text, "<this>" | "<context>" | "<closure>"),
    }
}

#[cfg(test)]
mod tests {
    use super::*;

    const SOME: [i32; 9] = [i32::MIN, i32::MIN + 1, -9, -6, -1, 0, 7, i32::MAX - 1, i32::MAX];

    /// A name is that of the register that it is read as, at the ends of all numbers too.
    #[test]
    fn names_are_read() {
        for (k, first_param) in SOME.into_iter().enumerate() {
            for base in [None, Some(SOME[(k + 4) % 9])] {
                let (context, closure) = (SOME[(k + 1) % 9], SOME[(k + 2) % 9]);
                let parameters = Some(SOME[(k + 3) % 9]);
                let registers = Registers { context, closure, first_param, base, parameters };
                for index in SOME.into_iter().flat_map(|index| [index, index.wrapping_add(2)]) {
                    let name = registers.name(index).unwrap();
                    assert_eq!(registers.index(&name), Ok(index), "{registers:?} {name}");
                }
            }
        }
    }

    #[test]
    fn ranges() {
        assert_eq!(range("r0-r2"), Some(("r0", "r2")));
        assert_eq!(range("a-2-a-1"), Some(("a-2", "a-1")));
        assert_eq!(range("<this>-a0"), Some(("<this>", "a0")));
        for none in ["r0", "r0-", "-r0", "r0-r", "r0-r1-r2", "a--1-a0", "r0-<that>"] {
            assert_eq!(range(none), None, "{none}");
        }
    }
}
