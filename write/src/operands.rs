//! One operand: its text in a listing, and what a text stands for.

use crate::registers::{range, Registers};
use crate::table::{function_name, function_named, Table};
use jscd_capi::Operand;
use std::str::FromStr;

/// What texts are read by.
pub struct Reading<'a> {
    pub table: &'a Table,
    pub registers: Registers,
}

impl Reading<'_> {
    /// An operand as a listing prints it; None where that depends on a number of parameters that is not known.
    pub fn text(&self, operand: &Operand) -> Option<String> {
        Some(match *operand {
            Operand::Reg(index) => self.registers.name(index)?,
            Operand::RegList { count: 0, .. } => self.list_text(0, 0)?,
            Operand::RegList { first, count } => {
                self.list_text(first, first.wrapping_add((count as i32).wrapping_sub(1)))?
            }
            Operand::Imm(value) => format!("[{value}]"),
            Operand::Idx(value) => format!("[{value}]"),
            Operand::Flag8(value) => format!("#{value}"),
            Operand::Flag16(value) => format!("#{value}"),
            Operand::RuntimeId(number) => match function_name(&self.table.runtime, number) {
                Some(name) => format!("[{name}]"),
                None => format!("[{number}]"),
            },
            Operand::IntrinsicId(number) => match function_name(&self.table.intrinsic, number) {
                Some(name) => format!("[_{name}]"),
                None => format!("[_intrinsic{number}]"),
            },
            Operand::Raw { ty, value } => format!("{}:{value}", self.table.type_name(ty)),
        })
    }

    fn list_text(&self, first: i32, last: i32) -> Option<String> {
        Some(format!("{}-{}", self.registers.name(first)?, self.registers.name(last)?))
    }

    /// What a text stands for where an operand of this type code is wanted. An error says what was expected.
    pub fn operand(&self, code: u8, text: &str) -> Result<Operand, String> {
        Ok(match code {
            0..=2 => Operand::Reg(self.registers.index(text)?),
            3..=7 => self.list(text)?,
            9 => Operand::Imm(bracketed(text, "[5] or [-5]")?),
            8 | 10..=12 => Operand::Idx(bracketed(text, "[5], from 0 to 4294967295")?),
            13 => Operand::Flag8(flag(text, "#5, from 0 to 255")?),
            14 => Operand::Flag16(flag(text, "#5, from 0 to 65535")?),
            15 => Operand::RuntimeId(self.runtime(text)?),
            16 => Operand::IntrinsicId(self.intrinsic(text)?),
            _ => self.raw(code, text)?,
        })
    }

    /// First and last register, or the first and how many.
    fn list(&self, text: &str) -> Result<Operand, String> {
        if let Some((first, count)) = text.split_once(':') {
            let first = self.registers.index(first)?;
            let count = number(count)
                .ok_or(format!("expected a count behind the register, not {count}"))?;
            return Ok(Operand::RegList { first, count });
        }
        let Some((first, last)) = range(text) else {
            return Err(format!(
                "expected registers: r0-r2, or r0:0 for none from r0 on, not {text}"
            ));
        };
        let [first, last] = [self.registers.index(first)?, self.registers.index(last)?];
        let count = last.wrapping_sub(first).wrapping_add(1) as u32;
        match count {
            0 => Err(format!("{text} ends before it begins; none from r0 on is r0:0")),
            _ => Ok(Operand::RegList { first, count }),
        }
    }

    /// A name, and else a number.
    fn runtime(&self, text: &str) -> Result<u32, String> {
        let inner = inner(text);
        let named = inner.and_then(|name| function_named(&self.table.runtime, name));
        named
            .or_else(|| inner.and_then(number))
            .ok_or_else(|| format!("expected a runtime function, [Name] or [5], not {text}"))
    }

    /// The same with an underscore before the name; one without a name is `[_intrinsic5]`.
    fn intrinsic(&self, text: &str) -> Result<u32, String> {
        let inner = inner(text);
        let name = inner.and_then(|inner| inner.strip_prefix('_'));
        let named = name.and_then(|name| function_named(&self.table.intrinsic, name));
        let unnamed = || name.and_then(|name| name.strip_prefix("intrinsic")).and_then(number);
        named
            .or_else(unnamed)
            .or_else(|| inner.and_then(number))
            .ok_or_else(|| format!("expected an intrinsic function, [_Name] or [5], not {text}"))
    }

    fn raw(&self, ty: u8, text: &str) -> Result<Operand, String> {
        let name = self.table.type_name(ty);
        let value =
            text.strip_prefix(name).and_then(|rest| rest.strip_prefix(':')).and_then(number);
        match value {
            Some(value) => Ok(Operand::Raw { ty, value }),
            None => Err(format!("expected {name}:5, not {text}")),
        }
    }
}

fn bracketed<N: FromStr>(text: &str, wanted: &str) -> Result<N, String> {
    let value = inner(text).and_then(number);
    value.ok_or_else(|| format!("expected a number, {wanted}, not {text}"))
}

fn flag<N: FromStr>(text: &str, wanted: &str) -> Result<N, String> {
    let value = text.strip_prefix('#').and_then(number);
    value.ok_or_else(|| format!("expected a flag, {wanted}, not {text}"))
}

/// What stands in brackets.
fn inner(text: &str) -> Option<&str> {
    text.strip_prefix('[')?.strip_suffix(']')
}

/// A decimal number; a plus sign is none.
fn number<N: FromStr>(digits: &str) -> Option<N> {
    digits.parse().ok().filter(|_| !digits.starts_with('+'))
}
