// SPDX-License-Identifier: MIT
//! JSON by the names of the crate `serde_json`, as far as saved states need it.

use super::itoa::Buffer;
use super::json_reader::Reader;
use super::vec::{String, Vec};
use super::{AllocError, Global};

/// A value.
#[derive(Debug)]
pub enum Value {
    /// A whole number below 2^64.
    Number(u64),
    Array(Vec<Value>),
    /// The members as they were read, of which the last of a name counts.
    Object(Vec<(String, Value)>),
    /// A string, a boolean, null, or another number.
    Other,
}

/// The error for a text without a value.
#[derive(Clone, Copy, Debug, PartialEq, Eq)]
pub enum Error {
    /// It isn't JSON, or is nested deeper than 127 lists.
    Text,
    /// An allocation failed.
    Memory,
}

impl Error {
    /// "True if an allocation failed."
    pub fn is_memory(&self) -> bool {
        *self == Error::Memory
    }
}

impl From<AllocError> for Error {
    fn from(_: AllocError) -> Error {
        Error::Memory
    }
}

impl Value {
    /// "`Ok` of the value that the text writes; an error of memory if an allocation failed; and else an error."
    pub fn from_str(alloc: Global, text: &str) -> Result<Value, Error> {
        Reader::new(alloc, text).whole_value()
    }

    /// An object of these members.
    pub fn object<const N: usize>(
        alloc: Global,
        members: [(&str, Value); N],
    ) -> Result<Value, AllocError> {
        let mut owned = Vec::new(alloc);
        for (name, value) in members {
            owned.push((String::from_str(alloc, name)?, value))?;
        }
        Ok(Value::Object(owned))
    }

    /// "The last member of that name, if it is an object that has one."
    pub fn get(&self, name: &str) -> Option<&Value> {
        let Value::Object(members) = self else {
            return None;
        };
        members
            .iter()
            .rev()
            .find(|member| member.0.as_str() == name)
            .map(|member| &member.1)
    }

    /// "The number, if it is a whole one below 2^64."
    pub fn as_u64(&self) -> Option<u64> {
        if let Value::Number(number) = self {
            Some(*number)
        } else {
            None
        }
    }

    /// "The items, if it is an array."
    pub fn as_array(&self) -> Option<&Vec<Value>> {
        if let Value::Array(items) = self {
            Some(items)
        } else {
            None
        }
    }

    /// "`Ok` of the compact text, or `Err` if an allocation failed." The names of members need no escape.
    pub fn to_string(&self, alloc: Global) -> Result<String, AllocError> {
        let mut text = String::new(alloc);
        self.write(&mut text)?;
        Ok(text)
    }

    fn write(&self, text: &mut String) -> Result<(), AllocError> {
        match self {
            Value::Number(number) => text.push_str(Buffer::new().format(*number)),
            Value::Array(items) => write_items(items, text),
            Value::Object(members) => write_members(members, text),
            Value::Other => text.push_str("null"),
        }
    }
}

fn write_items(items: &[Value], text: &mut String) -> Result<(), AllocError> {
    let mut before = "[";
    for item in items {
        text.push_str(before)?;
        item.write(text)?;
        before = ",";
    }
    text.push_str(if items.is_empty() { "[]" } else { "]" })
}

fn write_members(members: &[(String, Value)], text: &mut String) -> Result<(), AllocError> {
    let mut before = "{\"";
    for (name, value) in members {
        text.push_str(before)?;
        text.push_str(name.as_str())?;
        text.push_str("\":")?;
        value.write(text)?;
        before = ",\"";
    }
    text.push_str(if members.is_empty() { "{}" } else { "}" })
}

impl From<u8> for Value {
    fn from(number: u8) -> Value {
        Value::Number(number.into())
    }
}

impl From<u64> for Value {
    fn from(number: u64) -> Value {
        Value::Number(number)
    }
}

impl From<usize> for Value {
    fn from(number: usize) -> Value {
        // A `usize` has at most 64 bits.
        Value::Number(number as u64)
    }
}

/// `json!(in alloc; {..})`: "`Ok` of the object of these members, or `Err` if an allocation failed."
macro_rules! json {
    (in $alloc:expr; {$($name:literal: $value:expr),*}) => {
        $crate::rattle::serde_json::Value::object($alloc, [$(($name, $crate::rattle::serde_json::Value::from($value))),*])
    };
}
pub(crate) use json;
