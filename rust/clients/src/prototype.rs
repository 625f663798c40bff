//! A function as C declares it.

use std::fmt;

/// A parameter's type and name.
#[derive(Clone, Debug, PartialEq, Eq)]
pub struct Parameter {
    /// The type, one space between its words; an array has its length, as in
    /// `const uint32_t [35]`.
    pub kind: String,
    /// The name; none where it is a length or a place, which may be called
    /// anything.
    pub name: String,
}

/// A function's declaration.
#[derive(Clone, Debug, PartialEq, Eq)]
pub struct Prototype {
    /// The function's name.
    pub name: String,
    /// The result's type, `void` for none.
    pub result: String,
    /// The parameters, in order.
    pub parameters: Vec<Parameter>,
}

impl Parameter {
    /// A parameter of this type and name.
    pub fn new(kind: &str, name: &str) -> Self {
        let name = if kind == "size_t" { "" } else { name };
        Parameter {
            kind: kind.into(),
            name: name.into(),
        }
    }
}

impl fmt::Display for Prototype {
    fn fmt(&self, f: &mut fmt::Formatter<'_>) -> fmt::Result {
        let parameters: Vec<String> = self
            .parameters
            .iter()
            .map(|Parameter { kind, name }| format!("{kind} {name}"))
            .collect();
        let Prototype { name, result, .. } = self;
        write!(f, "{result} {name}({})", parameters.join(", "))
    }
}
