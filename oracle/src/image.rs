//! An image as it is lent to a machine.

#[derive(Clone, Debug, Default, Hash, PartialEq)]
pub struct Image {
    pub code: Vec<u64>,
    pub globals: Vec<u64>,
    pub switches: Vec<Switch>,
    pub lookups: Vec<Lookup>,
}

#[derive(Clone, Debug, Default, Hash, PartialEq)]
pub struct Switch {
    pub first: u64,
    pub targets: Vec<u64>,
}

#[derive(Clone, Debug, Default, Hash, PartialEq)]
pub struct Lookup {
    pub first: u64,
    pub default: u64,
    pub values: Vec<u64>,
}
