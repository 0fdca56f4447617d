//! Names of addresses: of real ones, or of one program's virtual ones.

use std::collections::BTreeMap;

/// Names and their addresses. An address may have several names; the first given is the one that is shown.
#[derive(Clone, Default, PartialEq, Eq, Debug)]
pub struct Names {
    by_address: BTreeMap<u32, Vec<String>>,
    by_name: BTreeMap<String, u32>,
}

impl Names {
    pub fn none() -> Names {
        Names::default()
    }

    /// Adds a name; one that is there already keeps its address.
    pub fn add(&mut self, name: &str, address: u32) {
        if self.by_name.contains_key(name) {
            return;
        }
        self.by_name.insert(name.to_string(), address);
        self.by_address.entry(address).or_default().push(name.to_string());
    }

    /// The first name of an address.
    pub fn name_of(&self, address: u32) -> Option<&str> {
        self.names_of(address).first().map(String::as_str)
    }

    /// The name of what lies at an address: that of a block's field, where there is one.
    pub fn content_of(&self, address: u32) -> Option<&str> {
        let names = self.names_of(address);
        names.iter().find(|name| name.contains('.')).or(names.first()).map(String::as_str)
    }

    /// All names of an address, in the order in which they were given.
    pub fn names_of(&self, address: u32) -> &[String] {
        self.by_address.get(&address).map_or(&[], Vec::as_slice)
    }

    pub fn address_of(&self, name: &str) -> Option<u32> {
        self.by_name.get(name).copied()
    }

    /// The nearest name at or below an address, with the distance.
    pub fn nearest(&self, address: u32) -> Option<(&str, u32)> {
        let (at, names) = self.by_address.range(..=address).next_back()?;
        Some((names.first()?, address - at))
    }

    /// Names and addresses, lowest address first.
    pub fn iter(&self) -> impl Iterator<Item = (&str, u32)> {
        self.by_address.iter().flat_map(|(at, names)| names.iter().map(|name| (name.as_str(), *at)))
    }

    pub fn is_empty(&self) -> bool {
        self.by_name.is_empty()
    }
}
