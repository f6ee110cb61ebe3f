//! What the text of hours needs to know of a house.
use super::open::Open;
use super::what::{Key, What};
use crate::head::{BuildingElement, Head};

/// A value that stays the same in every hour.
#[derive(Clone, Copy, Debug, PartialEq)]
pub(crate) enum Constant {
    Number(f64),
    Open(Open),
}

/// The names of a house's elements and how many treatments each has, and the values that stay the same
/// in every hour.
#[derive(Clone, Debug, PartialEq)]
pub struct Plan {
    /// The name of the house, where its file has one.
    pub(crate) house: Option<String>,
    pub(crate) names: Vec<String>,
    /// Not known where hours are read without a house.
    pub(crate) treatments: Option<Vec<usize>>,
    pub(crate) constants: Vec<(Key, Constant)>,
}

impl Plan {
    /// The plan of a head alone: it has no names, so the elements are `element_1` and so on.
    pub fn of_head(head: &Head) -> Self {
        let names = (1..=head.elements.len()).map(numbered).collect();
        Self::with_names(head, names)
    }

    /// The plan of a head whose elements have these names, one for each.
    pub fn with_names(head: &Head, names: Vec<String>) -> Self {
        let treatments = head.elements.iter().map(treatments).collect();
        Self { house: None, names, treatments: Some(treatments), constants: vec![] }
    }

    /// The plan of so many elements of which nothing is known.
    pub fn of_elements(elements: usize) -> Self {
        Self::of_names((1..=elements).map(numbered).collect())
    }

    /// Whether both are of elements with the same treatments, in this order.
    pub fn fits(&self, other: &Plan) -> bool {
        self.treatments == other.treatments
    }

    /// The plan of hours that are read without a house.
    pub(crate) fn of_names(names: Vec<String>) -> Self {
        Self { house: None, names, treatments: None, constants: vec![] }
    }

    /// The same, with a name for the house.
    pub fn with_house_name(self, name: &str) -> Self {
        Self { house: Some(name.to_string()), ..self }
    }

    /// The name of the house, where its file has one: it is no part of a head.
    pub fn house_name(&self) -> Option<&str> {
        self.house.as_deref()
    }

    /// Names of the elements.
    pub fn names(&self) -> &[String] {
        &self.names
    }

    pub(crate) fn treatments_of(&self, element: usize) -> Option<usize> {
        self.treatments.as_ref().map(|all| all[element])
    }

    pub(crate) fn constant(&self, what: What, element: Option<usize>) -> Option<Constant> {
        let key = Key { what, element };
        self.constants.iter().find(|(of, _)| *of == key).map(|(_, constant)| *constant)
    }
}

/// How many treatments an element has.
fn treatments(element: &BuildingElement) -> usize {
    element.kind.parts().2.len()
}

/// The name of an element that has none.
fn numbered(number: usize) -> String {
    format!("element_{number}")
}
