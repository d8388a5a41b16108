//! Notes for coverage: how often something of interest happened.

use std::collections::BTreeMap;

/// No part of the desk's state: any two are equal.
#[derive(Clone, Default, Debug)]
pub struct Notes(pub BTreeMap<&'static str, u64>);

impl Notes {
    pub(super) fn add(&mut self, what: &'static str) {
        *self.0.entry(what).or_insert(0) += 1;
    }

    pub(super) fn add_if(&mut self, happened: bool, what: &'static str) {
        if happened {
            self.add(what);
        }
    }
}

impl PartialEq for Notes {
    fn eq(&self, _: &Notes) -> bool {
        true
    }
}
