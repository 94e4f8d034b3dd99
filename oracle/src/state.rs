//! Where the rig was when the bridge last stopped: the meaning of state.rs without its file.
//!
//! `save` keeps the last object that the bridge handed over, so that the record layer can tell that an event
//! saved, and what. `load` hands back the object that the record layer put there. `Value` and `Map` have just
//! the few functions of the JSON library that `Bridge::restore` calls, so that its text stays as it is.

use std::collections::BTreeMap;
use std::sync::{Arc, Mutex};

pub type Map = BTreeMap<String, Value>;

#[derive(Debug, Clone, PartialEq)]
pub enum Value {
    Text(String),
    Number(u64),
    Object(Map),
}

impl Value {
    pub fn as_str(&self) -> Option<&str> {
        match self {
            Value::Text(s) => Some(s),
            _ => None,
        }
    }

    pub fn as_u64(&self) -> Option<u64> {
        match self {
            Value::Number(n) => Some(*n),
            _ => None,
        }
    }

    pub fn as_object(&self) -> Option<&Map> {
        match self {
            Value::Object(m) => Some(m),
            _ => None,
        }
    }
}

/// What `save` was handed: the device's name and the scene positions by bank name.
pub type Save = (String, BTreeMap<String, usize>);

/// Clones share what they hold: a copy of the bridge saves into the same place.
#[derive(Clone, Default)]
pub struct State {
    pub saved: Arc<Mutex<Option<Save>>>,
    pub loads: Arc<Mutex<Map>>,
}

impl State {
    /// The saved object, or an empty one when there is none: a fresh start.
    pub fn load(&self) -> Map {
        self.loads.lock().unwrap().clone()
    }

    pub fn save(&self, device: &str, scenes: &BTreeMap<String, usize>) {
        *self.saved.lock().unwrap() = Some((device.to_string(), scenes.clone()));
    }
}
