//! The table `[uid]` of the limits, in which tables such as `[uid.1000]` are for single users.

use std::collections::BTreeMap;
use std::fmt;

use serde::de::value::MapAccessDeserializer;
use serde::de::{DeserializeSeed, IntoDeserializer, MapAccess, Visitor};
use serde::{Deserialize, Deserializer};

use crate::limits::SharedKeys;

/// What the table says for all users, and for single ones.
#[derive(Debug, Default, PartialEq, Eq)]
pub struct UserKeys {
    pub all: SharedKeys,
    pub users: BTreeMap<u32, SharedKeys>,
}

/// The number of a user, if a key is one as the system writes it.
fn user_in(key: &str) -> Option<u32> {
    key.parse().ok().filter(|user: &u32| user.to_string() == key)
}

/// The keys of the table without those that are numbers, which it puts aside with their tables.
struct WithoutUsers<'a, A> {
    table: A,
    users: &'a mut BTreeMap<u32, SharedKeys>,
}

impl<'de, A: MapAccess<'de>> MapAccess<'de> for WithoutUsers<'_, A> {
    type Error = A::Error;

    fn next_key_seed<K: DeserializeSeed<'de>>(&mut self, seed: K) -> Result<Option<K::Value>, A::Error> {
        while let Some(key) = self.table.next_key::<String>()? {
            match user_in(&key) {
                Some(user) => drop(self.users.insert(user, self.table.next_value()?)),
                None => return seed.deserialize(key.into_deserializer()).map(Some),
            }
        }
        Ok(None)
    }

    fn next_value_seed<V: DeserializeSeed<'de>>(&mut self, seed: V) -> Result<V::Value, A::Error> {
        self.table.next_value_seed(seed)
    }
}

struct UserKeysVisitor;

impl<'de> Visitor<'de> for UserKeysVisitor {
    type Value = UserKeys;

    fn expecting(&self, to: &mut fmt::Formatter) -> fmt::Result {
        to.write_str("a table")
    }

    fn visit_map<A: MapAccess<'de>>(self, table: A) -> Result<UserKeys, A::Error> {
        let mut users = BTreeMap::new();
        let all = SharedKeys::deserialize(MapAccessDeserializer::new(WithoutUsers { table, users: &mut users }))?;
        Ok(UserKeys { all, users })
    }
}

impl<'de> Deserialize<'de> for UserKeys {
    fn deserialize<D: Deserializer<'de>>(from: D) -> Result<UserKeys, D::Error> {
        from.deserialize_map(UserKeysVisitor)
    }
}
