//! Arguments of the programs here: names, each with a value behind it.

/// The names that may be given, with the values that they have when they are not.
pub struct Arguments {
    values: Vec<(&'static str, Option<String>)>,
}

impl Arguments {
    /// Takes what was given, or says what is wrong with it.
    pub fn take(
        names: &[&'static str],
        given: impl Iterator<Item = String>,
    ) -> Result<Arguments, String> {
        let mut arguments = Arguments {
            values: names.iter().map(|&name| (name, None)).collect(),
        };
        let mut given = given;
        while let Some(word) = given.next() {
            let value = given.next().ok_or(format!("{word} takes a value"))?;
            let known = arguments.values.iter_mut().find(|(name, _)| *name == word);
            match known {
                Some((_, slot)) => *slot = Some(value),
                None => return Err(format!("{word} is none of {}", names.join(", "))),
            }
        }
        Ok(arguments)
    }

    pub fn text(&self, name: &str) -> Option<&str> {
        let known = self.values.iter().find(|(other, _)| *other == name);
        known.and_then(|(_, value)| value.as_deref())
    }

    pub fn number(&self, name: &str) -> Result<Option<u64>, String> {
        let Some(text) = self.text(name) else {
            return Ok(None);
        };
        let number = text.parse().map_err(|_| format!("{name} takes a number"))?;
        Ok(Some(number))
    }
}
