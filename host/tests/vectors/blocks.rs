//! Cases that are blocks of `key: value` lines.

/// The keys that every case may have.
const COMMON: [&str; 3] = ["case", "call", "why"];

/// A block, its lines in order.
pub struct Block<'a> {
    lines: Vec<&'a str>,
}

/// The blocks of a text; an empty line ends one, and comments are left out.
pub fn blocks(text: &str) -> Vec<Block<'_>> {
    let lines: Vec<&str> = text.lines().filter(|line| !line.starts_with('#')).collect();
    let blocks = lines.split(|line| line.is_empty()).filter(|lines| !lines.is_empty());
    blocks.map(|lines| Block { lines: lines.to_vec() }).collect()
}

impl<'a> Block<'a> {
    /// The value of a key that the block has once.
    pub fn value(&self, key: &str) -> Result<&'a str, String> {
        self.optional(key)?.ok_or_else(|| format!("no {key}"))
    }

    /// The value of a key that the block may have once.
    pub fn optional(&self, key: &str) -> Result<Option<&'a str>, String> {
        match self.values(key)?[..] {
            [] => Ok(None),
            [value] => Ok(Some(value)),
            _ => Err(format!("{key} stands twice")),
        }
    }

    /// The values of a key that the block may have again and again, in order.
    pub fn values(&self, key: &str) -> Result<Vec<&'a str>, String> {
        let entries = self.entries()?.into_iter();
        Ok(entries.filter(|(name, _)| *name == key).map(|(_, value)| value).collect())
    }

    /// Success if all keys are among these and those of every case.
    pub fn expect_keys(&self, known: &[&str]) -> Result<(), String> {
        let entries = self.entries()?;
        let mut keys = entries.iter().map(|(key, _)| key);
        let unknown = keys.find(|key| !COMMON.contains(key) && !known.contains(key));
        unknown.map_or(Ok(()), |key| Err(format!("no key {key:?} is known")))
    }

    /// The keys with their values.
    fn entries(&self) -> Result<Vec<(&'a str, &'a str)>, String> {
        let entry = |line: &&'a str| {
            line.split_once(": ").ok_or_else(|| format!("{line:?} is no key and value"))
        };
        self.lines.iter().map(entry).collect()
    }
}

#[cfg(test)]
mod tests {
    use super::*;

    #[test]
    fn a_block_has_its_lines() {
        let text = "# a\n\ncase: one\ntext: \nwhy: a: b\n\n\n# b\ncase: two\nno\n# c\n";
        let found = blocks(text);
        assert_eq!(found.len(), 2);
        assert_eq!(found[0].value("case"), Ok("one"));
        assert_eq!(found[0].value("text"), Ok(""));
        assert_eq!(found[0].value("why"), Ok("a: b"));
        assert_eq!(found[0].optional("op"), Ok(None));
        assert_eq!(found[0].expect_keys(&["text"]), Ok(()));
        assert_eq!(found[0].expect_keys(&[]), Err("no key \"text\" is known".to_string()));
        assert!(found[1].value("case").is_err());
    }

    #[test]
    fn a_key_again_has_its_values_in_order() {
        let text = "case: a\nturn: 2\nstate: 5\nturn: 1\nturns: 9\nturn: 2\n\nturn: 3\nno\n";
        let found = blocks(text);
        assert_eq!(found[0].values("turn"), Ok(vec!["2", "1", "2"]));
        assert_eq!(found[0].values("state"), Ok(vec!["5"]));
        assert_eq!(found[0].values("op"), Ok(vec![]));
        assert_eq!(found[0].optional("state"), Ok(Some("5")));
        for twice in [found[0].optional("turn").err(), found[0].value("turn").err()] {
            assert_eq!(twice, Some("turn stands twice".to_string()));
        }
        assert_eq!(found[0].expect_keys(&["turn", "turns", "state"]), Ok(()));
        assert!(found[0].expect_keys(&["turns", "state"]).is_err());
        assert_eq!(found[1].values("turn"), Err("\"no\" is no key and value".to_string()));
    }
}
