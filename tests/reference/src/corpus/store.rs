//! Where the corpus's files go: each is handed on with its name and the output
//! that the reference gives.

use crate::corpus::script::{Promise, Script};
use crate::corpus::tally::Tally;
use std::io;

/// What is done with a file: its name, its bytes and the expected output.
pub type Take<'a> = dyn FnMut(&str, &[u8], &[u8]) -> io::Result<()> + 'a;

pub struct Store<'a> {
    take: Box<Take<'a>>,
    pub tally: Tally,
}

impl<'a> Store<'a> {
    pub fn new(take: Box<Take<'a>>) -> Store<'a> {
        Store {
            take,
            tally: Tally::default(),
        }
    }

    /// Hands on one file of this family.
    pub fn put(&mut self, family: &str, input: &[u8]) -> io::Result<Vec<u8>> {
        let mut output = Vec::new();
        crate::season(input, &mut output)?;
        let name = format!("{:05}-{family}", self.tally.files + 1);
        self.hand_on(family, &name, input, &output)?;
        Ok(output)
    }

    /// Hands on a file whose name and output are known.
    pub fn hand_on(
        &mut self,
        family: &str,
        name: &str,
        input: &[u8],
        output: &[u8],
    ) -> io::Result<()> {
        self.tally.add(family, input, output);
        (self.take)(name, input, output)
    }

    /// Hands on a history, and tests what its ledger promises.
    pub fn put_script(&mut self, family: &str, script: &Script) -> io::Result<()> {
        let output = self.put(family, &script.draft.bytes())?;
        test_promises(&output, &script.promises);
        self.tally.promises += script.promises.len();
        Ok(())
    }
}

/// Each promised reading must have its line. The reference is wrong if not.
fn test_promises(output: &[u8], promises: &[Promise]) {
    let text = std::str::from_utf8(output).expect("plain text");
    let lines: Vec<&str> = text.lines().collect();
    for (event, message) in promises {
        let digits: String = message.iter().map(|b| format!("{b:02x}")).collect();
        let expected = format!("{event} 4 0 {digits}");
        let found = lines.get(*event).copied();
        assert_eq!(found, Some(&*expected), "a reading is not its ledger");
    }
}
