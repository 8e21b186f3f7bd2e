//! A capture: what a real mailbox and a stand-in for our node said to each
//! other (`tests/peers/README.md`).

use crate::json;
use second::sid;
use std::path::Path;

/// What one side said while the other listened.
#[derive(Clone, Debug, PartialEq, Eq)]
pub struct Said {
    /// By our stand-in; else by the mailbox.
    pub ours: bool,
    pub bytes: Vec<u8>,
}

#[derive(Clone, Debug)]
pub struct Capture {
    pub name: String,
    /// What the forwarder sees. The login is the host's business.
    pub script: Vec<Said>,
}

impl Capture {
    pub fn load(path: &Path) -> Result<Capture, String> {
        let name = path.file_stem().unwrap_or_default().to_string_lossy().into_owned();
        let text = std::fs::read_to_string(path).map_err(|e| format!("{name}: {e}"))?;
        let script = script(&text).ok_or(format!("{name}: not a capture"))?;
        Ok(Capture { name, script })
    }

    /// The called end speaks first.
    pub fn we_called(&self) -> bool {
        self.script.first().map_or(false, |said| !said.ours)
    }

    /// All bytes of a side.
    pub fn bytes(&self, ours: bool) -> Vec<u8> {
        let said = self.script.iter().filter(|said| said.ours == ours);
        said.flat_map(|said| said.bytes.iter().copied()).collect()
    }

    /// The side's SID: its first line in brackets, without CR.
    pub fn sid(&self, ours: bool) -> Option<Vec<u8>> {
        let bytes = self.bytes(ours);
        let line = bytes.split(|&byte| byte == b'\r').find(|line| trimmed(line).starts_with(b"["));
        line.map(|line| trimmed(line).to_vec())
    }

    /// What the stand-in said, with our node's SID in the place of its own.
    pub fn with_our_sid(&self) -> Vec<u8> {
        let said = self.bytes(true);
        let sid = match self.sid(true) {
            Some(sid) => sid,
            None => return said,
        };
        replaced(&said, &sid, sid::OURS).unwrap_or(said)
    }
}

/// The bytes with the first `old` in them made `new`.
pub fn replaced(bytes: &[u8], old: &[u8], new: &[u8]) -> Option<Vec<u8>> {
    let at = bytes.windows(old.len()).position(|window| window == old)?;
    Some([&bytes[..at], new, &bytes[at + old.len()..]].concat())
}

fn script(text: &str) -> Option<Vec<Said>> {
    let capture = json::read(text)?;
    let mut script = Vec::new();
    for event in capture.get("events")?.list()? {
        let ours = match event.get("dir")?.text()? {
            "us>peer" => true,
            "peer>us" => false,
            _ => return None,
        };
        if event.get("phase")?.text()? == "fbb" {
            script.push(Said { ours, bytes: hex(event.get("hex")?.text()?)? });
        }
    }
    Some(script)
}

fn hex(digits: &str) -> Option<Vec<u8>> {
    let pairs = (0..digits.len()).step_by(2);
    pairs.map(|at| u8::from_str_radix(digits.get(at..at + 2)?, 16).ok()).collect()
}

#[cfg(test)]
mod tests {
    use super::*;

    const TEXT: &str = r#"{"events": [
        {"dir": "peer>us", "phase": "login", "hex": "3a"},
        {"dir": "peer>us", "phase": "fbb", "hex": "5b412d465d0d0a3e0d"},
        {"dir": "us>peer", "phase": "fbb", "hex": "5b422d465d0d"}]}"#;

    #[test]
    fn the_forwarders_bytes_are_read() {
        let capture = Capture { name: String::new(), script: script(TEXT).unwrap() };
        assert!(capture.we_called());
        assert_eq!(capture.bytes(false), b"[A-F]\r\n>\r");
        assert_eq!(capture.sid(true), Some(b"[B-F]".to_vec()));
        assert_eq!(capture.with_our_sid(), b"[NOD-1-B1FH$]\r");
    }
}

/// Without blanks and line ends at both ends.
pub fn trimmed(line: &[u8]) -> &[u8] {
    let is_text = |byte: &u8| !byte.is_ascii_whitespace();
    let start = line.iter().position(is_text).unwrap_or(line.len());
    let end = line.iter().rposition(is_text).map_or(start, |last| last + 1);
    &line[start..end]
}
