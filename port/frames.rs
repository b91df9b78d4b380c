//! The frames of docs/PORT-OTHER.md: written for the program, and read from it.

use std::io::{self, ErrorKind, Read};

/// Connections are numbered from 0.
pub const CONNECTIONS: usize = 8;
/// Microseconds of the longest wait.
pub const LONGEST_WAIT: u64 = 1_000_000_000;
const NOBODY: u8 = 255;

/// Puts a frame behind others. It has at most 65,535 bytes.
pub fn put(frames: &mut Vec<u8>, kind: u8, connection: u8, bytes: &[u8]) {
    frames.extend([kind, connection]);
    frames.extend((bytes.len() as u16).to_be_bytes());
    frames.extend(bytes);
}

/// A frame that came back.
pub struct Frame {
    pub kind: u8,
    pub connection: u8,
    pub bytes: Vec<u8>,
}

impl Frame {
    /// The next frame, or none where the program's output ends.
    pub fn read(from: &mut impl Read) -> io::Result<Option<Frame>> {
        let mut head = [0; 4];
        match from.read_exact(&mut head) {
            // a frame that the program did not finish was not said
            Err(error) if error.kind() == ErrorKind::UnexpectedEof => return Ok(None),
            other => other?,
        }
        let [kind, connection, high, low] = head;
        let mut bytes = vec![0; usize::from(u16::from_be_bytes([high, low]))];
        from.read_exact(&mut bytes)?;
        Ok(Some(Frame { kind, connection, bytes }))
    }

    /// The bytes that it was read from.
    pub fn written(&self) -> Vec<u8> {
        let mut frame = Vec::new();
        put(&mut frame, self.kind, self.connection, &self.bytes);
        frame
    }

    /// What it says; none if it is no frame of the page.
    pub fn answer(&self) -> Option<Answer<'_>> {
        let connection = self.connection;
        match (self.kind, &self.bytes[..]) {
            (b'b', text) => Some(Answer::Reply { to: connection, text }),
            (b'f', [a, b, c, d, text @ ..]) => {
                let after = u64::from(u32::from_be_bytes([*a, *b, *c, *d]));
                Some(Answer::Completion { to: Some(connection).filter(|to| *to != NOBODY), after, text })
            }
            (b's', [1, port, mode, transmits, high, low, target]) => {
                let id = Some(u16::from_be_bytes([*high, *low])).filter(|_| *transmits == 1);
                Some(Answer::Connector { by: connection, port: *port, mode: *mode, id, target: *target })
            }
            (b's', [2, port, state]) => Some(Answer::Relay { by: connection, port: *port, state: *state }),
            (b'c', _) => Some(Answer::Carriers),
            (b'l', _) => Some(Answer::Levels),
            (b'd', []) => Some(Answer::Due(None)),
            (b'd', [a, b, c, d]) => Some(Answer::Due(Some(u64::from(u32::from_be_bytes([*a, *b, *c, *d]))))),
            (b'!', [high, low]) => Some(Answer::Refusal { of: connection, number: u16::from_be_bytes([*high, *low]) }),
            _ => None,
        }
    }
}

/// What the program says. Moments are in microseconds; a connector's target is its lamp's, 0 where there is none.
pub enum Answer<'a> {
    Reply { to: u8, text: &'a [u8] },
    Completion { to: Option<u8>, after: u64, text: &'a [u8] },
    Connector { by: u8, port: u8, mode: u8, id: Option<u16>, target: u8 },
    Relay { by: u8, port: u8, state: u8 },
    Carriers,
    Levels,
    Due(Option<u64>),
    Refusal { of: u8, number: u16 },
}

#[cfg(test)]
mod tests {
    use super::*;

    fn read(bytes: &[u8]) -> Frame {
        Frame::read(&mut &bytes[..]).ok().flatten().unwrap_or(Frame { kind: 0, connection: 0, bytes: Vec::new() })
    }

    #[test]
    fn frames_are_written_as_the_page_says() {
        let mut frames = Vec::new();
        put(&mut frames, b'w', 0, &51_250_u32.to_be_bytes());
        put(&mut frames, b'b', 7, &[b'x'; 300]);
        assert_eq!(frames[..12], [b'w', 0, 0, 4, 0, 0, 200, 50, b'b', 7, 1, 44]);
        assert_eq!(frames.len(), 12 + 300);
    }

    #[test]
    fn answers_are_read_as_the_page_says() {
        let completion = read(b"f\xff\x00\x15\x00\x00\xc82completeir,1:1,7\r");
        let expected = b"completeir,1:1,7\r";
        assert!(matches!(completion.answer(),
            Some(Answer::Completion { to: None, after: 51_250, text }) if text == expected));
        let halted = read(b"s\x02\x00\x07\x01\x03\x02\x00\x00\x00\x00");
        assert!(matches!(halted.answer(), Some(Answer::Connector { by: 2, port: 3, mode: 2, id: None, target: 0 })));
        let sent = read(b"s\x02\x00\x07\x01\x03\x00\x01\x01\x02\x00");
        assert!(matches!(sent.answer(), Some(Answer::Connector { id: Some(258), .. })));
        let turned = read(b"s\x03\x00\x07\x01\x02\x03\x00\x00\x00\x32");
        assert!(matches!(turned.answer(), Some(Answer::Connector { by: 3, port: 2, mode: 3, id: None, target: 50 })));
        assert!(matches!(read(b"l\x00\x00\x03\x00\x64\x00").answer(), Some(Answer::Levels)));
        assert!(matches!(read(b"d\x00\x00\x00").answer(), Some(Answer::Due(None))));
        assert!(matches!(read(b"!\x02\x00\x02\x00\x68").answer(), Some(Answer::Refusal { of: 2, number: 104 })));
        assert!(read(b"s\x00\x00\x01\x01").answer().is_none());
    }

    #[test]
    fn an_output_may_end_between_frames_alone() {
        assert!(matches!(Frame::read(&mut &b""[..]), Ok(None)));
        assert!(Frame::read(&mut &b"b\x00\x00\x05abc"[..]).is_err());
    }
}
