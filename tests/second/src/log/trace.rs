//! What the log is fed: "the bytes consumed and given, by the calls' counts, in
//! order".

/// Whose bytes.
#[derive(Clone, Copy, Debug, PartialEq, Eq)]
pub enum Side {
    Us,
    Partner,
}

impl Side {
    pub fn other(self) -> Side {
        match self {
            Side::Us => Side::Partner,
            Side::Partner => Side::Us,
        }
    }
}

/// All bytes of one side, one after another, and which call each belongs to.
#[derive(Clone, Debug, Default)]
pub(super) struct Stream {
    pub(super) bytes: Vec<u8>,
    /// Where the bytes of a call end, and the call's number.
    calls: Vec<(usize, usize)>,
}

impl Stream {
    /// The number of the call that brought the byte at this place, if it came.
    pub(super) fn call(&self, place: usize) -> Option<usize> {
        let index = self.calls.partition_point(|&(end, _)| end <= place);
        self.calls.get(index).map(|&(_, call)| call)
    }
}

/// The bytes that went over the link.
#[derive(Clone, Debug, Default)]
pub struct Trace {
    ours: Stream,
    partner: Stream,
    calls: usize,
}

impl Trace {
    pub fn new() -> Trace {
        Trace::default()
    }

    /// The bytes that receive counted, the refused one included.
    pub fn consumed(&mut self, bytes: &[u8]) {
        self.add(Side::Partner, bytes);
    }

    /// The bytes that give counted.
    pub fn given(&mut self, bytes: &[u8]) {
        self.add(Side::Us, bytes);
    }

    fn add(&mut self, side: Side, bytes: &[u8]) {
        self.calls += 1;
        let call = self.calls;
        let stream = match side {
            Side::Us => &mut self.ours,
            Side::Partner => &mut self.partner,
        };
        stream.bytes.extend_from_slice(bytes);
        stream.calls.push((stream.bytes.len(), call));
    }

    pub(super) fn stream(&self, side: Side) -> &Stream {
        match side {
            Side::Us => &self.ours,
            Side::Partner => &self.partner,
        }
    }

    /// All bytes of a side.
    pub fn bytes(&self, side: Side) -> &[u8] {
        &self.stream(side).bytes
    }
}
