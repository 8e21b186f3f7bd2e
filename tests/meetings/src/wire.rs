//! What was proposed and deferred in a meeting, read from the bytes on the link alone:
//! lines end with CR, and what begins with 01 is a transfer.

const CR: u8 = b'\r';
/// The first bytes of a transfer's header, of a block, and of the checksum.
const HEADER: u8 = 1;
const BLOCK: u8 = 2;
const CHECKSUM: u8 = 4;
/// "n = 00 means 256."
const LONGEST_BLOCK: usize = 256;
/// The BID's place among the words of a proposal: command, type, from, at, to, BID, size.
const BID_WORD: usize = 5;

/// The BIDs of `ours` that `theirs` answered with `=`: the bytes that we gave,
/// and those of the other's that we took.
pub fn deferred(ours: &[u8], theirs: &[u8]) -> Vec<Vec<u8>> {
    let answers = lines(theirs).into_iter().filter_map(|line| line.strip_prefix(b"FS "));
    let mut deferred = Vec::new();
    for (block, signs) in blocks(ours).into_iter().zip(answers) {
        let answered = block.into_iter().zip(signs.iter());
        deferred.extend(answered.filter(|(_, &sign)| sign == b'=').map(|(bid, _)| bid));
    }
    deferred
}

/// How many records we proposed, by the bytes that we gave.
pub fn proposed(ours: &[u8]) -> usize {
    blocks(ours).iter().map(Vec::len).sum()
}

/// The BIDs of each whole block.
fn blocks(bytes: &[u8]) -> Vec<Vec<Vec<u8>>> {
    let (mut whole, mut block) = (Vec::new(), Vec::new());
    for line in lines(bytes) {
        if line == b"F>" {
            whole.push(std::mem::take(&mut block));
        } else if line.starts_with(b"FA ") || line.starts_with(b"FB ") {
            let bid = line.split(|&byte| byte == b' ').nth(BID_WORD);
            block.push(bid.unwrap_or_default().to_vec());
        }
    }
    whole
}

/// The whole lines, without their CR; transfers are passed over.
fn lines(mut bytes: &[u8]) -> Vec<&[u8]> {
    let mut lines = Vec::new();
    loop {
        let length = match bytes.first() {
            Some(&HEADER) => transfer(bytes),
            _ => bytes.iter().position(|&byte| byte == CR).map(|end| end + 1),
        };
        match length.and_then(|length| Some((bytes.get(..length)?, bytes.get(length..)?))) {
            Some((unit, rest)) => {
                if unit[0] != HEADER {
                    lines.push(&unit[..unit.len() - 1]);
                }
                bytes = rest;
            }
            None => return lines,
        }
    }
}

/// The length of the transfer at the front, if it is there whole.
fn transfer(bytes: &[u8]) -> Option<usize> {
    let mut at = 2 + usize::from(*bytes.get(1)?);
    loop {
        let length = usize::from(*bytes.get(at + 1)?);
        match bytes[at] {
            BLOCK if length == 0 => at += 2 + LONGEST_BLOCK,
            BLOCK => at += 2 + length,
            CHECKSUM => return Some(at + 2),
            _ => return None,
        }
    }
}

#[cfg(test)]
mod tests {
    use super::*;

    #[test]
    fn the_signs_go_with_the_bids_of_their_block() {
        let ours = b"[NOD-1-B1FH$]\rFA P A B C X1 2\rFB B A B C X2 70000\rF>\r\
            \x01\x04T\x000\x00\x02\x02\r=\x04\xB6FA P A B C X3 2\rF>\r";
        let theirs = b"[NOD-1-B1FH$]\r>\rFS +=\rFS =\rFF\r";
        assert_eq!(deferred(ours, theirs), [b"X2".to_vec(), b"X3".to_vec()]);
        assert_eq!(deferred(ours, &theirs[..24]), [b"X2".to_vec()]);
        assert_eq!(deferred(&ours[..51], theirs), Vec::<Vec<u8>>::new());
        assert_eq!((proposed(ours), proposed(&ours[..51]), proposed(theirs)), (3, 0, 0));
    }
}
