//! "The session": one request and its reply, at the address in use (request R-2).

use std::fmt::Write as _;

use crate::pec::pec;
use crate::verdict::{end_if, Stop, NACK, SHAPE, WRONG_PEC};

const REGISTER_ADDRESS: u8 = 0xC7;
pub const REGISTER_DATA: u8 = 0xC5;
pub const READ_IDENTITY: u8 = 0xAD;
pub const READ_REVISION: u8 = 0xAE;

pub struct Reply<'a> {
    pub kind: u8,
    pub bytes: &'a [u8],
}

/// The host's side: the address in use, what was put out so far, and the replies still to come.
pub struct Host<'a> {
    address: u8,
    replies: std::slice::Iter<'a, Reply<'a>>,
    pub log: String,
    pub count: u32,
    pub burn: bool,
}

impl<'a> Host<'a> {
    /// The address is an allowed one, so that one more is a byte.
    pub fn new(address: u8, replies: &'a [Reply<'a>]) -> Self {
        Host {
            address,
            replies: replies.iter(),
            log: String::new(),
            count: 0,
            burn: false,
        }
    }

    /// "the read address is one more" than the write address.
    fn read_address(&self) -> u8 {
        self.address + 1
    }

    fn put_out(&mut self, verb: &str, bytes: &[u8]) {
        self.count += 1;
        self.log.push_str(verb);
        self.log.push(' ');
        for byte in bytes {
            write!(self.log, "{byte:02X}").expect("a String takes any text");
        }
        self.log.push('\n');
    }

    /// The next reply's bytes, once 20 and 21 are tried on its kind and byte count.
    fn reply_of(&mut self, byte_count: usize) -> Result<&'a [u8], Stop> {
        let reply = self.replies.next().ok_or(Stop::Waiting)?;
        end_if(reply.kind == 0, NACK)?;
        end_if(reply.kind > 1, SHAPE)?;
        end_if(reply.bytes.len() != byte_count, SHAPE)?;
        Ok(reply.bytes)
    }

    pub fn write(&mut self, command: u8, data: &[u8]) -> Result<(), Stop> {
        self.put_out_write(command, data);
        self.write_reply()
    }

    /// "A write's PEC covers C0, command, data", C0 being the address in use.
    pub fn put_out_write(&mut self, command: u8, data: &[u8]) {
        let mut request = [&[self.address, command], data].concat();
        request.push(pec(&request));
        self.put_out("write", &request);
    }

    /// "a write's reply has none" (no bytes).
    pub fn write_reply(&mut self) -> Result<(), Stop> {
        self.reply_of(0).map(|_| ())
    }

    pub fn select(&mut self, register: [u8; 2]) -> Result<(), Stop> {
        self.write(REGISTER_ADDRESS, &register)
    }

    fn put_out_read(&mut self, command: u8, byte_count: u8) {
        let request = [self.address, command, self.read_address(), byte_count];
        self.put_out("read", &request);
    }

    /// Reads C5: four bytes and PEC.
    pub fn read_register(&mut self) -> Result<&'a [u8], Stop> {
        self.put_out_read(REGISTER_DATA, 5);
        let bytes = self.reply_of(5)?;
        self.check_reply_pec(REGISTER_DATA, bytes)?;
        Ok(&bytes[..4])
    }

    /// Reads AD or AE.
    pub fn read_block(&mut self, command: u8) -> Result<&'a [u8], Stop> {
        self.put_out_block_read(command);
        self.block_reply(command)
    }

    pub fn put_out_block_read(&mut self, command: u8) {
        self.put_out_read(command, 6);
    }

    /// The block count 04, four bytes and PEC.
    pub fn block_reply(&mut self, command: u8) -> Result<&'a [u8], Stop> {
        let bytes = self.reply_of(6)?;
        end_if(bytes[0] != 4, SHAPE)?;
        self.check_reply_pec(command, bytes)?;
        Ok(&bytes[1..5])
    }

    /// "A read's covers C0, command, C1, then the bytes read before the PEC", C0 and C1 being the
    /// addresses in use.
    fn check_reply_pec(&self, command: u8, bytes: &[u8]) -> Result<(), Stop> {
        let (before, last) = bytes.split_at(bytes.len() - 1);
        let expected = pec(&[&[self.address, command, self.read_address()], before].concat());
        end_if(last != [expected], WRONG_PEC)
    }
}
