//! Stand-in for byteorder: 64-bit numbers, high octet first, and no more than networking.rs calls.
use std::io::{Read, Result, Write};

pub trait ByteOrder {
    fn read_u64(octets: [u8; 8]) -> u64;
    fn write_u64(number: u64) -> [u8; 8];
}

pub enum BigEndian {}

impl ByteOrder for BigEndian {
    fn read_u64(octets: [u8; 8]) -> u64 {
        u64::from_be_bytes(octets)
    }
    fn write_u64(number: u64) -> [u8; 8] {
        number.to_be_bytes()
    }
}

pub trait ReadBytesExt: Read {
    fn read_u64<T: ByteOrder>(&mut self) -> Result<u64> {
        let mut octets = [0; 8];
        self.read_exact(&mut octets)?;
        Ok(T::read_u64(octets))
    }
    /// Fails where there are too few bytes for all the numbers.
    fn read_u64_into<T: ByteOrder>(&mut self, numbers: &mut [u64]) -> Result<()> {
        for number in numbers {
            *number = self.read_u64::<T>()?;
        }
        Ok(())
    }
}

impl<R: Read + ?Sized> ReadBytesExt for R {}

pub trait WriteBytesExt: Write {
    fn write_u64<T: ByteOrder>(&mut self, number: u64) -> Result<()> {
        self.write_all(&T::write_u64(number))
    }
}

impl<W: Write + ?Sized> WriteBytesExt for W {}
