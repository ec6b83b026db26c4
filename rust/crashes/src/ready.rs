//! The layer in Rust over a recorded drive.

use crate::layer::{self, Fault, Layer};
use crate::recorded::{Outcome, Shared};
use crate::shape::{Room, Shape};
use lane::file::{self, Doing, Drive, Error, Options};
use lane::{Key, Report, BLOCK};
use std::io;

/// The recorded drive as the layer takes it.
pub struct Recorded(pub Shared);

fn told(outcome: Outcome) -> io::Result<()> {
    match outcome {
        Outcome::Done => Ok(()),
        Outcome::Failed(_) => Err(io::Error::other("the drive fails")),
    }
}

impl Drive for Recorded {
    fn length(&self) -> u64 {
        self.0.borrow().bytes().len() as u64
    }

    fn read(&mut self, at: u64, buffer: &mut [u8]) -> io::Result<()> {
        told(self.0.borrow_mut().read(at as usize, buffer))
    }

    fn write(&mut self, at: u64, bytes: &[u8]) -> io::Result<()> {
        told(self.0.borrow_mut().write(at as usize, bytes))
    }

    fn flush(&mut self) -> io::Result<()> {
        told(self.0.borrow_mut().flush())
    }
}

/// The layer, over the drive that this makes of a record.
pub struct Ready<F>(pub F);

impl<D: Drive + 'static, F: Fn(Shared) -> D> Layer for Ready<F> {
    fn name(&self) -> String {
        "Rust".to_string()
    }

    fn create(&self, drive: &Shared, shape: &Shape) -> Result<Box<dyn layer::Lane>, Fault> {
        let drive = self.0(drive.clone());
        let made = options(shape).create_on(drive, shape.area, &shape.ranges);
        made.map(boxed).map_err(fault)
    }

    fn open(&self, drive: &Shared, shape: &Shape) -> Result<Box<dyn layer::Lane>, Fault> {
        let drive = self.0(drive.clone());
        options(shape).open_on(drive).map(boxed).map_err(fault)
    }
}

fn options(shape: &Shape) -> Options {
    let room = match shape.room {
        Room::Refuse => file::Room::Refuse,
        Room::Make => file::Room::Make,
        Room::Commit => file::Room::Commit,
    };
    Options::new().frames(shape.frames).room(room).clone()
}

fn boxed<D: Drive + 'static>(lane: file::Lane<D>) -> Box<dyn layer::Lane> {
    Box::new(lane)
}

fn fault(error: Error) -> Fault {
    match error {
        Error::Refused(refusal) => Fault::Refused(refusal.number()),
        Error::Stopped => Fault::Stopped,
        Error::Drive { doing, .. } => match doing {
            Doing::Read => Fault::Drive(layer::Doing::Read),
            Doing::Write => Fault::Drive(layer::Doing::Write),
            Doing::Flush => Fault::Drive(layer::Doing::Flush),
            other => Fault::Other(format!("{other:?}")),
        },
        other => Fault::Other(other.to_string()),
    }
}

impl<D: Drive> layer::Lane for file::Lane<D> {
    fn key(&mut self, oid: u32) -> Result<u32, Fault> {
        let key = file::Lane::key(self, oid);
        key.map(|key| key.count).map_err(fault)
    }

    fn read(&mut self, oid: u32, count: u32, page: &mut [u8; BLOCK]) -> Result<(), Fault> {
        file::Lane::read(self, Key { oid, count }, page).map_err(fault)
    }

    fn write(&mut self, oid: u32, count: u32, at: usize, bytes: &[u8]) -> Result<(), Fault> {
        file::Lane::write(self, Key { oid, count }, at, bytes).map_err(fault)
    }

    fn rescind(&mut self, oid: u32, count: u32) -> Result<(), Fault> {
        file::Lane::rescind(self, Key { oid, count }).map_err(fault)
    }

    fn snapshot(&mut self) -> Result<(), Fault> {
        file::Lane::snapshot(self).map_err(fault)
    }

    fn finish(&mut self) -> Result<(), Fault> {
        file::Lane::finish(self).map_err(fault)
    }

    fn commit(&mut self) -> Result<(), Fault> {
        file::Lane::commit(self).map_err(fault)
    }

    fn advance(&mut self) -> Result<Option<Report>, Fault> {
        file::Lane::advance(self).map_err(fault)
    }

    fn settle(&mut self) -> Result<(), Fault> {
        file::Lane::settle(self).map_err(fault)
    }

    fn forecast(&mut self) -> Result<u32, Fault> {
        file::Lane::forecast(self).map_err(fault)
    }
}
