//! The works: a folder for each pad of a pallet.

use std::path::Path;
use std::sync::atomic::{AtomicU64, Ordering};
use std::thread;

use crate::args::{Args, Opt};
use crate::command::Command;
use crate::failure::{Failure, Named, DONE};
use crate::progress::Progress;
use crate::sizes::{schedule_told, Size};
use crate::staging::Staging;
use crate::system::{self, Generator};
use crate::works::Works;

pub const COMMAND: Command = Command {
    name: "pallet",
    options: &[
        Opt::valued("--count"),
        Opt::valued("--key-size"),
        Opt::valued("--schedule"),
        Opt::valued("--first"),
        Opt::valued("--jobs"),
    ],
    operands: &["DIR"],
    needed: 1,
    help: HELP,
    run,
};

const HELP: &str = "\
usage: bowlinette pallet --count N --key-size 16|24|32 [--schedule lea|wf-lea] [--first NUMBER] [--jobs J] DIR

The works: for each of N pads draws a key and codings from the system's generator, builds the book and the
reading book, and writes DIR/NUMBER with a folder for each station, which holds what that station may hold:

  pad      its number, and the message set
  driver   the book
  screen   the reading book, and the set by which what is read is decoded
  archive  the schedule, the key, and the last set

A pad appears whole or not at all; one that is there already is never overwritten. The codings are kept nowhere
else. Files have mode 0600.

  --count N        how many pads
  --key-size S     bytes of each key
  --schedule W     how round keys are made: lea (the default), or wf-lea, one way
  --first NUMBER   the first pad's number, 1 to 99999999 (default: 1)
  --jobs J         how many are made at a time, 1 to 256 (default: one for each core)

Example:
  bowlinette pallet --count 500 --key-size 16 --first 2000 pads
";

/// The highest number that a pad can have: it is written as eight digits.
const LAST: u64 = 99_999_999;

/// What a pallet is to be.
struct Order {
    count: u64,
    first: u64,
    jobs: u64,
    schedule: u8,
    size: Size,
}

impl Order {
    fn told(args: &Args) -> Result<Order, Failure> {
        args.needed("--count")?;
        let count = args.number("--count", 1..=LAST)?.unwrap_or(1);
        let first = args.number("--first", 1..=LAST)?.unwrap_or(1);
        if first + count - 1 > LAST {
            return Err(Failure::Usage(format!(
                "the last pad's number is over {LAST}"
            )));
        }
        let cores = thread::available_parallelism().map_or(1, |cores| cores.get() as u64);
        let jobs = args.number("--jobs", 1..=256)?.unwrap_or(cores).min(count);
        Ok(Order {
            count,
            first,
            jobs,
            schedule: schedule_told(args)?,
            size: Size::told(args)?,
        })
    }

    fn number(&self, place: u64) -> String {
        format!("{:08}", self.first + place)
    }
}

fn run(args: &Args) -> Result<u8, Failure> {
    let order = Order::told(args)?;
    let named = Named::new("the pallet", args.operand(0).unwrap_or_default());
    system::note_signals();
    let staging = Staging::new(Path::new(&named.place)).map_err(|error| named.failed(error))?;
    let numbers = order.first..=order.first + order.count - 1;
    let taken = staging
        .taken(numbers)
        .map_err(|error| named.failed(error))?;
    if let Some(number) = taken {
        return Err(staging.place(&number).there());
    }
    let progress = Progress::new(order.count);
    let made = make_all(&order, &staging, &progress);
    progress.end();
    made?;
    if progress.done() < order.count {
        return Err(named.failed(system::interrupted()));
    }
    Ok(DONE)
}

/// Makes the pads, so many at a time, until all are made, one fails, or a signal comes.
fn make_all(order: &Order, staging: &Staging, progress: &Progress) -> Result<(), Failure> {
    let next = AtomicU64::new(0);
    thread::scope(|scope| {
        let work = || {
            let worked = make_some(order, staging, progress, &next);
            if worked.is_err() {
                next.store(order.count, Ordering::Relaxed);
            }
            worked
        };
        // Where the system grants no more threads, those that there are make the pads.
        let begin = |_| thread::Builder::new().spawn_scoped(scope, work).ok();
        let others: Vec<_> = (1..order.jobs).filter_map(begin).collect();
        let mut worked = work();
        for other in others {
            worked = worked.and(other.join().expect("a thread of the pallet ends"));
        }
        worked
    })
}

/// Makes one pad after the other, each the next that nobody makes.
fn make_some(
    order: &Order,
    staging: &Staging,
    progress: &Progress,
    next: &AtomicU64,
) -> Result<(), Failure> {
    let mut works = Works::new(order.schedule, order.size);
    while !system::stopped() {
        let place = next.fetch_add(1, Ordering::Relaxed);
        if place >= order.count {
            break;
        }
        let number = order.number(place);
        works.make(&mut Generator)?;
        staging.put(&number, &works.files(&number))?;
        progress.add();
    }
    Ok(())
}
