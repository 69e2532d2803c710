// SPDX-License-Identifier: Apache-2.0
//! A plan that runs.
//!
//! Its thread takes the pool's lock for as many calls as follow one another, and lets it go where
//! something of its own comes in between: a call of the work or of the device, or a copy of a page.
//! So where a work says ahead what it answers, a plan that goes down a tree takes the lock once for
//! each page, and once to end: under one hold the parent is given back and the child is latched.

use crate::device::Device;
use crate::error::{done, Error};
use crate::ffi::{self, answer, step, Ask, Lent, Told};
use crate::pages::{Pages, Table};
use crate::pool::{Pool, Prepared};
use crate::shared::Held;
use crate::work::{Ahead, Fix, Kind, Work};
use std::ptr::null_mut;

/// How many steps are made under one hold of the lock at most. Plans come to it only where they are
/// given up, and what is left of them is long.
const STEPS_AT_ONCE: usize = 32;

/// What the thread in a chair has of its own, and leaves to the next one.
pub(crate) struct Room {
    table: Table,
    /// What a device reads into or writes from. It is empty until a page has to be read.
    image: Vec<u8>,
}

impl Room {
    fn new() -> Room {
        Room {
            table: Table::new(),
            image: Vec::new(),
        }
    }

    /// The room for an image of so many bytes.
    fn image(&mut self, page_bytes: usize) -> &mut [u8] {
        self.image.resize(page_bytes, 0);
        &mut self.image
    }
}

/// How a page is latched.
#[derive(Clone, Copy, PartialEq)]
enum Latch {
    Shared,
    Exclusive,
}

/// A page was latched that the work is to see: its slot, and how.
type Shown = Option<(u32, Latch)>;

/// A plan that runs, by a chair. Where it falls before its end, as by a panic, what is left of the
/// plan is run without its work.
pub(crate) struct Running<'p, D: Device> {
    pool: &'p Pool<D>,
    ticket: u64,
    ask: Ask,
    /// What the work has said ahead, and wasn't asked for yet.
    ahead: Ahead,
    /// Some, until the plan has ended.
    room: Option<Box<Room>>,
    is_given_up: bool,
    is_broken: bool,
}

impl<'p, D: Device> Running<'p, D> {
    /// Runs a plan: waits for a chair, and for room for the plan's pages, takes the plan, and makes
    /// its steps up to its end.
    pub(crate) fn execute<W: Work + ?Sized>(
        pool: &'p Pool<D>,
        plan: &Prepared,
        work: &mut W,
    ) -> Result<(), Error> {
        let ahead = work.ahead();
        let mut held = pool.shared.hold();
        let mut running = Running::begin(pool, &mut held, plan, ahead)?;
        let mut held = Some(held);
        while !running.is_over() {
            running.turn(held.take(), Some(&mut *work))?;
        }
        running.ended()
    }

    /// Waits for a chair, and for room for the plan's pages, and takes the plan.
    fn begin(
        pool: &'p Pool<D>,
        held: &mut Held<'p>,
        plan: &Prepared,
        ahead: Ahead,
    ) -> Result<Running<'p, D>, Error> {
        let (mut ticket, mut ask, mut told) = (0, Ask::default(), Told::NOBODY);
        // SAFETY: here and below, the handle is held under its lock, and each pointer is of a value
        // that lives.
        done(unsafe { ffi::pinpool_enter(held.handle(), plan.number, &mut ticket) })?;
        loop {
            let answer =
                unsafe { ffi::pinpool_start(held.handle(), &mut ticket, &mut ask, &mut told) };
            held.tell(&told);
            match answer {
                answer::NOT_NOW => held.sleep(ticket),
                answer => break done(answer)?,
            }
        }
        let answer = unsafe { ffi::pinpool_go(held.handle(), ticket, 0, &mut ask, &mut told) };
        held.tell(&told);
        if let Err(error) = done(answer) {
            unsafe { ffi::pinpool_leave(held.handle(), ticket, &mut told) };
            held.tell(&told);
            return Err(error);
        }
        let room = held.raw().take_room(ticket);
        Ok(Running {
            pool,
            ticket,
            ask,
            ahead,
            room: Some(room.unwrap_or_else(|| Box::new(Room::new()))),
            is_given_up: false,
            is_broken: false,
        })
    }

    fn is_over(&self) -> bool {
        self.is_broken || self.ask.step == step::OVER || self.ask.step == step::GONE
    }

    /// How the plan has ended.
    fn ended(&self) -> Result<(), Error> {
        match self.ask.step {
            _ if self.is_given_up => Err(Error::GivenUp),
            step::GONE => Err(Error::gone(self.ask.page, self.ask.why)),
            _ => Ok(()),
        }
    }

    fn room(&mut self) -> &mut Room {
        self.room.as_mut().expect("it is there until the end")
    }

    fn table(&mut self) -> &mut Table {
        &mut self.room().table
    }

    /// Does what the next step wants of the work or the device, makes it and those behind it that
    /// want nothing of them, and then the work sees a page that was latched. The lock may be held
    /// already.
    fn turn<W: Work + ?Sized>(
        &mut self,
        held: Option<Held<'p>>,
        mut work: Option<&mut W>,
    ) -> Result<(), Error> {
        let (held, argument) = match self.known() {
            Some(argument) => (held, argument),
            None => {
                drop(held);
                (None, self.asked(work.as_deref_mut()))
            }
        };
        let held = held.unwrap_or_else(|| self.pool.shared.hold());
        let latched = self.steps(held, argument)?;
        if let (Some(work), Some((slot, latch))) = (work, latched) {
            self.show(work, slot, latch);
        }
        Ok(())
    }

    /// Makes the next step, and those behind it that want nothing of the work or the device, up to a
    /// page that the work is to see. Then the lock is let go, and those whom the calls have told are
    /// rung for.
    fn steps(&mut self, mut held: Held<'p>, argument: u32) -> Result<Shown, Error> {
        let mut argument = argument;
        for made in 1.. {
            let latched = self.step(&mut held, argument)?;
            if self.is_over() {
                self.end(&mut held);
                break;
            }
            if latched.is_some() || made == STEPS_AT_ONCE {
                return Ok(latched);
            }
            argument = match self.known() {
                Some(argument) => argument,
                None => break,
            };
        }
        Ok(None)
    }

    /// The argument of the next step, where it is known without the work and the device: since it
    /// wants none, was said ahead, or the plan is given up. That of a page or a branch is used up.
    fn known(&mut self) -> Option<u32> {
        let Ask {
            step, first, count, ..
        } = self.ask;
        match step {
            step::FIX | step::GATHER if self.is_given_up => Some(first),
            step::CHOOSE if self.is_given_up => Some(count.saturating_sub(1)),
            _ if self.is_given_up => Some(0),
            step::FIX | step::GATHER => {
                let page = self.ahead.page.take()?;
                Some(self.page_or_give_up(Some(page)))
            }
            step::CHOOSE => {
                let branch = self.ahead.branch.take()?;
                Some(self.branch_or_give_up(Some(branch)))
            }
            step::READ | step::WRITE => None,
            step::UNLATCH => {
                let slot = self.ask.slot;
                (!self.table().is_changed(slot)).then_some(0)
            }
            _ => Some(0),
        }
    }

    /// Does what the next step wants of the work or the device, and gives its argument. The plan
    /// isn't given up, and the lock isn't held.
    fn asked<W: Work + ?Sized>(&mut self, work: Option<&mut W>) -> u32 {
        match self.ask.step {
            step::FIX | step::GATHER => {
                let fix = self.fix();
                let named = work.and_then(|work| work.page(fix));
                self.page_or_give_up(named)
            }
            step::CHOOSE => {
                let count = self.ask.count;
                let named = work.and_then(|work| work.branch(count));
                self.branch_or_give_up(named)
            }
            step::READ => u32::from(self.read()),
            step::WRITE => u32::from(self.write()),
            step::UNLATCH => {
                let slot = self.ask.slot;
                self.table().put_in(slot);
                0
            }
            _ => 0,
        }
    }

    /// The page in the slot is latched: the work sees it, or changes it, and says what it answers
    /// next.
    fn show<W: Work + ?Sized>(&mut self, work: &mut W, slot: u32, latch: Latch) {
        let mut pages = Pages::new(self.table());
        match latch {
            Latch::Exclusive => work.change(slot, &mut pages),
            Latch::Shared => work.see(slot, &pages),
        }
        self.is_given_up |= self.table().take_given_up();
        if !self.is_given_up {
            self.ahead = work.ahead();
        }
    }

    /// Makes the next step, or two by one call. Tells of a page that was latched.
    fn step(&mut self, held: &mut Held<'p>, argument: u32) -> Result<Shown, Error> {
        let now = self.ask;
        match now.step {
            step::FIX if !self.is_given_up && self.get(held, argument)? => {
                self.lend(held, now.slot, argument, Latch::Shared)?;
                return Ok(Some((now.slot, Latch::Shared)));
            }
            step::UNLATCH => {
                let was_mine = self.table().let_go(now.slot);
                if !was_mine && self.put(held)? {
                    return Ok(None);
                }
            }
            _ => {}
        }
        let argument = match now.step {
            step::READ if argument == 1 => u32::from(self.came(held)),
            _ => argument,
        };
        self.go(held, argument)?;
        let latch = match now.step {
            step::LATCH_S if !self.is_given_up => Latch::Shared,
            step::LATCH_X if !self.is_given_up => Latch::Exclusive,
            _ => return Ok(None),
        };
        self.lend(held, now.slot, now.page, latch)?;
        Ok(Some((now.slot, latch)))
    }

    /// Fixes the page and latches it S by one call, where that goes.
    fn get(&mut self, held: &mut Held<'p>, page: u32) -> Result<bool, Error> {
        let mut told = Told::NOBODY;
        let answer = unsafe {
            let nothing: &mut [u8] = &mut [];
            ffi::pinpool_get(
                held.handle(),
                self.ticket,
                page,
                0,
                nothing.as_mut_ptr(),
                0,
                &mut self.ask,
                &mut told,
            )
        };
        held.tell(&told);
        self.is_done_at_once(answer)
    }

    /// Takes a latch S off and unfixes the page by one call, where that goes.
    fn put(&mut self, held: &mut Held<'p>) -> Result<bool, Error> {
        let mut told = Told::NOBODY;
        let answer =
            unsafe { ffi::pinpool_put(held.handle(), self.ticket, &mut self.ask, &mut told) };
        held.tell(&told);
        self.is_done_at_once(answer)
    }

    /// Whether two steps were made by one call; where they couldn't be, they are made one by one.
    fn is_done_at_once(&mut self, answer: u32) -> Result<bool, Error> {
        match answer {
            answer::DONE => Ok(true),
            answer::NOT_AT_ONCE => Ok(false),
            _ => Err(self.broken()),
        }
    }

    /// Makes the step, once it is possible.
    fn go(&mut self, held: &mut Held<'p>, argument: u32) -> Result<(), Error> {
        let mut told = Told::NOBODY;
        loop {
            let answer = unsafe {
                ffi::pinpool_go(
                    held.handle(),
                    self.ticket,
                    argument,
                    &mut self.ask,
                    &mut told,
                )
            };
            held.tell(&told);
            match answer {
                answer::DONE => return Ok(()),
                answer::NOT_NOW => held.sleep(self.ticket),
                _ => return Err(self.broken()),
            }
        }
    }

    /// The page in the slot was latched: from now on the work finds it where the pool keeps it.
    fn lend(
        &mut self,
        held: &mut Held<'p>,
        slot: u32,
        page: u32,
        latch: Latch,
    ) -> Result<(), Error> {
        let mut lent = Lent {
            bytes: null_mut(),
            length: 0,
        };
        match unsafe { ffi::pinpool_lend(held.handle(), self.ticket, slot, &mut lent) } {
            answer::DONE => {
                let (is_mine, body) = (latch == Latch::Exclusive, (lent.bytes, lent.length));
                // SAFETY: the page stays there until its latch is taken off, and before that its
                // slot is let go, or the table is cleared.
                unsafe { self.table().hold(slot, page, is_mine, body) };
                Ok(())
            }
            _ => Err(self.broken()),
        }
    }

    fn broken(&mut self) -> Error {
        self.is_broken = true;
        Error::Broken
    }

    /// What the work is asked where a page is to be fixed or gathered.
    fn fix(&self) -> Fix {
        let Ask {
            step,
            slot,
            region,
            first,
            count,
            ..
        } = self.ask;
        Fix {
            slot,
            region,
            pages: first..first.saturating_add(count),
            kind: if step == step::FIX {
                Kind::Fix
            } else {
                Kind::Gather
            },
        }
    }

    /// The page that the work names; the first one where it gives up.
    fn page_or_give_up(&mut self, named: Option<u32>) -> u32 {
        let Ask { first, count, .. } = self.ask;
        self.or_give_up(named.filter(|page| page.wrapping_sub(first) < count), first)
    }

    /// The branch that the work names; the last one where it gives up.
    fn branch_or_give_up(&mut self, named: Option<u32>) -> u32 {
        let count = self.ask.count;
        self.or_give_up(
            named.filter(|branch| *branch < count),
            count.saturating_sub(1),
        )
    }

    fn or_give_up(&mut self, named: Option<u32>, otherwise: u32) -> u32 {
        self.is_given_up |= named.is_none();
        named.unwrap_or(otherwise)
    }

    /// Has the device read the page.
    fn read(&mut self) -> bool {
        let (pool, page) = (self.pool, self.ask.page);
        let image = self.room().image(pool.page_bytes());
        pool.device().read(page, image).is_ok()
    }

    /// Hands in what the device has read.
    fn came(&mut self, held: &mut Held<'p>) -> bool {
        let (ticket, page_bytes) = (self.ticket, self.pool.page_bytes());
        let image = self.room().image(page_bytes);
        answer::DONE
            == unsafe { ffi::pinpool_came(held.handle(), ticket, image.as_ptr(), image.len()) }
    }

    /// Has the device write the page that makes room.
    fn write(&mut self) -> bool {
        let (pool, ticket, page) = (self.pool, self.ticket, self.ask.page);
        pool.write_image(ticket, page, self.room().image(pool.page_bytes()))
    }

    /// The plan has ended: its room is the next one's in the chair. (The chair went home under this
    /// hold, so nobody looked for it yet.)
    fn end(&mut self, held: &mut Held<'p>) {
        if let Some(mut room) = self.room.take() {
            room.table.clear();
            held.raw().give_room(self.ticket, room);
        }
    }
}

impl<D: Device> Drop for Running<'_, D> {
    fn drop(&mut self) {
        self.is_given_up |= !self.is_over();
        while !self.is_over() {
            if self.turn::<dyn Work>(None, None).is_err() {
                break;
            }
        }
    }
}
