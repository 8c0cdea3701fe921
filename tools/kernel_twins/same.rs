//! Whether the system stands for the plain kernel part, by what the tables tell from outside.

use crate::fault::Fault;
use crate::twins::Twins;
use fd_book::{Desc, Object};
use plain_machine::NOBODY;
use plain_tables::channel::ChannelKind;
use plain_tables::description::{Description, Object as PlainObject};
use plain_tables::process::Process;
use std::alloc::Global;
use sys_abi::{ConnId, DescId, Dir, Fd, Life, RealPid, Slot, Transfer, VPid};

impl Twins {
    /// Whether all is the same but for what files and channels hold.
    pub fn compare(&self, transfer: &mut Transfer) -> Result<(), Fault> {
        self.processes()?;
        self.descriptors()?;
        self.descriptions()?;
        self.listeners()?;
        self.channels(transfer, false)
    }

    /// Whether all is the same.
    pub fn compare_all(&self, transfer: &mut Transfer) -> Result<(), Fault> {
        self.compare(transfer)?;
        self.files()?;
        self.channels(transfer, true)
    }

    fn real(&self, number: u32) -> Result<RealPid, Fault> {
        match self.system.ids.real_pid(number) {
            Ok(real) => Ok(real),
            Err(_) => Err(Fault::Pair),
        }
    }

    fn number(&self, real: Option<RealPid>, none: u32) -> Result<u32, Fault> {
        let Some(real) = real else {
            return Ok(none);
        };
        match self.system.ids.virt_pid(real) {
            Ok(number) => Ok(number),
            Err(_) => Err(Fault::Pair),
        }
    }

    fn processes(&self) -> Result<(), Fault> {
        let procs = &self.system.kernel.procs;
        let mut count = 0usize;
        let mut at = procs.next_process(None);
        while let Some(real) = at {
            count += 1;
            at = procs.next_process(Some(real));
        }
        if count != self.plain.processes.len() {
            return Err(Fault::Processes);
        }
        for (p, process) in self.plain.processes.iter() {
            self.process(*p, process)?;
        }
        Ok(())
    }

    fn process(&self, p: VPid, process: &Process) -> Result<(), Fault> {
        let procs = &self.system.kernel.procs;
        let real = self.real(p.0)?;
        let status = match process.life {
            Life::Live => None,
            Life::Zombie(status) => Some(status),
        };
        let parent = self.number(procs.parent(real), NOBODY)?;
        let is_same = procs.status(real) == status
            && procs.is_live(real) == status.is_none()
            && parent == process.parent
            && procs.pending_of(real, None) == process.pending
            && procs.thread_count(real) == process.threads.len();
        if !is_same {
            return Err(Fault::Processes);
        }
        for (t, pending) in process.threads.iter() {
            let thread = self.real(*t)?;
            if thread.node != real.node || procs.pending_of(real, Some(thread.pid)) != *pending {
                return Err(Fault::Processes);
            }
        }
        Ok(())
    }

    fn descriptors(&self) -> Result<(), Fault> {
        let book = &self.system.kernel.book;
        let mut count = 0usize;
        for (p, _) in self.plain.processes.iter() {
            let real = self.real(p.0)?;
            let mut at = book.next_fd(real, None);
            while let Some(fd) = at {
                count += 1;
                let Some(descriptor) = self.plain.descriptors.get(Slot { pid: *p, fd: fd.0 }) else {
                    return Err(Fault::Descriptors);
                };
                let is_same = book.get(real, fd) == Some(descriptor.desc)
                    && book.cloexec(real, fd) == Some(descriptor.cloexec);
                if !is_same {
                    return Err(Fault::Descriptors);
                }
                at = book.next_fd(real, Some(Fd(fd.0)));
            }
        }
        if count != self.plain.descriptors.len() {
            return Err(Fault::Descriptors);
        }
        Ok(())
    }

    fn descriptions(&self) -> Result<(), Fault> {
        let book = &self.system.kernel.book;
        let mut count = 0usize;
        let mut at = book.next_desc(None);
        while let Some(id) = at {
            count += 1;
            let Some(description) = self.plain.descriptions.get(id) else {
                return Err(Fault::Descriptions);
            };
            let Some(desc) = book.desc(id) else {
                return Err(Fault::Descriptions);
            };
            if !self.is_description(id, *description, *desc)? {
                return Err(Fault::Descriptions);
            }
            at = book.next_desc(Some(id));
        }
        if count != self.plain.descriptions.len() {
            return Err(Fault::Descriptions);
        }
        Ok(())
    }

    fn is_description(&self, id: DescId, plain: Description, desc: Desc) -> Result<bool, Fault> {
        let owner = self.number(desc.owner, 0)?;
        Ok(
            owner == plain.owner
                && desc.flags == plain.flags
                && self.is_object(id, plain.object, desc.object),
        )
    }

    fn is_object(&self, id: DescId, plain: PlainObject, object: Object) -> bool {
        let conns = &self.system.conns;
        match (plain, object) {
            (PlainObject::Console, Object::Console) => true,
            (
                PlainObject::File { number, offset },
                Object::File {
                    number: own,
                    offset: at,
                },
            ) => { number == own && offset == at }
            (
                PlainObject::Stream { conn, side },
                Object::Stream {
                    conn: own,
                    side: at,
                },
            ) => { conn == own && side == at }
            (PlainObject::Socket { address }, Object::Socket) => conns.name(id) == Some(address),
            (PlainObject::Listener { address }, Object::Listener { at }) => {
                let here = match self.system.ids.real_addr(address) {
                    Ok(here) => Some(here),
                    Err(_) => None,
                };
                conns.name(id) == Some(address) && here == Some(at)
            }
            (PlainObject::Datagram { peer: _ }, Object::Datagram { queue: _, side: _ }) => true,
            (PlainObject::Counter { value }, Object::Counter { value: own }) => value == own,
            _ => false,
        }
    }

    fn files(&self) -> Result<(), Fault> {
        let files = &self.system.kernel.files;
        if files.count() != self.plain.files.len() || files.next_file() != self.plain.next_file {
            return Err(Fault::Files);
        }
        for (number, bytes) in self.plain.files.iter() {
            if files.bytes(*number) != Some(bytes.as_slice()) {
                return Err(Fault::Files);
            }
            let name = match files.name(*number) {
                Some(name) => name,
                None => return Err(Fault::Files),
            };
            let named = self.plain.names.get(name).copied();
            if !name.is_empty() && named != Some(*number) {
                return Err(Fault::Files);
            }
        }
        for (name, number) in self.plain.names.iter() {
            if files.name(*number) != Some(name.as_slice()) {
                return Err(Fault::Files);
            }
        }
        Ok(())
    }

    fn channels(&self, transfer: &mut Transfer, has_bytes: bool) -> Result<(), Fault> {
        for (id, channel) in self.plain.channels.iter() {
            if !self.system.kernel.net.has(*id) {
                return Err(Fault::Channels);
            }
            self.direction(*id, 0, false)?;
            self.direction(*id, 1, channel.kind == ChannelKind::Pipe)?;
            if has_bytes {
                self.bytes(Dir { conn: *id, side: 0 }, transfer)?;
                self.bytes(Dir { conn: *id, side: 1 }, transfer)?;
            }
        }
        let mut at = self.system.conns.next_conn(None);
        while let Some(id) = at {
            if self.system.kernel.net.has(id) != self.plain.channels.contains_key(id) {
                return Err(Fault::Channels);
            }
            at = self.system.conns.next_conn(Some(id));
        }
        Ok(())
    }

    fn direction(&self, conn: ConnId, side: u8, is_unused: bool) -> Result<(), Fault> {
        let net = &self.system.kernel.net;
        let dir = Dir { conn, side };
        let Some(direction) = self.plain.directions.get(dir) else {
            return Err(Fault::Directions);
        };
        let counts = net.counts(dir);
        let total = counts[0] as u64 + counts[1] as u64 + counts[2] as u64;
        let has_flags = is_unused
            || (net.is_ended(dir) == direction.ended && net.is_unread(dir) == direction.unread);
        let has_counts = total == direction.left.len() as u64
            && counts[2] as u64 == direction.arrived;
        if !has_flags || !has_counts {
            return Err(Fault::Directions);
        }
        Ok(())
    }

    /// Whether what can be read from the direction is the same.
    fn bytes(&self, dir: Dir, transfer: &mut Transfer) -> Result<(), Fault> {
        let Some(direction) = self.plain.directions.get(dir) else {
            return Err(Fault::Directions);
        };
        self.system.kernel.net.peek(dir, transfer);
        if transfer.as_slice() != &direction.left.as_slice()[..direction.arrived as usize] {
            return Err(Fault::Bytes);
        }
        Ok(())
    }

    fn listeners(&self) -> Result<(), Fault> {
        let net = &self.system.kernel.net;
        for (address, listening) in self.plain.listeners.iter() {
            let at = match self.system.ids.real_addr(*address) {
                Ok(at) => at,
                Err(_) => return Err(Fault::Pair),
            };
            if net.backlog(at) != Some(listening.backlog) {
                return Err(Fault::Listeners);
            }
            for place in 0..listening.queue.len() {
                if net.queued(at, place as u32) != listening.queue.get(place).copied() {
                    return Err(Fault::Listeners);
                }
            }
            if net.queued(at, listening.queue.len() as u32).is_some() {
                return Err(Fault::Listeners);
            }
        }
        Ok(())
    }
}
