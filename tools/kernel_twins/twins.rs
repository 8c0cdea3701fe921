use crate::fault::Fault;
use conn_table::{Conn, ConnTable, DatagramPairs};
use fd_book::{Book, Desc, Object};
use host_tables::{HOST_COUNT, Hosts, Kernel, System};
use plain_machine::PlainKernel;
use plain_tables::channel::ChannelKind;
use plain_tables::description::Object as PlainObject;
use proc_book::Procs;
use std::alloc::Global;
use sys_abi::flags::O_RDWR;
use sys_abi::{DescId, Fd, RealAddr, RealPid, VPid, VirtAddr};
use vfs_files::Files;
use views::list_of::ListOf;
use virt_ids::Ids;
use wire_net::Net;

/// A plain kernel part, and a system of real numbers that stands for it.
#[derive(Drop)]
pub struct Twins {
    pub plain: PlainKernel,
    pub system: System,
    /// The numbers and addresses that are paired.
    pub numbers: Vec<u32>,
    pub places: Vec<VirtAddr>,
}

impl Twins {
    pub fn new(alloc: Global, hosts: Hosts, count: u32) -> Result<Twins, Fault> {
        let mut nodes = [0u32; HOST_COUNT];
        for host in 0..HOST_COUNT {
            nodes[host] = (host as u32 + hosts.shift) % hosts.nodes;
        }
        let mut twins = Twins {
            plain: PlainKernel::empty(alloc),
            system: System {
                kernel: Kernel {
                    files: Files::new(alloc),
                    book: Book::new(alloc),
                    net: Net::new(alloc, hosts.nodes, hosts.port_base)?,
                    procs: Procs::new(alloc, hosts.nodes, hosts.pid_base)?,
                    datagrams: DatagramPairs::new(alloc),
                    nodes,
                },
                ids: Ids::new(alloc),
                conns: ConnTable::new(alloc),
            },
            numbers: Vec::new(alloc),
            places: Vec::new(alloc),
        };
        for place in 0..count {
            twins.add_process(alloc, place * 5 % 3)?;
        }
        Ok(twins)
    }

    fn add_process(&mut self, alloc: Global, host: u32) -> Result<(), Fault> {
        let number = self.plain.next_id;
        self.plain.add_process(alloc, number, host)?;
        let kernel = &mut self.system.kernel;
        let Ok(real) = kernel.procs.start(kernel.nodes[host as usize], None) else {
            return Err(Fault::Start);
        };
        let console = DescId {
            pid: VPid(number),
            num: 0,
        };
        let desc = Desc {
            object: Object::Console,
            flags: O_RDWR,
            owner: None,
        };
        for fd in 0..3u32 {
            kernel.book.place_at(real, Fd(fd), console, desc, false)?;
        }
        self.pair(number, real)
    }

    /// Pairs a number.
    pub fn pair(&mut self, number: u32, real: RealPid) -> Result<(), Fault> {
        self.system.ids.add_pid(number, real)?;
        keep(&mut self.numbers, number)?;
        Ok(())
    }

    /// Pairs an address.
    pub fn pair_place(&mut self, address: VirtAddr, at: RealAddr) -> Result<(), Fault> {
        self.system.ids.add_addr(address, at)?;
        keep(&mut self.places, address)?;
        Ok(())
    }

    /// The table gets the names and channels that the plain kernel part has, and the pairs of what it has no
    /// more are dropped.
    pub fn follow(&mut self, alloc: Global) -> Result<(), Fault> {
        for (id, description) in self.plain.descriptions.iter() {
            match description.object {
                PlainObject::Socket { address } | PlainObject::Listener { address } => {
                    self.system.conns.set_name(*id, address)?;
                }
                _ => {}
            }
        }
        for (id, channel) in self.plain.channels.iter() {
            if self.system.conns.get(*id).is_none() {
                let conn = Conn {
                    id: *id,
                    kind: match channel.kind {
                        ChannelKind::Pair => 0,
                        ChannelKind::Internet => 1,
                        ChannelKind::Pipe => 2,
                    },
                    addr: [channel.first.address, channel.second.address],
                    open_ends: [true, true],
                };
                self.system.conns.add(conn)?;
            }
        }
        self.drop_stale(alloc)
    }

    fn drop_stale(&mut self, alloc: Global) -> Result<(), Fault> {
        let mut numbers = Vec::new(alloc);
        for at in 0..self.numbers.len() {
            let number = self.numbers[at];
            if self.is_number(number) {
                keep(&mut numbers, number)?;
            } else {
                self.system.ids.drop_pid(number);
            }
        }
        self.numbers = numbers;
        let mut places = Vec::new(alloc);
        for at in 0..self.places.len() {
            let address = self.places[at];
            if self.plain.listeners.contains_key(address) {
                keep(&mut places, address)?;
            } else {
                self.system.ids.drop_addr(address);
            }
        }
        self.places = places;
        Ok(())
    }

    /// Whether it is that of a process or of a thread of one.
    fn is_number(&self, number: u32) -> bool {
        if self.plain.processes.contains_key(VPid(number)) {
            return true;
        }
        for (_, process) in self.plain.processes.iter() {
            if process.threads.contains_key(number) {
                return true;
            }
        }
        false
    }

    /// Both get a file.
    pub fn add_file(&mut self, alloc: Global, name: &[u8], bytes: &[u8]) -> Result<(), Fault> {
        let named = ListOf::from_vec(name.to_vec(alloc)?);
        let listed = ListOf::from_vec(bytes.to_vec(alloc)?);
        self.plain.add_file(alloc, named, listed)?;
        let files = &mut self.system.kernel.files;
        let Ok(number) = files.open_file(name, 0x40) else {
            return Err(Fault::Start);
        };
        let Ok(()) = files.write_at(number, 0, bytes) else {
            return Err(Fault::Start);
        };
        Ok(())
    }
}

fn keep<T: Drop>(list: &mut Vec<T>, item: T) -> Result<(), Fault> {
    match list.push(item) {
        Ok(()) => Ok(()),
        Err(_) => Err(Fault::Memory),
    }
}
