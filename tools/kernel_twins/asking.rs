//! A guest's call over real numbers, by the pairs.

use crate::twins::Twins;
use call_table::Request;
use host_tables::{ChannelIds, PairIds, RealRequest};
use plain_ports::addresses::{family_of, named_host, port_of};
use plain_ports::look_ups::host_of;
use plain_ports::ports::port_for;
use plain_tables::channel::ChannelKind;
use plain_tables::description::Object;
use sys_abi::errors::{EAFNOSUPPORT, EINVAL};
use sys_abi::{ConnId, DescId, Errno, RealAddr, RealPid, VPid, VirtAddr};

impl Twins {
    pub fn real_pid(&self, number: u32) -> Option<RealPid> {
        match self.system.ids.real_pid(number) {
            Ok(real) => Some(real),
            Err(_) => None,
        }
    }

    /// The process of the caller's host that has the number, live or not.
    fn neighbour(&self, p: VPid, number: u32) -> Option<RealPid> {
        let own = self.plain.makers.get(p)?.host;
        let other = self.plain.makers.get(VPid(number))?.host;
        if own == other {
            self.real_pid(number)
        } else {
            None
        }
    }

    fn numbered(&self, p: VPid, place: u32) -> Option<(VPid, u32)> {
        if self.plain.has_numbers(p) {
            Some((p, self.plain.made_of(p) + place))
        } else {
            None
        }
    }

    fn desc(&self, p: VPid, place: u32) -> Option<DescId> {
        let (pid, num) = self.numbered(p, place)?;
        Some(DescId { pid, num })
    }

    fn conn(&self, p: VPid) -> Option<ConnId> {
        let (pid, num) = self.numbered(p, 0)?;
        Some(ConnId { pid, num })
    }

    fn channel(&self, p: VPid) -> Option<ChannelIds> {
        Some(ChannelIds {
            channel: self.conn(p)?,
            first: self.desc(p, 1)?,
            second: self.desc(p, 2)?,
        })
    }

    fn pair_ids(&self, p: VPid) -> Option<PairIds> {
        Some(PairIds {
            first: self.desc(p, 0)?,
            second: self.desc(p, 1)?,
        })
    }

    /// The address of the socket behind a descriptor, if it is one.
    fn socket(&self, p: VPid, fd: u32) -> Option<VirtAddr> {
        match self.plain.description_at(p, fd)?.object {
            Object::Socket { address } => Some(address),
            _ => None,
        }
    }

    fn port_free(&self, p: VPid, fd: u32) -> bool {
        match self.socket(p, fd) {
            None => false,
            Some(address) => address.port != 0 || port_for(&self.plain, address.host, 0).is_ok(),
        }
    }

    /// Whether the descriptor leads to an end of a pipe.
    fn of_pipe(&self, p: VPid, fd: u32) -> bool {
        match self.plain.description_at(p, fd) {
            Some(description) => match description.object {
                Object::Stream { conn, .. } => match self.plain.channels.get(conn) {
                    Some(channel) => channel.kind == ChannelKind::Pipe,
                    None => false,
                },
                _ => false,
            },
            None => false,
        }
    }

    fn place(&self, p: VPid, length: u32, given: &[u8]) -> Result<Option<RealAddr>, Errno> {
        if length < 16 {
            return Err(Errno(EINVAL));
        }
        if family_of(given) != 2 {
            return Err(Errno(EAFNOSUPPORT));
        }
        let Some(host) = named_host(host_of(&self.plain, p), given) else {
            return Ok(None);
        };
        let address = VirtAddr {
            host,
            port: port_of(given),
        };
        match self.system.ids.real_addr(address) {
            Ok(at) => Ok(Some(at)),
            Err(_) => Ok(None),
        }
    }

    /// The call over real numbers, None for those that need nothing of the kernel but descriptors.
    pub fn real_request(&self, p: VPid, request: &Request, given: &[u8]) -> Option<RealRequest> {
        let asked = match *request {
            Request::Eventfd2 { value, flags } => RealRequest::Eventfd2 {
                value,
                flags,
                id: self.desc(p, 0),
            },
            Request::Dup { fd } => RealRequest::Dup { fd },
            Request::Dup3 { fd, to, flags } => RealRequest::Dup3 { fd, to, flags },
            Request::Fcntl {
                fd,
                command,
                argument,
            } => RealRequest::Fcntl {
                fd,
                command,
                argument,
                target: self.neighbour(p, argument),
            },
            Request::Unlinkat {
                directory,
                flags,
                ..
            } => RealRequest::Unlinkat { directory, flags },
            Request::Openat {
                directory,
                flags,
                ..
            } => {
                RealRequest::Openat {
                    directory,
                    flags,
                    id: self.desc(p, 0),
                }
            }
            Request::Close { fd } => RealRequest::Close { fd },
            Request::Pipe2 { flags, .. } => RealRequest::Pipe2 {
                flags,
                ids: self.channel(p),
            },
            Request::Lseek { fd, offset, whence } => RealRequest::Lseek { fd, offset, whence },
            Request::Read { fd, count, .. } => RealRequest::Read { fd, count },
            Request::Write { fd, count, .. } => RealRequest::Write { fd, count },
            Request::Exit { code } => RealRequest::Exit { code },
            Request::ExitGroup { code } => RealRequest::ExitGroup { code },
            _ => return self.other_request(p, request, given),
        };
        Some(asked)
    }

    fn other_request(&self, p: VPid, request: &Request, given: &[u8]) -> Option<RealRequest> {
        let asked = match *request {
            Request::Kill { pid, signal } => {
                RealRequest::Kill {
                    number: pid,
                    signal,
                    target: self.neighbour(p, pid),
                }
            }
            Request::Tgkill { pid, tid, signal } => {
                let node = self.real_pid(p.0)?.node;
                let thread = match self.real_pid(tid) {
                    Some(real) if real.node == node => Some(real.pid),
                    _ => None,
                };
                RealRequest::Tgkill {
                    number: pid,
                    tid,
                    signal,
                    target: self.neighbour(p, pid),
                    thread,
                }
            }
            Request::Getpid => RealRequest::Getpid,
            Request::Getppid => RealRequest::Getppid,
            Request::Socket {
                domain,
                socket_type,
                protocol,
            } => {
                RealRequest::Socket {
                    domain,
                    socket_type,
                    protocol,
                    id: self.desc(p, 0),
                }
            }
            Request::Socketpair {
                domain,
                socket_type,
                protocol,
                ..
            } => RealRequest::Socketpair {
                domain,
                socket_type,
                protocol,
                streams: self.channel(p),
                datagrams: self.pair_ids(p),
            },
            Request::Listen { fd, backlog } => {
                RealRequest::Listen {
                    fd,
                    backlog,
                    port_free: self.port_free(p, fd),
                    of_pipe: self.of_pipe(p, fd),
                }
            }
            Request::Accept { fd, .. } => RealRequest::Accept {
                fd,
                id: self.desc(p, 0),
                of_pipe: self.of_pipe(p, fd),
            },
            Request::Connect { fd, length, .. } => RealRequest::Connect {
                fd,
                to: self.place(p, length, given),
                channel: self.conn(p),
                port_free: self.port_free(p, fd),
                of_pipe: self.of_pipe(p, fd),
            },
            Request::Setsockopt { fd, .. } => RealRequest::Setsockopt {
                fd,
                of_pipe: self.of_pipe(p, fd),
            },
            Request::Shutdown { fd, how } => RealRequest::Shutdown {
                fd,
                how,
                of_pipe: self.of_pipe(p, fd),
            },
            Request::Clone { flags, .. } => RealRequest::Clone { flags },
            Request::Wait4 {
                pid,
                options,
                usage,
                ..
            } => {
                RealRequest::Wait4 {
                    number: pid,
                    options,
                    usage,
                    target: self.neighbour(p, pid),
                }
            }
            Request::Unknown(number) => RealRequest::Unknown(number),
            _ => return None,
        };
        Some(asked)
    }
}
