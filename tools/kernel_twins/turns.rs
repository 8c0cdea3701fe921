//! One call by both, and what they tell of it.

use crate::calls::{Asked, ask};
use crate::fault::Fault;
use crate::random::Random;
use crate::twins::Twins;
use call_table::Request;
use host_kernel::serve as serve_real;
use host_tables::{KernelReply, RealRequest};
use plain_machine::NOBODY;
use plain_rows::serve;
use plain_tables::answer::Answer;
use plain_tables::description::Object;
use std::alloc::Global;
use sys_abi::{Dir, RealAddr, RealPid, Reply, Tid, Transfer, VPid};
use wire_net::Place;

/// How often calls came to something.
#[derive(Clone, Copy, Debug, PartialEq, Eq)]
pub struct Tally {
    pub served: u32,
    pub failed: u32,
    pub waited: u32,
    pub moved: u32,
    /// The kernel over real numbers wanted for memory, and nothing had changed.
    pub wanted: u32,
}

impl Twins {
    /// A live process and one of its threads.
    fn pick(&self, random: &mut Random) -> Option<(VPid, Tid)> {
        let mut live = 0u32;
        for (p, _) in self.plain.processes.iter() {
            if self.plain.is_live(*p) {
                live += 1;
            }
        }
        if live == 0 {
            return None;
        }
        let mut left = random.below(live);
        for (p, process) in self.plain.processes.iter() {
            if self.plain.is_live(*p) {
                if left == 0 {
                    let mut place = random.below(process.threads.len() as u32);
                    for (t, _) in process.threads.iter() {
                        if place == 0 {
                            return Some((*p, Tid(*t)));
                        }
                        place -= 1;
                    }
                }
                left -= 1;
            }
        }
        None
    }

    /// A call of some thread, or some bytes that go on. False where nobody lives.
    pub fn turn(
        &mut self,
        alloc: Global,
        random: &mut Random,
        transfer: &mut Transfer,
        tally: &mut Tally,
    ) -> Result<bool, Fault> {
        if random.once_in(4) {
            self.move_bytes(random);
            tally.moved += 1;
        }
        let Some((p, t)) = self.pick(random) else {
            return Ok(false);
        };
        let asked = ask(alloc, &self.plain, p, random)?;
        self.call(alloc, p, t, &asked, transfer, tally)?;
        if random.once_in(50) {
            self.compare_all(transfer)?;
        } else {
            self.compare(transfer)?;
        }
        Ok(true)
    }

    fn move_bytes(&mut self, random: &mut Random) {
        let count = self.plain.directions.len() as u32;
        if count == 0 {
            return;
        }
        let mut place = random.below(count);
        let mut picked = None;
        for (dir, _) in self.plain.directions.iter() {
            if place == 0 && picked.is_none() {
                picked = Some(*dir);
            } else if picked.is_none() {
                place -= 1;
            }
        }
        let Some(dir) = picked else {
            return;
        };
        self.move_on(dir, random);
    }

    fn move_on(&mut self, dir: Dir, random: &mut Random) {
        let count = random.of(&[1, 3, 100, 100_000]);
        let net = &mut self.system.kernel.net;
        net.move_bytes(dir, Place::Send, count);
        let moved = net.move_bytes(dir, Place::Wire, random.of(&[1, 3, 100, 100_000]));
        if let Some(direction) = self.plain.directions.get_mut(dir) {
            direction.arrived += moved as u64;
        }
    }

    fn call(
        &mut self,
        alloc: Global,
        p: VPid,
        t: Tid,
        asked: &Asked,
        transfer: &mut Transfer,
        tally: &mut Tally,
    ) -> Result<(), Fault> {
        let Some(who) = self.real_pid(p.0) else {
            return Err(Fault::Pair);
        };
        let Some(thread) = self.real_pid(t.0) else {
            return Err(Fault::Pair);
        };
        let real = self.real_request(p, &asked.request, asked.given.as_slice());
        let mut reply = KernelReply::NotReady;
        if let Some(request) = &real {
            reply = self.call_real(
                who,
                thread.pid,
                request,
                asked.given.as_slice(),
                transfer,
                tally,
            )?;
        }
        let answer = serve(
            &mut self.plain,
            alloc,
            p,
            t,
            &asked.request,
            asked.given.as_slice(),
        )?;
        let Some(request) = real else {
            return self.follow(alloc);
        };
        match &answer {
            None => tally.waited += 1,
            Some(given) => match given.reply {
                Reply::Value(_) => tally.served += 1,
                Reply::Error(_) => tally.failed += 1,
            },
        }
        self.grow(p, who, &request, &answer, reply)?;
        self.is_told(who, &request, &asked.request, &answer, reply)?;
        self.is_given(asked.given.as_slice(), &request, &answer, transfer)?;
        self.follow(alloc)
    }

    /// The call by the kernel over real numbers. Where it wants for memory all must be as it was, and it is
    /// made once more.
    fn call_real(
        &mut self,
        who: RealPid,
        thread: u32,
        request: &RealRequest,
        given: &[u8],
        transfer: &mut Transfer,
        tally: &mut Tally,
    ) -> Result<KernelReply, Fault> {
        transfer.clear();
        transfer.put(given);
        let reply = serve_real(&mut self.system.kernel, who, thread, request, transfer);
        if !is_memory(reply) {
            return Ok(reply);
        }
        if transfer.as_slice() != given {
            return Err(Fault::Bytes);
        }
        self.compare_all(transfer)?;
        tally.wanted += 1;
        transfer.clear();
        transfer.put(given);
        Ok(serve_real(&mut self.system.kernel, who, thread, request, transfer))
    }

    /// Pairs the number or address that the call made.
    fn grow(
        &mut self,
        p: VPid,
        who: RealPid,
        request: &RealRequest,
        answer: &Option<Answer>,
        reply: KernelReply,
    ) -> Result<(), Fault> {
        let Some(answer) = answer else {
            return Ok(());
        };
        let (Reply::Value(value), KernelReply::Done(number)) = (answer.reply, reply) else {
            return Ok(());
        };
        match *request {
            RealRequest::Clone { .. } => self.pair(
                value,
                RealPid {
                    node: who.node,
                    pid: number,
                },
            ),
            RealRequest::Listen { fd, .. } => match self.plain.description_at(p, fd) {
                Some(description) => match description.object {
                    Object::Listener { address } => {
                        self.pair_place(
                            address,
                            RealAddr {
                                node: who.node,
                                port: number,
                            },
                        )
                    }
                    _ => Err(Fault::Answer),
                },
                None => Err(Fault::Answer),
            },
            _ => Ok(()),
        }
    }

    /// Whether the real answer is the plain one.
    fn is_told(
        &self,
        who: RealPid,
        request: &RealRequest,
        plain: &Request,
        answer: &Option<Answer>,
        reply: KernelReply,
    ) -> Result<(), Fault> {
        let is_same = match (answer, reply) {
            (None, KernelReply::NotReady) => true,
            (Some(answer), KernelReply::Done(n)) => match answer.reply {
                Reply::Value(m) => self.is_value(who, request, plain, n, m),
                Reply::Error(_) => false,
            },
            (Some(answer), KernelReply::Error(e)) => match answer.reply {
                Reply::Value(_) => false,
                Reply::Error(own) => own == e,
            },
            _ => false,
        };
        if is_same { Ok(()) } else { Err(Fault::Answer) }
    }

    fn is_value(
        &self,
        who: RealPid,
        request: &RealRequest,
        plain: &Request,
        n: u32,
        m: u32,
    ) -> bool {
        let by_pid = self.real_pid(m)
            == Some(RealPid {
                node: who.node,
                pid: n,
            });
        match (*request, *plain) {
            (RealRequest::Getpid, _) => by_pid,
            (RealRequest::Clone { .. }, _) => by_pid,
            (RealRequest::Getppid, _) => if n == 0 { m == NOBODY } else { by_pid },
            // (the child that was waited for is gone, and its pair with the next drop alone)
            (RealRequest::Wait4 { .. }, _) => if n == 0 { m == 0 } else { by_pid },
            (RealRequest::Fcntl { command: 9, .. }, _) => if n == 0 { m == 0 } else { by_pid },
            (RealRequest::Listen { .. }, _) => m == 0,
            _ => n == m,
        }
    }

    /// Whether the bytes in the transfer are those of the plain answer, or what was there.
    fn is_given(
        &self,
        before: &[u8],
        request: &RealRequest,
        answer: &Option<Answer>,
        transfer: &Transfer,
    ) -> Result<(), Fault> {
        let wanted = match (answer, *request) {
            (_, RealRequest::Clone { .. }) => before,
            (Some(answer), _) if !answer.bytes.is_empty() => answer.bytes.as_slice(),
            _ => before,
        };
        if transfer.as_slice() == wanted {
            Ok(())
        } else {
            Err(Fault::Bytes)
        }
    }
}

fn is_memory(reply: KernelReply) -> bool {
    match reply {
        KernelReply::Memory => true,
        KernelReply::Done(_) | KernelReply::Error(_) | KernelReply::NotReady => false,
    }
}
