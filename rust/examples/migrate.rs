//! A server pushes 200 kB to a client over loopback UDP. In mid-push the client goes from its cable to wireless: another socket, another address. The server
//! asks the core about everything that has to do with addresses and connection IDs: what it may send where, whether the new address is the
//! client's, when a challenge is lost, which IDs to use and which to retire, whether a datagram is a stateless reset.
//!
//! The packets are not QUIC's: no handshake, no encryption, no packet numbers. A datagram is the destination ID, 8 bytes, and frames. PATH_CHALLENGE,
//! PATH_RESPONSE, NEW_CONNECTION_ID and RETIRE_CONNECTION_ID have the bytes of RFC 9000 (its varints are one byte below 64).
//!
//!     cargo run --example migrate

use std::collections::hash_map::RandomState;
use std::error::Error;
use std::hash::{BuildHasher, Hasher};
use std::net::{SocketAddr, UdpSocket};
use std::thread;
use std::time::{Duration, Instant};
use vignorasc::{token_matches, Clock, ConnectionId, FourTuple, Ids, NewConnectionIdFrame, Paths, Refusal};
use vignorasc::{ResetToken, Span, Timer, Timers};

/// Both sides give up then.
const PATIENCE: Duration = Duration::from_secs(20);
/// The longest wait for a datagram.
const QUIET: Duration = Duration::from_millis(40);
const PUSH: usize = 200_000;
/// The client pulls its cable when it has so much.
const CABLE_PULLED: usize = 80_000;
const DATAGRAM: usize = 1200;
/// Of the push, in one datagram, beside the ID and the frame's head.
const CHUNK: usize = DATAGRAM - 8 - 7;
/// Chunks that may be on their way.
const WINDOW: usize = 12;
/// RFC 9000, 8.1.
const FACTOR: u64 = 3;
const MAX_PATHS: usize = 4;
const LOSS_TIMEOUT: Span = Span::from_micros(60_000);

type Result<T> = std::result::Result<T, Box<dyn Error>>;

fn main() -> Result<()> {
    let clock = Clock::new();
    let push: Vec<u8> = (0..PUSH as u32).map(|i| (i.wrapping_mul(2_654_435_761) >> 24) as u8).collect();
    let socket = UdpSocket::bind("127.0.0.1:0")?;
    let address = socket.local_addr()?;

    let client = thread::spawn(move || Client::run(address, clock).map_err(|e| e.to_string()));
    let server = Server::run(socket, push.clone(), clock);
    let arrived = client.join().map_err(|_| "the client panicked")??;
    let server = server?;

    assert!(arrived == push, "the push arrived otherwise than it was sent");
    assert_eq!(server.paths.get_active()?.0, 1, "the server is not on the new path");
    assert_eq!(server.ids.scids().map(|item| item.seq).collect::<Vec<_>>(), [1]);
    assert_eq!(server.ids.dcids().map(|item| item.seq).collect::<Vec<_>>(), [1, 2]);
    say(clock, "both", &format!("{} bytes arrived, equal byte for byte; the old IDs are retired", arrived.len()));

    // The client's machine starts again and knows nothing: to whatever comes it answers with noise and a token.
    let from = server.paths.remote_addr(1)?;
    let ends_with = |token: ResetToken| server.is_reset(&[&[0x5a; 24][..], &token.0].concat(), from);
    let (used, spare) = (client_frame(1, 0).token, client_frame(2, 1).token);
    let mut near = used;
    near.0[15] ^= 1;
    assert!(ends_with(used) && !ends_with(spare) && !ends_with(near) && !server.is_reset(&used.0[1..], from));
    say(clock, "server", "the token of the client's ID 1 would reset the connection; that of its spare ID, or one bit off, not");
    Ok(())
}

fn say(clock: Clock, who: &str, what: &str) {
    println!("{:9.3} ms  {who:<6}  {what}", clock.now().as_micros() as f64 / 1000.0);
}

/// Eight bytes that nobody can guess (RFC 9000, 8.2.1): the standard library's hash keys come from the system. A server has its own generator.
fn unpredictable() -> [u8; 8] {
    RandomState::new().build_hasher().finish().to_be_bytes()
}

// ---- The server ----

struct Server {
    clock: Clock,
    socket: UdpSocket,
    timers: Timers,
    ids: Ids,
    paths: Paths,
    push: Vec<u8>,
    /// So much of the push is acknowledged, and so much was sent.
    acked: usize,
    next: usize,
    /// The path on which the client last acknowledged: there the push goes.
    current: usize,
    /// For each path: bytes sent there, and how often the credit forbade more.
    sent: [usize; MAX_PATHS],
    held: [usize; MAX_PATHS],
    /// Every ID of the client below this sequence is retired.
    retired_to: u64,
}

impl Server {
    fn run(socket: UdpSocket, push: Vec<u8>, clock: Clock) -> Result<Server> {
        let mut buffer = [0; 2048];
        socket.set_read_timeout(Some(PATIENCE))?;
        let (length, from) = socket.recv_from(&mut buffer)?;

        // The handshake would have brought the first ID of each side.
        let pair = FourTuple { local: socket.local_addr()?, remote: from };
        let mut ids = Ids::fresh(4, server_id(0), 0, Some(ResetToken([0xa0; 16])))?;
        ids.set_initial_dcid(client_id(0), None, Some(0))?;
        ids.add_scid(server_id(1), Some(ResetToken([0xa1; 16])), true, None, false)?;
        let paths = Paths::fresh(pair, DATAGRAM, MAX_PATHS, FACTOR, true)?;
        let timers = Timers::fresh();
        let (sent, held) = ([0; MAX_PATHS], [0; MAX_PATHS]);
        let mut server = Server { clock, socket, timers, ids, paths, push, acked: 0, next: 0, current: 0, sent, held, retired_to: 0 };

        server.datagram(&buffer[..length], from)?;
        while !server.done()? {
            if clock.start.elapsed() > PATIENCE {
                return Err("the server gives up".into());
            }
            server.send()?;
            server.wait(&mut buffer)?;
        }
        server.say("the push is acknowledged".into());
        Ok(server)
    }

    /// The push is acknowledged, and the old path has no IDs left.
    fn done(&self) -> Result<bool> {
        let old = self.paths.get(0)?;
        let retired = old.scid_seq.is_none() && old.dcid_seq.is_none() && !self.ids.need_send_cid_control_frames()?;
        Ok(self.acked == PUSH && retired)
    }

    fn say(&self, what: String) {
        say(self.clock, "server", &what);
    }

    /// Until a datagram comes or the next timer expires.
    fn wait(&mut self, buffer: &mut [u8]) -> Result<()> {
        match self.paths.min_path_chal_timer()? {
            Some(deadline) => self.timers.set(Timer::PathChallenge, deadline)?,
            None => self.timers.stop(Timer::PathChallenge)?,
        }
        let deadline = self.timers.next_timeout()?.and_then(|moment| self.clock.instant(moment));
        let left = deadline.map_or(QUIET, |deadline| deadline.saturating_duration_since(Instant::now()));
        // To a socket, no time would mean no end.
        self.socket.set_read_timeout(Some(left.clamp(Duration::from_micros(100), QUIET)))?;
        if let Some((length, from)) = received(self.socket.recv_from(buffer))? {
            self.datagram(&buffer[..length], from)?;
        }

        let now = self.clock.now();
        if self.timers.is_expired(Timer::PathChallenge, now)? {
            self.say("a challenge is lost: another is asked for".into());
            self.paths.on_path_chal_timeout(now)?;
        }
        if self.timers.is_expired(Timer::LossDetection, now)? {
            self.timers.stop(Timer::LossDetection)?;
            self.next = self.acked;
        }
        Ok(())
    }

    fn datagram(&mut self, bytes: &[u8], from: SocketAddr) -> Result<()> {
        let known = match parse(bytes) {
            Some((to, frames)) => self.ids.find_scid(to)?.map(|(seq, _)| (seq, to, frames)),
            None => None,
        };
        let Some((scid_seq, to, frames)) = known else {
            // Not for an ID that we gave out: not of this connection, and no credit, unless it ends the connection.
            return if self.is_reset(bytes, from) { Err("the client has reset the connection".into()) } else { Ok(()) };
        };
        let pair = FourTuple { local: self.socket.local_addr()?, remote: from };
        let id = match self.paths.get_path_id(pair)? {
            Some(id) => id,
            None => match self.new_path(pair, scid_seq)? {
                Some(id) => id,
                None => return Ok(()),
            },
        };
        self.paths.inc_anti_ampl_limit(id, bytes.len())?;
        for frame in frames {
            self.frame(id, to, frame)?;
        }
        Ok(())
    }

    /// Whether the datagram ends with the token of a client's ID that is in use toward that address (RFC 9000, 10.3.1). Who could guess a token byte by byte
    /// could end any connection.
    fn is_reset(&self, bytes: &[u8], from: SocketAddr) -> bool {
        let Some(last) = bytes.last_chunk() else { return false };
        let toward = |id| self.paths.remote_addr(id).is_ok_and(|remote| remote == from);
        self.ids.dcids().any(|item| item.path.is_some_and(toward) && token_matches(ResetToken(*last), item.token))
    }

    /// A known ID from an unknown address: perhaps the client moved, perhaps somebody replays its packets. The new path gets IDs of its own (RFC 9000, 9.5) and
    /// a challenge.
    fn new_path(&mut self, pair: FourTuple, scid_seq: u64) -> Result<Option<usize>> {
        let Some(dcid_seq) = self.ids.lowest_unused_dcid_seq()? else { return Ok(None) };
        let id = match self.paths.insert_path(pair, DATAGRAM) {
            Err(Refusal::Done) => return Ok(None),
            answer => answer?,
        };
        self.ids.mark_scid_used(scid_seq, id)?;
        self.ids.mark_dcid_used(dcid_seq, id)?;
        self.paths.set_scid_seq(id, Some(scid_seq))?;
        self.paths.set_dcid_seq(id, Some(dcid_seq))?;
        self.paths.initiate_path_chal(id)?;
        self.say(format!("path {id}: {} is new, IDs {scid_seq} and {dcid_seq}", pair.remote));
        Ok(Some(id))
    }

    fn frame(&mut self, id: usize, to: ConnectionId, frame: Frame) -> Result<()> {
        match frame {
            Frame::Ack(offset) => {
                self.acked = self.acked.max(offset.min(self.next));
                if id == 0 && self.acked > 0 && !self.paths.get(0)?.verified_peer_address {
                    // As the end of the handshake does: nobody else can know what was sent there.
                    self.paths.mark_verified(0)?;
                    self.say(format!("path 0: verified, after {} bytes", self.sent[0]));
                }
                // There are no packet numbers here to know a late one by: the client doesn't go back.
                if id > self.current {
                    self.say(format!("path {id}: the push goes there from {} (credit: {})", self.acked, self.credit(id)?));
                    self.current = id;
                    self.next = self.acked;
                }
                if self.acked == self.next {
                    self.timers.stop(Timer::LossDetection)?;
                }
            }
            Frame::Challenge(data) => self.paths.on_path_chal_received(id, data)?,
            Frame::Response(data) => {
                let response = self.paths.on_path_resp_received(id, data, self.clock.now())?;
                // Nobody asked for it, and it changed nothing.
                if response.spans.is_empty() {
                    return Ok(());
                }
                let after: Vec<String> = response.spans.iter().map(|span| format!("{} us", span.as_micros())).collect();
                let state = self.paths.state(id)?;
                self.say(format!("path {id}: response after {}, {} bytes sent: {state:?}", after.join(", "), self.sent[id]));
                if response.validated {
                    self.migrate(id)?;
                }
            }
            Frame::NewId(new) => {
                for (seq, path) in self.ids.add_dcid(new.cid, new.seq, new.token, new.retire_prior_to)? {
                    self.paths.set_dcid_seq(path, None)?;
                    self.say(format!("path {path}: destination ID {seq} retired by the client"));
                }
                // The core's promise, seen from its host: what is retired stays out, also where a copy of its frame comes late.
                self.retired_to = self.retired_to.max(new.retire_prior_to);
                assert!(self.ids.dcids().all(|item| item.seq >= self.retired_to), "a retired ID came back");
            }
            Frame::RetireId(seq) => {
                if let Some(path) = self.ids.retire_scid(seq, to)? {
                    self.paths.set_scid_seq(path, None)?;
                    self.say(format!("path {path}: source ID {seq} retired"));
                }
            }
            Frame::Stream(..) => (),
        }
        Ok(())
    }

    fn migrate(&mut self, id: usize) -> Result<()> {
        let (old, _) = self.paths.get_active()?;
        self.paths.set_active(old, false)?;
        self.paths.set_active(id, true)?;
        let (acked, held) = (self.acked, self.held[id]);
        self.say(format!("migrated from path {old} to path {id}, at {acked} of the push; held back {held} times"));
        Ok(())
    }

    /// For the log.
    fn credit(&self, id: usize) -> Result<String> {
        let path = self.paths.get(id)?;
        Ok(if path.verified_peer_address { "no limit".into() } else { path.anti_ampl_limit.to_string() })
    }

    /// The only place that sends: never more than the credit.
    fn datagram_out(&mut self, id: usize, bytes: &[u8]) -> Result<bool> {
        if self.paths.cmp_anti_ampl_limit(id, bytes.len())? < bytes.len() {
            if self.held[id] == 0 {
                let (length, sent) = (bytes.len(), self.sent[id]);
                self.say(format!("path {id}: {sent} bytes sent, {length} held back (credit: {})", self.credit(id)?));
            }
            self.held[id] += 1;
            return Ok(false);
        }
        self.socket.send_to(bytes, self.paths.remote_addr(id)?)?;
        self.paths.dec_anti_ampl_limit(id, bytes.len())?;
        self.sent[id] += bytes.len();
        Ok(true)
    }

    fn datagram_to(&self, id: usize) -> Result<Datagram> {
        let seq = self.paths.get(id)?.dcid_seq.ok_or("the path has no ID")?;
        Ok(Datagram::to(self.ids.get_dcid(seq)?.cid))
    }

    fn send(&mut self) -> Result<()> {
        for id in 0..self.paths.len()? {
            // Where the address is verified the core still asks for credit (DIFFERENCES.md, D30 and D31). This server sends all the same.
            let verified = self.paths.get(id)?.verified_peer_address;
            if verified || self.paths.need_send_validation_frames(id)? {
                self.send_validation(id, verified)?;
            }
        }
        while let Some(seq) = self.ids.next_scid_to_advertise()? {
            let frame = self.ids.create_new_connection_id_frame(seq)?;
            if !self.datagram_out(self.current, &self.datagram_to(self.current)?.new_id(&frame).0)? {
                break;
            }
            self.ids.mark_scid_to_advertise(seq, false)?;
        }
        while let Some(seq) = self.ids.next_dcid_to_retire()? {
            if !self.datagram_out(self.current, &self.datagram_to(self.current)?.retire_id(seq).0)? {
                break;
            }
            self.ids.mark_dcid_to_retire(seq, false)?;
        }
        while self.next < PUSH && self.next < self.acked + WINDOW * CHUNK {
            let end = (self.next + CHUNK).min(PUSH);
            let datagram = self.datagram_to(self.current)?.stream(self.next, &self.push[self.next..end]);
            if !self.datagram_out(self.current, &datagram.0)? {
                break;
            }
            self.next = end;
            let deadline = self.clock.now().checked_add(LOSS_TIMEOUT).ok_or("no such moment")?;
            self.timers.set(Timer::LossDetection, deadline)?;
        }
        Ok(())
    }

    fn send_validation(&mut self, id: usize, verified: bool) -> Result<()> {
        let expand = verified || self.paths.need_expand_padding_frames(id)?;
        let response = self.paths.pop_recv_chal(id)?;
        // One asked for before the path was Validated is no longer wanted.
        let wanted = self.paths.path_chal_initiated(id)? && !self.paths.validated(id)?;
        let challenge = wanted.then(unpredictable);
        if response.is_none() && challenge.is_none() {
            return Ok(());
        }
        let mut datagram = self.datagram_to(id)?;
        if let Some(data) = response {
            datagram = datagram.response(data);
        }
        if let Some(data) = challenge {
            datagram = datagram.challenge(data);
        }
        if expand {
            datagram = datagram.padded();
        }
        let size = datagram.0.len();
        let credit = self.credit(id)?;
        if self.datagram_out(id, &datagram.0)? {
            if let Some(data) = challenge {
                self.paths.on_path_chal_sent(id, data, size, self.clock.now())?;
                self.say(format!("path {id}: challenge in {size} bytes (credit: {credit})"));
            }
        }
        Ok(())
    }
}

// ---- The client: by hand, without the core ----

struct Client {
    clock: Clock,
    server: SocketAddr,
    socket: UdpSocket,
    /// The server's ID in use, and the one to move to.
    to: ConnectionId,
    spare: Option<ConnectionId>,
    push: Vec<u8>,
    moved: Option<Moved>,
}

/// What the client knows on wireless.
struct Moved {
    challenge: [u8; 8],
    /// The server answered it.
    answered: bool,
    /// The client answered one of the server's; one in a full datagram, so that the server knows the path.
    answers: bool,
    known: bool,
    /// The server retired the client's first ID.
    retired: bool,
    /// One datagram was lost on purpose.
    dropped: bool,
    /// Bytes sent from there, and come there before the first answer.
    sent: usize,
    come: usize,
}

impl Client {
    fn run(server: SocketAddr, clock: Clock) -> Result<Vec<u8>> {
        let socket = UdpSocket::bind("127.0.0.1:0")?;
        socket.set_read_timeout(Some(QUIET))?;
        say(clock, "client", &format!("on cable, {}", socket.local_addr()?));
        let mut client = Client { clock, server, socket, to: server_id(0), spare: None, push: vec![], moved: None };
        let hello = client.datagram().new_id(&client_frame(1, 0)).ack(0).padded();
        client.send(hello)?;

        let mut buffer = [0; 2048];
        let mut quiet = 0;
        // At the end it stays a while, in case its last datagram was lost.
        while !client.done() || quiet < 2 {
            if clock.start.elapsed() > PATIENCE {
                return Err("the client gives up".into());
            }
            match received(client.socket.recv(&mut buffer))? {
                Some(length) => {
                    client.come(&buffer[..length])?;
                    quiet = 0;
                }
                None => {
                    client.answer(None, true)?;
                    quiet += 1;
                }
            }
            if client.moved.is_none() && client.push.len() >= CABLE_PULLED {
                client.pull_cable()?;
            }
        }
        Ok(client.push)
    }

    fn done(&self) -> bool {
        self.push.len() == PUSH && self.moved.as_ref().is_some_and(|moved| moved.retired)
    }

    fn datagram(&self) -> Datagram {
        Datagram::to(self.to)
    }

    fn send(&mut self, datagram: Datagram) -> Result<()> {
        if let Some(moved) = &mut self.moved {
            moved.sent += datagram.0.len();
        }
        self.socket.send_to(&datagram.0, self.server)?;
        Ok(())
    }

    fn pull_cable(&mut self) -> Result<()> {
        let Some(spare) = self.spare else { return Ok(()) };
        // The cable's socket closes here: what is on its way to it is lost.
        self.socket = UdpSocket::bind("127.0.0.1:0")?;
        self.socket.set_read_timeout(Some(QUIET))?;
        self.to = spare;
        self.moved = Some(Moved {
            challenge: unpredictable(),
            answered: false,
            answers: false,
            known: false,
            retired: false,
            dropped: false,
            sent: 0,
            come: 0,
        });
        say(self.clock, "client", &format!("cable pulled at {}; on wireless, {}", self.push.len(), self.socket.local_addr()?));
        self.answer(None, true)
    }

    fn come(&mut self, bytes: &[u8]) -> Result<()> {
        let Some((_, frames)) = parse(bytes) else { return Ok(()) };
        if let Some(moved) = &mut self.moved {
            if !moved.answers {
                // The server's promise, seen from outside.
                moved.come += bytes.len();
                assert!(moved.come <= FACTOR as usize * moved.sent, "the server sent an unverified address too much");
            }
            if !moved.dropped && frames.iter().any(|frame| matches!(frame, Frame::Challenge(_))) {
                moved.dropped = true;
                say(self.clock, "client", "the first datagram with a challenge is lost on the air");
                return Ok(());
            }
        }
        let mut challenge = None;
        for frame in frames {
            match (frame, &mut self.moved) {
                (Frame::Stream(offset, data), _) if offset == self.push.len() => self.push.extend(data),
                (Frame::NewId(new), _) => self.spare = Some(new.cid),
                (Frame::Challenge(data), Some(moved)) => {
                    challenge = Some(data);
                    moved.known |= bytes.len() >= DATAGRAM;
                }
                (Frame::Response(data), Some(moved)) => moved.answered |= data == moved.challenge,
                (Frame::RetireId(0), Some(moved)) => moved.retired = true,
                _ => (),
            }
        }
        self.answer(challenge, false)
    }

    /// One datagram for each that comes, and one when none comes for a while.
    fn answer(&mut self, challenge: Option<[u8; 8]>, silence: bool) -> Result<()> {
        let mut datagram = self.datagram();
        let mut pad = false;
        if let Some(data) = challenge {
            // Wireless is slower.
            thread::sleep(Duration::from_millis(8));
            datagram = datagram.response(data);
            pad = true;
        }
        if let Some(moved) = &mut self.moved {
            // It asks at first, and again with each answer and in each silence.
            if !moved.answered && (challenge.is_some() || silence) {
                datagram = datagram.challenge(moved.challenge);
                pad = true;
            }
            if moved.answered && moved.known && !moved.retired {
                // With a copy of the frame of its first ID, which was held up on the way.
                datagram = datagram.retire_id(0).new_id(&client_frame(2, 1)).new_id(&client_frame(0, 0));
            }
            if challenge.is_some() && !moved.answers {
                moved.answers = true;
                let (come, sent) = (moved.come, moved.sent);
                say(self.clock, "client", &format!("before it answers: {come} bytes came, {sent} were sent"));
            }
        }
        datagram = datagram.ack(self.push.len());
        self.send(if pad { datagram.padded() } else { datagram })
    }
}

fn server_id(n: u8) -> ConnectionId {
    ConnectionId::new(&[b's', b'e', b'r', b'v', b'e', b'r', b'-', b'0' + n])
}

fn client_id(n: u8) -> ConnectionId {
    ConnectionId::new(&[b'c', b'l', b'i', b'e', b'n', b't', b'-', b'0' + n])
}

fn client_frame(seq: u8, retire_prior_to: u64) -> NewConnectionIdFrame {
    NewConnectionIdFrame { seq: seq.into(), retire_prior_to, cid: client_id(seq), token: ResetToken([0xc0 + seq; 16]) }
}

// ---- Datagrams ----

enum Frame {
    Ack(usize),
    Stream(usize, Vec<u8>),
    NewId(NewConnectionIdFrame),
    RetireId(u64),
    Challenge([u8; 8]),
    Response([u8; 8]),
}

struct Datagram(Vec<u8>);

impl Datagram {
    fn to(id: ConnectionId) -> Datagram {
        Datagram(id.as_bytes().to_vec())
    }

    fn with(mut self, kind: u8, parts: &[&[u8]]) -> Datagram {
        self.0.push(kind);
        parts.iter().for_each(|part| self.0.extend_from_slice(part));
        self
    }

    /// So much of the push has come.
    fn ack(self, offset: usize) -> Datagram {
        self.with(0x02, &[&(offset as u32).to_be_bytes()])
    }

    fn stream(self, offset: usize, data: &[u8]) -> Datagram {
        self.with(0x0e, &[&(offset as u32).to_be_bytes(), &(data.len() as u16).to_be_bytes(), data])
    }

    fn new_id(self, frame: &NewConnectionIdFrame) -> Datagram {
        let head = [frame.seq as u8, frame.retire_prior_to as u8, frame.cid.len() as u8];
        self.with(0x18, &[&head, frame.cid.as_bytes(), &frame.token.0])
    }

    fn retire_id(self, seq: u64) -> Datagram {
        self.with(0x19, &[&[seq as u8]])
    }

    fn challenge(self, data: [u8; 8]) -> Datagram {
        self.with(0x1a, &[&data])
    }

    fn response(self, data: [u8; 8]) -> Datagram {
        self.with(0x1b, &[&data])
    }

    /// With PADDING, which is zeros.
    fn padded(mut self) -> Datagram {
        self.0.resize(DATAGRAM.max(self.0.len()), 0);
        self
    }
}

/// The destination ID and the frames, or nothing if some byte is out of place.
fn parse(bytes: &[u8]) -> Option<(ConnectionId, Vec<Frame>)> {
    fn take<const N: usize>(rest: &mut &[u8]) -> Option<[u8; N]> {
        let (head, tail) = rest.split_at_checked(N)?;
        *rest = tail;
        head.try_into().ok()
    }
    fn take_some<'a>(rest: &mut &'a [u8], n: usize) -> Option<&'a [u8]> {
        let (head, tail) = rest.split_at_checked(n)?;
        *rest = tail;
        Some(head)
    }

    let mut rest = bytes;
    let to = ConnectionId::new(&take::<8>(&mut rest)?);
    let mut frames = vec![];
    while let Some([kind]) = take::<1>(&mut rest) {
        frames.push(match kind {
            0x00 => continue,
            0x02 => Frame::Ack(u32::from_be_bytes(take(&mut rest)?) as usize),
            0x0e => {
                let offset = u32::from_be_bytes(take(&mut rest)?) as usize;
                let length = u16::from_be_bytes(take(&mut rest)?).into();
                Frame::Stream(offset, take_some(&mut rest, length)?.to_vec())
            }
            0x18 => {
                let [seq, retire_prior_to, length] = take(&mut rest)?;
                let cid = ConnectionId::new(take_some(&mut rest, length.into())?);
                let token = ResetToken(take(&mut rest)?);
                Frame::NewId(NewConnectionIdFrame { seq: seq.into(), retire_prior_to: retire_prior_to.into(), cid, token })
            }
            0x19 => Frame::RetireId(take::<1>(&mut rest)?[0].into()),
            0x1a => Frame::Challenge(take(&mut rest)?),
            0x1b => Frame::Response(take(&mut rest)?),
            _ => return None,
        });
    }
    Some((to, frames))
}

/// What came, or nothing in time.
fn received<T>(answer: std::io::Result<T>) -> Result<Option<T>> {
    use std::io::ErrorKind::{Interrupted, TimedOut, WouldBlock};
    match answer {
        Ok(it) => Ok(Some(it)),
        Err(e) if matches!(e.kind(), WouldBlock | TimedOut | Interrupted) => Ok(None),
        Err(e) => Err(e.into()),
    }
}
