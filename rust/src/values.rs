use crate::{ffi, Refusal};
use std::fmt;
use std::hash::{Hash, Hasher};
use std::net::{IpAddr, Ipv4Addr, Ipv6Addr, SocketAddr, SocketAddrV6};

/// A connection ID of 0 to 20 bytes. RULES.md, "Values".
///
/// ```
/// use vignorasc::{ConnectionId, Refusal};
///
/// assert_eq!(ConnectionId::new(b"cable").as_bytes(), b"cable");
/// assert!(ConnectionId::empty().is_empty());
/// // Longer input is cut, as in tquic, or refused.
/// assert_eq!(ConnectionId::new(&[7; 30]).len(), 20);
/// assert_eq!(ConnectionId::try_from(&[7; 30][..]), Err(Refusal::Malformed));
/// ```
#[derive(Clone, Copy, PartialEq, Eq)]
pub struct ConnectionId(pub(crate) ffi::ConnectionId);

impl ConnectionId {
    /// The most bytes of an ID (RFC 9000, 17.2).
    pub const MAX_LEN: usize = 20;

    /// The first 20 bytes, or all. What a peer sent is better taken by `try_from`, which refuses a longer one.
    #[must_use]
    pub fn new(bytes: &[u8]) -> ConnectionId {
        let len = bytes.len().min(Self::MAX_LEN);
        let mut id = ConnectionId::empty();
        id.0.bytes[..len].copy_from_slice(&bytes[..len]);
        id.0.len = len as u8;
        id
    }

    /// The ID of length 0.
    #[must_use]
    pub const fn empty() -> ConnectionId {
        ConnectionId(ffi::ConnectionId { bytes: [0; 20], len: 0 })
    }

    /// As many bytes as it has.
    #[must_use]
    pub fn as_bytes(&self) -> &[u8] {
        &self.0.bytes[..self.len()]
    }

    /// How many bytes it has.
    #[must_use]
    pub fn len(&self) -> usize {
        self.0.len.into()
    }

    /// Whether it has none.
    #[must_use]
    pub fn is_empty(&self) -> bool {
        self.0.len == 0
    }
}

impl TryFrom<&[u8]> for ConnectionId {
    type Error = Refusal;

    /// [`Refusal::Malformed`] above 20 bytes.
    fn try_from(bytes: &[u8]) -> Result<ConnectionId, Refusal> {
        if bytes.len() > Self::MAX_LEN {
            return Err(Refusal::Malformed);
        }
        Ok(ConnectionId::new(bytes))
    }
}

impl AsRef<[u8]> for ConnectionId {
    fn as_ref(&self) -> &[u8] {
        self.as_bytes()
    }
}

impl Hash for ConnectionId {
    fn hash<H: Hasher>(&self, state: &mut H) {
        self.as_bytes().hash(state)
    }
}

/// In hexadecimal.
impl fmt::Display for ConnectionId {
    fn fmt(&self, f: &mut fmt::Formatter<'_>) -> fmt::Result {
        self.as_bytes().iter().try_for_each(|byte| write!(f, "{byte:02x}"))
    }
}

impl fmt::Debug for ConnectionId {
    fn fmt(&self, f: &mut fmt::Formatter<'_>) -> fmt::Result {
        write!(f, "ConnectionId({self})")
    }
}

/// A stateless reset token: any 16 bytes. `==` is [`token_matches`].
#[derive(Clone, Copy, Eq)]
pub struct ResetToken(pub [u8; 16]);

impl PartialEq for ResetToken {
    fn eq(&self, other: &ResetToken) -> bool {
        token_matches(*self, *other)
    }
}

impl PartialEq for ffi::ResetToken {
    fn eq(&self, other: &ffi::ResetToken) -> bool {
        token_matches(ResetToken(self.bytes), ResetToken(other.bytes))
    }
}

impl PartialEq for ffi::Token {
    fn eq(&self, other: &ffi::Token) -> bool {
        ffi::vig_token_matches(*self, *other)
    }
}

/// Whether two tokens are equal, or both absent. RULES.md, "Values".
///
/// The one comparison of tokens, for what RFC 9000, 10.3.1 asks: all sixteen bytes of both are read whatever they are, and one test ends it. Nothing is claimed
/// about the time that it takes. It is proved to be equality.
///
/// ```
/// use vignorasc::{token_matches, ConnectionId, Ids, Refusal, ResetToken};
///
/// # fn main() -> Result<(), Refusal> {
/// let mut ids = Ids::fresh(2, ConnectionId::new(b"mine"), 0, None)?;
/// ids.set_initial_dcid(ConnectionId::new(b"theirs"), Some(ResetToken([7; 16])), Some(0))?;
///
/// // A datagram that belongs to no connection may end with the token of an ID that is in use.
/// let datagram = [7; 40];
/// if let Some(last) = datagram.last_chunk() {
///     let received = ResetToken(*last);
///     assert!(ids.dcids().any(|item| item.path.is_some() && token_matches(received, item.token)));
/// }
/// # Ok(())
/// # }
/// ```
///
/// Two absent ones are equal, so a datagram too short to hold a token is not to be asked about: an item may have none.
#[must_use]
pub fn token_matches(a: impl Into<Option<ResetToken>>, b: impl Into<Option<ResetToken>>) -> bool {
    ffi::vig_token_matches(token_in(a.into()), token_in(b.into()))
}

/// The bytes are a secret, which has no place in a log.
impl fmt::Debug for ResetToken {
    fn fmt(&self, f: &mut fmt::Formatter<'_>) -> fmt::Result {
        f.write_str("ResetToken(..)")
    }
}

pub(crate) fn token_in(token: Option<ResetToken>) -> ffi::Token {
    ffi::Token { bytes: token.map_or([0; 16], |t| t.0), present: token.is_some() }
}

pub(crate) fn token_out(token: ffi::Token) -> Option<ResetToken> {
    token.present.then_some(ResetToken(token.bytes))
}

/// An optional number, as a flag and a number that is 0 where there is none.
pub(crate) fn split(number: Option<u64>) -> (bool, u64) {
    (number.is_some(), number.unwrap_or(0))
}

/// Where a path begins and where it ends. Flow and scope of an IPv6 address count.
#[derive(Clone, Copy, Debug, PartialEq, Eq, Hash)]
pub struct FourTuple {
    /// This endpoint's.
    pub local: SocketAddr,
    /// The peer's.
    pub remote: SocketAddr,
}

pub(crate) fn address_in(a: SocketAddr) -> ffi::Address {
    let mut ip = [0; 16];
    let (flow, scope, kind) = match a {
        SocketAddr::V4(v4) => {
            ip[..4].copy_from_slice(&v4.ip().octets());
            (0, 0, 4)
        }
        SocketAddr::V6(v6) => {
            ip = v6.ip().octets();
            (v6.flowinfo(), v6.scope_id(), 6)
        }
    };
    ffi::Address { ip, flow, scope, port: a.port(), kind }
}

/// Of an address of its form, whose kind is 4 or 6.
pub(crate) fn address_out(a: ffi::Address) -> SocketAddr {
    match a.kind {
        4 => SocketAddr::new(IpAddr::V4(Ipv4Addr::new(a.ip[0], a.ip[1], a.ip[2], a.ip[3])), a.port),
        _ => SocketAddrV6::new(Ipv6Addr::from(a.ip), a.port, a.flow, a.scope).into(),
    }
}

impl FourTuple {
    pub(crate) fn to_core(self) -> ffi::FourTuple {
        ffi::FourTuple { local: address_in(self.local), remote: address_in(self.remote) }
    }

    pub(crate) fn of_core(pair: ffi::FourTuple) -> FourTuple {
        FourTuple { local: address_out(pair.local), remote: address_out(pair.remote) }
    }
}

#[cfg(test)]
mod tests {
    use super::*;

    #[test]
    fn addresses_come_back() {
        let v6 = SocketAddrV6::new(Ipv6Addr::new(0xfe80, 0, 0, 0, 1, 2, 3, 0xffff), 65535, 0x01020304, 0xfffefdfc);
        for a in [
            "192.0.2.1:443".parse().unwrap(),
            "0.0.0.0:0".parse().unwrap(),
            "[::ffff:192.0.2.1]:443".parse().unwrap(),
            v6.into(),
        ] {
            assert_eq!(address_out(address_in(a)), a);
        }
        let v4 = address_in("192.0.2.1:443".parse().unwrap());
        let ip = [192, 0, 2, 1, 0, 0, 0, 0, 0, 0, 0, 0, 0, 0, 0, 0];
        assert_eq!(v4, ffi::Address { ip, flow: 0, scope: 0, port: 443, kind: 4 });
    }

    #[test]
    fn tokens_are_compared_to_the_end() {
        let token = ResetToken(std::array::from_fn(|i| 16 * i as u8));
        assert!(token == token && token_matches(token, token) && token_matches(None, None));
        assert!(!token_matches(token, None) && !token_matches(None, ResetToken([0; 16])));
        for bit in 0..128 {
            let mut other = token;
            other.0[bit / 8] ^= 1 << (bit % 8);
            assert!(token != other && !token_matches(token, other) && !token_matches(other, token), "bit {bit}");
            assert_ne!(Some(token), Some(other));
        }
        // Every byte differs by the same: an exclusive or of them all would see nothing.
        assert_ne!(ResetToken([0; 16]), ResetToken([1; 16]));
        // The library's own structs, and what has them in it, are compared by the same call.
        let [a, b] = [[3; 16], [4; 16]].map(|bytes| ffi::ResetToken { bytes });
        assert!(a == a && a != b);
        let [some, none] = [true, false].map(|present| ffi::Token { bytes: [0; 16], present });
        assert!(some == some && none == none && some != none);
    }

    #[test]
    fn ids_are_cut_and_padded() {
        let long: Vec<u8> = (1..=40).collect();
        for n in 0..=40 {
            let id = ConnectionId::new(&long[..n]);
            assert_eq!(id.as_bytes(), &long[..n.min(20)]);
            assert!(id.0.bytes[n.min(20)..].iter().all(|&byte| byte == 0));
        }
    }
}
