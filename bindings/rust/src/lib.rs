//! The sending half of WebRTC media transport: a sender takes plain RTP packets, paces them, numbers
//! them, and adapts to the transport-wide feedback that comes back. It opens no socket, starts no
//! thread and has no clock: each call is handed its moment, in microseconds.
//!
//! The library behind it is proved; this crate, its declarations and the linking are not.

mod error;
mod ffi;

pub use error::Error;

const ABI: u32 = 4;
const NONE: u32 = 0xffff_ffff;
const NO_TIME: u64 = u64::MAX;

/// What sets a sender's rate.
#[derive(Clone, Copy, PartialEq, Eq, Debug, Default)]
pub enum Control {
    /// The level of the one-way delay, which keeps queues short, from the rate on that the library begins at.
    #[default]
    Level,
    /// The same from this rate on, in bit/s from 1,000 to 10^10.
    LevelFrom(u64),
    /// The two estimates of draft-ietf-rmcat-gcc-02.
    Gradient,
}

impl Control {
    // Its number, and the rate that it begins at.
    fn parts(self) -> (u32, u64) {
        match self {
            Control::Level => (0, 0),
            Control::LevelFrom(start) => (0, start),
            Control::Gradient => (1, 0),
        }
    }
}

/// What a packet carries.
#[derive(Clone, Copy, PartialEq, Eq, Debug)]
pub enum Class {
    Audio = 0,
    Retransmission = 1,
    Video = 2,
    Fec = 3,
}

/// What a packet was sent as.
#[derive(Clone, Copy, PartialEq, Eq, Debug)]
pub enum Kind {
    Audio,
    Media,
    /// A packet of the probe cluster with this id.
    Probe(u32),
    Padding,
}

/// A packet that leaves: its bytes stand at the front of the room.
#[derive(Clone, Copy, PartialEq, Eq, Debug)]
pub struct Packet {
    /// Its transport-wide number: how many were sent before it.
    pub number: u64,
    /// Which accepted packet it is; none for padding.
    pub index: Option<u32>,
    pub kind: Kind,
    /// Its bytes.
    pub size: usize,
}

/// Rates, in bit/s.
#[repr(C)]
#[derive(Clone, Copy, PartialEq, Eq, Debug, Default)]
pub struct Rates {
    /// The estimate of delay control.
    pub delay: u64,
    /// The estimate of loss control.
    pub loss: u64,
    /// The lesser of the two.
    pub target: u64,
    /// The pacing rate, without what drains the queue.
    pub pacing: u64,
}

/// The packets that wait.
#[derive(Clone, Copy, PartialEq, Eq, Debug, Default)]
pub struct Queue {
    pub packets: u32,
    pub bytes: u64,
    /// When the oldest of them was accepted, in microseconds; none where nothing waits.
    pub oldest: Option<u64>,
    /// The time in which the rate in force sends them all, in microseconds and rounded up; none where
    /// that rate is 0.
    pub drain_time: Option<u64>,
}

/// The probe cluster that packets are sent for next.
#[repr(C)]
#[derive(Clone, Copy, PartialEq, Eq, Debug, Default)]
pub struct Probe {
    /// Its planned rate, in bit/s.
    pub rate: u64,
    /// Its place among the clusters that were planned.
    pub cluster: u32,
}

/// What a feedback told of a packet for the first time.
#[derive(Clone, Copy, PartialEq, Eq, Debug)]
pub struct PacketResult {
    /// Its transport-wide number.
    pub number: u64,
    /// None where it is missing; a later report may credit it all the same.
    pub received: Option<Arrived>,
}

/// A packet that arrived.
#[derive(Clone, Copy, PartialEq, Eq, Debug)]
pub struct Arrived {
    /// In microseconds.
    pub sent_at: u64,
    /// In quarter-milliseconds of the receiver's clock.
    pub arrival: i64,
    /// In bytes.
    pub size: u32,
    /// The cluster of a probe.
    pub cluster: Option<u32>,
}

/// How many packets, and their bytes.
#[repr(C)]
#[derive(Clone, Copy, PartialEq, Eq, Debug, Default)]
pub struct Total {
    pub packets: u64,
    pub bytes: u64,
}

/// How many packets and reports there were, from the first call on.
#[repr(C)]
#[derive(Clone, Copy, PartialEq, Eq, Debug, Default)]
pub struct Stats {
    /// The packets that were sent, padding among them: those of the four kinds together.
    pub sent: u64,
    pub audio: Total,
    pub media: Total,
    pub probes: Total,
    pub padding: Total,
    /// The sent packets that a report credited.
    pub credited: u64,
    /// The sent packets that a report said were missing, each once. A later report may credit one all
    /// the same.
    pub missing: u64,
    /// The sent packets that no report credited, and none can any more.
    pub expired: u64,
    /// The packets, reports and changes that were refused.
    pub refused: u64,
    pub accepted: u32,
    pub waiting: u32,
    /// Those of the sent packets that a report may still credit.
    pub outstanding: u32,
    /// The reports that were judged.
    pub judged: u32,
}

/// A stream that gets a share of the target rate.
#[derive(Clone, Copy, PartialEq, Eq, Debug)]
pub struct Stream {
    pub id: u32,
    /// 1 to 1,000.
    pub weight: u32,
    /// In bit/s.
    pub min: u64,
    /// In bit/s.
    pub max: u64,
    /// Served even where its minimum does not fit the target.
    pub enforced: bool,
}

/// A change of the settings. What is none stays. Rates are in bit/s, the window in microseconds.
#[derive(Clone, Debug, Default)]
pub struct Change {
    pub start: Option<u64>,
    pub min: Option<u64>,
    pub max: Option<u64>,
    pub pacing_percent: Option<u64>,
    pub window: Option<u64>,
    pub padding_rate: Option<u64>,
    pub paced_audio: Option<bool>,
    pub extension_id: Option<u64>,
    pub probe: Option<u64>,
    pub streams: Vec<Stream>,
    pub removed: Vec<u32>,
}

/// A sender.
pub struct Sender {
    handle: ffi::Handle,
}

// The handle is the one owner of the sender behind it, the sender is bound to no thread, and each call
// borrows it for itself.
unsafe impl Send for Sender {}

impl Sender {
    /// A sender with the settings that a sender begins with, at moment 0, steered by the level control.
    pub fn new() -> Result<Sender, Error> {
        Sender::with_control(Control::Level)
    }

    /// A sender with the settings that a sender begins with, at moment 0, steered by this control.
    pub fn with_control(control: Control) -> Result<Sender, Error> {
        if unsafe { ffi::lulq_abi() } != ABI {
            return Err(Error::WrongLibrary);
        }
        let mut handle = ffi::Handle {
            live: false,
            at: std::ptr::null_mut(),
        };
        let (number, start) = control.parts();
        Error::of(unsafe { ffi::lulq_sender_new(&mut handle, number, start) }, 0)?;
        Ok(Sender { handle })
    }

    /// Hands in a packet to be sent: plain RTP with room for the transport-wide number. Its index.
    pub fn enqueue(&mut self, now: u64, class: Class, packet: &[u8]) -> Result<u32, Error> {
        let mut index = 0;
        let code = unsafe { ffi::lulq_sender_enqueue(&mut self.handle, now, class as u32, packet.as_ptr(), packet.len(), &mut index) };
        Error::of(code, 0)?;
        Ok(index)
    }

    /// The next packet that may leave now, put at the front of the room; none where none may. Where
    /// the room is too small, the packet stays the next one.
    pub fn pop(&mut self, now: u64, room: &mut [u8]) -> Result<Option<Packet>, Error> {
        let mut size = 0;
        let mut info = ffi::Info::default();
        let code = unsafe { ffi::lulq_sender_pop(&mut self.handle, now, room.as_mut_ptr(), room.len(), &mut size, &mut info) };
        match code {
            0 => Ok(Some(packet_of(&info, size))),
            1 => Ok(None),
            2 => Err(Error::TooSmall(size)),
            code => Err(Error::from_code(code, 0)),
        }
    }

    /// When to call `pop` next, in microseconds: at this moment it has a packet if no other call comes
    /// before, and from the moment of the last call to it, it has none. None where no moment has one.
    pub fn next_time(&mut self) -> Option<u64> {
        let mut at = 0;
        let code = unsafe { ffi::lulq_sender_next_time(&mut self.handle, &mut at) };
        Some(at).filter(|_| code == 0)
    }

    /// Hands in RTCP, compound or of reduced size: each transport-wide report in it is served.
    pub fn feedback(&mut self, now: u64, rtcp: &[u8]) -> Result<(), Error> {
        let mut place = 0;
        let code = unsafe { ffi::lulq_sender_feedback(&mut self.handle, now, rtcp.as_ptr(), rtcp.len(), &mut place) };
        Error::of(code, place)
    }

    /// What the last feedback told of the next packet, if any is left: each that it credited or, for the first time,
    /// told missing, once.
    pub fn next_result(&mut self) -> Option<PacketResult> {
        let mut told = ffi::PacketResult::default();
        let code = unsafe { ffi::lulq_sender_next_result(&mut self.handle, &mut told) };
        if code != 0 {
            return None;
        }
        let received = Arrived { sent_at: told.sent_at, arrival: told.arrival, size: told.size, cluster: Some(told.cluster).filter(|cluster| *cluster != NONE) };
        Some(PacketResult { number: told.number, received: Some(received).filter(|_| told.received == 1) })
    }

    /// Changes settings and streams.
    pub fn configure(&mut self, now: u64, change: &Change) -> Result<(), Error> {
        let settings = settings_of(change);
        let streams: Vec<ffi::Stream> = change.streams.iter().map(stream_of).collect();
        let code = unsafe {
            ffi::lulq_sender_configure(&mut self.handle, now, &settings, streams.as_ptr(), streams.len(), change.removed.as_ptr(), change.removed.len())
        };
        Error::of(code, 0)
    }

    /// The rates after the last call.
    pub fn rates(&mut self) -> Rates {
        let mut rates = Rates::default();
        let _open = unsafe { ffi::lulq_sender_rates(&mut self.handle, &mut rates) };
        rates
    }

    /// The packets that wait.
    pub fn queue(&mut self) -> Queue {
        let mut queue = ffi::Queue::default();
        let _open = unsafe { ffi::lulq_sender_queue(&mut self.handle, &mut queue) };
        Queue {
            packets: queue.packets,
            bytes: queue.bytes,
            oldest: time_of(queue.oldest),
            drain_time: time_of(queue.drain_time),
        }
    }

    /// The probe cluster that packets are sent for next, if one waits.
    pub fn next_probe(&mut self) -> Option<Probe> {
        let mut probe = Probe::default();
        let code = unsafe { ffi::lulq_sender_next_probe(&mut self.handle, &mut probe) };
        Some(probe).filter(|_| code == 0)
    }

    /// How many packets and reports there were.
    pub fn stats(&mut self) -> Stats {
        let mut stats = Stats::default();
        let _open = unsafe { ffi::lulq_sender_stats(&mut self.handle, &mut stats) };
        stats
    }

    /// The id and the share, in bit/s, of each stream, in rising order of id.
    pub fn shares(&mut self) -> Result<Vec<(u32, u64)>, Error> {
        let mut shares = Vec::new();
        for place in 0.. {
            let mut share = ffi::Share::default();
            match unsafe { ffi::lulq_sender_share(&mut self.handle, place, &mut share) } {
                0 => shares.push((share.id, share.rate)),
                1 => break,
                code => return Err(Error::from_code(code, 0)),
            }
        }
        Ok(shares)
    }
}

impl Drop for Sender {
    fn drop(&mut self) {
        unsafe { ffi::lulq_sender_free(&mut self.handle) }
    }
}

/// Where the two bytes of the transport-wide number stand in a plain RTP packet, counted from 0, under this
/// ID of the extension element (1 to 14).
pub fn rtp_place(packet: &[u8], id: u32) -> Result<usize, Error> {
    let mut place = 0;
    Error::of(unsafe { ffi::lulq_rtp_place(packet.as_ptr(), packet.len(), id, &mut place) }, 0)?;
    Ok(place as usize)
}

/// Writes the lowest 16 bits of a number there. On an error the packet is as before.
pub fn rtp_stamp(packet: &mut [u8], id: u32, number: u64) -> Result<(), Error> {
    Error::of(unsafe { ffi::lulq_rtp_stamp(packet.as_mut_ptr(), packet.len(), id, number) }, 0)
}

fn time_of(told: u64) -> Option<u64> {
    Some(told).filter(|time| *time != NO_TIME)
}

fn packet_of(info: &ffi::Info, size: usize) -> Packet {
    Packet {
        number: info.number,
        index: Some(info.index).filter(|index| *index != NONE),
        kind: match info.kind {
            0 => Kind::Audio,
            1 => Kind::Media,
            2 => Kind::Probe(info.cluster),
            _ => Kind::Padding,
        },
        size,
    }
}

fn stream_of(stream: &Stream) -> ffi::Stream {
    ffi::Stream {
        id: stream.id,
        weight: stream.weight,
        min: stream.min,
        max: stream.max,
        enforced: stream.enforced as u32,
    }
}

fn settings_of(change: &Change) -> ffi::Settings {
    let mut named = 0;
    let mut name = |bit: u32, value: Option<u64>| {
        if value.is_some() {
            named |= bit;
        }
        value.unwrap_or(0)
    };
    let settings = ffi::Settings {
        start: name(1, change.start),
        min: name(2, change.min),
        max: name(4, change.max),
        pacing_percent: name(8, change.pacing_percent),
        window: name(16, change.window),
        padding_rate: name(32, change.padding_rate),
        paced_audio: name(64, change.paced_audio.map(u64::from)) as u32,
        extension_id: name(128, change.extension_id),
        probe: name(256, change.probe),
        named: 0,
    };
    ffi::Settings { named, ..settings }
}
