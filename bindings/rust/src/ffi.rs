//! `lulqoter.h`.

use std::ffi::c_void;

#[repr(C)]
pub struct Handle {
    pub live: bool,
    pub at: *mut c_void,
}

#[repr(C)]
#[derive(Default)]
pub struct Info {
    pub number: u64,
    pub index: u32,
    pub kind: u32,
    pub cluster: u32,
}

#[repr(C)]
#[derive(Default)]
pub struct Settings {
    pub named: u32,
    pub paced_audio: u32,
    pub start: u64,
    pub min: u64,
    pub max: u64,
    pub pacing_percent: u64,
    pub window: u64,
    pub padding_rate: u64,
    pub extension_id: u64,
    pub probe: u64,
}

#[repr(C)]
pub struct Stream {
    pub id: u32,
    pub weight: u32,
    pub min: u64,
    pub max: u64,
    pub enforced: u32,
}

#[repr(C)]
#[derive(Default)]
pub struct Queue {
    pub bytes: u64,
    pub oldest: u64,
    pub drain_time: u64,
    pub packets: u32,
}

#[repr(C)]
#[derive(Default)]
pub struct Share {
    pub rate: u64,
    pub id: u32,
}

#[repr(C)]
#[derive(Default)]
pub struct PacketResult {
    pub number: u64,
    pub sent_at: u64,
    pub arrival: i64,
    pub size: u32,
    pub cluster: u32,
    pub received: u32,
}

extern "C" {
    pub fn lulq_abi() -> u32;
    pub fn lulq_sender_new(sender: *mut Handle, control: u32, start: u64) -> i32;
    pub fn lulq_sender_free(sender: *mut Handle);
    pub fn lulq_sender_enqueue(sender: *mut Handle, now: u64, class: u32, packet: *const u8, packet_size: usize, index: *mut u32) -> i32;
    pub fn lulq_sender_pop(sender: *mut Handle, now: u64, room: *mut u8, room_size: usize, size: *mut usize, info: *mut Info) -> i32;
    pub fn lulq_sender_feedback(sender: *mut Handle, now: u64, rtcp: *const u8, rtcp_size: usize, place: *mut u32) -> i32;
    pub fn lulq_sender_configure(sender: *mut Handle, now: u64, settings: *const Settings, streams: *const Stream, stream_count: usize, removed: *const u32, removed_count: usize) -> i32;
    pub fn lulq_sender_rates(sender: *mut Handle, rates: *mut crate::Rates) -> i32;
    pub fn lulq_sender_next_time(sender: *mut Handle, at: *mut u64) -> i32;
    pub fn lulq_sender_queue(sender: *mut Handle, queue: *mut Queue) -> i32;
    pub fn lulq_sender_next_result(sender: *mut Handle, result: *mut PacketResult) -> i32;
    pub fn lulq_sender_next_probe(sender: *mut Handle, probe: *mut crate::Probe) -> i32;
    pub fn lulq_sender_stats(sender: *mut Handle, stats: *mut crate::Stats) -> i32;
    pub fn lulq_sender_share(sender: *mut Handle, place: u32, share: *mut Share) -> i32;
    pub fn lulq_rtp_place(packet: *const u8, packet_size: usize, id: u32, place: *mut u32) -> i32;
    pub fn lulq_rtp_stamp(packet: *mut u8, packet_size: usize, id: u32, number: u64) -> i32;
}
