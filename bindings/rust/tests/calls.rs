//! One happy path, and each kind of refusal.

use lulqoter::{rtp_place, rtp_stamp, Arrived, Change, Class, Control, Error, Kind, PacketResult, Probe, Queue, Sender, Stream, Total};

const VIDEO: [u8; 20] = [
    0x90, 0x60, 0, 1, 0, 0, 0, 0, 0, 0, 0, 0xaa, 0xbe, 0xde, 0, 1, 0x31, 0, 0, 0,
];

const REPORT: [u8; 24] = [
    0x8f, 0xcd, 0, 5, 0, 0, 0, 1, 0, 0, 0, 2, 0, 0, 0, 2, 0, 0, 1, 0, 0x20, 2, 4, 4,
];

#[test]
fn packets_leave_stamped_and_are_credited() {
    let mut sender = Sender::with_control(Control::Gradient).unwrap();
    let mut room = [0u8; 1_500];
    assert_eq!(sender.enqueue(1_000, Class::Video, &VIDEO), Ok(0));
    assert_eq!(sender.enqueue(1_000, Class::Audio, &VIDEO), Ok(1));
    let queue = sender.queue();
    assert_eq!((queue.packets, queue.bytes, queue.oldest), (2, 40, Some(1_000)));
    // audio leaves at once
    assert_eq!(sender.next_time(), Some(1_000));
    assert_eq!(sender.pop(2_000, &mut room[..9]), Err(Error::TooSmall(20)));
    assert_eq!(sender.next_time(), Some(2_000));
    let first = sender.pop(2_000, &mut room).unwrap().unwrap();
    assert_eq!((first.number, first.index, first.kind, first.size), (0, Some(1), Kind::Audio, 20));
    let second = sender.pop(2_000, &mut room).unwrap().unwrap();
    assert_eq!((second.number, second.index, second.kind), (1, Some(0), Kind::Media));
    assert_eq!(room[18], 1);
    assert_eq!(sender.pop(2_000, &mut room), Ok(None));
    assert_eq!(sender.next_time(), None);
    assert_eq!(sender.queue(), Queue { drain_time: Some(0), ..Queue::default() });
    assert_eq!(sender.feedback(3_000, &REPORT), Ok(()));
    // the reference is 1 of 64 ms, and each delta 1 ms
    let arrived = |arrival| Some(Arrived { sent_at: 2_000, arrival, size: 20, cluster: None });
    assert_eq!(sender.next_result(), Some(PacketResult { number: 0, received: arrived(260) }));
    assert_eq!(sender.next_result(), Some(PacketResult { number: 1, received: arrived(264) }));
    assert_eq!(sender.next_result(), None);
    let stats = sender.stats();
    assert_eq!((stats.sent, stats.accepted, stats.outstanding, stats.judged), (2, 2, 0, 1));
    let one = Total { packets: 1, bytes: 20 };
    assert_eq!((stats.audio, stats.media, stats.probes, stats.padding), (one, one, Total::default(), Total::default()));
    assert_eq!((stats.credited, stats.missing, stats.expired, stats.refused), (2, 0, 0, 0));
    assert_eq!(sender.rates().target, 300_000);
}

#[test]
fn refusals_have_their_causes() {
    let mut sender = Sender::new().unwrap();
    assert_eq!(sender.enqueue(0, Class::Video, &[]), Err(Error::Packet(1)));
    assert_eq!(sender.enqueue(u64::MAX, Class::Video, &VIDEO), Err(Error::Moment));
    assert_eq!(sender.feedback(0, &REPORT[..22]), Err(Error::Compound(0)));
    let wrong = Change { window: Some(1), ..Change::default() };
    assert_eq!(sender.configure(0, &wrong), Err(Error::Settings(3)));
    let stream = Stream { id: 4, weight: 1, min: 0, max: 200_000, enforced: true };
    let change = Change { start: Some(500_000), streams: vec![stream], ..Change::default() };
    assert_eq!(sender.configure(0, &change), Ok(()));
    assert_eq!(sender.shares(), Ok(vec![(4, 200_000)]));
    assert_eq!(sender.rates().target, 500_000);
}

#[test]
fn a_planned_cluster_is_the_next_probe() {
    let mut sender = Sender::with_control(Control::Gradient).unwrap();
    assert_eq!(sender.next_probe(), None);
    assert_eq!(sender.configure(0, &Change { probe: Some(2_000_000), ..Change::default() }), Ok(()));
    assert_eq!(sender.next_probe(), Some(Probe { rate: 2_000_000, cluster: 0 }));
}

#[test]
fn a_control_begins_at_its_rate() {
    assert_eq!(Sender::new().unwrap().rates().target, 300_000);
    assert_eq!(Sender::with_control(Control::LevelFrom(2_000_000)).unwrap().rates().target, 2_000_000);
    assert_eq!(Sender::with_control(Control::Gradient).unwrap().rates().target, 300_000);
    assert_eq!(Sender::with_control(Control::LevelFrom(999)).err(), Some(Error::BadControl));
}

#[test]
fn a_sender_goes_to_another_thread() {
    let mut sender = Sender::new().unwrap();
    let index = std::thread::spawn(move || sender.enqueue(5, Class::Video, &VIDEO));
    assert_eq!(index.join().unwrap(), Ok(0));
}

#[test]
fn a_packet_is_stamped_without_a_sender() {
    let mut packet = VIDEO;
    assert_eq!(rtp_place(&packet, 3), Ok(17));
    assert_eq!(rtp_stamp(&mut packet, 3, 0x1_0203), Ok(()));
    assert_eq!((packet[17], packet[18]), (2, 3));
    assert_eq!(rtp_place(&packet, 0), Err(Error::Settings(4)));
    assert_eq!(rtp_stamp(&mut packet[..11], 3, 1), Err(Error::Packet(1)));
}
