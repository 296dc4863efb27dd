//! Two boxes back to back on one link: a CCM, a frame that passes, loss and delay, records that are stored and read back, a setting that is
//! refused, and texts for numbers that no archive of today gives.
use linkbox::{Dropped, FrameAnswer, LinkBox, LossLine, LossSession, Readings, Refusal, Settings, Side, Stamp};

const HERE: [u8; 6] = [2, 0, 0xc0, 0xff, 0xee, 1];
const THERE: [u8; 6] = [2, 0, 0xc0, 0xff, 0xee, 2];
const NONE: Stamp = Stamp { seconds: 0, nanoseconds: 0 };

/// The settings of one end: level 5, a CCM every 3.33 ms, one peer.
fn settings(mep_id: u32, peer: u32, own_address: [u8; 6], loss_peer: [u8; 6]) -> Settings {
    let mut peer_ids = [0; linkbox::PEERS];
    peer_ids[0] = peer;
    let meg_id = *b"grain quay to mill, link 7                      ";
    Settings { level: 5, mep_id, period: 1, peers: 1, own_address, loss_peer, meg_id, peer_ids }
}

/// A time in nanoseconds after a whole second.
fn at(nanoseconds: u32) -> Stamp {
    Stamp { seconds: 10, nanoseconds }
}

/// Ticks until a box sends its CCM.
fn next_ccm<'a>(sender: &mut LinkBox, out: &'a mut [u8]) -> Result<&'a [u8], Refusal> {
    for _ in 0..1_000_000 {
        if let Some(ccm) = sender.tick(out)? {
            let length = ccm.len();
            return Ok(&out[..length]);
        }
    }
    unreachable!("a period has at most 360,000 ticks")
}

/// Hands a message to the other end, and its reply back.
fn exchange(asking: &mut LinkBox, answering: &mut LinkBox, request: &[u8]) -> Result<String, Refusal> {
    let (mut there, mut here) = ([0; 1514], [0; 1514]);
    let FrameAnswer::Replied(reply) = answering.frame(Side::Active, request, at(400), at(900), &mut there)? else {
        return Ok("no reply".to_string());
    };
    Ok(format!("{:?}", asking.frame(Side::Active, reply, at(1_200), NONE, &mut here)?))
}

fn main() -> Result<(), Refusal> {
    let mut quay = LinkBox::new(&settings(7, 9, HERE, THERE))?;
    let mut mill = LinkBox::new(&settings(9, 7, THERE, HERE))?;
    let (mut out, mut reply) = ([0; 1514], [0; 1514]);

    let ccm = next_ccm(&mut quay, &mut out)?;
    println!("a CCM of {} octets: {:?}", ccm.len(), mill.frame(Side::Active, ccm, NONE, NONE, &mut reply)?);

    let mut service = [0; 64];
    service[..6].copy_from_slice(&THERE);
    println!("a service frame: {:?}", quay.frame(Side::Passive, &service, NONE, NONE, &mut reply)?);

    for _ in 0..2 {
        let lmm = quay.send_lmm(&mut out)?.to_vec();
        println!("an LMM of {} octets: {}", lmm.len(), exchange(&mut quay, &mut mill, &lmm)?);
        quay.frame(Side::Passive, &service, NONE, NONE, &mut reply)?;
    }
    let dmm = quay.send_dmm(at(0), &mut out)?.to_vec();
    println!("a DMM of {} octets: {}", dmm.len(), exchange(&mut quay, &mut mill, &dmm)?);

    let conditions = quay.conditions()?;
    println!("after {} frames sent, at the quay: {:?}, mismerge {}", quay.sent(), conditions.peers(), conditions.mismerge);
    println!("ticks to the next CCM: {}, peer heard for {:?}, no slot 8: {:?}", quay.ticks_to_next(), quay.peer_timer(0), quay.peer_rdi(8));
    println!("the box's own line reads back: {:?}", LossLine::read(quay.loss_line(&mut out)?)?);
    quay.clear()?;
    println!("after a clear: {} {} {}", quay.intervals(), quay.near_total(), quay.far_total());

    let mut session = LossSession::default();
    session.measure(Readings { txf: 100, rxf: 100, txb: 50, ours: 50 })?;
    println!("a month's reading: {:?}", session.measure(Readings { txf: 200, rxf: 198, txb: 60, ours: 61 })?);
    let line = LossLine { near: session.near, far: session.far, intervals: session.intervals };
    println!("its record reads back: {}", LossLine::read(line.write(&mut out)?)? == line);
    println!("the settings read back: {}", Settings::read(quay.settings().write(&mut out)?)? == quay.settings());

    let before = quay.clone();
    let refused = quay.set(&Settings { level: 8, ..quay.settings() });
    println!("a setting of level 8: {refused:?}; the box runs on as it was: {}", quay == before);
    println!("a frame of 13 octets: {:?}", quay.frame(Side::Active, &service[..13], NONE, NONE, &mut reply));
    let never = LinkBox::from_arrays(zeros())?;
    println!("a box that was never set: {:?}, {:?}, {}", never.conditions(), never.loss_line(&mut out), never.ticks_to_next());
    println!("in words: {}; {}; {}; {}", Refusal::NotWellFormed, Dropped::Level, Refusal::Other(9), Dropped::Other(10));
    Ok(())
}

/// A state of zeros.
fn zeros() -> linkbox::Arrays {
    linkbox::Arrays { set: [0; 4], names: [0; 60], ids: [0; 8], timers: [0; 8], rdi: [0; 8], run: [0; linkbox::RUN], totals: [0; 2] }
}
