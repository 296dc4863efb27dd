//! The loop of a link box. It rests until a frame or the next CCM, gives the box every tick that has passed, those it missed too, and hands
//! frames from both sides to it. Every half minute it asks the loss peer for its counts; every minute it stores a loss line, asks for delay
//! and says which peers are lost. `Board` is what it needs of the board that it runs on.
use linkbox::{FrameAnswer, LinkBox, PEERS, Refusal, Settings, Side, Stamp};

/// A frame that has come: its side, when it came, and its octets.
pub struct Arrival {
    pub side: Side,
    pub when: Stamp,
    pub octets: Vec<u8>,
}

pub trait Board {
    /// Rests until a frame has come or so many ticks of 1/600 s have passed, and maybe longer. False where it is switched off.
    fn wait(&mut self, ticks: u32) -> bool;
    /// The ticks since the board was switched on, and the time of day for stamps.
    fn ticks(&self) -> u32;
    fn stamp(&self) -> Stamp;
    /// The next frame that has come.
    fn frame(&mut self) -> Option<Arrival>;
    /// Sends a frame out of a side; keeps a record; writes into the log.
    fn send(&mut self, side: Side, frame: &[u8]);
    fn store(&mut self, record: &[u8]);
    fn say(&mut self, what: &str);
}

const SECOND: u32 = 600;
const HALF_MINUTE: u32 = 30 * SECOND;
const MINUTE: u32 = 60 * SECOND;
const LEAST_ON_WIRE: usize = 60;

/// What this end of the link is: level 5, a CCM every 10 s, one peer.
fn settings() -> Settings {
    let (mut meg_id, mut peer_ids) = ([0; 48], [0; PEERS]);
    meg_id[..26].copy_from_slice(b"grain quay to mill, link 7");
    peer_ids[0] = 9;
    let (own_address, loss_peer) = ([2, 0, 0, 0, 0, 7], [2, 0, 0, 0, 0, 9]);
    Settings { level: 5, mep_id: 7, period: 5, peers: 1, own_address, loss_peer, meg_id, peer_ids }
}

/// Sends what the box has written, padded to what a wire takes.
fn send_padded(board: &mut impl Board, written: &[u8]) {
    let mut padded = written.to_vec();
    padded.resize(padded.len().max(LEAST_ON_WIRE), 0);
    board.send(Side::Active, &padded);
}

/// One tick, the so-manieth since the start, and what is due on it.
fn tick(link_box: &mut LinkBox, board: &mut impl Board, count: u32) -> Result<(), Refusal> {
    let mut out = [0; 1514];
    if let Some(ccm) = link_box.tick(&mut out)? {
        send_padded(board, ccm);
    }
    if count % MINUTE == 0 {
        board.store(link_box.loss_line(&mut out)?);
        for _ in link_box.conditions()?.peers().iter().filter(|peer| peer.lost) {
            board.say("a peer: continuity lost");
        }
    }
    if count % HALF_MINUTE == 0 {
        send_padded(board, link_box.send_lmm(&mut out)?);
    }
    if count % MINUTE == 0 {
        send_padded(board, link_box.send_dmm(board.stamp(), &mut out)?);
    }
    Ok(())
}

/// One frame, and what the box says is to be done with it.
fn frame(link_box: &mut LinkBox, board: &mut impl Board, Arrival { side, when, octets }: Arrival) {
    let mut out = [0; 1514];
    match link_box.frame(side, &octets, when, board.stamp(), &mut out) {
        Err(refusal) => board.say(&format!("frame refused: {refusal}")),
        Ok(FrameAnswer::Dropped(why)) => board.say(&format!("frame dropped: {why}")),
        Ok(FrameAnswer::Passed) => board.send(if side == Side::Active { Side::Passive } else { Side::Active }, &octets),
        Ok(FrameAnswer::Replied(reply)) => board.send(side, reply),
        Ok(FrameAnswer::Loss(losses)) => board.say(&format!("loss: near {} far {}", losses.near, losses.far)),
        Ok(FrameAnswer::Delay { two_way, one_way: None }) => board.say(&format!("delay: {two_way}")),
        Ok(FrameAnswer::Delay { two_way, one_way: Some(way) }) => board.say(&format!("delay: {two_way} far {} near {}", way.far, way.near)),
        Ok(_) => (), // taken in, or a first loss reply: nothing is to be done
    }
}

/// Runs until the board is switched off.
pub fn run(board: &mut impl Board) -> Result<(), Refusal> {
    let mut link_box = LinkBox::new(&settings())?;
    let mut given = 0; // the ticks that the box was given
    while board.wait(link_box.ticks_to_next()) {
        while given != board.ticks() {
            given += 1;
            tick(&mut link_box, board, given)?;
        }
        while let Some(arrival) = board.frame() {
            frame(&mut link_box, board, arrival);
        }
    }
    Ok(())
}
