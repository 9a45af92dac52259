//! A call on the linked library.
use crate::memory;
use calls::judge::Call;
use cartgravel::sys;

/// What the library answered, and the lent slice after the call.
pub struct Given {
    pub reply: sys::Reply,
    pub memory: Box<sys::State>,
    pub slice: Vec<u64>,
    /// The call wrote before or behind the lent slice.
    pub strayed: bool,
}

/// Stands on either side of the lent slice.
const FENCE: [u64; 4] = [0x5eed_f00d_cafe_0001; 4];

/// Runs a call on a state (none: a start).
pub fn run(on: Option<&sys::State>, call: &Call) -> Given {
    let mut memory = on.map_or_else(memory::littered, |on| Box::new(on.clone()));
    let lent: &[u64] = if let Call::Update(_, slice) = call { slice } else { &[] };
    let mut fenced = [&FENCE[..], lent, &FENCE[..]].concat();
    let changes = &mut fenced[FENCE.len()..][..lent.len()];
    let reply = match call {
        Call::Start(input, host) => memory.start(&input.bytes(), *host),
        Call::Update(input, _) => memory.update(&input.bytes(), changes),
        Call::Host(host) => memory.host_focus(*host),
    };
    let behind = fenced.split_off(FENCE.len() + lent.len());
    let slice = fenced.split_off(FENCE.len());
    let strayed = fenced != FENCE || behind != FENCE;
    Given { reply, memory, slice, strayed }
}
