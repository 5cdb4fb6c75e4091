//! Inspection: every level along its links, to the first fault.

use super::*;

/// Level and node reached at the first fault.
#[inline(never)]
#[export_name = "rust_tray_inspect"]
pub fn inspect(state: &State, nodes: &[u32], versions: &[u32]) -> Result<Option<(u32, u32)>, Refusal> {
    refuse_unless(state.lawful(nodes, versions), Refusal::Corrupt)?;
    let counted = &state.process[..state.processes as usize];
    refuse_unless(counted.iter().all(|process| process.kind == Kind::Idle), Refusal::Busy)?;
    let nodes = &nodes.as_chunks().0[..=state.nodes as usize];
    let versions = &versions.as_chunks().0[..=state.versions as usize];
    let due = reaching(nodes);
    let fault = (0..LEVELS).find_map(|level| Some((level as u32, fault_on(nodes, versions, level, due[level])?)));
    Ok(fault)
}

/// How many nodes reach each level.
fn reaching(nodes: &[Node]) -> [u32; LEVELS] {
    let mut reaching = [0; LEVELS];
    for node in &nodes[1..] {
        reaching[(node[TOP] as usize).min(LEVELS - 1)] += 1;
    }
    for level in (1..LEVELS).rev() {
        reaching[level - 1] += reaching[level];
    }
    reaching
}

/// Both slices end with what is in use. Keys rise on the way, so it ends.
fn fault_on(nodes: &[Node], versions: &[Version], level: usize, due: u32) -> Option<u32> {
    let mut at = 0;
    let mut key = key_at(&nodes[0]);
    let mut seen = 0;
    loop {
        let node = &nodes[at as usize];
        let next = node[NEXT + level];
        if node[LOCK + level] != 0 || (level == 0 && at != 0 && !sound_chain(versions, node[NEWEST])) {
            return Some(at);
        }
        if next == 0 {
            return (seen < due).then_some(at);
        }
        match nodes.get(next as usize) {
            Some(behind) if key_at(behind) > key && behind[TOP] as usize >= level => {
                at = next;
                key = key_at(behind);
            }
            _ => return Some(at),
        }
        seen += 1;
    }
}

/// Places fall along the chain and timestamps do not rise, both tested in one pass.
fn sound_chain(versions: &[Version], newest: u32) -> bool {
    let mut i = newest;
    if i == 0 || i as usize >= versions.len() {
        return false;
    }
    loop {
        let [_, timestamp, prev] = versions[i as usize];
        if prev == 0 {
            return true;
        }
        if prev >= i || versions[prev as usize][TIMESTAMP] > timestamp {
            return false;
        }
        i = prev;
    }
}
