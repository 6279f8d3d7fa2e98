//! Rails, written in Rust from the request alone ("The chip with shared rails"), as one would for production: the different runs of
//! a node's branches are a tree, which grows by a place for each register that is paid for.

use crate::reference::{read, Answer, Refusal};

/// "For a text writes each node's count, in node order, into a lent table of 32-bit words and gives the total ... A table shorter
/// than the nodes is 12."
pub fn rails(text: &[u8], table: &mut [u32]) -> Answer<usize> {
    let net = read(text)?;
    let nodes = net.nodes.len();
    if table.len() < nodes {
        return Err(Refusal::whole(12));
    }
    let counts = &mut table[..nodes];
    counts.fill(0);
    // places 0 to N - 1 are the nodes; 0 is no place farther out, as none leads to a node
    let mut farther = vec![[0u16; 2]; nodes];
    for edge in &net.edges {
        let mut place = usize::from(edge.from);
        // "start values read from the feeding node outward": the highest bit is the register next to it
        for bit in (0..edge.count).rev() {
            let value = (edge.start >> bit & 1) as usize;
            if farther[place][value] == 0 {
                farther[place][value] = farther.len() as u16;
                farther.push([0; 2]);
                counts[usize::from(edge.from)] += 1;
            }
            place = usize::from(farther[place][value]);
        }
    }
    Ok(farther.len() - nodes)
}
