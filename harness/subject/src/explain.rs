//! What `reqshabu explain` prints beside toyDB's own `Display` of the same plan.
//!
//! The lines are compared without the cell numbers, which toyDB hasn't. Names that hold characters which can't be seen are handed to toyDB escaped
//! (harness::sheet, `OnOneLine`), since the command prints them so; where a text is no UTF-8, toyDB can't hold it and isn't asked.
use harness::{extremes, generate, rng::Rng, sheet};

/// Letters and what is awkward in a string or a name, each of one byte, so that every stretch of them is text.
const AWKWARD: &[u8] = b"ab Z09_.,:()'\"\\#%\t\n\r\0\x1B\x7F~";

#[derive(Default)]
struct Counts {
    compared: u64,
    lines: u64,
    not_utf8: u64,
    different: u64,
}

impl Counts {
    /// One sheet: the same lines, each with the cell of a node, the root first, every node once.
    fn compare(&mut self, what: &str, bytes: &[u8]) {
        let plan = match reqshabu::Plan::read(bytes) {
            Ok(plan) => plan,
            Err(refusal) => return self.differ(what, &refusal.to_string(), "an accepted sheet"),
        };
        let lines = plan.lines();
        let ours: Vec<String> = lines.iter().map(|line| format!("{}{}", line.branches, line.text)).collect();
        let Some(node) = sheet::decode(bytes, sheet::Texts::OnOneLine) else {
            self.not_utf8 += 1;
            return;
        };
        let theirs = node.to_string();
        self.compared += 1;
        self.lines += lines.len() as u64;
        if ours.join("\n") != theirs {
            self.differ(what, &ours.join("\n"), &theirs);
        }
        let mut cells: Vec<usize> = lines.iter().map(|line| line.cell).collect();
        let start = word(bytes, bytes.len() - 12);
        let nodes: Vec<usize> = (0..(bytes.len() - 20 - start) / 16).filter(|i| bytes[start + 16 * i] >= 50).collect();
        let root_first = cells.first() == nodes.last();
        cells.sort_unstable();
        if cells != nodes || !root_first {
            self.differ(what, &format!("{cells:?}"), &format!("the nodes {nodes:?}"));
        }
    }

    fn differ(&mut self, what: &str, ours: &str, theirs: &str) {
        self.different += 1;
        if self.different <= 5 {
            println!("{what}:\n--- ours\n{ours}\n--- toyDB\n{theirs}");
        }
    }
}

fn word(bytes: &[u8], at: usize) -> usize {
    u32::from_le_bytes(bytes[at..at + 4].try_into().expect("four bytes")) as usize
}

/// `explain N SEED`: N random accepted sheets and those at the limits, each as it is, with awkward text in its text part, and after all five passes.
pub fn explain(n: u64, seed: u64) -> bool {
    let mut counts = Counts::default();
    let mut one = |what: &str, bytes: Vec<u8>, rng: &mut Rng| {
        counts.compare(what, &bytes);
        if let Ok(optimized) = reqshabu::optimize_to_vec(&bytes) {
            counts.compare(&format!("{what}, optimized"), &optimized);
        }
        // Which bytes the text has is no part of what is checked.
        let mut awkward = bytes;
        let text = word(&awkward, awkward.len() - 20);
        awkward[..text].fill_with(|| AWKWARD[rng.range(0, AWKWARD.len() - 1)]);
        counts.compare(&format!("{what}, awkward text"), &awkward);
    };
    for i in 0..n {
        let mut rng = Rng::case(seed, i);
        let bytes = generate::bytes(&mut rng);
        one(&format!("case {i} of seed {seed}"), bytes, &mut rng);
    }
    for (name, bytes) in extremes::list() {
        if reqshabu::check(&bytes).is_ok() {
            one(&name, bytes, &mut Rng::case(seed, n));
        }
    }
    let Counts { compared, lines, not_utf8, different } = counts;
    println!("{compared} plans compared, {lines} lines, {different} different; {not_utf8} with text that is no UTF-8, where toyDB isn't asked");
    different == 0
}
