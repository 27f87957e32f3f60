//! The words left behind by solve and show, range by range.

use crate::generate::problem::Problem;
use crate::reply::Reply;

/// Faults in the words a call left, given the words before it.
pub fn left_faults(before: &Problem, after: &Problem, reply: Reply, is_show: bool) -> Vec<String> {
    let mut faults = Vec::new();
    let mut expect = |fine: bool, what: &str| {
        if !fine {
            faults.push(format!("{what} after answer {}", reply.answer));
        }
    };
    if [4, 5, 6, 7, 10].contains(&reply.answer) {
        expect(before.table == after.table, "table changed");
        expect(before.solutions == after.solutions, "solutions changed");
        expect(before.queue == after.queue, "queue changed");
        expect(before.output == after.output, "output changed");
        return faults;
    }
    let room = (before.table.len() / 4).min(4096);
    let pairs = (before.queue.len() / 2).min(1024);
    let shown = (before.output.len() / 4).min(4096);
    let solved = reply.answer == 0 || reply.answer == 11;
    let (input, rest) = (4 * before.n, 4 * room);
    expect(same(&before.table, &after.table, 0, input), "input records changed");
    expect(same(&before.table, &after.table, rest, usize::MAX), "words past the table changed");
    expect(same(&before.solutions, &after.solutions, room, usize::MAX), "words past the solutions changed");
    expect(all(&after.queue, 0, 2 * pairs, 0), "queue words not 0");
    expect(same(&before.queue, &after.queue, 2 * pairs, usize::MAX), "words past the queue changed");
    if !solved {
        expect(all(&after.table, input, rest, 0), "new records not zero");
        expect(all(&after.solutions, 0, room, u32::MAX), "solutions not NONE");
    }
    if !is_show || !solved {
        expect(before.output == after.output, "output changed");
        return faults;
    }
    let kept = if reply.answer == 0 { reply.used as usize } else { 0 };
    expect(all(&after.output, 4 * kept, 4 * shown, 0), "unused output not zero");
    expect(same(&before.output, &after.output, 4 * shown, usize::MAX), "words past the output changed");
    faults
}

fn range(words: &[u32], from: usize, to: usize) -> &[u32] {
    let to = to.min(words.len());
    words.get(from.min(to)..to).unwrap_or_default()
}

fn same(before: &[u32], after: &[u32], from: usize, to: usize) -> bool {
    before.len() == after.len() && range(before, from, to) == range(after, from, to)
}

fn all(words: &[u32], from: usize, to: usize, value: u32) -> bool {
    range(words, from, to).iter().all(|&word| word == value)
}
