//! What scripts met at buckets and queues: drops by the type of the client and by the discipline (paper 02, S-9), levels right at the
//! limit, and packets behind each way in which a bucket begins or goes on (S-4). It goes along with a core, call by call.

use second::core::{Answer, Call, Core, INDIFFERENT, PLACES};

const KINDS: [&str; 16] = [
    "14 of a private client, discipline 0",
    "14 of a private client, discipline 1",
    "14 of an indifferent client with a token left, discipline 0",
    "14 of an indifferent client with a token left, discipline 1",
    "14 of an indifferent client without a token, discipline 0",
    "14 of an indifferent client without a token, discipline 1",
    "15 with one share less than a token",
    "accepted with just one token",
    "accepted by an indifferent client that joined as such",
    "15 of such a client",
    "accepted after a change to indifferent",
    "15 after a change to indifferent",
    "accepted behind a change that kept the type, with no tick between",
    "full queues emptied by a leave",
    "full queues emptied by a change of type",
    "levels cut down by a smaller burst",
];

pub struct Buckets {
    counts: [u64; KINDS.len()],
    /// How many packets of one client waited at most.
    most_waiting: usize,
    /// By id: whether a change of type began its bucket.
    switched: [bool; 64],
    /// By id: whether a change that kept the type came behind the last tick.
    retuned: [bool; 64],
}

/// What is looked at before a call.
struct Bucket {
    id: usize,
    indifferent: bool,
    level: u32,
    waiting: usize,
    discipline: usize,
}

impl Buckets {
    pub fn new() -> Buckets {
        Buckets { counts: [0; KINDS.len()], most_waiting: 0, switched: [false; 64], retuned: [false; 64] }
    }

    /// Makes a call and counts what it met.
    pub fn perform(&mut self, core: &mut Core, call: &Call) -> Answer {
        let bucket = bucket_of(core, call);
        let answer = core.perform(call);
        match (call, bucket, &answer) {
            (Call::Arrive { .. }, Some(bucket), answer) => self.arrived(&bucket, answer),
            (&Call::Change { kind, burst, .. }, Some(bucket), Answer::Accepted) => {
                self.changed(&bucket, kind == INDIFFERENT, burst);
            }
            (&Call::Join { id, .. }, _, Answer::Accepted) => {
                (self.switched[id as usize], self.retuned[id as usize]) = (false, false);
            }
            (Call::Leave { .. }, Some(bucket), _) => self.counts[13] += u64::from(bucket.waiting == PLACES),
            (Call::Tick, _, _) => self.retuned = [false; 64],
            _ => {}
        }
        answer
    }

    fn arrived(&mut self, bucket: &Bucket, answer: &Answer) {
        let &Bucket { id, indifferent, level, waiting, discipline } = bucket;
        let (full, short) = (*answer == Answer::Refused(14), *answer == Answer::Refused(15));
        let granted = indifferent && *answer == Answer::Accepted;
        let of_full = if !indifferent { 0 } else if level >= 1024 { 2 } else { 4 };
        self.counts[of_full + discipline] += u64::from(full);
        self.most_waiting = self.most_waiting.max(waiting + usize::from(*answer == Answer::Accepted));
        let met = [
            short && level == 1023,
            granted && level == 1024,
            granted && !self.switched[id],
            short && !self.switched[id],
            granted && self.switched[id],
            short && self.switched[id],
            granted && self.retuned[id],
        ];
        for (count, met) in self.counts[6..].iter_mut().zip(met) {
            *count += u64::from(met);
        }
    }

    fn changed(&mut self, before: &Bucket, indifferent: bool, burst: u32) {
        let id = before.id;
        self.retuned[id] = before.indifferent == indifferent;
        self.switched[id] = if self.retuned[id] { self.switched[id] } else { indifferent };
        self.counts[14] += u64::from(!self.retuned[id] && before.waiting == PLACES);
        self.counts[15] += u64::from(self.retuned[id] && before.level > burst * 1024);
    }

    /// Prints the counts; false if one is 0, or if no client had all its places in use.
    pub fn print(&self) -> bool {
        for (name, count) in KINDS.iter().zip(&self.counts) {
            println!("{}: {}", name, count);
        }
        println!("packets of one client waiting at most: {}", self.most_waiting);
        self.counts.iter().all(|&count| count > 0) && self.most_waiting == PLACES
    }
}

/// The bucket and the queue of the client that an arrival, a change or a leave names, if it is active.
fn bucket_of(core: &Core, call: &Call) -> Option<Bucket> {
    let (Call::Arrive { id, .. } | Call::Change { id, .. } | Call::Leave { id }) = *call else {
        return None;
    };
    let opened = core.opened.as_ref()?;
    let client = opened.clients.get(id as usize)?.as_ref()?;
    Some(Bucket {
        id: id as usize,
        indifferent: client.kind == INDIFFERENT,
        level: client.level,
        waiting: client.queue.len(),
        discipline: opened.discipline as usize,
    })
}
