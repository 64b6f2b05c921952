//! The count sheets of S-7 (paper 02), counted anew from a script and from what a program printed for it, line by line. Who is
//! active, and of which type, is said by the calls that the program accepted: no core of the second program is asked.

use crate::history::{printed_lines, slot};
use crate::program::Run;
use second::core::{Call, Outcome, INDIFFERENT};
use second::script::{parse, Line};

/// "accepted, sent, refused 14, refused 15, emptied out, dummies sent": their places in a sheet.
pub type Counts = [u64; 6];
const ACCEPTED: usize = 0;
const SENT: usize = 1;
const REFUSED_14: usize = 2;
const REFUSED_15: usize = 3;
const EMPTIED: usize = 4;
const DUMMIES: usize = 5;

/// What is counted of an active client.
#[derive(Clone)]
pub struct Account {
    kind: u32,
    pub counts: Counts,
    /// The counts right behind the join, or the change of type, that gave it its type.
    since: Counts,
    pub changed_type: bool,
    /// Whether a leave of the id, since the open, ended a sheet that had a count above zero.
    pub joined_again: bool,
}

impl Account {
    /// "since the join"
    fn new(kind: u32, joined_again: bool) -> Account {
        Account { kind, counts: [0; 6], since: [0; 6], changed_type: false, joined_again }
    }

    pub fn is_indifferent(&self) -> bool {
        self.kind == INDIFFERENT
    }

    /// What was accepted and neither sent nor emptied out.
    pub fn waiting(&self) -> u64 {
        let [accepted, sent, _, _, emptied, _] = self.counts;
        accepted.wrapping_sub(sent).wrapping_sub(emptied)
    }

    /// "what each count has gained after the join or change that made it so, what that change itself emptied left out"
    pub fn gains(&self) -> Counts {
        std::array::from_fn(|place| self.counts[place].wrapping_sub(self.since[place]))
    }

    /// "counts run to 64 bits and then begin again at zero"
    fn add(&mut self, place: usize, more: u64) {
        self.counts[place] = self.counts[place].wrapping_add(more);
    }

    /// An accepted change. One that keeps the type empties nothing.
    fn change(&mut self, kind: u32) {
        if kind != self.kind {
            self.add(EMPTIED, self.waiting());
            (self.kind, self.since, self.changed_type) = (kind, self.counts, true);
        }
    }
}

/// One for each active client behind a script.
pub struct Accounts {
    clients: [Option<Account>; 64],
    ended: [bool; 64],
}

impl Accounts {
    /// In words, why the printout is none of such a script.
    pub fn of(text: &[u8], run: &Run) -> Result<Accounts, String> {
        let lines: Vec<&[u8]> = text.split_inclusive(|&byte| byte == b'\n').collect();
        let mut accounts = Accounts::none();
        for (line, answer) in lines.iter().zip(printed_lines(lines.len(), run)?) {
            if let Some(Line::Form(call)) = line.strip_suffix(b"\n").map(parse) {
                let words = || format!("{} is answered {}", line.escape_ascii(), answer.escape_ascii());
                accounts.add(&call, answer).ok_or_else(words)?;
            }
        }
        Ok(accounts)
    }

    fn none() -> Accounts {
        Accounts { clients: std::array::from_fn(|_| None), ended: [false; 64] }
    }

    /// A call and its answer; nothing if the answer cannot be one.
    fn add(&mut self, call: &Call, answer: &[u8]) -> Option<()> {
        match (call, answer) {
            (&Call::Arrive { id, .. }, b"(refused 14)\n") => self.client(id)?.add(REFUSED_14, 1),
            (&Call::Arrive { id, .. }, b"(refused 15)\n") => self.client(id)?.add(REFUSED_15, 1),
            (_, b"(ok)\n") => self.accepted(call)?,
            (Call::Tick, answer) if !answer.starts_with(b"(refused ") => match slot(answer)? {
                Outcome::Real { id, .. } => self.client(id)?.add(SENT, 1),
                Outcome::Dummy { id } => self.client(id)?.add(DUMMIES, 1),
                Outcome::Idle { .. } | Outcome::Nobody => {}
            },
            (_, answer) if answer.starts_with(b"(refused ") => {}
            _ => return None,
        }
        Some(())
    }

    fn accepted(&mut self, call: &Call) -> Option<()> {
        match *call {
            Call::Open { .. } => *self = Accounts::none(),
            Call::Join { id, kind, .. } => {
                let place = self.clients.get_mut(id as usize)?;
                *place = Some(Account::new(kind, self.ended[id as usize]));
            }
            Call::Change { id, kind, .. } => self.client(id)?.change(kind),
            Call::Leave { id } => {
                let counts = self.clients.get_mut(id as usize)?.take()?.counts;
                self.ended[id as usize] |= counts != [0; 6];
            }
            Call::Arrive { id, .. } => self.client(id)?.add(ACCEPTED, 1),
            Call::Load { .. } => {}
            Call::Tick => return None,
        }
        Some(())
    }

    fn client(&mut self, id: u32) -> Option<&mut Account> {
        self.clients.get_mut(id as usize)?.as_mut()
    }

    pub fn get(&self, id: u32) -> Option<&Account> {
        self.clients.get(id as usize)?.as_ref()
    }

    /// By rising id.
    pub fn active(&self) -> impl Iterator<Item = (u32, &Account)> {
        (0..64).filter_map(|id| Some((id, self.get(id)?)))
    }

    /// The line of a client, if it is active.
    pub fn line(&self, id: u32) -> Option<String> {
        let counts = self.get(id)?.counts.map(|count| count.to_string());
        Some(format!("(counts {} {})\n", id, counts.join(" ")))
    }

    /// What `--counts` is to print.
    pub fn lines(&self) -> String {
        (0..64).filter_map(|id| self.line(id)).collect()
    }
}
