//! Several faults of the whole file, and a faulty line before them.

use super::counts::{BAD_IDENTITY, BAD_REVISION};
use super::Files;
use crate::draft::{Draft, Kind, BOTH};
use crate::ending::at;
use crate::line::{burn, header, write};
use crate::list::names;
use crate::numbers::{BURNS, COUNT, DEVICE, PAIRS, REVISION, SAME, SPOT};
use crate::spoil::spoiled;
use crate::text::capital;

/// The numbers for whole files in their order, 7 for n standing after 9.
const ORDER: [u8; 6] = [REVISION, DEVICE, COUNT, BURNS, SPOT, SAME];

impl Files {
    /// Every set of whole-file faults: the first in order is given.
    pub(super) fn whole_faults_together(&mut self) {
        for kind in BOTH {
            for set in 1..64usize {
                let faults: Vec<u8> = (0..6)
                    .filter(|&place| set >> place & 1 == 1)
                    .map(|place| ORDER[place])
                    .collect();
                let draft = self.whole_spoiled(kind, &faults);
                self.put_whole(faults[0], &format!("together-{}", names(&faults)), &draft);
            }
        }
    }

    pub(super) fn line_faults_before_whole_faults(&mut self) {
        for line_fault in 2..=6 {
            for whole_fault in ORDER {
                let kind = self.rng.kind();
                let draft = self.whole_spoiled(kind, &[whole_fault]);
                let number = self.rng.from_to(1, draft.n());
                let label = format!("line-{line_fault}-before-{whole_fault}");
                self.put_line_fault(&draft, number, line_fault, &label);
            }
            let short = self.shortened(Kind::Legacy, 12);
            let label = format!("line-{line_fault}-before-under-13");
            self.put_line_fault(&short, 12, line_fault, &label);
        }
        // The last line's fault is that it is not the burn and not even good.
        let draft = self.small_draft();
        let mut last = capital(draft.get(draft.n()));
        last.pop();
        let text = self.with_line(&draft, draft.n(), &last);
        self.want(PAIRS, at(draft.n(), 14), "line-3-on-the-burn", &text);
    }

    fn put_line_fault(&mut self, draft: &Draft, number: usize, fault: u8, label: &str) {
        let (place, digits) = spoiled(&mut self.rng, number, draft.get(number), &[fault]);
        let text = self.with_line(draft, number, &digits);
        self.want(fault, at(number, place), label, &text);
    }

    /// A draft with two configurations and the wanted whole-file faults. Faults of spots and
    /// identifiers are made first, so that a changed count does not move them.
    fn whole_spoiled(&mut self, kind: Kind, faults: &[u8]) -> Draft {
        let mut draft = self.draft(kind, 2);
        if faults.contains(&SAME) {
            let identifier = draft.identifier(0);
            self.set_identifier(&mut draft, 1, identifier);
        }
        if faults.contains(&SPOT) {
            let spots = [draft.id_line(0), draft.crc_line(0), draft.crc_line(1)];
            let number = self.rng.pick(&spots);
            let data = draft.get(number)[4..8].to_vec();
            draft.set(number, write(0xC5, &data));
        }
        if faults.contains(&BURNS) {
            self.spoil_burn(&mut draft);
        }
        if faults.contains(&COUNT) {
            let place = draft.n() - 2;
            if self.rng.once_in(2) {
                draft.lines.remove(place);
            } else {
                draft.lines.insert(place, write(0xC7, &[0x12, 0x34]));
            }
        }
        if faults.contains(&DEVICE) {
            draft.set(1, header(0xAD, &BAD_IDENTITY));
        }
        if faults.contains(&REVISION) {
            draft.set(2, header(0xAE, &BAD_REVISION));
        }
        draft
    }

    fn spoil_burn(&mut self, draft: &mut Draft) {
        if self.rng.once_in(2) {
            let number = draft.free_line(&mut self.rng);
            draft.set(number, burn());
        } else {
            draft.set(draft.n(), write(0xE7, &[0x00, 0x08]));
        }
    }
}
