//! Case files: one text each.
//!
//! A label begins with `want0`, with `want5at7p13` (number 5, line 7, place 13), with `want9` (of the
//! whole file), or with `open` where the answer is not known from the making of the case.

mod burns;
mod counts;
mod cutting;
mod digits;
mod headers;
mod line_faults;
mod long_lines;
mod random_changes;
mod rows;
mod seals;
mod sizes;
mod spots;
mod whole_faults;

use crate::draft::{Draft, Kind, BOTH};
use crate::ending::{At, WHOLE};
use crate::list::{Case, List};
use crate::random::Rng;
use crate::text::{render, with_line, Ends, Letters, Style, ALL_ENDS, ALL_LETTERS};

pub const PLAIN: Style = Style {
    letters: Letters::Capital,
    ends: Ends::Lf,
    last_end: true,
};

pub struct Files {
    pub rng: Rng,
    list: List,
}

/// All case files.
pub fn files(seed: u64) -> Vec<Case> {
    let mut files = Files {
        rng: Rng::new(seed),
        list: List::default(),
    };
    files.accepted();
    files.sizes();
    files.line_cases();
    files.whole_cases();
    files.random_changes();
    files.list.cases()
}

impl Files {
    pub fn accept(&mut self, label: &str, text: &[u8]) {
        self.list.put(&format!("want0-{label}"), text);
    }

    /// `number` 0 stands for an accepted file.
    pub fn want(&mut self, number: u8, at: At, label: &str, text: &[u8]) {
        if number == 0 {
            self.accept(label, text);
        } else {
            self.list.put(&format!("want{number}{at}-{label}"), text);
        }
    }

    pub fn open(&mut self, label: &str, text: &[u8]) {
        self.list.put(&format!("open-{label}"), text);
    }

    pub fn draft(&mut self, kind: Kind, k: usize) -> Draft {
        Draft::random(&mut self.rng, kind, k)
    }

    /// A draft with one configuration of either kind.
    pub fn small_draft(&mut self) -> Draft {
        let kind = self.rng.kind();
        self.draft(kind, 1)
    }

    /// A draft in a random style.
    pub fn styled(&mut self, draft: &Draft) -> Vec<u8> {
        let style = Style::random(&mut self.rng);
        render(&mut self.rng, draft, style)
    }

    /// A draft in a random style, one line's text being replaced.
    pub fn with_line(&mut self, draft: &Draft, number: usize, text: &[u8]) -> Vec<u8> {
        with_line(&mut self.rng, draft, number, text)
    }
}

impl Files {
    fn line_cases(&mut self) {
        self.tiny_texts();
        self.ends_of_lines();
        self.every_character();
        self.characters();
        self.several_characters();
        self.digit_counts();
        self.odd_counts();
        self.long_lines();
        self.header_data_counts();
        self.wrong_fields();
        self.fields_together();
        self.counts_of_write_rows();
        self.rows_in_other_places();
        self.rows_by_number();
        self.lengths();
        self.crcs();
        self.crcs_of_every_length();
        self.faults_together();
        self.faults_on_two_lines();
    }

    /// Line numbers worth trying: the header, the first write line, one in the middle, an
    /// identifier line, a CRC line and the last.
    fn places(&mut self, draft: &Draft) -> [usize; 9] {
        let middle = draft.free_line(&mut self.rng);
        [
            1,
            2,
            3,
            4,
            5,
            middle,
            draft.id_line(0),
            draft.crc_line(0),
            draft.n(),
        ]
    }
}

impl Files {
    fn whole_cases(&mut self) {
        self.few_lines();
        self.line_counts();
        self.ends_before_spots();
        self.counts_beyond_eight();
        self.identities();
        self.revisions();
        self.last_line_no_burn();
        self.early_burns();
        self.nearly_burns();
        self.spots();
        self.identifier_pairs();
        self.identifier_digits();
        self.whole_faults_together();
        self.line_faults_before_whole_faults();
    }

    fn put_whole(&mut self, number: u8, label: &str, draft: &Draft) {
        let text = self.styled(draft);
        self.want(number, WHOLE, label, &text);
    }

    /// Every configuration of every k up to a bound, with a fresh draft.
    fn each_config(&mut self, bound: usize, mut put: impl FnMut(&mut Files, Draft, usize)) {
        for kind in BOTH {
            for k in 1..=bound {
                for config in 0..k {
                    let draft = self.draft(kind, k);
                    put(self, draft, config);
                }
            }
        }
    }
}

impl Files {
    fn accepted(&mut self) {
        for kind in BOTH {
            for k in 1..=8 {
                self.accepted_styles(kind, k);
            }
        }
    }

    /// Every style with one configuration, a third of the styles with more.
    fn accepted_styles(&mut self, kind: Kind, k: usize) {
        let mut turn = k;
        for letters in ALL_LETTERS {
            for ends in ALL_ENDS {
                for last_end in [true, false] {
                    turn += 1;
                    if k == 1 || turn % 3 == 0 {
                        let style = Style {
                            letters,
                            ends,
                            last_end,
                        };
                        let draft = self.draft(kind, k);
                        let text = render(&mut self.rng, &draft, style);
                        let label = format!("accepted-{}-k{k}-{}", kind.name(), style.name());
                        self.accept(&label, &text);
                    }
                }
            }
        }
    }
}
