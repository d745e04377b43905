// Layer pages: vps_layer_page against the second judge, which has the request written out (judge::page).
use crate::buffers::Guarded;
use crate::calls;
use crate::counts::Paged;
use crate::reading::around;
use crate::report::{shown, Answer, Report};
use bitstream::h266::VvcVps;
use judge::page::{sets_of_two_steps, Page, LINE_BYTES, MOST_LAYERS, MOST_SETS};
use judge::random::Random;
use judge::structures::mode_of;

// An output of so many bytes is long enough for every page.
pub const MOST_PAGE: usize = MOST_SETS * LINE_BYTES;

const LENGTH_BEFORE: u64 = 0x7e6d_5c4b_3a29_1807;

pub struct Pages {
    random: Random,
    output: Guarded<u8>,
}

impl Pages {
    pub fn new(seed: u64) -> Self {
        Self { random: Random::new(seed), output: Guarded::new() }
    }

    // The page of a list, which is well formed if it has a structure, with outputs of every length around the boundary and a
    // longer one.
    pub fn compare(&mut self, list: &[u32], vps: Option<&VvcVps>, report: &mut Report) {
        let page = vps.map(|v| paged(v, report));
        let exact = page.as_ref().map_or_else(|| self.some_lines(), |page| page.bytes.len());
        let longer = exact + 2 + self.random.below(2 * LINE_BYTES);
        for room in around(exact).into_iter().chain([longer]) {
            self.call(list, page.as_ref(), room, report);
        }
    }

    // Mostly a few lines, now and then up to as many as a page can have.
    fn some_lines(&mut self) -> usize {
        let most = if self.random.below(16) == 0 { MOST_SETS } else { 8 };
        LINE_BYTES * (1 + self.random.below(most))
    }

    fn call(&mut self, list: &[u32], page: Option<&Page>, room: usize, report: &mut Report) {
        let salt = self.random.number() as u32;
        let (expected, length, bytes) = match page {
            None => (31, LENGTH_BEFORE, &[][..]),
            Some(page) if room < page.bytes.len() => (32, LENGTH_BEFORE, &[][..]),
            Some(page) => (0, page.bytes.len() as u64, &page.bytes[..]),
        };
        let mut stored = LENGTH_BEFORE;
        let number = calls::layer_page(list, self.output.lend(room, salt), &mut stored);
        let answer = if expected == 0 { Answer::Of(mode_of(list)) } else { Answer::Refused(expected) };
        report.answer("vps_layer_page", answer);
        if (number, stored) != (expected, length) || !self.output.holds(bytes) {
            report.difference(|| {
                format!(
                    "vps_layer_page with output {room}: {}\nexpected number {expected}, length {length}, output {}\ngiven    number {number}, length {stored}, output {}",
                    shown(list),
                    bytes.escape_ascii(),
                    self.output.now().escape_ascii()
                )
            });
        }
    }
}

// What the judge prints for a well-formed list, counted by what it shows.
fn paged(vps: &VvcVps, report: &mut Report) -> Page {
    let page = Page::of(vps);
    report.paged(Paged::Page, 1);
    report.paged(Paged::MostLayers, usize::from(vps.layers.len() == MOST_LAYERS));
    report.paged(Paged::MostSets, usize::from(page.sets.len() == MOST_SETS));
    report.paged(Paged::Line, page.sets.len());
    report.paged(Paged::LineOfTwoSteps, sets_of_two_steps(vps, &page));
    page
}
