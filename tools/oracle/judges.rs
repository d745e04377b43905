// The judges of a unit: the Rust, and the second judge's rules where a request departs from it. Which answer counts is
// said here and nowhere else.
use crate::cut_rule::{self, AtEnd, CODE_PAST_END, Cut, Name, Watched};
use crate::extension_rule::{Found, STOP_BIT_MISSING, STOP_BIT_ZERO, ends_in_zero, found_by_rule, found_by_rust};
use crate::id_rule::{ID_ZERO, has_id_zero, refuses_unit};
use bitstream::nal::ebsp_to_rbsp;

// What the Rust has another rule for.
#[derive(Clone, Copy, PartialEq, Eq, PartialOrd, Ord)]
pub enum Rule {
    // bits that end in 0
    Extension,
    // id 0
    Id,
    // a code that the end cuts
    CutCode,
}

impl Rule {
    pub fn name(self) -> &'static str {
        match self {
            Rule::Extension => "extension bits",
            Rule::Id => "id 0",
            Rule::CutCode => "cut codes",
        }
    }
}

// The answer that counts: 34 by the rule of ids, and else that of a reader that takes every id.
pub fn found(unit: &[u8]) -> Found {
    if refuses_unit(unit) { Err(ID_ZERO) } else { found_with_any_id(unit) }
}

// The Rust's answer, but 35 for a unit that the Rust refuses and whose reading comes to a cut code before, and the answer of
// the rule of extension bits for a unit that the Rust refuses with 28 under extension flag 1.
pub fn found_with_any_id(unit: &[u8]) -> Found {
    match found_by_rust(unit) {
        Err(_) if cut_rule::refuses_unit(unit) => Err(CODE_PAST_END),
        Err(STOP_BIT_ZERO) => found_by_rule(unit).unwrap_or(Err(STOP_BIT_ZERO)),
        by_rust => by_rust,
    }
}

// All judges of a unit.
pub struct Judges {
    by_rust: Found,
    by_extension_rule: Option<Found>,
    by_id_rule: Option<Found>,
    by_cut_rule: Option<Found>,
    has_id_zero: bool,
    watched: Watched,
}

impl Judges {
    // The rule of extension bits is asked where the Rust says that a flag of 1 was read, and where it refuses the trailing
    // bits. The rule of cut codes is asked of every unit, and has an answer where the Rust refuses.
    pub fn of(unit: &[u8]) -> Self {
        let by_rust = found_by_rust(unit);
        let by_extension_rule = match &by_rust {
            Ok((vps, _)) if vps.vps_extension_flag == 0 => None,
            Err(..STOP_BIT_MISSING) => None,
            _ => found_by_rule(unit),
        };
        let by_id_rule = refuses_unit(unit).then_some(Err(ID_ZERO));
        let watched = Watched::of(unit);
        let by_cut_rule = (by_rust.is_err() && watched.refuses()).then_some(Err(CODE_PAST_END));
        Self { by_rust, by_extension_rule, by_id_rule, by_cut_rule, has_id_zero: has_id_zero(unit), watched }
    }

    // The rule whose answer counts in place of the Rust's.
    pub fn set_aside(&self) -> Option<Rule> {
        let by_extension = self.by_rust == Err(STOP_BIT_ZERO) && self.by_extension_rule.is_some();
        match (&self.by_id_rule, &self.by_cut_rule) {
            (Some(_), _) => Some(Rule::Id),
            (_, Some(_)) => Some(Rule::CutCode),
            _ => by_extension.then_some(Rule::Extension),
        }
    }

    // The number with which the Rust refuses.
    pub fn refused_by_rust(&self) -> Option<u32> {
        self.by_rust.as_ref().err().copied()
    }

    // That number, where the rule of cut codes counts.
    pub fn refused_behind_cut(&self) -> Option<u32> {
        if self.set_aside() == Some(Rule::CutCode) { self.refused_by_rust() } else { None }
    }

    // The cut code that the Rust's reading comes to first, of a unit with any id.
    pub fn cut(&self, unit: &[u8]) -> Option<Cut> {
        self.by_cut_rule.as_ref()?;
        self.watched.cut(&ebsp_to_rbsp(&unit[2..]))
    }

    // Whether there is one, and the RBSP is too long.
    pub fn cut_too_late(&self) -> bool {
        self.watched.cut_too_late()
    }

    // The last code that the Rust reads, if it ends with the RBSP and isn't cut.
    pub fn code_at_end(&self) -> Option<(Name, AtEnd)> {
        self.watched.at_end()
    }

    // Whether the unit is read up to an extension flag of 1, so that the rule of extension bits has an answer.
    pub fn extension_read(&self) -> bool {
        self.by_extension_rule.is_some()
    }

    // Whether 0 stands where a VPS has its id.
    pub fn has_id_zero(&self) -> bool {
        self.has_id_zero
    }

    // The answer that counts, as `found` has it.
    pub fn found(&self) -> &Found {
        self.by_id_rule.as_ref().unwrap_or_else(|| self.found_with_any_id())
    }

    pub fn found_with_any_id(&self) -> &Found {
        match (&self.by_cut_rule, &self.by_extension_rule) {
            (Some(by_rule), _) => by_rule,
            (_, Some(by_rule)) if self.by_rust == Err(STOP_BIT_ZERO) => by_rule,
            _ => &self.by_rust,
        }
    }

    // Whether Rust and rules say the same, or differ as they may: the Rust refuses with 28, and by the rule there is a
    // structure with extension flag 1 and extension bits that end in 0; where the Rust reads on behind the id that is 0; and
    // where it reads on behind a cut code, and refuses the unit all the same.
    pub fn as_claimed(&self) -> bool {
        self.extension_as_claimed() && self.id_as_claimed() && self.cut_as_claimed()
    }

    fn extension_as_claimed(&self) -> bool {
        match (&self.by_rust, &self.by_extension_rule) {
            (_, None) => true,
            (Err(STOP_BIT_ZERO), Some(Ok((vps, _)))) => vps.vps_extension_flag == 1 && ends_in_zero(vps),
            (by_rust, Some(by_rule)) => by_rust == by_rule,
        }
    }

    // Header refusals are the Rust's alone, and the id is that of the structure where there is one.
    fn id_as_claimed(&self) -> bool {
        match (&self.by_rust, &self.by_extension_rule) {
            (Err(1 | 2), _) => self.by_id_rule.is_none(),
            (Ok((vps, _)), _) | (_, Some(Ok((vps, _)))) => self.has_id_zero == (vps.vps_video_parameter_set_id == 0),
            _ => true,
        }
    }

    // The Rust ends over the reader that watches as it does over its own. Behind a cut code all bits read are zeros: so what
    // refuses the unit is the limit of that code's value, that there are no multi-layer sets, or that no stop bit is left,
    // and no extension flag was read.
    fn cut_as_claimed(&self) -> bool {
        let behind_cut = matches!(self.by_rust, Err(13 | 15 | 17..=20 | 22 | 23 | 25..=STOP_BIT_MISSING));
        let may_be_cut = behind_cut && self.by_extension_rule.is_none();
        self.watched.refused == self.refused_by_rust() && (may_be_cut || !self.watched.refuses())
    }
}
