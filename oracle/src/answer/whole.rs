//! All that is worked out for an image before places are lent for it, so that
//! one working-out answers for tables of any length.

use super::added::AddedCounts;
use super::brought::bringing;
use super::fields::each_wanted;
use super::findings::{findings, mark_spans, Finding};
use super::kinds::FieldCounts;
use super::limit::PassedLimit;
use super::moved::{has_limited, move_retired, take_out_limits};
use super::sizes::{size_table, Notes, Stop};
use super::steps::{Steps, TooLong, STEP_LIMIT};
use super::{refused, Answer, Places};
use crate::format::{Edition, Entry, Layout};
use crate::import::{import, Refusal};
use crate::ir::{CompiledSchema, TypeDef, TypeId, WireSize};
use crate::typeck::{check, compute_wire_sizes};

#[derive(Debug, Clone, Copy, PartialEq, Eq)]
enum Failure {
    /// One of 1 to 9.
    Read(Refusal),
    /// Refusal 15, at the lowest slot that brings a size.
    Brought {
        slot: u64,
    },
    /// Refusal 11 or 14, at this declared slot.
    Limit {
        slot: u64,
        passed: PassedLimit,
    },
    TooLong,
}

impl From<Stop> for Failure {
    fn from(stop: Stop) -> Self {
        match stop {
            Stop::Limit { slot, passed } => Failure::Limit { slot, passed },
            Stop::TooLong => Failure::TooLong,
        }
    }
}

/// Counts by the classes 1 to 4 of findings.
pub type Classes = [u64; 4];

/// Counts of unions without variants, with one, with more.
pub type Unions = [u64; 3];

/// Slot starts, sizes and findings of an image, or why there are none.
#[derive(Debug, Clone)]
pub struct Whole {
    /// Where each slot starts; none if the image is refused on reading.
    pub starts: Vec<u32>,
    /// Most calls that stood one in another while sizes were worked out.
    pub deepest: u64,
    /// Turns of unions, by how many variants they have, if there is a table.
    pub unions: Unions,
    /// Trait fields that were searched for, if the findings are known.
    pub fields: FieldCounts,
    /// What edition two adds, or was refused of it.
    pub added: AddedCounts,
    /// What was rounded, and what limits bear on.
    pub notes: Notes,
    sizes: Result<Vec<u64>, Failure>,
    findings: Result<Vec<u32>, TooLong>,
}

impl Whole {
    /// Sizes and findings.
    pub fn of(image: &[u8], entry: impl Into<Entry>) -> Self {
        Self::within(image, entry, STEP_LIMIT)
    }

    /// Sizes and findings, if they take so many steps at most.
    pub fn within(image: &[u8], entry: impl Into<Entry>, steps: u64) -> Self {
        Self::worked(image, entry.into(), true, steps)
    }

    /// Sizes alone; the findings are left out as if they took too long.
    pub fn sizes_of(image: &[u8], entry: impl Into<Entry>) -> Self {
        Self::worked(image, entry.into(), false, STEP_LIMIT)
    }

    fn worked(image: &[u8], entry: Entry, with_findings: bool, steps: u64) -> Self {
        let mut whole = Self {
            starts: Vec::new(),
            deepest: 0,
            unions: [0; 3],
            fields: FieldCounts::default(),
            added: AddedCounts::default(),
            notes: Notes::default(),
            sizes: Err(Failure::TooLong),
            findings: Err(TooLong),
        };
        let imported = import(image, entry.edition);
        if entry.edition == Edition::Two {
            whole.added.count(image, &imported);
        }
        match imported {
            Ok(imported) => {
                whole.starts = imported.starts;
                whole.work_out(imported.schema, entry.layout, with_findings, steps);
            }
            Err(refusal) => whole.sizes = Err(Failure::Read(refusal)),
        }
        whole
    }

    fn work_out(
        &mut self,
        mut schema: CompiledSchema,
        layout: Layout,
        with_findings: bool,
        limit: u64,
    ) {
        let mut steps = Steps::new(&schema, limit);
        self.sizes = self.table(&schema, layout, &mut steps);
        // The upstream check packs and knows no limits, so its table is held against
        // one that is worked out so; it knows no retired ones, so for it they are live.
        let plain = self.plain_table(&mut schema, layout, limit);
        move_retired(&mut schema);
        let Some(plain) = plain else {
            assert!(self.sizes.is_err(), "refused without limits and rounding");
            return;
        };
        let with_findings = with_findings && self.sizes.is_ok();
        if with_findings && steps.charge_findings(&schema).is_ok() {
            let spans = mark_spans(&mut schema);
            let diagnostics = check(&mut schema);
            let findings = findings(&schema, &spans, &diagnostics);
            self.look_at_fields(&schema, &findings);
            self.findings = Ok(findings.concat());
        } else {
            compute_wire_sizes(&mut schema);
        }
        let upstream = stored_table(&schema);
        assert_eq!(upstream, plain, "sizes upstream and worked out here");
        if self.sizes.is_ok() {
            self.unions = union_turns(&schema);
        }
    }

    /// The packed table without limits, if it is accepted; they are taken out. No
    /// size in it is larger than in the one that is known, and it takes no more
    /// steps.
    fn plain_table(
        &self,
        schema: &mut CompiledSchema,
        layout: Layout,
        limit: u64,
    ) -> Option<Vec<u64>> {
        let is_plain = layout == Layout::Packed && !has_limited(schema);
        take_out_limits(schema);
        match &self.sizes {
            Ok(_) | Err(Failure::Limit { .. }) if !is_plain => {
                let mut steps = Steps::new(schema, limit);
                size_table(schema, Layout::Packed, &mut steps, &mut Notes::default()).ok()
            }
            Ok(table) => Some(table.clone()),
            Err(_) => None,
        }
    }

    fn table(
        &mut self,
        schema: &CompiledSchema,
        layout: Layout,
        steps: &mut Steps,
    ) -> Result<Vec<u64>, Failure> {
        let brings = bringing(schema).next();
        if let (Layout::Aligned, Some(slot)) = (layout, brings) {
            return Err(Failure::Brought { slot: slot as u64 });
        }
        let table = size_table(schema, layout, steps, &mut self.notes);
        self.deepest = steps.deepest();
        Ok(table?)
    }

    /// Counts trait fields, and holds those that are not found here against
    /// the upstream findings.
    fn look_at_fields(&mut self, schema: &CompiledSchema, findings: &[Finding]) {
        let mut lacking = Vec::new();
        each_wanted(schema, &mut |wanted| {
            self.fields.count(wanted);
            if !wanted.found() {
                lacking.push([wanted.slot, wanted.index]);
            }
        });
        let upstream = findings.iter().filter(|finding| finding[0] == 4);
        let upstream = upstream.map(|finding| [finding[1], finding[4]]);
        assert!(upstream.eq(lacking), "trait fields here and upstream");
    }

    /// The refusal of reading, if it is one.
    pub fn refusal(&self) -> Option<Refusal> {
        match self.sizes {
            Err(Failure::Read(refusal)) => Some(refusal),
            _ => None,
        }
    }

    /// The first step that passes the limit, if one does.
    pub fn passed_limit(&self) -> Option<PassedLimit> {
        match self.sizes {
            Err(Failure::Limit { passed, .. }) => Some(passed),
            _ => None,
        }
    }

    /// Findings by their class, none if they are not known.
    pub fn classes(&self) -> Classes {
        let mut classes = Classes::default();
        let findings = self.findings.as_deref().unwrap_or_default();
        for finding in findings.chunks(6) {
            classes[finding[0] as usize - 1] += 1;
        }
        classes
    }

    /// Numbers that the findings take, if they are known.
    pub fn finding_places(&self) -> Option<usize> {
        self.findings.as_ref().ok().map(Vec::len)
    }

    /// The answer as far as sizes go: without findings, and never refusal 12.
    pub fn sizes_answer(&self, places: u64) -> Result<Answer, TooLong> {
        match &self.sizes {
            Err(Failure::Read(refusal)) => Ok((*refusal).into()),
            Err(Failure::Brought { slot }) => Ok(refused(15, *slot)),
            _ if places < 3 * self.starts.len() as u64 => Ok(refused(10, 0)),
            Err(Failure::Limit { slot, passed }) => Ok(refused(passed.operation.number(), *slot)),
            Err(Failure::TooLong) => Err(TooLong),
            Ok(sizes) => Ok(Answer::Accepted {
                count: 0,
                sizes: sizes.clone(),
                findings: Vec::new(),
            }),
        }
    }

    pub fn answer(&self, places: Places) -> Result<Answer, TooLong> {
        let sizes = match self.sizes_answer(places.sizes)? {
            Answer::Accepted { sizes, .. } => sizes,
            refused => return Ok(refused),
        };
        let findings = self.findings.clone()?;
        if places.findings < findings.len() as u64 {
            return Ok(refused(12, 0));
        }
        Ok(Answer::Accepted {
            count: findings.len() as u64 / 6,
            sizes,
            findings,
        })
    }
}

fn union_turns(schema: &CompiledSchema) -> Unions {
    let mut counts = [0; 3];
    for &id in &schema.declarations {
        if let Some(TypeDef::Union(un)) = schema.registry.get(id) {
            counts[un.variants.len().min(2)] += 1;
        }
    }
    counts
}

/// The size table of a schema as it stands: three numbers a slot.
fn stored_table(schema: &CompiledSchema) -> Vec<u64> {
    let slots = 0..schema.registry.len() as u32;
    let rows = slots.map(|slot| match schema.registry.get(TypeId(slot)) {
        Some(TypeDef::Enum(en)) => [4, en.wire_bits.into(), 0],
        Some(TypeDef::Flags(flags)) => [5, flags.wire_bytes.into(), 0],
        Some(TypeDef::Message(message)) => size_row(&message.wire_size),
        Some(TypeDef::Union(un)) => size_row(&un.wire_size),
        _ => [0, 0, 0],
    });
    rows.flatten().collect()
}

fn size_row(size: &Option<WireSize>) -> [u64; 3] {
    match *size {
        None => [0, 0, 0],
        Some(WireSize::Fixed(bits)) => [1, bits, bits],
        Some(WireSize::Variable { min_bits, max_bits }) => match max_bits {
            Some(max_bits) => [2, min_bits, max_bits],
            None => [3, min_bits, 0],
        },
    }
}
