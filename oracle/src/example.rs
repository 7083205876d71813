//! The bond report as the compiler holds it: an enum for the contact state, a
//! message for the report, a union for the end of the burst.

use std::collections::HashMap;

use crate::ast::PrimitiveType;
use crate::ir::{
    CompiledSchema, Encoding, EnumDef, EnumVariantDef, FieldDef, FieldEncoding, MessageDef,
    ResolvedAnnotations, ResolvedType, TypeDef, TypeId, TypeRegistry, UnionDef, UnionVariantDef,
};
use crate::smol_str::SmolStr;
use crate::span::Span;

/// The schema as it goes into the check, without sizes.
pub fn bond_report() -> CompiledSchema {
    let mut registry = TypeRegistry::new();
    let contact = registry.register("ContactState".into(), TypeDef::Enum(contact_state()));
    let end = registry.register("BurstEnd".into(), TypeDef::Union(burst_end()));
    let report = registry.register("BondReport".into(), TypeDef::Message(report(contact, end)));
    CompiledSchema {
        namespace: vec!["bonder".into()],
        annotations: plain(),
        registry,
        declarations: vec![contact, end, report],
        constants: HashMap::new(),
        find_table: None,
    }
}

fn contact_state() -> EnumDef {
    let names = ["open", "touchdown", "bonding", "bonded", "lifted"];
    let variant = |(ordinal, name): (usize, &&str)| EnumVariantDef {
        name: SmolStr::new(name),
        span: Span::empty(0),
        ordinal: ordinal as u32,
        annotations: plain(),
    };
    EnumDef {
        name: "ContactState".into(),
        span: Span::new(18, 96),
        backing: None,
        variants: names.iter().enumerate().map(variant).collect(),
        tombstones: Vec::new(),
        annotations: plain(),
        wire_bits: 0,
    }
}

/// The burst ends by its time, by the reached deformation, or by a fault.
fn burst_end() -> UnionDef {
    let u16_type = ResolvedType::Primitive(PrimitiveType::U16);
    let variants = [
        ("timed", vec![]),
        ("deformed", vec![field("micrometres", u16_type.clone())]),
        (
            "faulted",
            vec![
                field("code", ResolvedType::Primitive(PrimitiveType::U8)),
                field("impedance", ResolvedType::Optional(Box::new(u16_type))),
            ],
        ),
    ];
    let variant = |(ordinal, (name, fields)): (usize, (&str, Vec<FieldDef>))| UnionVariantDef {
        name: name.into(),
        span: Span::empty(0),
        ordinal: ordinal as u32,
        fields,
        tombstones: Vec::new(),
        annotations: plain(),
    };
    UnionDef {
        name: "BurstEnd".into(),
        span: Span::new(116, 140),
        variants: variants.into_iter().enumerate().map(variant).collect(),
        tombstones: Vec::new(),
        annotations: plain(),
        wire_size: None,
    }
}

fn report(contact: TypeId, end: TypeId) -> MessageDef {
    let mut burst = field("burst_length", ResolvedType::Primitive(PrimitiveType::U32));
    burst.encoding.encoding = Encoding::Varint;
    MessageDef {
        name: "BondReport".into(),
        span: Span::new(258, 210),
        fields: vec![
            field("bond", ResolvedType::Primitive(PrimitiveType::U32)),
            field("contact", ResolvedType::Named(contact)),
            field("force", ResolvedType::Primitive(PrimitiveType::U16)),
            burst,
            field("end", ResolvedType::Named(end)),
        ],
        tombstones: Vec::new(),
        annotations: plain(),
        wire_size: None,
    }
}

fn field(name: &str, resolved_type: ResolvedType) -> FieldDef {
    FieldDef {
        name: name.into(),
        span: Span::empty(0),
        ordinal: 0,
        resolved_type,
        encoding: FieldEncoding::default_encoding(),
        annotations: plain(),
        constraint: None,
    }
}

fn plain() -> ResolvedAnnotations {
    ResolvedAnnotations::default()
}
