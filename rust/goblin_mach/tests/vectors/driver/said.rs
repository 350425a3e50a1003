//! What a signature says: requirements and entitlements; and how an image is hardened.
use super::lines::{Lines, ended, error, found, list, quoted, reason};
use super::vector::Vector;
use goblin_mach::audit;
use goblin_mach::signature::CodeSignature;
use goblin_mach::signature::entitlements::{Agreement, agreement_in};
use goblin_mach::signature::image::code_signature;
use goblin_mach::signature::requirements::RequirementType;
use goblin_mach::{MachO, Result};

const TYPES: [(RequirementType, &str); 5] = [
    (RequirementType::Host, "host"),
    (RequirementType::Guest, "guest"),
    (RequirementType::Designated, "designated"),
    (RequirementType::Library, "library"),
    (RequirementType::Plugin, "plugin"),
];

fn text_of(image: &MachO, kind: RequirementType) -> Result<Option<String>> {
    let Some(signature) = code_signature(image)? else {
        return Ok(None);
    };
    let Some(requirements) = signature.requirements()? else {
        return Ok(None);
    };
    Ok(requirements.get(kind)?.map(|it| it.to_string()))
}

/// The requirement of each of these types.
pub fn requirement(image: &MachO, vector: &Vector) -> Lines {
    let of_type = |numbers: &Vec<u64>| {
        let is_wanted = |it: &&(RequirementType, _)| u64::from(it.0.number()) == numbers[0];
        let (kind, name) = TYPES.iter().find(is_wanted).expect("a type from 1 to 5");
        let line = |text| format!("requirement {name} {text}");
        found(text_of(image, *kind), line)
    };
    ended(vector.numbers.iter().flat_map(of_type).collect())
}

fn agreement(signature: &CodeSignature) -> &'static str {
    match (signature.entitlements(), signature.der_entitlements()) {
        (Err(_), _) => "unreadable-xml",
        (_, Err(_)) => "unreadable-der",
        (Ok(None), Ok(None)) => "none",
        (Ok(Some(_)), Ok(None)) => "only-xml",
        (Ok(None), Ok(Some(_))) => "only-der",
        _ => match agreement_in(signature) {
            Some(Agreement::Same) => "same",
            Some(Agreement::Different) => "different",
            Some(Agreement::UnreadableXml) => "unreadable-xml",
            Some(Agreement::UnreadableDer) => "unreadable-der",
            _ => "not compared",
        },
    }
}

/// The entitlements in XML, 64 bytes in a line.
fn xml(signature: &CodeSignature) -> Lines {
    match signature.entitlements() {
        Ok(xml) => xml
            .unwrap_or_default()
            .chunks(64)
            .map(|part| format!("xml {}", quoted(part)))
            .collect(),
        Err(why) => vec![format!("xml ({})", reason(&why))],
    }
}

fn said(signature: CodeSignature) -> Result<Lines> {
    signature.directory()?;
    let word = agreement(&signature);
    let mut lines = vec![format!("entitlements {word}")];
    lines.extend(xml(&signature));
    let is_agreed = word == "same" || agreement_in(&signature).is_none();
    if signature.entitlements_agree() != is_agreed {
        lines.push("another call differs".to_string());
    }
    Ok(ended(lines))
}

/// Whether the entitlements in XML and in DER say the same, and those in XML.
pub fn entitlements(image: &MachO) -> Lines {
    match code_signature(image) {
        Ok(None) => ended(vec!["entitlements none".to_string()]),
        Ok(Some(signature)) => said(signature).unwrap_or_else(|why| vec![error(&why)]),
        Err(why) => vec![error(&why)],
    }
}

/// The names of the verdicts, in order. Only an image of 32 bits has the first.
const VERDICTS: [&str; 19] = [
    "no-heap-execution",
    "pie",
    "stack-execution",
    "pointer-authentication",
    "stack-canary",
    "writable-code",
    "writable-code-allowed",
    "restricted",
    "chained-fixups",
    "relative-run-paths",
    "encrypted",
    "stripped",
    "signed",
    "ad-hoc",
    "cms",
    "hardened-runtime",
    "library-validation",
    "entitlements",
    "get-task-allow",
];

pub fn security(image: &MachO) -> Lines {
    let findings = audit::security(image);
    let names = VERDICTS.iter().skip(VERDICTS.len() - findings.len());
    let line = |(finding, name): (Result<audit::Finding>, &&str)| match finding {
        Ok(it) => format!(
            "verdict {} {}",
            it.name(),
            if it.is_so { "yes" } else { "no" }
        ),
        Err(why) => format!("verdict {name} ({})", reason(&why)),
    };
    list(findings.zip(names).map(Ok), line)
}
