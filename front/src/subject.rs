//! The subject of a certificate as a text, by RFC 4514: `CN=anna,O=Example`, the most specific part first. It is the text
//! that `openssl x509 -subject -nameopt RFC2253` shows.

use asn1::{ObjectIdentifier, Parser, Sequence, SequenceOf, SetOf, Tlv};

/// The types that have short names.
const NAMES: [(&str, &str); 9] = [
    ("2.5.4.3", "CN"),
    ("2.5.4.7", "L"),
    ("2.5.4.8", "ST"),
    ("2.5.4.10", "O"),
    ("2.5.4.11", "OU"),
    ("2.5.4.6", "C"),
    ("2.5.4.9", "street"),
    ("0.9.2342.19200300.100.1.25", "DC"),
    ("0.9.2342.19200300.100.1.1", "UID"),
];
/// The tags of values that are texts in UTF-8 or in parts of it: UTF8String, PrintableString, IA5String.
const TEXTS: [u8; 3] = [0x0c, 0x13, 0x16];

/// The type and the value of a part of a name.
type Part<'a> = (ObjectIdentifier, Tlv<'a>);

/// The subject of a certificate in DER form, or an empty text if it cannot be read.
pub fn subject_of(certificate: &[u8]) -> String {
    parts_in(certificate).unwrap_or_default()
}

fn parts_in(certificate: &[u8]) -> Result<String, asn1::ParseError> {
    let whole: Sequence = asn1::parse(certificate, |all| all.read_element())?;
    let body: Tlv = whole.parse(|parts| {
        let body: Tlv = parts.read_element()?;
        skip(parts)?;
        Ok::<_, asn1::ParseError>(body)
    })?;
    let subject: Tlv = body.parse::<Sequence>()?.parse(|fields| {
        let first: Tlv = fields.read_element()?;
        let before = if first.full_data().first() == Some(&0xa0) { 4 } else { 3 }; // a version is optional
        for _ in 0..before {
            fields.read_element::<Tlv>()?; // the serial number, the algorithm, the issuer and the validity, from a version on
        }
        let subject: Tlv = fields.read_element()?;
        skip(fields)?;
        Ok::<_, asn1::ParseError>(subject)
    })?;
    let mut shown = Vec::new();
    for level in subject.parse::<SequenceOf<SetOf<Sequence>>>()? {
        let mut parts = Vec::new();
        for part in level {
            let part: Part = part.parse(|pair| Ok::<_, asn1::ParseError>((pair.read_element()?, pair.read_element()?)))?;
            parts.push(shown_part(&part));
        }
        parts.reverse();
        shown.push(parts.join("+"));
    }
    shown.reverse();
    Ok(shown.join(","))
}

/// Reads over the rest.
fn skip(parser: &mut Parser) -> Result<(), asn1::ParseError> {
    while !parser.is_empty() {
        parser.read_element::<Tlv>()?;
    }
    Ok(())
}

fn shown_part((kind, value): &Part) -> String {
    let kind = kind.to_string();
    let name = NAMES.iter().find(|(number, _)| *number == kind).map(|(_, name)| *name);
    let is_text = value.full_data().first().map_or(false, |tag| TEXTS.contains(tag));
    match (name, std::str::from_utf8(value.data())) {
        (Some(name), Ok(text)) if is_text => format!("{name}={}", escaped(text)),
        _ => {
            let digits: String = value.full_data().iter().map(|byte| format!("{byte:02X}")).collect();
            format!("{}=#{digits}", name.unwrap_or(&kind))
        }
    }
}

/// A value with the signs escaped that mean something in a name, and those that could mislead a reader of a log.
fn escaped(text: &str) -> String {
    let mut shown = String::new();
    let last = text.chars().count().saturating_sub(1);
    for (at, sign) in text.chars().enumerate() {
        match sign {
            ',' | '+' | '"' | '\\' | '<' | '>' | ';' => shown.extend(['\\', sign]),
            '#' if at == 0 => shown.push_str("\\#"),
            ' ' if at == 0 || at == last => shown.push_str("\\ "),
            _ if sign.is_ascii_graphic() || sign == ' ' => shown.push(sign),
            _ => {
                let mut bytes = [0; 4];
                sign.encode_utf8(&mut bytes).bytes().for_each(|byte| shown.push_str(&format!("\\{byte:02X}")));
            }
        }
    }
    shown
}

#[cfg(test)]
mod tests {
    use super::*;

    #[test]
    fn what_means_something_in_a_name_is_escaped() {
        for (text, shown) in [
            ("anna", "anna"),
            ("Before After", "Before After"),
            (" # ", "\\ #\\ "),
            ("#1", "\\#1"),
            ("a,b+c", "a\\,b\\+c"),
            ("a\nb", "a\\0Ab"),
            ("Zo\u{eb}", "Zo\\C3\\AB"),
            ("", ""),
        ] {
            assert_eq!(escaped(text), shown);
        }
    }

    #[test]
    fn what_is_no_certificate_has_no_subject() {
        for bytes in [b"".as_slice(), b"\x30\x00", b"\x30\x80", b"nonsense"] {
            assert_eq!(subject_of(bytes), "");
        }
    }
}
