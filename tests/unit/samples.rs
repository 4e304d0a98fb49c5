//! `SAMPLES`: items with their bytes, dumps and texts, for the tests that make all calls on each.
//! They were made by hand from the rules of docs/, and `checks/compare` agrees with them.
//! `expected` returns what a call has to give.

use cbor_diag::Result;
use std::alloc::Global;

/// An item in hex, its dump, and its compact text.
#[derive(Clone, Copy)]
pub(crate) struct Sample<'a> {
    pub(crate) digits: &'a str,
    pub(crate) dump: &'a str,
    pub(crate) diag: &'a str,
}

pub(crate) const SAMPLES: [Sample<'static>; 9] = [
    Sample {
        digits: "d8207368747470733a2f2f6578616d706c652e636f6d",
        dump: r#"d8 20                                        # uri, tag(32)
   73                                        #   text(19)
      68747470733a2f2f6578616d706c652e636f6d #     "https://example.com"
                                             #   valid URL (checked against URL Standard, not RFC 3986)
"#,
        diag: r#"32_0("https://example.com")"#,
    },
    // an item in an item, with a head and a simple value that are longer than they need to be
    Sample {
        digits: "d81846d8185802f814",
        dump: r#"d8 18              # encoded cbor data item, tag(24)
   46              #   bytes(6)
      d8185802f814 #     "\xd8\x18X\x02\xf8\x14"
                   #   encoded cbor data item
                   #     d8 18      # encoded cbor data item, tag(24)
                   #        58 02   #   bytes(2)
                   #           f814 #     "\xf8\x14"
                   #                #   encoded cbor data item
                   #                #     f4 # false, simple(20)
"#,
        diag: "24_0(<<24_0(<<false>>)>>)",
    },
    Sample {
        digits: "d643ffffff",
        dump: "\
d6           # suggested base64 encoding, tag(22)
   43        #   bytes(3)
      ffffff #     b64'////'
",
        diag: "22(b64'////')",
    },
    // an address with a zone
    Sample {
        digits: "d8348344c0000201f663610a62",
        dump: r#"d8 34             # ipv4 address and/or prefix, tag(52)
   83             #   array(3)
      44          #     bytes(4)
         c0000201 #       h'c0000201'
      f6          #     null, simple(22)
      63          #     text(3)
         610a62   #       "a\nb"
                  #   IPv4 address-and-zone(192.0.2.1%a\nb)
"#,
        diag: "52_0([h'c0000201',null,\"a\nb\"])",
    },
    Sample {
        digits: "c11a514b67b0",
        dump: "\
c1             # epoch datetime value, tag(1)
   1a 514b67b0 #   unsigned(1,363,896,240)
               #   datetime(2013-03-21T20:04:00Z)
",
        diag: "1(1363896240_2)",
    },
    Sample {
        digits: "d864190f9a",
        dump: "\
d8 64      # epoch date value, tag(100)
   19 0f9a #   unsigned(3,994)
           #   date(1980-12-08)
",
        diag: "100_0(3994_1)",
    },
    // a shared value, and a reference to it inside
    Sample {
        digits: "d81c81d81d00",
        dump: "\
d8 1c       # shareable value, tag(28)
   81       #   array(1)
      d8 1d #     reference to shared value, tag(29)
         00 #       unsigned(0)
            #       reference-to(0)
            #   reference(0)
",
        diag: "28_0([29_0(0)])",
    },
    Sample {
        digits: "d8454401000010",
        dump: "\
d8 45      # typed array of u16, little endian, tag(69)
   44      #   bytes(4)
      0100 #     unsigned(1)
      0010 #     unsigned(4,096)
",
        diag: "69_0(h'01000010')",
    },
    Sample {
        digits: "d8226461476b3d",
        dump: r#"d8 22          # base64 encoded text, tag(34)
   64          #   text(4)
      61476b3d #     "aGk="
               #   base64 decoded
               #     6869 # "hi"
"#,
        diag: r#"34_0("aGk=")"#,
    },
];

/// What a call of a sample has to return.
pub(crate) fn expected<'a>(call: &str, sample: &Sample<'a>) -> &'a str {
    match call {
        "ParseDiag" if sample.digits == "d81846d8185802f814" => "d81844d81841f4",
        "ParseDiag" | "DiagFault" => sample.digits,
        call if call.ends_with("ToHex") || call.ends_with("ToHexPartial") => sample.dump,
        call if call.contains("Pretty") && sample.diag.contains("null") => {
            "52_0([h'c0000201', null, \"a\nb\"])"
        }
        call if call.contains("Diag") => sample.diag,
        _ => sample.digits,
    }
}

/// The bytes of 64 tags 24, each in the bytes of the one before it, and in the innermost a 1, in
/// hex, and their text. There are at most 63 levels of embedding: the innermost shows its bytes.
pub(crate) fn deepest(alloc: Global) -> Result<(String, String)> {
    let mut digits = String::from_str(alloc, "01")?;
    for _ in 0..64 {
        let len = digits.len() / 2;
        digits = if len < 24 {
            format!(in alloc; "d818{:02x}{digits}", len + 0x40)?
        } else {
            format!(in alloc; "d81858{len:02x}{digits}")?
        };
    }
    let mut text = "24_0(<<".repeat(alloc, 63)?;
    text.push_str("24_0(h'01')")?;
    text.push_str(">>)".repeat(alloc, 63)?.as_str())?;
    Ok((digits, text))
}
