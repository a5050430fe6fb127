//! Cells and unions through JSON, which is for people, and through bincode, which isn't.

use bincode::{DefaultOptions, Options};
use s2union::{CellId, CellUnion};
use serde::de::value::{BytesDeserializer, Error, U64Deserializer};
use serde::de::IntoDeserializer;
use serde::{Deserialize, Serialize};

#[derive(Debug, PartialEq, Serialize, Deserialize)]
struct Both {
    #[serde(with = "s2union_serde")]
    region: CellUnion,
    #[serde(with = "s2union_serde")]
    cell: CellId,
}

fn both(region: &str, cell: &str) -> Both {
    Both { region: region.parse().unwrap(), cell: cell.parse().unwrap() }
}

#[test]
fn json() {
    for (region, cell) in [("04 0c 1c", "14"), ("", "0000000000000001"), ("1 3 5 7 9 b", "b")] {
        let one = both(region, cell);
        let text = serde_json::to_string(&one).unwrap();
        assert_eq!(text, format!(r#"{{"region":"{region}","cell":"{cell}"}}"#));
        assert_eq!(serde_json::from_str::<Both>(&text).unwrap(), one);
    }
    let given = r#"{"region": "1c,04 0c\n0/2", "cell": "0/2"}"#;
    assert_eq!(serde_json::from_str::<Both>(given).unwrap(), both("1", "14"));
}

#[test]
fn what_json_is_refused() {
    for (region, cell) in [
        ("\"x\"", "\"1\""),
        ("\"1\"", "\"x\""),
        ("\"1\"", "\"1 3\""),
        ("\"04 2\"", "\"1\""),
        ("1", "\"1\""),
        ("[4]", "\"1\""),
        ("null", "\"1\""),
        ("\"1\"", "true"),
    ] {
        let text = format!(r#"{{"region":{region},"cell":{cell}}}"#);
        assert!(serde_json::from_str::<Both>(&text).is_err(), "{text}");
    }
    let said = serde_json::from_str::<Both>(r#"{"region":"04 x","cell":"1"}"#).unwrap_err().to_string();
    assert!(said.starts_with("not a cell"), "{said}");
    let said = serde_json::from_str::<Both>(r#"{"region":1,"cell":"1"}"#).unwrap_err().to_string();
    assert!(said.contains("expected the tokens or the file of a union"), "{said}");
}

#[test]
fn a_format_that_is_not_for_people() {
    for (region, cell) in [("04 0c 1c", "14"), ("", "0000000000000001"), ("1 3 5 7 9 b", "b")] {
        let one = both(region, cell);
        let bytes = bincode::serialize(&one).unwrap();
        let (file, id) = (one.region.encode().unwrap(), one.cell.id().to_le_bytes());
        let length = (file.len() as u64).to_le_bytes();
        assert_eq!(bytes, [&length[..], &file, &id].concat());
        assert_eq!(bincode::deserialize::<Both>(&bytes).unwrap(), one);
        let packed = DefaultOptions::new().serialize(&one).unwrap(); // in which a sign takes a bit
        assert_eq!(DefaultOptions::new().deserialize::<Both>(&packed).unwrap(), one);
        for place in [8, 9] {
            let mut wrong = bytes.clone();
            wrong[place] ^= 0xff; // the version of the file, the number of its cells
            assert!(bincode::deserialize::<Both>(&wrong).is_err(), "{place}");
        }
        let no_cell = [&bytes[..bytes.len() - 8], &[0; 8]].concat();
        assert!(bincode::deserialize::<Both>(&no_cell).is_err());
    }
}

#[test]
fn what_is_of_the_other_kind() {
    let number = || -> U64Deserializer<Error> { (5u64 << 60).into_deserializer() };
    assert_eq!(s2union_serde::deserialize::<CellId, _>(number()).unwrap(), "5".parse().unwrap());
    assert!(s2union_serde::deserialize::<CellUnion, _>(number()).is_err());
    let file = CellUnion::default().encode().unwrap();
    let bytes = || BytesDeserializer::<Error>::new(&file);
    assert!(s2union_serde::deserialize::<CellUnion, _>(bytes()).unwrap().is_empty());
    assert!(s2union_serde::deserialize::<CellId, _>(bytes()).is_err());
}
