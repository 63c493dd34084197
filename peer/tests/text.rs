//! Texts and files: there and back, and the faults of texts.

use peer::random::Random;
use peer::random::cases::file;
use peer::text::{assemble, disassemble};

/// The reversal file as a text.
const REVERSAL: &str = "
CN nil
CN cons number tree        ; a number and the rest
FN reverse owned list owned done -> tree
BD reverse
  OP list {
    BR nil
      GV done
    BR cons head rest room
      MK cons room head done as grown
      TL reverse rest grown
  }
ND
";

/// The text gives document 01's forty-two bytes.
#[test]
fn reversal() {
    let bytes = b"CN\x00CN\x02\x00\x01FN\x02\x02\x02\x01BDOP\x00\x02BR\x00GV\x01BR\x01MK\x01\x04\x02\x01TL\x00\x03\x05ND";
    assert_eq!(assemble(REVERSAL).expect("the text is read"), bytes);
}

/// Every node goes there and back.
#[test]
fn all_nodes() {
    let text = "CN a\nFN f number n lent t -> number\nBD f\n NU 65535 as _ AR smaller n #2 as x IF x\n \
        LK t { BR a CL f x t as y TL f y t }\n else AT a as z OP z { BR #0 GV x }\nND";
    let bytes = assemble(text).expect("the text is read");
    assert_eq!(assemble(&disassemble(&bytes).expect("the file is read")).expect("the text is read"), bytes);
}

/// Every random file that can be read goes there and back.
#[test]
fn there_and_back() {
    let mut read = 0;
    for seed in 0..1_500 {
        let (file, _) = file(&mut Random::new(seed));
        if let Ok(text) = disassemble(&file) {
            assert_eq!(assemble(&text).as_ref(), Ok(&file), "{text}");
            read += 1;
        }
    }
    assert!(read > 1_000);
}

/// A text that can't be read is refused with its line and column.
#[test]
fn faults() {
    let place = |text: &str| assemble(text).map_err(|fault| (fault.line, fault.column)).expect_err("the text is refused");
    assert_eq!(place(""), (1, 1));
    assert_eq!(place("CN nil\nFN f -> tree\nBD f\n  AT nil as a\n  GV b\nND"), (5, 6));
    assert_eq!(place("CN nil\nCN nil\n"), (2, 4));
    assert_eq!(place("FN f -> tree BD g"), (1, 17));
    assert_eq!(place("FN f -> number\nBD f NU 65536 as a GV a ND"), (2, 9));
    assert_eq!(place("FN f -> number\nBD f NU 1 as a GV a\nND\nND"), (4, 1));
    assert_eq!(place("FN f -> number\nBD f NU 1 as a GV a\n"), (2, 20));
    assert_eq!(place("FN f owned a -> number BD f OP a {GV"), (1, 35));
    assert_eq!(place("FN f lent a lent a -> number"), (1, 18));
    assert_eq!(place(&format!("FN f number a -> number BD f {}", "IF a ".repeat(9_000))).0, 1);
}
