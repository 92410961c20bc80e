//! What the records cannot hold is refused, with a message that names it.

use jscd_export::export;
use jscd_export::serializer::{CodeCache, Object, Raw, Ref, Slot, SlotValue, Ty};
use jscd_export::tables::{BytecodeDef, OperandTypeInfo, VersionTable};
use oracle::port::{Port, STORE, TABLE};
use oracle::sample;

/// The message for the sample's table with something changed.
fn of_table(change: impl FnOnce(&mut VersionTable)) -> String {
    let files = sample::sample();
    let mut port = Port::new(&files, TABLE | STORE).unwrap();
    change(&mut port.table);
    export::table(&port.table).unwrap_err()
}

/// The message for the sample's store with something changed.
fn of_store(change: impl FnOnce(&mut Vec<Object>)) -> String {
    let files = sample::sample();
    let mut port = Port::new(&files, TABLE | STORE).unwrap();
    change(&mut port.cache.objects);
    export::function(&port.cache, &port.table, 0).unwrap_err()
}

fn opcode(name: &str, operands: &[&str]) -> BytecodeDef {
    let operands = operands.iter().map(|o| o.to_string()).collect();
    BytecodeDef { name: name.into(), operands, prefix: None, acc: String::new() }
}

#[test]
fn names() {
    let message = of_table(|t| t.bytecodes[3].name = "Lda.Smi".into());
    assert_eq!(message, "opcode 0x03: the name \"Lda.Smi\" has the character '.'");
    let message = of_table(|t| t.bytecodes[3].name = "Ldä".into());
    assert_eq!(message, "opcode 0x03: the name \"Ldä\" has the character 'ä'");
    let message = of_table(|t| t.runtime_names = vec!["".into()]);
    assert_eq!(message, "runtime function 0: the name \"\" has 0 bytes, not 1 to 64");
    let message = of_table(|t| t.bytecodes[0].name = "n".repeat(41));
    assert!(message.ends_with("has 41 bytes, not 1 to 40"), "{message}");
    let message = of_table(|t| t.bytecodes.push(opcode("Odd", &["Odd-Type"])));
    assert_eq!(message, "operand type: the name \"Odd-Type\" has the character '-'");
    let message = of_table(|t| t.intrinsic_names = vec!["n".repeat(65)]);
    assert!(message.ends_with("has 65 bytes, not 1 to 64"), "{message}");
}

#[test]
fn counts() {
    let message = of_table(|t| t.bytecodes.push(opcode("Nine", &["Reg"; 9])));
    assert_eq!(message, "opcode 0x0c (Nine) has 9 operands, more than 8");
    let message = of_table(|t| t.bytecodes.clear());
    assert_eq!(message, "0 opcodes, not 1 to 256");
    let message = of_table(|t| t.bytecodes = vec![opcode("One", &[]); 257]);
    assert_eq!(message, "257 opcodes, not 1 to 256");
    let message = of_table(|t| {
        t.bytecodes.extend((0..48).map(|k| opcode("Other", &[&format!("Type{k}")])));
    });
    assert_eq!(message, "65 operand types, not 17 to 64");
    let message = of_table(|t| t.runtime_names = vec!["One".into(); 1_025]);
    assert_eq!(message, "1025 runtime function names, not 0 to 1024");
    let message = of_table(|t| t.intrinsic_names = vec!["One".into(); 257]);
    assert_eq!(message, "257 intrinsic names, not 0 to 256");
}

#[test]
fn sizes() {
    for (size, scalable) in [(3, false), (4, true), (0, true), (8, false)] {
        let message = of_table(|t| {
            t.operand_types.insert("Imm".into(), OperandTypeInfo { size, scalable });
        });
        assert!(message.starts_with(&format!("operand type Imm has size {size}")), "{message}");
    }
    assert_eq!(of_table(|t| t.tagged_size = 6), "tagged size 6, not 4 or 8");
    assert_eq!(of_table(|t| t.capture_tagged_size = 2), "capture unit 2, not 0, 4 or 8");
    let message = of_table(|t| t.bytecode_array.as_mut().unwrap().header_size = 65_536);
    assert_eq!(message, "offset 65536 of header_size in the BytecodeArray is above 65535");
}

/// A type that no opcode uses is not exported, whatever it is.
#[test]
fn unused_types() {
    let files = sample::sample();
    let mut port = Port::new(&files, TABLE | STORE).unwrap();
    let odd = OperandTypeInfo { size: 0, scalable: true };
    port.table.operand_types.insert("No-ne".into(), odd);
    assert_eq!(export::table(&port.table).unwrap()[1].len(), 17 * 32);
}

#[test]
fn slots() {
    let slot = |index, value| Slot { index, value };
    let message = of_store(|o| o[0].slots.push(slot(0, SlotValue::ClearedWeak)));
    assert_eq!(message, "object 0: slot 0 comes after slot 1");
    let message = of_store(|o| o[0].slots.push(slot(1_048_577, SlotValue::ClearedWeak)));
    assert_eq!(message, "object 0: slot 1048577 is above 1048576");
    let repeat = SlotValue::Repeat(1_048_577, Box::new(SlotValue::ClearedWeak));
    let message = of_store(|o| o[0].slots.push(slot(9, repeat)));
    assert_eq!(message, "object 0: slot 9 is repeated 1048577 times");
    for (off, len) in [(50, 2), (usize::MAX, 2)] {
        let raw = SlotValue::Raw(Raw { off, len, advances: true });
        let message = of_store(|o| o[0].slots.push(slot(9, raw)));
        assert_eq!(message, format!("object 0: a run of 2 bytes at {off} is not in the payload"));
    }
    let message = of_store(|o| o[0].byte_size = 1 << 32);
    assert_eq!(message, "object 0 has 4294967296 bytes");
    let message = of_store(|o| o[0].ty = Ty::Unknown);
    assert_eq!(message, "object 0 is no BytecodeArray");
    let message = of_store(|o| o[0].slots.push(slot(2, SlotValue::Ref(Ref::Object(9)))));
    assert_eq!(message, "the constant pool is object 9, which is not there");
}

/// Its own pool, by a weak reference: found as the pool, and no element of it. No kind of slot is read so.
#[test]
fn a_weak_reference_that_would_read_differently() {
    let weak = SlotValue::WeakRef(Box::new(SlotValue::Ref(Ref::Object(0))));
    let message = of_store(|o| o[0].slots.push(Slot { index: 2, value: weak }));
    assert!(message.contains("its own constant pool, by a weak reference"), "{message}");
}

#[test]
fn files_that_are_too_long() {
    let files = sample::function(&[0x02; 65_530], 8, &[]);
    let port = Port::new(&files, TABLE | STORE).unwrap();
    let message = export::function(&port.cache, &port.table, 0).unwrap_err();
    assert_eq!(message, "payload.bin would have 65552 bytes, more than 65536");
}

#[test]
fn another_tagged_size() {
    let files = sample::sample();
    let port = Port::new(&files, TABLE | STORE).unwrap();
    let cache = CodeCache::open_new(port.cache.payload(), 4, port.cache.objects.clone());
    let message = export::function(&cache, &port.table, 0).unwrap_err();
    assert_eq!(message, "the cache has tagged size 4, the table 8");
}

/// A table that is refused leaves no file behind.
#[test]
fn nothing_is_written() {
    let files = sample::sample();
    let mut port = Port::new(&files, TABLE | STORE).unwrap();
    port.table.bytecodes[0].name = "W-de".into();
    let folder = std::path::Path::new(env!("CARGO_TARGET_TMPDIR")).join("nothing");
    assert!(export::write_all(&port.cache, &port.table, |_| "f".into(), &folder).is_err());
    assert!(!folder.exists());
}
