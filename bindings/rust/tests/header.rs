//! The header of a file: what is laid is read, the order of the refusals, and a whole file.

use gvdb::{Builder, ByteOrder, Header, Pointer, Refusal, Table, MAX_FILE};

const ORDERS: [(ByteOrder, &[u8; 8]); 2] = [(ByteOrder::Little, b"GVariant"), (ByteOrder::Big, b"raVGtnai")];

#[test]
fn what_is_laid_is_read() {
    for (order, signature) in ORDERS {
        for (start, end) in [(24, 60), (0, 0), (60, 24), (u32::MAX, u32::MAX), (0x0102_0304, 0x0506_0708)] {
            let header = Header { order, root: Pointer { start, end } };
            let mut file = vec![0xAA; 30];
            assert_eq!(header.lay(&mut file), Ok(()));
            let root = [start.to_le_bytes(), end.to_le_bytes()].concat();
            assert_eq!(file, [&signature[..], &[0; 8], &root, &[0xAA; 6]].concat());
            assert_eq!(Header::read(&file), Ok(header));
            assert_eq!(Header::read(&file[..24]), Ok(header));
        }
    }
}

#[test]
fn refusals_of_reading_in_their_order() {
    let refusal = |file: &[u8]| Header::read(file).unwrap_err();
    assert_eq!(refusal(&vec![0; MAX_FILE + 1]), Refusal::FileTooLong);
    assert_eq!(refusal(b"GVariant\0\0\0\x01\0\0\0\0\x18\0\0\0\x20\0\0"), Refusal::HeaderTooShort);
    assert_eq!(refusal(&[]), Refusal::HeaderTooShort);
    let mut file = *b"GVartnai\x01\0\0\0\xFF\xFF\xFF\xFF\x18\0\0\0\x20\0\0\0";
    assert_eq!(refusal(&file), Refusal::SignatureUnknown);
    for (_, signature) in ORDERS {
        file[..8].copy_from_slice(signature);
        for at in 8..12 {
            file[8..12].fill(0);
            file[at] = 1;
            assert_eq!(refusal(&file), Refusal::VersionUnknown);
        }
        file[8..12].fill(0);
        assert_eq!(Header::read(&file).map(|header| header.root), Ok(Pointer { start: 24, end: 32 }));
    }
}

/// A file of the longest length is read and laid, one of a byte more is neither.
#[test]
fn lengths_at_both_ends() {
    let header = Header { order: ByteOrder::Big, root: Pointer { start: 1, end: 2 } };
    let mut file = vec![0xAA; MAX_FILE + 1];
    for (size, refusal) in [(MAX_FILE + 1, Refusal::FileTooLong), (23, Refusal::HeaderTooShort), (0, Refusal::HeaderTooShort)] {
        assert_eq!(header.lay(&mut file[..size]), Err(refusal));
        assert!(file.iter().all(|byte| *byte == 0xAA));
    }
    assert_eq!(header.lay(&mut file[..MAX_FILE]), Ok(()));
    assert_eq!(Header::read(&file[..MAX_FILE]), Ok(header));
    assert_eq!(Header::read(&file), Err(Refusal::FileTooLong));
    assert!(file[24..].iter().all(|byte| *byte == 0xAA));
}

#[test]
fn a_whole_file() {
    let mut builder = Builder::new(64);
    let root = builder.new_table(None).unwrap();
    let _new = builder.insert(root, "a", [1, 2]).unwrap();
    let image = builder.write(root).unwrap();
    for (order, _) in ORDERS {
        let file = builder.write_file(root, order).unwrap();
        assert_eq!(Header::read(&file), Ok(Header { order, root: image.root }));
        assert_eq!(file[24..], image.bytes[24..]);
        assert_eq!(Table::open(&file, image.root.start, image.root.end).unwrap().get("a"), Ok(&[1, 2][..]));
    }
    let _new = builder.insert(root, "", []).unwrap();
    assert_eq!(builder.write_file(root, ByteOrder::Little), Err(Refusal::EmptyKey));
}
