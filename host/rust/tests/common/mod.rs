//! Tariff files, written here anew from what docs/FILE.md says of them.

/// A start, an end and a value.
pub type Range = (i64, i64, i32);

/// A file of an operation and its combiner, with these lists.
pub fn file(operation: u8, combiner: u8, lists: &[Vec<Range>]) -> Vec<u8> {
    let count = |number: usize| u16::try_from(number).unwrap().to_be_bytes();
    let mut file = vec![0x4A, 0x48, operation, combiner];
    file.extend(count(lists.len()));
    for list in lists {
        file.extend([0x4A, 0x4C]);
        file.extend(count(list.len()));
        for (start, end, value) in list {
            file.extend([0x4A, 0x52]);
            file.extend(start.to_be_bytes());
            file.extend(end.to_be_bytes());
            file.extend(value.to_be_bytes());
        }
    }
    file
}
