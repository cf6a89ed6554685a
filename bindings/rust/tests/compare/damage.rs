//! Sheets that no builder wrote, made from one that it did.
//!
//! A column of a record is named by its first byte and its length, as in
//! document 01's table of the sheet file.

use crate::fields::Field;
use crate::random::Random;
use sabrentuglio::RECORD_LENGTH;

/// A column of a record: first byte and length.
#[derive(Clone, Copy)]
pub struct Column {
    pub first: usize,
    pub length: usize,
}

/// Degree, row number, f without its term x^n, and the three rows.
pub const COLUMNS: [Column; 6] = [
    Column {
        first: 0,
        length: 1,
    },
    Column {
        first: 1,
        length: 1,
    },
    Column {
        first: 2,
        length: 6,
    },
    Column {
        first: 8,
        length: 8,
    },
    Column {
        first: 16,
        length: 8,
    },
    Column {
        first: 24,
        length: 8,
    },
];

/// The column with f.
pub const TAIL: Column = COLUMNS[2];

/// The columns with the three rows, in byte order.
pub const ROWS: [Column; 3] = [COLUMNS[3], COLUMNS[4], COLUMNS[5]];

/// The column with the conjugate row.
pub const CONJUGATE: Column = COLUMNS[3];

/// The column with the table row.
pub const TABLE: Column = COLUMNS[5];

/// Puts a number into a column of a record.
pub fn put(sheet: &mut [u8], record: usize, column: Column, number: u64) {
    let start = RECORD_LENGTH * record + column.first;
    let bytes = number.to_le_bytes();
    sheet[start..start + column.length].copy_from_slice(&bytes[..column.length]);
}

/// The number in a column of a record.
pub fn number_in(sheet: &[u8], record: usize, column: Column) -> u64 {
    let start = RECORD_LENGTH * record + column.first;
    let mut bytes = [0; 8];
    bytes[..column.length].copy_from_slice(&sheet[start..start + column.length]);
    u64::from_le_bytes(bytes)
}

/// Turns one bit of a sheet over.
pub fn flip(sheet: &mut [u8], bit: usize) {
    sheet[bit / 8] ^= 1 << (bit % 8);
}

/// Turns one bit of a column over.
pub fn flip_in(sheet: &mut [u8], record: usize, column: Column, random: &mut Random) {
    let bit = random.index(8 * column.length);
    flip(sheet, 8 * (RECORD_LENGTH * record + column.first) + bit);
}

/// Puts a number of 2^n or more into a column of f or of a row.
pub fn enlarge(sheet: &mut [u8], record: usize, column: Column, n: u32, random: &mut Random) {
    let bits = 8 * column.length as u32;
    if n < bits {
        let high = 1 << (n + random.below(u64::from(bits - n)) as u32);
        put(sheet, record, column, high + random.below(high));
    }
}

/// The sheet with its records in this order.
pub fn arrange(sheet: &[u8], order: &[usize]) -> Vec<u8> {
    let record = |i: &usize| &sheet[RECORD_LENGTH * i..RECORD_LENGTH * (i + 1)];
    order.iter().flat_map(record).copied().collect()
}

/// Makes degrees and row numbers fit the records as they stand.
pub fn renumber(sheet: &mut [u8]) {
    let count = sheet.len() / RECORD_LENGTH;
    for i in 0..count {
        sheet[RECORD_LENGTH * i] = count as u8;
        sheet[RECORD_LENGTH * i + 1] = i as u8;
    }
}

/// Puts the same f into all records.
pub fn refound(sheet: &mut [u8], tail: u64) {
    for i in 0..sheet.len() / RECORD_LENGTH {
        put(sheet, i, TAIL, tail);
    }
}

/// A sheet with right heads and any rows below 2^n.
pub fn invented(n: u32, tail: u64, random: &mut Random) -> Vec<u8> {
    let mut sheet = vec![0; RECORD_LENGTH * n as usize];
    renumber(&mut sheet);
    refound(&mut sheet, tail);
    for i in 0..n as usize {
        for column in ROWS {
            put(&mut sheet, i, column, random.element(n));
        }
    }
    sheet
}

/// Records lost, doubled, swapped and moved around.
pub fn rearranged(sheet: &[u8], random: &mut Random) -> Vec<Vec<u8>> {
    let count = sheet.len() / RECORD_LENGTH;
    let (i, j) = (random.index(count), random.index(count));
    let whole: Vec<usize> = (0..count).collect();
    let mut lost = whole.clone();
    lost.remove(i);
    let mut doubled = whole.clone();
    doubled.insert(i, i);
    let mut overwritten = whole.clone();
    overwritten[i] = j;
    let mut swapped = whole.clone();
    swapped.swap(i, j);
    let mut moved = whole.clone();
    moved.rotate_left(1);
    let turned: Vec<usize> = whole.iter().rev().copied().collect();
    let orders = [lost, doubled, overwritten, swapped, moved, turned];
    orders.iter().map(|order| arrange(sheet, order)).collect()
}

/// A sheet with one to three faults of any kind.
pub fn damaged(sheet: &[u8], random: &mut Random) -> Vec<u8> {
    let mut sheet = sheet.to_vec();
    let count = sheet.len() / RECORD_LENGTH;
    for _ in 0..=random.below(3) {
        let record = random.index(count);
        match random.below(4) {
            0 => {
                let column = random.pick(&COLUMNS);
                flip_in(&mut sheet, record, column, random);
            }
            1 => {
                let column = random.pick(&COLUMNS[2..]);
                enlarge(&mut sheet, record, column, count as u32, random);
            }
            _ => {
                let column = random.pick(&ROWS);
                put(&mut sheet, record, column, random.element(count as u32));
            }
        }
    }
    sheet
}

/// Sheets that reading refuses but for a few, many for several causes.
pub fn bad_sheets(random: &mut Random, field: &Field) -> Vec<Vec<u8>> {
    let n = field.n;
    let good = &field.any(random).sheet;
    let mut sheets = rearranged(good, random);
    sheets.extend((0..8).map(|_| damaged(good, random)));
    let divided = random.pick(&field.divided) - (1 << n);
    for element in [0, 1, random.element(n)] {
        // 5 with 10 behind it, or 10 alone; then 2 before these; then 8 or 9.
        let mut sheet = good.clone();
        put(&mut sheet, 0, CONJUGATE, element);
        put(&mut sheet, n as usize - 1, TABLE, random.element(n));
        sheets.push(sheet.clone());
        refound(&mut sheet, divided);
        sheets.push(sheet.clone());
        let (record, column) = (random.index(n as usize), random.pick(&COLUMNS[2..]));
        enlarge(&mut sheet, record, column, n, random);
        sheets.push(sheet);
    }
    for length in [0, RECORD_LENGTH, good.len() - RECORD_LENGTH, good.len() - 1] {
        sheets.push(good[..length].to_vec());
    }
    sheets.push([&good[..], &[0]].concat());
    sheets
}
