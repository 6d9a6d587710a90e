//! The C functions of the archive and the structs they answer with, as `include/tillsparrow.h`
//! declares them.

use crate::Record;

#[repr(C)]
pub struct Inspected {
    pub number: u64,
    pub left: u64,
    pub block: u64,
    pub place: u64,
    pub found: Record,
}

#[repr(C)]
pub struct Decoded {
    pub number: u64,
    pub left: u64,
}

#[repr(C)]
pub struct Settled {
    pub number: u64,
    pub left: u64,
    pub block: u64,
    pub place: u64,
    pub length: u64,
}

#[repr(C)]
pub struct Part {
    pub at: u64,
    pub length: u64,
}

#[repr(C)]
pub struct Presence {
    pub number: u64,
    pub left: u64,
    pub block: u64,
    pub place: u64,
    pub there: u64,
}

// What a caller keeps: each pointer is not null and points to that many bytes, and a buffer that
// is written overlaps no other argument.
extern "C" {
    pub fn tillsparrow_inspect(
        bytes: *const u8,
        length: usize,
        colour: bool,
        input_limit: usize,
        side_limit: usize,
        output_limit: usize,
        budget: u64,
    ) -> Inspected;

    pub fn tillsparrow_decode(
        bytes: *const u8,
        length: usize,
        found: Record,
        output: *mut u8,
        output_length: usize,
        scratch: *mut u8,
        scratch_length: usize,
        budget: u64,
    ) -> Decoded;

    pub fn tillsparrow_settle(
        bytes: *const u8,
        length: usize,
        input_limit: usize,
        side_limit: usize,
        output_limit: usize,
        budget: u64,
        output: *mut u8,
        output_length: usize,
    ) -> Settled;

    pub fn tillsparrow_comment(bytes: *const u8, length: usize, i: usize) -> Part;

    pub fn tillsparrow_has_comment(
        bytes: *const u8,
        length: usize,
        i: usize,
        input_limit: usize,
        side_limit: usize,
        output_limit: usize,
        budget: u64,
    ) -> Presence;
}

/// Fails to compile where a struct does not lie as in C, or where a size has other than 64 bits.
const _: () = {
    use std::mem::{align_of, size_of};
    assert!(size_of::<usize>() == 8);
    assert!(size_of::<bool>() == 1);
    assert!(size_of::<Record>() == 46 * 8);
    assert!(align_of::<Record>() == 8);
    assert!(size_of::<Inspected>() == 50 * 8);
    assert!(size_of::<Decoded>() == 2 * 8);
    assert!(size_of::<Settled>() == 5 * 8);
    assert!(size_of::<Part>() == 2 * 8);
    assert!(size_of::<Presence>() == 5 * 8);
};

#[cfg(test)]
mod tests {
    use super::*;
    use std::mem::{size_of, MaybeUninit};
    use std::ptr::addr_of;

    /// The fields of a struct in the header: the name, and where it stands.
    fn in_header(name: &str) -> Vec<(String, usize)> {
        let header = std::fs::read_to_string("../../include/tillsparrow.h").unwrap();
        let body = header.split(&format!("typedef struct {name} {{")).nth(1).unwrap();
        let mut fields = Vec::new();
        let mut place = 0;
        let lines = body.split('}').next().unwrap().lines();
        let declared = lines.map(|line| line.trim().split(';').next().unwrap());
        for field in declared.filter(|text| !text.is_empty()) {
            let (kind, field) = field.split_once(' ').unwrap();
            let (field, count) = field.split_once('[').unwrap_or((field, "1]"));
            fields.push((field.to_string(), place));
            let count: usize = count.trim_end_matches(']').parse().unwrap();
            place += 8 * if kind == "tillsparrow_record" { 46 } else { count };
        }
        fields.push(("end".to_string(), place));
        fields
    }

    /// Where a field stands in its struct.
    macro_rules! place {
        ($type:ty, $field:ident) => {{
            let room = MaybeUninit::<$type>::uninit();
            // SAFETY: the field's address is taken, which lies inside the room; nothing is read.
            let field = unsafe { addr_of!((*room.as_ptr()).$field) };
            field as usize - room.as_ptr() as usize
        }};
    }

    macro_rules! as_in_header {
        ($name:literal, $type:ty, $($field:ident)*) => {
            let mut ours = vec![$((stringify!($field).to_string(), place!($type, $field))),*];
            ours.push(("end".to_string(), size_of::<$type>()));
            assert_eq!(ours, in_header($name), "{}", $name);
        };
    }

    #[test]
    fn structs_lie_as_in_the_header() {
        as_in_header!("tillsparrow_record", Record,
            width height channels across down ids qids dcids acids quants dcs acs
            interval start blocks scratch output work colour);
        as_in_header!("tillsparrow_inspected", Inspected, number left block place found);
        as_in_header!("tillsparrow_decoded", Decoded, number left);
        as_in_header!("tillsparrow_settled", Settled, number left block place length);
        as_in_header!("tillsparrow_part", Part, at length);
        as_in_header!("tillsparrow_presence", Presence, number left block place there);
    }
}
