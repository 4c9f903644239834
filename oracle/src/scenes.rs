//! The pairs of a play's scenes (README.md, "A list of plays").
use crate::dm::clusters::decl::scenes_management::AttributeValuePairStruct;
use crate::play::Record;

/// The pairs of one scene.
pub type Pairs = Vec<AttributeValuePairStruct<'static>>;

const CURRENT_LEVEL: u32 = 0;

/// The pairs of each scene, in order: its ids and its values side by side, up to the shorter list. A value above 255 is none.
pub fn read_pairs(mut bytes: &[u8]) -> Vec<Pairs> {
    let mut scenes = vec![];
    while !bytes.is_empty() {
        let ids = take_list::<4>(&mut bytes).map(u32::from_le_bytes);
        let values = take_list::<2>(&mut bytes).map(u16::from_le_bytes);
        let pairs = ids.zip(values);
        let pairs =
            pairs.map(|(id, value)| AttributeValuePairStruct::new(id, value.try_into().ok()));
        scenes.push(pairs.collect());
    }
    scenes
}

/// A count of one byte, and so many numbers of N bytes.
fn take_list<'a, const N: usize>(bytes: &mut &'a [u8]) -> impl Iterator<Item = [u8; N]> + 'a {
    let (list, left) = bytes
        .split_first()
        .and_then(|(&count, rest)| rest.split_at_checked(N * usize::from(count)))
        .expect("the pairs of a scene are cut");
    *bytes = left;
    list.chunks_exact(N)
        .map(|number| number.try_into().unwrap())
}

/// The pair that the record of a scene names, or none.
pub fn named_pairs(event: &Record) -> Pairs {
    (event[12] == 1)
        .then(|| AttributeValuePairStruct::new(CURRENT_LEVEL, Some(event[13])))
        .into_iter()
        .collect()
}
