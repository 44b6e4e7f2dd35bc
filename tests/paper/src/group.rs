//! The groups and their tags, from document 01, "Stages of a presentation". Group 6 is reserved and has none.

/// By group, from 1 on.
const TAGS: [Option<u8>; 16] = [
    Some(0x61),
    Some(0x75),
    Some(0x63),
    Some(0x76),
    Some(0x65),
    None,
    Some(0x67),
    Some(0x68),
    Some(0x69),
    Some(0x6a),
    Some(0x6b),
    Some(0x6c),
    Some(0x6d),
    Some(0x6e),
    Some(0x6f),
    Some(0x70),
];

/// The groups that have a tag.
pub const ALL: [u8; 15] = [1, 2, 3, 4, 5, 7, 8, 9, 10, 11, 12, 13, 14, 15, 16];

/// The tag of a group. None where the number is no group's.
pub fn tag_of(group: u32) -> Option<u8> {
    let at = usize::try_from(group).ok()?.checked_sub(1)?;
    *TAGS.get(at)?
}

/// The group of a tag. None where no group has it.
pub fn of_tag(tag: u8) -> Option<u8> {
    ALL.into_iter().find(|group| tag_of(u32::from(*group)) == Some(tag))
}

#[cfg(test)]
mod tests {
    use super::*;

    #[test]
    fn tags_and_groups() {
        assert_eq!((tag_of(1), tag_of(2), tag_of(16)), (Some(0x61), Some(0x75), Some(0x70)));
        for group in [0, 6, 17, 255, 256, 257, u32::MAX] {
            assert_eq!(tag_of(group), None);
        }
        let tagged = (0..=255).filter(|tag| of_tag(*tag).is_some()).count();
        assert_eq!(tagged, 15);
        assert!(ALL.into_iter().all(|group| of_tag(tag_of(u32::from(group)).unwrap()) == Some(group)));
        assert_eq!((of_tag(0x66), of_tag(0x60), of_tag(0x77)), (None, None, None));
    }
}
