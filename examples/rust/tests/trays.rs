// `paths` on bytes that no call wrote: cut short at every byte, and random ones.
use outline::*;

const LINE: [u8; 27] =
    [7, 24, 0, 5, 0, 0, 0, 5, 0, 0, 0, 9, 0, 0, 0, 0xff, 0xff, 0xff, 0xff, 0, 0, 0, 0, 0xfe, 0xff, 0xff, 0xff];

/// A tag, a length and as many bytes after them as are given.
fn field(tag: u8, length: u16, value: &[u8]) -> Vec<u8> {
    [&[tag], &length.to_le_bytes()[..], value].concat()
}

#[test]
fn cut_short() {
    let whole = [&LINE[..], &LINE[..]].concat();
    for length in 0..=whole.len() {
        assert_eq!(paths(&whole[..length]).len(), length / LINE.len());
    }
    let full = field(6, 12 * 2_048, &[1; 12 * 2_048]);
    for length in 0..full.len() {
        assert_eq!(paths(&full[..length]), []);
    }
    assert_eq!(paths(&full)[0].points.len(), 2_048);
}

/// A field ends the paths where it runs past the end, has a part of a point, or no path's tag.
#[test]
fn no_path() {
    assert_eq!(paths(&field(6, 25, &[1; 24])), []);
    assert_eq!(paths(&field(6, 25, &[1; 25])), []);
    assert_eq!(paths(&field(6, 32, &[1; 32])), []);
    assert_eq!(paths(&field(6, u16::MAX, &[1; 24])), []);
    for tag in (0..=u8::MAX).filter(|tag| ![6, 7].contains(tag)) {
        assert_eq!(paths(&[&LINE[..], &field(tag, 12, &[1; 12]), &LINE[..]].concat()).len(), 1);
    }
}

/// splitmix64
fn draw(seed: &mut u64) -> u64 {
    *seed = seed.wrapping_add(0x9e37_79b9_7f4a_7c15);
    let drawn = (*seed ^ (*seed >> 30)).wrapping_mul(0xbf58_476d_1ce4_e5b9);
    let drawn = (drawn ^ (drawn >> 27)).wrapping_mul(0x94d0_49bb_1331_11eb);
    drawn ^ (drawn >> 31)
}

/// Small bytes, so that many are tags and lengths of paths.
#[test]
fn random() {
    let (mut seed, mut found) = (1, 0);
    for _ in 0..200_000 {
        let length = draw(&mut seed) % 100;
        let tray: Vec<u8> = (0..length).map(|_| [6, 7, 0, 12, 24, 255][draw(&mut seed) as usize % 6]).collect();
        let paths = paths(&tray);
        found += paths.len();
        assert!(paths.iter().map(|path| 3 + 12 * path.points.len()).sum::<usize>() <= tray.len());
    }
    assert!(found > 1_000, "only {found} paths");
}
