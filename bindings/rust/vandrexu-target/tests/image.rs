//! An image after each moment at which a target may be killed: the journal ends anywhere, or the file is half written.
mod common;
use common::{Folder, blocks};
use std::fs;
use std::path::Path;
use vandrexu_initiator::BLOCK;
use vandrexu_target::Image;

const OLD: u8 = 0x11;

/// An image of 16 blocks with two units in its journal, of 3 blocks and of 2, over old contents.
fn with_journal(image: &Path, journal: &Path) -> Vec<u8> {
    fs::write(image, blocks(OLD, 16)).unwrap();
    let mut it = Image::open(image, 16).unwrap();
    it.note(2, &blocks(0x22, 3));
    it.note(4, &blocks(0x33, 2));
    it.commit().unwrap();
    fs::read(journal).unwrap()
}

/// What the blocks 2 to 5 hold once the image is opened again.
fn opened(image: &Path) -> Vec<u8> {
    let it = Image::open(image, 16).unwrap();
    let mut room = blocks(0, 4);
    it.read(2, &mut room).unwrap();
    room.chunks(BLOCK).map(|block| if block.iter().all(|it| *it == block[0]) { block[0] } else { 0xFF }).collect()
}

#[test]
fn a_journal_that_ends_anywhere_gives_whole_units() {
    let folder = Folder::new();
    let (image, journal) = (folder.file("image"), folder.file("image.journal"));
    let whole = with_journal(&image, &journal);
    let first = 20 + 3 * BLOCK;
    assert_eq!(whole.len(), first + 20 + 2 * BLOCK);
    let ends = (0..whole.len()).step_by(37).chain([19, 20, first - 1, first, first + 1, whole.len() - 1, whole.len()]);
    for end in ends {
        // (the file isn't touched before the journal is whole)
        fs::write(&image, blocks(OLD, 16)).unwrap();
        fs::write(&journal, &whole[..end]).unwrap();
        let due = match end {
            _ if end == whole.len() => [0x22, 0x22, 0x33, 0x33],
            _ if end >= first => [0x22, 0x22, 0x22, OLD],
            _ => [OLD; 4],
        };
        assert_eq!(opened(&image), due, "{end} bytes");
        assert_eq!(fs::read(&journal).unwrap(), [], "it begins anew");
    }
}

#[test]
fn a_file_that_is_half_written_is_written_again() {
    let folder = Folder::new();
    let (image, journal) = (folder.file("image"), folder.file("image.journal"));
    let whole = with_journal(&image, &journal);
    for written in (0..5 * BLOCK).step_by(100) {
        let mut torn = blocks(OLD, 16);
        let (first, second) = (written.min(3 * BLOCK), written.saturating_sub(3 * BLOCK));
        torn[2 * BLOCK..][..first].fill(0x22);
        torn[4 * BLOCK..][..second].fill(0x33);
        fs::write(&image, torn).unwrap();
        fs::write(&journal, &whole).unwrap();
        assert_eq!(opened(&image), [0x22, 0x22, 0x33, 0x33], "{written} bytes");
    }
}

#[test]
fn a_journal_with_a_wrong_sum_ends_there() {
    let folder = Folder::new();
    let (image, journal) = (folder.file("image"), folder.file("image.journal"));
    let whole = with_journal(&image, &journal);
    for at in (0..whole.len()).step_by(41) {
        let mut wrong = whole.clone();
        wrong[at] ^= 1;
        fs::write(&image, blocks(OLD, 16)).unwrap();
        fs::write(&journal, &wrong).unwrap();
        let due = if at < 20 + 3 * BLOCK { [OLD; 4] } else { [0x22, 0x22, 0x22, OLD] };
        assert_eq!(opened(&image), due, "byte {at}");
    }
}

#[test]
fn a_long_journal_begins_anew() {
    let folder = Folder::new();
    let (image, journal) = (folder.file("image"), folder.file("image.journal"));
    let mut it = Image::open(&image, 256).unwrap();
    for round in 0..40 {
        it.note(0, &blocks(round, 256));
        it.commit().unwrap();
        assert!(fs::metadata(&journal).unwrap().len() <= (1 << 20) + 256 * 513);
    }
    drop(it);
    let mut room = blocks(0, 1);
    Image::open(&image, 256).unwrap().read(255, &mut room).unwrap();
    assert_eq!(room, blocks(39, 1));
}
