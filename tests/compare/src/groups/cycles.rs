//! Links that lead somewhere else: back up, to the same page, into the chain and out of it.

use plain::END;

use crate::comparer::Comparer;
use crate::images::{
    capacity, child_at, fresh_of, head, inner_pages, instant_of, level, page_bytes, pages_of, put, start_at, sum_at,
    u32_at, Pool, ENTRY_COUNT_AT, FIRST_FREE, FREE_LENGTH, HEIGHT, HIGH_MARK, ROOT,
};
use crate::random::Random;

// ---------------------------------------------------------------- circles

pub fn cycles(comparer: &mut Comparer, pool: &Pool, part: usize) {
    if part == 0 {
        for (k, heights) in [(24, 1..=10), (4, 1..=10), (10, 4..=7)] {
            for height in heights {
                for pages in [2, 3, 4, 5, 6, 9, 12] {
                    comparer.lend(&one_above_the_other(k, height, pages));
                    calls(comparer);
                }
            }
        }
    }
    let images: Vec<&Vec<u8>> = pool.all().filter(|image| head(image, HEIGHT) > 1).collect();
    for (i, whole) in images.iter().enumerate() {
        let rounds = match (whole.len() > 100_000, capacity(whole)) {
            (true, 24) => 25,
            (false, 24) => 120,
            (true, _) => 5,
            (false, _) => 30,
        };
        for _ in 0..rounds {
            let mut image = whole.to_vec();
            turn_back(&mut image, &mut comparer.random);
            comparer.lend(&image);
            calls(comparer);
        }
        chains(comparer, images[(i + part) % images.len()]);
    }
}

/// Inner pages of any level, each with all its children at the next page, the last one's at the first again.
fn one_above_the_other(k: usize, height: u32, pages: usize) -> Vec<u8> {
    let mut image = fresh_of(k, pages, 1, 0);
    put(&mut image, 0, 4 * HEIGHT, &height.to_le_bytes());
    put(&mut image, 0, 4 * HIGH_MARK, &(pages as u32).to_le_bytes());
    for page in 1..pages {
        let level = height.saturating_sub(page as u32);
        let next = if level == 0 { 0 } else { 1 + page % (pages - 1) };
        put(&mut image, page, 0, &level.to_le_bytes());
        put(&mut image, page, ENTRY_COUNT_AT, &(k as u32).to_le_bytes());
        for i in 0..k {
            // The first entry of each page spans the whole page below.
            let start = if i == 0 { 0 } else { (1 << 30 >> (2 * page)) + i as u32 };
            put(&mut image, page, start_at(i), &start.to_le_bytes());
            put(&mut image, page, sum_at(k, i), &[0; 12]);
            put(&mut image, page, child_at(k, i), &(next as u32).to_le_bytes());
        }
    }
    image
}

/// Some children of an inner page become the page itself, the root, the page above, one neighbour, or any page.
fn turn_back(image: &mut [u8], random: &mut Random) {
    let k = capacity(image);
    let inner = inner_pages(image);
    let page = inner[random.below(inner.len())];
    let entries = u32_at(image, page, ENTRY_COUNT_AT) as usize;
    let above = inner.iter().copied().find(|above| level(image, *above) == level(image, page) + 1);
    let to = match random.below(6) {
        0 => page as u32,
        1 => head(image, ROOT),
        2 => above.unwrap_or(page) as u32,
        3 => u32_at(image, page, child_at(k, random.below(entries))),
        4 => head(image, FIRST_FREE),
        _ => random.below(pages_of(image)) as u32,
    };
    let (one, all) = (random.below(entries), random.one_in(3));
    for i in (0..entries).filter(|i| all || *i == one) {
        put(image, page, child_at(k, i), &to.to_le_bytes());
    }
}

/// The chain of free pages turned back to itself, into the tree, made longer and shorter.
fn chains(comparer: &mut Comparer, whole: &[u8]) {
    let n = pages_of(whole) as u32;
    let first = head(whole, FIRST_FREE);
    for to in [0, 1, first, head(whole, ROOT), head(whole, HIGH_MARK), n - 1, n, u32::MAX] {
        comparer.lend(whole);
        comparer.set(4 * FIRST_FREE, &to.to_le_bytes());
        calls(comparer);
        if first != 0 && first < n {
            comparer.lend(whole);
            comparer.set(page_bytes(whole) * first as usize + 4, &to.to_le_bytes());
            calls(comparer);
        }
    }
    for length in [0, 1, 2, n - 1, n, 1 << 31, u32::MAX - 1, u32::MAX, head(whole, FREE_LENGTH).wrapping_sub(1)] {
        comparer.lend(whole);
        comparer.set(4 * FREE_LENGTH, &length.to_le_bytes());
        calls(comparer);
    }
}

fn calls(comparer: &mut Comparer) {
    comparer.audit();
    comparer.listing(0, END);
    for t in [0, 1, 25, END - 1] {
        comparer.instant(t);
    }
    for _ in 0..4 {
        let page = comparer.random.below(comparer.pages().max(1));
        let t = instant_of(comparer.image(), page, &mut comparer.random.clone());
        comparer.instant(t);
        comparer.average(t);
        comparer.listing(t, t.saturating_add(300));
    }
    comparer.changes_and_back();
}

// ---------------------------------------------------------------- links, pages and marks

/// One to three changes to the links of an image, some of which leave it sound.
pub fn moved_pages(comparer: &mut Comparer, pool: &Pool, _: usize) {
    let images: Vec<&Vec<u8>> = pool.all().filter(|image| image.len() < 100_000).collect();
    for _ in 0..1_500 {
        let mut image = images[comparer.random.below(images.len())].to_vec();
        for _ in 0..1 + comparer.random.below(3) {
            change_links(&mut image, &mut comparer.random);
        }
        comparer.lend(&image);
        calls(comparer);
    }
}

pub fn change_links(image: &mut [u8], random: &mut Random) {
    let (n, k, length) = (pages_of(image).max(1), capacity(image), page_bytes(image));
    let (page, other) = (random.below(n), random.below(n));
    match random.below(8) {
        0 => {
            let field = random.pick(&[HEIGHT, ROOT, FIRST_FREE, FREE_LENGTH, HIGH_MARK, 8]);
            put(image, 0, 4 * field, &(random.below(n + 2) as u32).to_le_bytes());
        }
        1 => put(image, page, 4, &(other as u32).to_le_bytes()),
        2 => put(image, page, child_at(k, random.below(k)), &(other as u32).to_le_bytes()),
        3 => image.copy_within(length * page..length * page + length, length * other),
        4 => swap_pages(image, page as u32, other as u32),
        5 => lay_free(image, page, other as u32),
        6 => put(image, page, 0, &vec![0xFF; length]),
        _ => lengthen_chain(image),
    }
}

fn lay_free(image: &mut [u8], page: usize, next: u32) {
    let length = page_bytes(image);
    image[length * page..length * page + length].fill(0xFF);
    put(image, page, 0, &255u32.to_le_bytes());
    put(image, page, 4, &next.to_le_bytes());
}

/// The page at the high mark goes to the chain's front: the image stays sound.
fn lengthen_chain(image: &mut [u8]) {
    let (first, mark) = (head(image, FIRST_FREE), head(image, HIGH_MARK));
    if (mark as usize) < pages_of(image) {
        lay_free(image, mark as usize, first);
        put(image, 0, 4 * FIRST_FREE, &mark.to_le_bytes());
        put(image, 0, 4 * HIGH_MARK, &(mark + 1).to_le_bytes());
        let length = head(image, FREE_LENGTH).wrapping_add(1);
        put(image, 0, 4 * FREE_LENGTH, &length.to_le_bytes());
    }
}

/// Swaps two pages and renames them in every link: a sound image stays sound.
pub fn swap_pages(image: &mut [u8], one: u32, other: u32) {
    if one == 0 || other == 0 || one == other {
        return;
    }
    let (k, length) = (capacity(image), page_bytes(image));
    for at in 0..length {
        image.swap(length * one as usize + at, length * other as usize + at);
    }
    let renamed = |page: u32| match page {
        _ if page == one => other,
        _ if page == other => one,
        _ => page,
    };
    let mut links = vec![(0, 4 * ROOT), (0, 4 * FIRST_FREE)];
    for page in 1..pages_of(image) {
        match level(image, page) {
            255 => links.push((page, 4)),
            1..=9 => {
                let entries = (u32_at(image, page, ENTRY_COUNT_AT) as usize).min(k);
                links.extend((0..entries).map(|i| (page, child_at(k, i))))
            }
            _ => {}
        }
    }
    for (page, at) in links {
        let to = renamed(u32_at(image, page, at));
        put(image, page, at, &to.to_le_bytes());
    }
}
