//! The benchmark's books are full, sound and of the wanted shapes.

use harness::bench::{self, Shape, MIXES, SHAPES, SHARES};
use harness::books::{Case, FULL};
use harness::record::{decode, Book};
use harness::{compare, plain, second};

const SEED: u64 = 4;

fn each(mut seen: impl FnMut(&Book, Shape, &[u64], u64)) {
    for shape in SHAPES {
        for mix in MIXES {
            for share in SHARES {
                let bytes = bench::book(SEED, shape, mix, share);
                let book = decode(&bytes).unwrap_or_else(|why| panic!("{shape:?}: {why:?}"));
                seen(&book, shape, mix, share);
            }
        }
    }
}

#[test]
fn full_and_sound() {
    each(|book, _, _, share| {
        assert_eq!(book.classes.len() as u64, FULL.classes);
        assert_eq!(book.instruments.len() as u64, FULL.instruments);
        assert_eq!(book.positions.len() as u64, FULL.positions);
        assert_eq!(book.points() as u64, FULL.points);
        assert!(book.classes.iter().all(|class| class.share == share));
    });
}

#[test]
fn shapes() {
    each(|book, shape, _, _| {
        let parents: Vec<_> = book.classes.iter().map(|class| class.parent).collect();
        let roots = parents.iter().filter(|parent| parent.is_none()).count();
        match shape {
            Shape::Chains => {
                assert_eq!(roots, 3);
                for (number, parent) in parents.into_iter().enumerate() {
                    assert_eq!(parent, (number % 8 != 0).then(|| number - 1));
                }
            }
            Shape::Star => {
                assert_eq!(roots, 1);
                assert!(parents[1..].iter().all(|&parent| parent == Some(0)));
            }
            Shape::Tree => {
                assert_eq!(roots, 1);
                // Neither a chain nor a star.
                let between = |number: usize| (1..number - 1).contains(&parents[number].unwrap());
                assert!((1..24).any(between));
            }
        }
    });
}

#[test]
fn products_and_nets() {
    each(|book, _, mix, _| {
        for (item, instrument) in book.instruments.iter().enumerate() {
            assert_eq!(instrument.product, mix[item % mix.len()]);
        }
        let nets: Vec<_> = (0..64).map(|item| second::net(book, item)).collect();
        assert!(nets.iter().all(|&net| net != 0));
        let bought = nets.iter().filter(|&&net| net > 0).count();
        assert!((16..=48).contains(&bought), "{bought}");
        let traded = book
            .positions
            .iter()
            .filter(|position| position.traded_today);
        assert!((64..=192).contains(&traded.count()));
    });
}

/// The second program accepts each, and the plain one agrees.
#[test]
fn accepted_and_alike() {
    for shape in SHAPES {
        for share in SHARES {
            for mix in MIXES {
                let case = Case {
                    book: bench::book(SEED, shape, mix, share),
                    rows_len: 24 * 201,
                    choice_len: 88,
                };
                match compare::check(&case, &mut |book, rows, choice| {
                    Ok(plain::run(book, rows, choice))
                }) {
                    Ok((code, _)) => assert_eq!(code, 0),
                    Err((what, detail)) => panic!("{shape:?} {mix:?} {share}: {what}, {detail}"),
                }
            }
        }
    }
}

#[test]
fn the_seed_decides() {
    let made = |seed| bench::book(seed, Shape::Tree, &[1, 2, 3], 1500);
    assert_eq!(made(SEED), made(SEED));
    assert_ne!(made(SEED), made(SEED + 1));
}
