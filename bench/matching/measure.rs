//! Matchers on large values, to be measured from outside: `PROGRAM SHAPE COUNT`, or `PROGRAM SHAPE COUNT held`, where each arrival is
//! told after a `reserve` of it alone.
use crate::shim::*;
use crate::{Matcher, Told};
fn name(i: usize) -> Name {
    ["a", "b", "c"][i].to_string()
}
fn leaf(i: usize) -> Tree {
    Tree::Leaf(name(i))
}
fn cross(a: Tree, b: Tree) -> Tree {
    Tree::Cross(Trees(vec![a, b]))
}
fn dot(a: Tree, b: Tree) -> Tree {
    Tree::Dot(Trees(vec![a, b]))
}
fn prefix(a: Tree, b: Tree) -> Tree {
    let a = Box::new(Global, a).unwrap();
    Tree::Prefix(a, Box::new(Global, b).unwrap())
}
pub fn main() {
    measured().unwrap()
}

fn arrive(m: &mut Matcher, leaf: u32, place: &[u32], held: bool) -> Result<(), NoMemory> {
    if held {
        m.reserve(&Sequence(vec![Told::Arrival { leaf, place: Place::of(Global, place)?, fault: false }]))?;
    }
    m.on_arrival(leaf, &Place::of(Global, place)?, false)
}

fn measured() -> Result<(), NoMemory> {
    let w: std::vec::Vec<String> = std::env::args().collect();
    let n: u32 = w[2].parse().unwrap();
    let held = w.len() > 3;
    // How many items each list below the second leaf's has, where that walks two levels.
    let inner = if w[1] == "prefix" || w[1] == "late" { 10 } else { 0 };
    let (tree, counts): (Tree, std::vec::Vec<u32>) = match w[1].as_str() {
        "cross" => (cross(leaf(0), leaf(1)), vec![n, n]),
        "dot" => (dot(leaf(0), leaf(1)), vec![n, n]),
        "prefix" | "late" => (prefix(leaf(0), leaf(1)), vec![n, n]),
        "three" => (cross(cross(leaf(0), leaf(1)), leaf(2)), vec![n, n, n]),
        "beside" => (cross(dot(leaf(0), leaf(1)), leaf(2)), vec![n, n, 10]),
        _ => panic!(),
    };
    let a = Global;
    let mm: Depths = Sequence((0..counts.len()).map(|i| (name(i), if i == 1 && inner > 0 { 2 } else { 1 })).collect());
    let mut m = Matcher::start(a, &tree, &mm)?;
    let mut order: std::vec::Vec<usize> = (0..counts.len()).collect();
    if w[1] == "late" {
        order.reverse();
    }
    for l in order {
        m.on_close(l as u32, &Place::of(a, &[])?, counts[l])?;
        for i in 0..counts[l] {
            if l == 1 && inner > 0 {
                m.on_close(1, &Place::of(a, &[i])?, inner)?;
                for j in 0..inner {
                    arrive(&mut m, 1, &[i, j], held)?;
                }
            } else {
                arrive(&mut m, l as u32, &[i], held)?;
            }
        }
    }
    let (mut items, mut sum) = (0u64, 0u64);
    while let Some((place, _)) = m.first() {
        items += 1;
        for i in place {
            sum += *i as u64;
        }
        m.pass();
    }
    println!("{items} {sum}");
    Ok(())
}
