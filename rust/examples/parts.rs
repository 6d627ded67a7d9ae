use ecow::EcoVec;

fn main() {
    let mut a = EcoVec::from([1, 2, 3]);
    let b = a.clone();
    a.push(4);
    assert_eq!(a, [1, 2, 3, 4]);
    assert_eq!(b, [1, 2, 3]);
}
