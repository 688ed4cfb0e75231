fn main() {
    let mut x = 1;
    let a = &mut x;
    let b = &mut *a;
    x = 2;
    *b = 3;
}
