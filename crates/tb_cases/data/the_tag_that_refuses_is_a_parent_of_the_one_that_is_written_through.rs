fn main() {
    let mut x = 1;
    let a = &mut x;
    *a = 2;
    let y = x;
    let b = &mut *a;
    *b = y;
}
