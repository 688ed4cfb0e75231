fn main() {
    let mut x = 1;
    let r = &mut x;
    x = 2;
    let s = &mut *r;
    *s = 3;
}
