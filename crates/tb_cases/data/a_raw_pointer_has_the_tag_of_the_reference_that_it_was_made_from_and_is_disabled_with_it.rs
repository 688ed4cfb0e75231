fn main() {
    let mut x = 1;
    let r = &mut x;
    let p = &raw mut *r;
    x = 2;
    unsafe { *p = 3; }
}
