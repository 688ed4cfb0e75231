fn main() {
    let mut x = 1;
    let p = &raw mut x;
    let a = unsafe { &mut *p };
    let b = unsafe { &mut *p };
    *a = 2;
    *b = 3;
}
