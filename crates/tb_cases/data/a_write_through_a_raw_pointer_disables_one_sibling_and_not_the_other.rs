fn main() {
    let mut x = 1;
    let a = &mut x;
    let p = &raw mut *a;
    let b = &mut x;
    unsafe { *p = 2; }
    println!("{}", *a);
    *b = 3;
}
