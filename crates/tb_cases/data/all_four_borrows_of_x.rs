fn main() {
    let mut x = 1;
    let m = &mut x;
    let s = &*m;
    print!("{} ", *s);
    let u = &mut *m;
    *u = 2;
    let p = &raw mut *u;
    let c = &raw const *u;
    unsafe { *p = 3; }
    unsafe { println!("{}", *c); }
}
