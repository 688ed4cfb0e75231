fn main() {
    let mut x = 1;
    let m = &mut x;
    let s = &*m;
    let u = &mut *m;
    *u = 2;
    println!("{}", *s);
}
