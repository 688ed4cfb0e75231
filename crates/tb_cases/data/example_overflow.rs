fn main() {
    let last = 2147483646;
    print!("before: {}\n", last);
    let mut next = last + 1;
    print!("last: {}\n", next);
    next = next + 1;
    print!("never: {}\n", next);
}
