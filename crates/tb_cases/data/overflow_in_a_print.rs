fn main() {
  let a = 2147483646;
  print!("{}\n", a + 1);
  print!("{}", a + 1 + a + 1);
}