// Behind the number of a field stands a colon.
struct Work {
  1: i32 num1 = 0,
  2 i32 num2,
}
