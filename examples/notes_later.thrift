// What may come after notes.thrift: a field more that need not be there, and a method more.
service Notes {
  void put(1: binary key, 2: binary value),
  binary get(1: binary key),
  binary swap(1: binary key, 2: binary value),
  list<binary> keys(),
  oneway void forget(1: binary key),
  i32 count()
}

struct Line {
  1: required string text,
  2: optional i32 loud = 3,
  3: optional string author
}

service Echo {
  Line say(1: Line line)
}
