// Notes by their names, which a store keeps, and a service whose calls a mirror answers with their first argument.
service Notes {
  void put(1: binary key, 2: binary value),
  binary get(1: binary key),
  binary swap(1: binary key, 2: binary value),
  list<binary> keys(),
  oneway void forget(1: binary key)
}

struct Line {
  1: required string text,
  2: optional i32 loud = 3
}

service Echo {
  Line say(1: Line line)
}
