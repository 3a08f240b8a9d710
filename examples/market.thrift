// A market, whose prices another file defines.
include "money.thrift"

struct Offer {
  1: string what,
  2: required money.Price price,
  3: list<string> marks = ["new"],
}

service Market extends money.Exchange {
  list<Offer> offers(1: i64 most),
}
