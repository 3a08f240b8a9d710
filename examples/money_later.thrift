// What may not come after money.thrift: prices that were written before have no reason.
enum Currency {
  EUR = 1,
  GBP
}

typedef i64 Cents

struct Price {
  1: required Cents amount,
  2: Currency currency = Currency.EUR,
  3: required string reason,
}

service Exchange {
  Price exchanged(1: Price price, 2: Currency into),
}
