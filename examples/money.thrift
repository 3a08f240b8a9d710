// Prices and their currencies.
enum Currency {
  EUR = 1,
  GBP
}

typedef i64 Cents

struct Price {
  1: required Cents amount,
  2: Currency currency = Currency.EUR,
}

service Exchange {
  Price exchanged(1: Price price, 2: Currency into),
}
