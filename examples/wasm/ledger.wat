;; A ledger in linear memory: accounts of 24 bytes with a number, a flag, a balance and a checksum, a list of
;; entries sorted by day, totals as decimal text, and a generator of entries to try it with.
(module $ledger
  (type $unary (func (param i32) (result i32)))
  (type $entry_handler (func (param $day i32) (param $amount i64)))
  (import "host" "print" (func $print (param $at i32) (param $bytes i32)))
  (import "host" "now" (func $now (result i32)))

  (memory $accounts (export "memory") 2 16)
  (table $handlers 4 funcref)
  (global $next_free (mut i32) (i32.const 1024))
  (global $faults (mut i32) (i32.const 0))
  (global $seed (mut i64) (i64.const 0x2545f4914f6cdd1d))
  (global $page i32 (i32.const 65536))

  (data (i32.const 0) "balance: \00day: \00no account\00\0a")
  (data $digits (i32.const 64) "0123456789abcdef")
  (elem (i32.const 0) $count_entry $sum_entry $drop_entry $drop_entry)

  ;; the first byte of a new block of memory, or 0 where there is no more
  (func $allocate (export "allocate") (param $bytes i32) (result i32)
    (local $at i32) (local $end i32)
    (local.set $at (global.get $next_free))
    (local.set $end
      (i32.and
        (i32.add (i32.add (local.get $at) (local.get $bytes)) (i32.const 7))
        (i32.const -8)))
    (block $fits
      (br_if $fits
        (i32.le_u (local.get $end) (i32.mul (memory.size) (global.get $page))))
      (if (i32.eq (memory.grow (i32.const 1)) (i32.const -1))
        (then
          (global.set $faults (i32.add (global.get $faults) (i32.const 1)))
          (return (i32.const 0)))))
    (global.set $next_free (local.get $end))
    (local.get $at))

  (func $copy (param $to i32) (param $from i32) (param $bytes i32)
    block $done
      loop $again
        local.get $bytes
        i32.eqz
        br_if $done
        local.get $to
        local.get $from
        i32.load8_u
        i32.store8
        local.get $to
        i32.const 1
        i32.add
        local.set $to
        local.get $from
        i32.const 1
        i32.add
        local.set $from
        local.get $bytes
        i32.const 1
        i32.sub
        local.set $bytes
        br $again
      end
    end)

  ;; of the 16 bytes of an account before its checksum
  (func $checksum (param $account i32) (result i32)
    (local $low i32) (local $high i32) (local $end i32)
    (local.set $low (i32.const 1))
    (local.set $end (i32.add (local.get $account) (i32.const 16)))
    (loop $bytes
      (local.set $low
        (i32.rem_u
          (i32.add (local.get $low) (i32.load8_u (local.get $account)))
          (i32.const 65521)))
      (local.set $high
        (i32.rem_u (i32.add (local.get $high) (local.get $low)) (i32.const 65521)))
      (local.set $account (i32.add (local.get $account) (i32.const 1)))
      (br_if $bytes (i32.lt_u (local.get $account) (local.get $end))))
    (i32.or (i32.shl (local.get $high) (i32.const 16)) (local.get $low)))

  (func $open (export "open") (param $number i32) (result i32)
    (local $account i32)
    (local.tee $account (call $allocate (i32.const 24)))
    (if (result i32) (i32.eqz)
      (then (i32.const 0))
      (else
        (i32.store (local.get $account) (local.get $number))
        (i32.store offset=4 (local.get $account) (i32.const 1))
        (i64.store offset=8 (local.get $account) (i64.const 0))
        (i32.store offset=16 (local.get $account) (call $checksum (local.get $account)))
        (local.get $account))))

  (func $is_whole (type $unary)
    local.get 0
    i32.load offset=16
    local.get 0
    call $checksum
    i32.eq)

  (func $add (export "add") (param $account i32) (param $amount i64) (result i32)
    (if (i32.eqz (call $is_whole (local.get $account)))
      (then
        (global.set $faults (i32.add (global.get $faults) (i32.const 1)))
        (return (i32.const 0))))
    (i64.store offset=8
      (local.get $account)
      (i64.add (i64.load offset=8 (local.get $account)) (local.get $amount)))
    (i32.store offset=16 (local.get $account) (call $checksum (local.get $account)))
    (i32.const 1))

  ;; entries are a list: the day, the amount and the next one, sorted by day
  (func $insert (param $list i32) (param $day i32) (param $amount i64) (result i32)
    (local $entry i32) (local $before i32) (local $after i32)
    (local.set $entry (call $allocate (i32.const 24)))
    (i32.store (local.get $entry) (local.get $day))
    (i64.store offset=8 (local.get $entry) (local.get $amount))
    (local.set $after (local.get $list))
    (block $found
      (loop $later
        (br_if $found (i32.eqz (local.get $after)))
        (br_if $found (i32.gt_s (i32.load (local.get $after)) (local.get $day)))
        (local.set $before (local.get $after))
        (local.set $after (i32.load offset=16 (local.get $after)))
        (br $later)))
    (i32.store offset=16 (local.get $entry) (local.get $after))
    (if (i32.eqz (local.get $before))
      (then (return (local.get $entry))))
    (i32.store offset=16 (local.get $before) (local.get $entry))
    (local.get $list))

  (func $count_entry (type $entry_handler)
    (i32.store (i32.const 96) (i32.add (i32.load (i32.const 96)) (i32.const 1))))

  (func $sum_entry (param $day i32) (param $amount i64)
    (i64.store (i32.const 104)
      (i64.add (i64.load (i32.const 104)) (local.get $amount))))

  (func $drop_entry (type $entry_handler)
    nop)

  (func $each (param $list i32) (param $handler i32)
    (loop $entries
      (if (local.get $list)
        (then
          (call_indirect $handlers (type $entry_handler)
            (i32.load (local.get $list))
            (i64.load offset=8 (local.get $list))
            (local.get $handler))
          (local.set $list (i32.load offset=16 (local.get $list)))
          (br $entries)))))

  (func $total (param $list i32) (result i64)
    (i64.store (i32.const 104) (i64.const 0))
    (call $each (local.get $list) (i32.const 1))
    (i64.load (i32.const 104)))

  (func $mean (export "mean") (param $list i32) (result f64)
    (local $count i32)
    (i32.store (i32.const 96) (i32.const 0))
    (call $each (local.get $list) (i32.const 0))
    (if (result f64) (i32.eqz (local.tee $count (i32.load (i32.const 96))))
      (then (f64.const nan))
      (else
        (f64.div
          (f64.convert_i64_s (call $total (local.get $list)))
          (f64.convert_i32_u (local.get $count))))))

  ;; writes the number's digits and gives how many bytes they are
  (func $decimal (param $at i32) (param $number i64) (result i32)
    (local $rest i64) (local $bytes i32) (local $end i32)
    local.get $number
    i64.const 0
    i64.lt_s
    if
      local.get $at
      i32.const 45
      i32.store8
      i64.const 0
      local.get $number
      i64.sub
      local.set $number
      i32.const 1
      local.set $bytes
    end
    local.get $number
    local.set $rest
    loop $digits
      local.get $bytes
      i32.const 1
      i32.add
      local.set $bytes
      local.get $rest
      i64.const 10
      i64.div_u
      local.tee $rest
      i64.const 0
      i64.ne
      br_if $digits
    end
    local.get $at
    local.get $bytes
    i32.add
    local.set $end
    loop $write
      local.get $end
      i32.const 1
      i32.sub
      local.tee $end
      local.get $number
      i64.const 10
      i64.rem_u
      i32.wrap_i64
      i32.load8_u offset=64
      i32.store8
      local.get $number
      i64.const 10
      i64.div_u
      local.tee $number
      i64.const 0
      i64.ne
      br_if $write
    end
    local.get $bytes)

  (func $print_balance (export "print_balance") (param $account i32)
    (local $bytes i32)
    (if (i32.eqz (local.get $account))
      (then
        (call $print (i32.const 16) (i32.const 10)))
      (else
        (call $copy (i32.const 128) (i32.const 0) (i32.const 9))
        (local.set $bytes
          (call $decimal (i32.const 137) (i64.load offset=8 (local.get $account))))
        (call $print (i32.const 128) (i32.add (local.get $bytes) (i32.const 9))))))

  (func $random (result i64)
    (local $x i64)
    (local.set $x (global.get $seed))
    (local.set $x (i64.xor (local.get $x) (i64.shl (local.get $x) (i64.const 13))))
    (local.set $x (i64.xor (local.get $x) (i64.shr_u (local.get $x) (i64.const 7))))
    (local.set $x (i64.xor (local.get $x) (i64.shl (local.get $x) (i64.const 17))))
    (global.set $seed (local.get $x))
    (local.get $x))

  (func $make_entries (param $count i32) (result i32)
    (local $list i32)
    (block $enough
      (loop $more
        (br_if $enough (i32.eqz (local.get $count)))
        (local.set $list
          (call $insert
            (local.get $list)
            (i32.add (call $now) (i32.rem_u (i32.wrap_i64 (call $random)) (i32.const 365)))
            (i64.rem_s (call $random) (i64.const 100000))))
        (local.set $count (i32.sub (local.get $count) (i32.const 1)))
        (br $more)))
    (local.get $list))

  ;; puts all entries of a list to an account and closes it
  (func $settle (export "settle") (param $account i32) (param $list i32) (result i32)
    (if (i32.eqz (call $is_whole (local.get $account)))
      (then (return (i32.const 0))))
    (drop (call $add (local.get $account) (call $total (local.get $list))))
    (i32.store offset=4 (local.get $account) (i32.const 2))
    (i32.store offset=8 (local.get $account)
      (i64.add (i64.load offset=8 (local.get $account)) (call $total (local.get $list))))
    (i32.store offset=16 (local.get $account) (call $checksum (local.get $account)))
    (i32.const 1))

  (func $main (export "main") (result i32)
    (local $account i32) (local $list i32)
    (local.set $account (call $open (i32.const 4711)))
    (local.set $list (call $make_entries (i32.const 20)))
    (if (i32.eqz (call $settle (local.get $account) (local.get $list)))
      (then (unreachable)))
    (call $print_balance (local.get $account))
    (if (f64.lt (call $mean (local.get $list)) (f64.const -1e5))
      (then (global.set $faults (i32.add (global.get $faults) (i32.const 1)))))
    (global.get $faults))
)
