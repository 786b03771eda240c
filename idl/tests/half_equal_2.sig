signatures 2;

// Written by giopdump_signatures from half_equal.idl.
// whole: 2 operations, 0 exceptions, 1 type; by half: 16 operations; left out: 6 operations, 0 exceptions.

// Every object
operation boolean _is_a(in string logical_type_id);
operation boolean _non_existent();

// Q::First (half_equal.idl:4)
struct Key { long n; };
// parameter b of the request: rest (unequal parameters: Q::Second::upto (half_equal.idl:18))
operation long upto(in Key k, in long a);
// parameter a of the request: rest (unequal parameters: Q::Second::reply_only (half_equal.idl:19))
operation long reply_only();
// parameter b of the reply: rest (unequal parameters: Q::Second::request_only (half_equal.idl:20))
operation void request_only(in long a);
// parameter a of the request: rest (long double)
operation long by_form(in string s);
// left out: Q::First::other_left_out (half_equal.idl:9): unequal parameters: Q::Second::other_left_out (half_equal.idl:22)
// parameter a of the reply: rest (unequal parameters: Q::Second::both_typed (half_equal.idl:23))
operation long both_typed(in long a, in short b);
// left out: Q::First::left_out_first (half_equal.idl:11): parameter a: long double
// parameter a of the request: rest (unequal parameters: Q::Second::empty (half_equal.idl:25))
operation long empty();
// left out: Q::First::bare (half_equal.idl:13): unequal parameters: Q::Second::bare (half_equal.idl:26)
// parameter b of the request: rest (unequal parameters: Q::Second::longer (half_equal.idl:27))
operation void longer(in long a);
// the return value: rest (long double)
operation void cut_alike(in long a);

// Q::Second (half_equal.idl:17)
// upto (half_equal.idl:18) travels like Q::First::upto (half_equal.idl:5) as far as that has types
// reply_only (half_equal.idl:19) travels like Q::First::reply_only (half_equal.idl:6) as far as that has types
// request_only (half_equal.idl:20) travels like Q::First::request_only (half_equal.idl:7) as far as that has types
// by_form (half_equal.idl:21) travels like Q::First::by_form (half_equal.idl:8) as far as that has types
// left out: Q::Second::other_left_out (half_equal.idl:22): parameter a: long double
// both_typed (half_equal.idl:23) travels like Q::First::both_typed (half_equal.idl:10) as far as that has types
// left out: Q::Second::left_out_first (half_equal.idl:24): unequal parameters: Q::First::left_out_first (half_equal.idl:11)
// empty (half_equal.idl:25) travels like Q::First::empty (half_equal.idl:12) as far as that has types
// left out: Q::Second::bare (half_equal.idl:26): unequal parameters: Q::First::bare (half_equal.idl:13)
// longer (half_equal.idl:27) travels like Q::First::longer (half_equal.idl:14) as far as that has types
// cut_alike (half_equal.idl:28) travels like Q::First::cut_alike (half_equal.idl:15) as far as that has types
