signatures 3;

// Written by giopdump_signatures from half_equal.idl.
// whole: 17 operations, 0 exceptions, 1 type; by half: 5 operations; left out: 2 operations, 0 exceptions.

// Every object
operation boolean _is_a(in string logical_type_id);
operation boolean _non_existent();

// Q::First (half_equal.idl:4)
struct Key "IDL:Q/Key:1.0" { long n; };
// parameter b of the request: rest (unequal parameters: Q::Second::upto (half_equal.idl:18))
operation long upto(in Key k, in long a);
operation long upto(in Key k, in long a, in short b) of "IDL:Q/First:1.0";
// parameter a of the request: rest (unequal parameters: Q::Second::reply_only (half_equal.idl:19))
operation long reply_only();
operation long reply_only(in long a) of "IDL:Q/First:1.0";
// parameter b of the reply: rest (unequal parameters: Q::Second::request_only (half_equal.idl:20))
operation void request_only(in long a);
operation void request_only(in long a, out long b) of "IDL:Q/First:1.0";
// parameter a of the request: rest (long double)
operation long by_form(in string s);
// parameter a of the request: rest (long double)
operation long by_form(in string s) of "IDL:Q/First:1.0";
// other_left_out without an interface: rest (unequal parameters: Q::Second::other_left_out (half_equal.idl:22))
// the return value: rest (long double)
operation void other_left_out(in long a) of "IDL:Q/First:1.0";
// parameter a of the reply: rest (unequal parameters: Q::Second::both_typed (half_equal.idl:23))
operation long both_typed(in long a, in short b);
operation long both_typed(inout long a, in short b) of "IDL:Q/First:1.0";
// left_out_first without an interface: rest (unequal parameters: Q::Second::left_out_first (half_equal.idl:24))
// left out: Q::First::left_out_first (half_equal.idl:11): parameter a: long double
// parameter a of the request: rest (unequal parameters: Q::Second::empty (half_equal.idl:25))
operation long empty();
operation long empty(in long a) of "IDL:Q/First:1.0";
// bare without an interface: rest (unequal parameters: Q::Second::bare (half_equal.idl:26))
operation void bare() of "IDL:Q/First:1.0";
// parameter b of the request: rest (unequal parameters: Q::Second::longer (half_equal.idl:27))
operation void longer(in long a);
operation void longer(in long a, in long b) of "IDL:Q/First:1.0";
// the return value: rest (long double)
operation void cut_alike(in long a);

// Q::Second (half_equal.idl:17)
operation long upto(in Key k, in long a, in string b) of "IDL:Q/Second:1.0";
// parameter a of the request: rest (long double)
operation long reply_only() of "IDL:Q/Second:1.0";
operation void request_only(in long a, out string b) of "IDL:Q/Second:1.0";
operation long by_form(in string s, in long a) of "IDL:Q/Second:1.0";
// left out: Q::Second::other_left_out (half_equal.idl:22): parameter a: long double
operation long both_typed(in long a, inout short b) of "IDL:Q/Second:1.0";
operation void left_out_first(in long a, out long b) of "IDL:Q/Second:1.0";
operation long empty() of "IDL:Q/Second:1.0";
operation void bare(in string a) of "IDL:Q/Second:1.0";
operation void longer(in long a) of "IDL:Q/Second:1.0";
// cut_alike (half_equal.idl:28) travels like Q::First::cut_alike (half_equal.idl:15) as far as that has types

// Keys of objects, as giop-keys finds them in a dump
// key "" of "IDL:Q/First:1.0";
// key "" of "IDL:Q/Second:1.0";
