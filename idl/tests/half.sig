signatures 3;

// Written by giopdump_signatures from half.idl.
// whole: 3 operations, 1 exception, 1 type; by half: 10 operations; left out: 3 operations, 0 exceptions.

// Every object
operation boolean _is_a(in string logical_type_id);
operation boolean _non_existent();

// H::Asked (half.idl:7)
exception Odd "IDL:H/Odd:1.0" { string why; };
// the return value: rest (long double)
operation void query(in string what);
struct Wish "IDL:H/Wish:1.0" { string what; long most; };
// the return value: rest (long double)
operation void search(in Wish q);
// parameter value of the request: rest (long double)
operation long put(in string key);
// parameter one of the request: rest (needs H::Pair)
operation long store(out string where);
// parameter some of the request: rest (needs H::Pair)
// parameter others of the reply: rest (needs H::Pair)
operation Wish list(out boolean more);
// parameter value of the request: rest (long double)
// parameter value of the reply: rest (long double)
operation void swap(in short n);
// parameter value of the request: rest (long double)
operation long carry(inout long n, out string s);
// parameter value of the reply: rest (long double)
operation string fill(inout string s, in long last);
// parameter mark of the request: rest (long double)
operation void where(out long at);
// the return value: rest (long double)
operation void far(in long n, in sequence<string> context);
// left out: H::Asked::gone (half.idl:18): parameter value: long double
// left out: H::Asked::lost (half.idl:19): return value: long double
operation void nothing();
// left out: H::Asked::_get_held (half.idl:21): return value: long double

// Types that can't be said, or that need one
// left out: H::Pair (half.idl:3): member value: long double
