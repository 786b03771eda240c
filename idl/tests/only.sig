signatures 3;

// Written by giopdump_signatures from only.idl, of it O::Wanted.
// whole: 4 operations, 1 exception, 2 types; by half: 0 operations; left out: 0 operations, 0 exceptions.

// Every object
operation boolean _is_a(in string logical_type_id);
operation boolean _non_existent();

// O::Base (only.idl:7)
exception Bad "IDL:O/Bad:1.0" { };
struct S "IDL:O/S:1.0" { long n; };
operation void lower(in S one);

// O::Wanted (only.idl:8)
operation void take();

// Types that only an any may have
struct T "IDL:O/T:1.0" { long n; };
