signatures 2;

// Written by giopdump_signatures from arrays.idl.
// whole: 9 operations, 1 exception, 8 types; by half: 0 operations; left out: 0 operations, 0 exceptions.

// Every object
operation boolean _is_a(in string logical_type_id);
operation boolean _non_existent();

// A::Board (arrays.idl:14)
struct long_x3 { long v[3]; };
exception Off "IDL:A/Off:1.0" { long_x3 by[2]; };
operation long_x3 pick(in ulong n);
struct long_x3_x2 { long_x3 v[2]; };
operation long_x3_x2 all(in long one[3], inout long_x3 two[2]);
operation sequence<long_x3, 7> flat(in sequence<long_x3_x2> many);
struct short_x3 { short v[3]; };
struct Point { long x; long y; long ring[3]; };
struct Square { short_x3 at[2]; Point corners[4]; octet raw[5]; octet sum[16]; };
union Either switch (boolean) { case true: long one[3]; case false: long_x3 two[2]; };
operation void cube(in Square s, out Either e, in string n[2]);
struct octet_x16 { octet v[16]; };
operation octet_x16 _get_check();
struct string_x2 { string v[2]; };
operation string_x2 _get_both();
operation void _set_both(in string value[2]);
